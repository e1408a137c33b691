// Makes solids with Open CASCADE and writes them as IGES B-reps, and says what Open CASCADE reads in such files.
//
//   real_solids list               a line for each file that can be made: its name, and the verdict that it was made for
//   real_solids make FOLDER NAME.. writes FOLDER/NAME.igs, and prints a row for each solid as it is in memory
//   real_solids read FILE..        prints a row for each manifold solid (entity 186) as it is read
//
// Rows are of tab-separated values, as COLUMNS names them.
#include "real_solids.hpp"

#include <BRepBndLib.hxx>
#include <BRepCheck.hxx>
#include <BRepCheck_Analyzer.hxx>
#include <BRepCheck_ListIteratorOfListOfStatus.hxx>
#include <BRepCheck_Result.hxx>
#include <BRepGProp.hxx>
#include <BRepTools_WireExplorer.hxx>
#include <BRep_Tool.hxx>
#include <Bnd_Box.hxx>
#include <GProp_GProps.hxx>
#include <IGESCAFControl_Reader.hxx>
#include <IGESCAFControl_Writer.hxx>
#include <IGESControl_Controller.hxx>
#include <IGESControl_Writer.hxx>
#include <IGESData_IGESEntity.hxx>
#include <IGESData_IGESModel.hxx>
#include <IGESSolid_Face.hxx>
#include <IGESSolid_Loop.hxx>
#include <IGESSolid_ManifoldSolid.hxx>
#include <IGESSolid_Shell.hxx>
#include <Interface_Static.hxx>
#include <Message.hxx>
#include <Message_Messenger.hxx>
#include <Message_PrinterOStream.hxx>
#include <Standard_Failure.hxx>
#include <TDF_Label.hxx>
#include <TDataStd_Name.hxx>
#include <TDocStd_Document.hxx>
#include <TopExp.hxx>
#include <TopExp_Explorer.hxx>
#include <TopTools_IndexedDataMapOfShapeListOfShape.hxx>
#include <TopTools_IndexedMapOfShape.hxx>
#include <TopoDS.hxx>
#include <TransferBRep.hxx>
#include <Transfer_Binder.hxx>
#include <Transfer_TransientProcess.hxx>
#include <XCAFApp_Application.hxx>
#include <XCAFDoc_ColorTool.hxx>
#include <XCAFDoc_DocumentTool.hxx>
#include <XCAFDoc_ShapeTool.hxx>
#include <XSControl_TransferReader.hxx>
#include <XSControl_WorkSession.hxx>

#include <cstdio>
#include <cstring>
#include <map>
#include <numeric>
#include <set>
#include <sstream>
#include <tuple>

namespace {

const char *COLUMNS =
    "file\tsolid\tclosed\tvalid\tfaults\tsolids\tshells\tfaces\tedges\tvertices\tvolume\tarea\tbox\tmost uses\tpinched\tshared\tname\tcolours"
    "\trecorded shells\tturned edges";
const int MANIFOLD_SOLID = 186;

Handle(TDocStd_Document) new_document() {
  Handle(TDocStd_Document) document;
  XCAFApp_Application::GetApplication()->NewDocument("MDTV-XCAF", document);
  return document;
}

void add(const Handle(TDocStd_Document) & document, const Part &part) {
  Handle(XCAFDoc_ShapeTool) shapes = XCAFDoc_DocumentTool::ShapeTool(document->Main());
  Handle(XCAFDoc_ColorTool) colours = XCAFDoc_DocumentTool::ColorTool(document->Main());
  TDF_Label label = shapes->AddShape(part.shape, false);
  TDataStd_Name::Set(label, TCollection_ExtendedString(part.name.c_str()));
  colours->SetColor(label, Quantity_Color(part.red, part.green, part.blue, Quantity_TOC_RGB), XCAFDoc_ColorGen);
  TopTools_IndexedMapOfShape faces;
  TopExp::MapShapes(part.shape, TopAbs_FACE, faces);
  if (part.face > 0) colours->SetColor(shapes->AddSubShape(label, faces(part.face)), Quantity_Color(Quantity_NOC_ORANGE), XCAFDoc_ColorSurf);
}

int count(const TopoDS_Shape &shape, TopAbs_ShapeEnum kind) {
  TopTools_IndexedMapOfShape found;
  TopExp::MapShapes(shape, kind, found);
  return found.Extent();
}

bool is_closed(const TopoDS_Shape &shape) {
  TopExp_Explorer shell(shape, TopAbs_SHELL);
  if (!shell.More()) return false;
  for (; shell.More(); shell.Next())
    if (!BRep_Tool::IsClosed(shell.Current())) return false;
  return true;
}

// What BRepCheck_Analyzer finds wrong, as words.
std::string faults_of(const TopoDS_Shape &shape, const BRepCheck_Analyzer &analyzer) {
  std::set<std::string> found;
  TopTools_IndexedMapOfShape parts;
  TopExp::MapShapes(shape, parts);
  auto note = [&](const BRepCheck_ListOfStatus &statuses) {
    for (BRepCheck_ListIteratorOfListOfStatus it(statuses); it.More(); it.Next()) {
      if (it.Value() == BRepCheck_NoError) continue;
      std::ostringstream word;
      BRepCheck::Print(it.Value(), word);
      std::string text = word.str();
      text.erase(text.find_last_not_of(" \n") + 1);
      found.insert(text);
    }
  };
  for (int i = 1; i <= parts.Extent(); i++) {
    const Handle(BRepCheck_Result) & result = analyzer.Result(parts(i));
    if (result.IsNull()) continue;
    note(result->Status());
    for (result->InitContextIterator(); result->MoreShapeInContext(); result->NextShapeInContext()) note(result->StatusOnShape());
  }
  std::string text;
  for (const auto &word : found) text += (text.empty() ? "" : " ") + word;
  return text;
}

// How often the faces of one shell use an edge, at most; a seam counts twice.
int most_uses(const TopoDS_Shape &shape) {
  int most = 0;
  for (TopExp_Explorer shell(shape, TopAbs_SHELL); shell.More(); shell.Next()) {
    std::map<int, int> uses;
    TopTools_IndexedMapOfShape edges;
    for (TopExp_Explorer it(shell.Current(), TopAbs_EDGE); it.More(); it.Next())
      if (!BRep_Tool::Degenerated(TopoDS::Edge(it.Current()))) most = std::max(most, ++uses[edges.Add(it.Current())]);
  }
  return most;
}

// The fans of faces at the vertices of a shell: corners of faces join the ends of edges that meet there.
class Fans {
 public:
  explicit Fans(const TopoDS_Shape &shell) {
    for (TopExp_Explorer wire(shell, TopAbs_WIRE); wire.More(); wire.Next()) add(TopoDS::Wire(wire.Current()));
  }

  // At how many vertices more than one fan meets.
  int pinched() {
    std::map<int, std::set<int>> fans;
    for (size_t end = 0; end < above.size(); end++) fans[vertex[end]].insert(root(int(end)));
    int found = 0;
    for (const auto &one : fans) found += one.second.size() > 1;
    return found;
  }

 private:
  void add(const TopoDS_Wire &wire) {
    std::vector<std::pair<int, int>> uses;
    for (BRepTools_WireExplorer it(wire); it.More(); it.Next()) {
      const TopoDS_Edge &edge = it.Current();
      if (BRep_Tool::Degenerated(edge)) continue;
      int first = end_of(edge, 0, TopExp::FirstVertex(edge)), last = end_of(edge, 1, TopExp::LastVertex(edge));
      uses.emplace_back(edge.Orientation() == TopAbs_REVERSED ? std::make_pair(last, first) : std::make_pair(first, last));
    }
    for (size_t i = 0; i < uses.size(); i++) above[root(uses[i].second)] = root(uses[(i + 1) % uses.size()].first);
  }

  int end_of(const TopoDS_Edge &edge, int side, const TopoDS_Vertex &at) {
    size_t end = 2 * (edges.Add(edge) - 1) + side;
    while (above.size() <= end) {
      above.push_back(int(above.size()));
      vertex.push_back(0);
    }
    vertex[end] = vertices.Add(at);
    return int(end);
  }

  int root(int end) {
    while (above[end] != end) end = above[end] = above[above[end]];
    return end;
  }

  TopTools_IndexedMapOfShape edges, vertices;
  std::vector<int> above, vertex;
};

int pinched(const TopoDS_Shape &shape) {
  int found = 0;
  for (TopExp_Explorer shell(shape, TopAbs_SHELL); shell.More(); shell.Next()) found += Fans(shell.Current()).pinched();
  return found;
}

// How many vertices two shells have in common.
int shared(const TopoDS_Shape &shape) {
  TopTools_IndexedDataMapOfShapeListOfShape shells;
  TopExp::MapShapesAndUniqueAncestors(shape, TopAbs_VERTEX, TopAbs_SHELL, shells);
  int found = 0;
  for (int i = 1; i <= shells.Extent(); i++) found += shells(i).Extent() > 1;
  return found;
}

std::string box_of(const TopoDS_Shape &shape) {
  Bnd_Box box;
  BRepBndLib::Add(shape, box, false);
  if (box.IsVoid()) return "void";
  double value[6];
  box.Get(value[0], value[1], value[2], value[3], value[4], value[5]);
  char text[200];
  snprintf(text, sizeof text, "%.15g %.15g %.15g %.15g %.15g %.15g", value[0], value[1], value[2], value[3], value[4], value[5]);
  return text;
}

std::string name_of(const Handle(IGESData_IGESEntity) & entity) {
  if (entity->HasName()) return entity->NameValue()->ToCString();
  return entity->HasShortLabel() ? entity->ShortLabel()->ToCString() : "";
}

// The colours of a solid and of its faces, as the document has them.
std::string colours_of(const TopoDS_Shape &shape, const Handle(TDocStd_Document) & document) {
  Handle(XCAFDoc_ColorTool) tool = XCAFDoc_DocumentTool::ColorTool(document->Main());
  std::map<std::string, int> found;
  auto note = [&](const TopoDS_Shape &part, const char *what) {
    Quantity_Color colour;
    for (auto kind : {XCAFDoc_ColorGen, XCAFDoc_ColorSurf})
      if (tool->GetColor(part, kind, colour)) found[what + std::string(Quantity_Color::ColorToHex(colour).ToCString())]++;
  };
  note(shape, "");
  for (TopExp_Explorer face(shape, TopAbs_FACE); face.More(); face.Next()) note(face.Current(), "face");
  std::string text;
  for (const auto &[colour, times] : found) text += (text.empty() ? "" : " ") + colour + "*" + std::to_string(times);
  return text;
}

// What the records of the file say of a solid, before Open CASCADE heals it.
class Records {
 public:
  int shells = 0;

  explicit Records(const Handle(IGESSolid_ManifoldSolid) & solid) {
    add(solid->Shell(), solid->OrientationFlag());
    for (int i = 1; i <= solid->NbVoidShells(); i++) add(solid->VoidShell(i), solid->VoidOrientationFlag(i));
  }

  // How many edges two uses of one shell run through in the same direction.
  int turned_edges() const {
    int found = 0;
    for (const auto &[edge, directions] : uses) found += directions.size() == 2 && directions[0] == directions[1];
    return found;
  }

 private:
  using Edge = std::tuple<int, Standard_Transient *, int>;

  void add(const Handle(IGESSolid_Shell) & shell, bool flag) {
    shells++;
    for (int i = 1; i <= shell->NbFaces(); i++)
      for (int k = 1; k <= shell->Face(i)->NbLoops(); k++) add(shell->Face(i)->Loop(k), flag == shell->Orientation(i));
  }

  void add(const Handle(IGESSolid_Loop) & loop, bool flag) {
    const int of_vertex = 1;
    for (int i = 1; i <= loop->NbEdges(); i++)
      if (loop->EdgeType(i) != of_vertex) uses[Edge(shells, loop->Edge(i).get(), loop->ListIndex(i))].push_back(flag == loop->Orientation(i));
  }

  std::map<Edge, std::vector<bool>> uses;
};

void tell(const std::string &file, int solid, const TopoDS_Shape &shape, const std::string &name = "", const std::string &more = "\t\t") {
  BRepCheck_Analyzer analyzer(shape);
  GProp_GProps volume, area;
  BRepGProp::VolumeProperties(shape, volume);
  BRepGProp::SurfaceProperties(shape, area);
  bool valid = analyzer.IsValid();
  printf("%s\t%d\t%d\t%d\t%s", file.c_str(), solid, is_closed(shape), valid, valid ? "" : faults_of(shape, analyzer).c_str());
  for (auto kind : {TopAbs_SOLID, TopAbs_SHELL, TopAbs_FACE, TopAbs_EDGE, TopAbs_VERTEX}) printf("\t%d", count(shape, kind));
  printf("\t%.15g\t%.15g\t%s", volume.Mass(), area.Mass(), box_of(shape).c_str());
  printf("\t%d\t%d\t%d\t%s\t%s\n", most_uses(shape), pinched(shape), shared(shape), name.c_str(), more.c_str());
  fflush(stdout);
}

bool write(const Recipe &recipe, const std::string &path) {
  std::vector<Part> parts = recipe.parts ? recipe.parts() : std::vector<Part>{{recipe.make(), "", 0, 0, 0}};
  int solids = 0;
  for (const auto &part : parts)
    for (TopExp_Explorer solid(part.shape, TopAbs_SOLID); solid.More(); solid.Next()) tell(recipe.name, ++solids, solid.Current());
  if (!recipe.parts) {
    IGESControl_Writer writer("MM", 1);
    return writer.AddShape(parts[0].shape) && writer.Write(path.c_str());
  }
  Handle(TDocStd_Document) document = new_document();
  for (const auto &part : parts) add(document, part);
  IGESCAFControl_Writer writer;
  return writer.Transfer(document) && writer.Write(path.c_str());
}

int make(const std::string &folder, const std::set<std::string> &names) {
  int failed = 0;
  puts(COLUMNS);
  for (const auto &recipe : recipes()) {
    if (!names.count(recipe.name)) continue;
    std::string fault = "it wasn't written";
    bool done = false;
    try {
      done = write(recipe, folder + "/" + recipe.name + ".igs");
    } catch (const Standard_Failure &thrown) {
      fault = thrown.GetMessageString();
    } catch (const std::exception &thrown) {
      fault = thrown.what();
    }
    if (!done) fprintf(stderr, "real_solids: %s: %s\n", recipe.name.c_str(), fault.c_str());
    failed += !done;
  }
  return failed ? 1 : 0;
}

bool read(const std::string &file) {
  IGESCAFControl_Reader reader;
  if (reader.ReadFile(file.c_str()) != IFSelect_RetDone) return false;
  Handle(TDocStd_Document) document = new_document();
  reader.Transfer(document);
  Handle(IGESData_IGESModel) model = reader.IGESModel();
  Handle(Transfer_TransientProcess) process = reader.WS()->TransferReader()->TransientProcess();
  for (int i = 1; i <= model->NbEntities(); i++) {
    Handle(IGESData_IGESEntity) entity = model->Entity(i);
    if (entity->TypeNumber() != MANIFOLD_SOLID) continue;
    Handle(Transfer_Binder) binder = process->Find(entity);
    TopoDS_Shape shape;
    if (!binder.IsNull()) shape = TransferBRep::ShapeResult(binder);
    if (shape.IsNull()) {
      printf("%s\t%d\n", file.c_str(), 2 * i - 1);
      continue;
    }
    Records records(Handle(IGESSolid_ManifoldSolid)::DownCast(entity));
    std::string more = colours_of(shape, document) + "\t" + std::to_string(records.shells) + "\t" + std::to_string(records.turned_edges());
    tell(file, 2 * i - 1, shape, name_of(entity), more);
  }
  return true;
}

int read_all(const std::vector<std::string> &files) {
  int failed = 0;
  puts(COLUMNS);
  for (const auto &file : files) {
    bool done = false;
    try {
      done = read(file);
    } catch (const Standard_Failure &thrown) {
      fprintf(stderr, "real_solids: %s\n", thrown.GetMessageString());
    }
    if (!done) fprintf(stderr, "real_solids: Open CASCADE can't read %s\n", file.c_str());
    failed += !done;
  }
  return failed ? 1 : 0;
}

void list() {
  for (const auto &recipe : recipes()) printf("%s\t%s\n", recipe.name.c_str(), recipe.verdict.c_str());
}

void set_up() {
  Message::DefaultMessenger()->RemovePrinters(STANDARD_TYPE(Message_Printer));
  IGESControl_Controller::Init();
  Interface_Static::SetIVal("write.iges.brep.mode", 1);
}

}  // namespace

int main(int words, char **word) {
  std::vector<std::string> rest(word + std::min(words, 2), word + words);
  std::string command = words > 1 ? word[1] : "";
  set_up();
  if (command == "list" && rest.empty()) return list(), 0;
  if (command == "make" && rest.size() > 1) return make(rest[0], {rest.begin() + 1, rest.end()});
  if (command == "read" && !rest.empty()) return read_all(rest);
  fprintf(stderr, "usage: real_solids list | make FOLDER NAME.. | read FILE..\n");
  return 2;
}
