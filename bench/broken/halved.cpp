// Makes solids with edges that have the same two ends, such as the halves of circles, and bodies that touch.
//
//   halved FOLDER    writes FOLDER/h_NAME.igs, and FOLDER/t_NAME.igs of touching bodies
#include <BOPAlgo_Builder.hxx>
#include <BRepAlgoAPI_BuilderAlgo.hxx>
#include <BRepAlgoAPI_Cut.hxx>
#include <BRepAlgoAPI_Fuse.hxx>
#include <BRepPrimAPI_MakeBox.hxx>
#include <BRepPrimAPI_MakeCone.hxx>
#include <BRepPrimAPI_MakeCylinder.hxx>
#include <BRepPrimAPI_MakeSphere.hxx>
#include <BRepPrimAPI_MakeTorus.hxx>
#include <IGESControl_Controller.hxx>
#include <IGESControl_Writer.hxx>
#include <Interface_Static.hxx>
#include <Message.hxx>
#include <Message_Messenger.hxx>
#include <Message_PrinterOStream.hxx>
#include <ShapeUpgrade_ShapeDivideAngle.hxx>
#include <ShapeUpgrade_ShapeDivideClosed.hxx>

#include <string>
#include <vector>

namespace {

std::string folder;

void write(const std::string &name, const TopoDS_Shape &shape) {
  IGESControl_Writer writer("MM", 1);
  writer.AddShape(shape);
  writer.Write((folder + "/" + name + ".igs").c_str());
}

TopoDS_Shape halves(const TopoDS_Shape &shape, int points = 1) {
  ShapeUpgrade_ShapeDivideClosed divide(shape);
  divide.SetNbSplitPoints(points);
  divide.Perform();
  return divide.Result();
}

TopoDS_Shape cylinder(double x, double y, double z, double radius, double height, gp_Dir axis = gp_Dir(0, 0, 1)) {
  return BRepPrimAPI_MakeCylinder(gp_Ax2(gp_Pnt(x, y, z), axis), radius, height).Shape();
}

TopoDS_Shape box(double x, double y, double z, double a, double b, double c) { return BRepPrimAPI_MakeBox(gp_Pnt(x, y, z), a, b, c).Shape(); }
TopoDS_Shape cut(const TopoDS_Shape &a, const TopoDS_Shape &b) { return BRepAlgoAPI_Cut(a, b).Shape(); }
TopoDS_Shape fuse(const TopoDS_Shape &a, const TopoDS_Shape &b) { return BRepAlgoAPI_Fuse(a, b).Shape(); }
TopoDS_Shape ball(double z) { return BRepPrimAPI_MakeSphere(gp_Pnt(10, 10, z), 4).Shape(); }

// Bodies that share what they touch with.
TopoDS_Shape touching(const std::vector<TopoDS_Shape> &bodies) {
  TopTools_ListOfShape list;
  for (const TopoDS_Shape &body : bodies) list.Append(body);
  BRepAlgoAPI_BuilderAlgo builder;
  builder.SetArguments(list);
  builder.Build();
  return builder.Shape();
}

void write_halved() {
  write("h_cylinder", halves(cylinder(0, 0, 0, 5, 12)));
  write("h_cylinder_thirds", halves(cylinder(0, 0, 0, 5, 12), 2));
  write("h_cone", halves(BRepPrimAPI_MakeCone(6, 2, 9).Shape()));
  write("h_cone_tip", halves(BRepPrimAPI_MakeCone(6, 0, 9).Shape()));
  write("h_sphere", halves(BRepPrimAPI_MakeSphere(5).Shape()));
  write("h_torus", halves(BRepPrimAPI_MakeTorus(9, 3).Shape()));
  write("h_tube", halves(cut(cylinder(0, 0, 0, 8, 12), cylinder(0, 0, -1, 5, 20))));
  TopoDS_Shape plate = box(0, 0, 0, 40, 30, 5);
  for (int hole = 0; hole < 4; hole++) plate = cut(plate, cylinder(8 + 24 * (hole % 2), 8 + 14 * (hole / 2), -1, 3, 9));
  write("h_plate", halves(plate));
  write("h_steps", halves(fuse(cylinder(0, 0, 0, 10, 5), fuse(cylinder(0, 0, 5, 6, 8), cylinder(0, 0, 13, 3, 8)))));
  write("h_cross", halves(cut(box(0, 0, 0, 20, 20, 20), fuse(cylinder(10, 10, -1, 4, 30), cylinder(-1, 10, 10, 3, 30, gp_Dir(1, 0, 0))))));
  write("h_dimple", halves(cut(box(0, 0, 0, 20, 20, 10), ball(10))));
  write("h_dome", halves(fuse(box(0, 0, 0, 20, 20, 10), ball(10))));
}

void write_touching() {
  const TopoDS_Shape first = box(0, 0, 0, 5, 5, 5);
  write("t_vertex", touching({first, box(5, 5, 5, 5, 5, 5)}));
  write("t_edge", touching({first, box(5, 5, 0, 5, 5, 5)}));
  write("t_face", touching({first, box(5, 0, 0, 5, 5, 5)}));
  write("t_faceedge", touching({first, box(5, 2, 0, 5, 5, 5)}));
  write("t_round", touching({cylinder(0, 0, 0, 5, 5), cylinder(0, 0, 5, 5, 7)}));
  const gp_Ax2 down(gp_Pnt(0, 0, 10), gp_Dir(0, 0, -1));
  write("t_cone", touching({BRepPrimAPI_MakeCone(5, 0, 5).Shape(), BRepPrimAPI_MakeCone(down, 5, 0, 5).Shape()}));
}

}  // namespace

int main(int, char **arguments) {
  folder = arguments[1];
  Message::DefaultMessenger()->RemovePrinters(STANDARD_TYPE(Message_Printer));
  IGESControl_Controller::Init();
  Interface_Static::SetIVal("write.iges.brep.mode", 1);
  write_halved();
  write_touching();
}
