// The solids that bench/real has Open CASCADE make, each with the verdict that it was made for.
#include "real_solids.hpp"

#include <BRepAlgoAPI_BuilderAlgo.hxx>
#include <BRepAlgoAPI_Common.hxx>
#include <BRepAlgoAPI_Cut.hxx>
#include <BRepAlgoAPI_Fuse.hxx>
#include <BRepBuilderAPI_Copy.hxx>
#include <BRepBuilderAPI_GTransform.hxx>
#include <BRepBuilderAPI_MakeEdge.hxx>
#include <BRepBuilderAPI_MakeFace.hxx>
#include <BRepBuilderAPI_MakePolygon.hxx>
#include <BRepBuilderAPI_MakeSolid.hxx>
#include <BRepBuilderAPI_MakeWire.hxx>
#include <BRepBuilderAPI_NurbsConvert.hxx>
#include <BRepBuilderAPI_Sewing.hxx>
#include <BRepBuilderAPI_Transform.hxx>
#include <BRepFilletAPI_MakeChamfer.hxx>
#include <BRepFilletAPI_MakeFillet.hxx>
#include <BRepLib.hxx>
#include <BRepOffsetAPI_DraftAngle.hxx>
#include <BRepOffsetAPI_MakePipe.hxx>
#include <BRepOffsetAPI_MakePipeShell.hxx>
#include <BRepOffsetAPI_MakeThickSolid.hxx>
#include <BRepOffsetAPI_ThruSections.hxx>
#include <BRepPrimAPI_MakeBox.hxx>
#include <BRepPrimAPI_MakeCone.hxx>
#include <BRepPrimAPI_MakeCylinder.hxx>
#include <BRepPrimAPI_MakePrism.hxx>
#include <BRepPrimAPI_MakeRevol.hxx>
#include <BRepPrimAPI_MakeSphere.hxx>
#include <BRepPrimAPI_MakeTorus.hxx>
#include <BRepPrimAPI_MakeWedge.hxx>
#include <BRepTools_ReShape.hxx>
#include <BRep_Builder.hxx>
#include <BRep_Tool.hxx>
#include <GC_MakeArcOfCircle.hxx>
#include <GeomAPI_Interpolate.hxx>
#include <GeomAPI_PointsToBSpline.hxx>
#include <GeomAPI_PointsToBSplineSurface.hxx>
#include <Geom_BSplineCurve.hxx>
#include <Geom_BSplineSurface.hxx>
#include <Geom_CylindricalSurface.hxx>
#include <Geom_TrimmedCurve.hxx>
#include <Geom2d_Line.hxx>
#include <TColgp_Array1OfPnt.hxx>
#include <TColgp_Array2OfPnt.hxx>
#include <TColgp_HArray1OfPnt.hxx>
#include <TopExp.hxx>
#include <TopExp_Explorer.hxx>
#include <TopTools_IndexedMapOfShape.hxx>
#include <TopoDS.hxx>
#include <TopoDS_Compound.hxx>
#include <gp_Circ.hxx>
#include <gp_Elips.hxx>
#include <gp_GTrsf.hxx>
#include <gp_Pln.hxx>

#include <cmath>
#include <stdexcept>

namespace {

using Shapes = std::vector<TopoDS_Shape>;
using Points = std::vector<gp_Pnt>;

const gp_Dir X(1, 0, 0), Y(0, 1, 0), Z(0, 0, 1);
const gp_Pnt ORIGIN(0, 0, 0);

gp_Ax2 axes(double x, double y, double z, const gp_Dir &direction = Z) { return gp_Ax2(gp_Pnt(x, y, z), direction); }

TopoDS_Shape box(double x, double y, double z, double a, double b, double c) { return BRepPrimAPI_MakeBox(gp_Pnt(x, y, z), a, b, c).Shape(); }

TopoDS_Shape cube(double side) { return box(0, 0, 0, side, side, side); }

TopoDS_Shape cylinder(const gp_Ax2 &at, double radius, double height) { return BRepPrimAPI_MakeCylinder(at, radius, height).Shape(); }

TopoDS_Shape ball(double x, double y, double z, double radius) { return BRepPrimAPI_MakeSphere(gp_Pnt(x, y, z), radius).Shape(); }

TopoDS_Shape first(const TopoDS_Shape &shape, TopAbs_ShapeEnum kind) {
  TopExp_Explorer found(shape, kind);
  if (!found.More()) throw std::runtime_error("Open CASCADE made no such shape");
  return found.Current();
}

Shapes all(const TopoDS_Shape &shape, TopAbs_ShapeEnum kind) {
  TopTools_IndexedMapOfShape found;
  TopExp::MapShapes(shape, kind, found);
  return Shapes(found.cbegin(), found.cend());
}

TopoDS_Shape compound(const Shapes &parts) {
  TopoDS_Compound whole;
  BRep_Builder().MakeCompound(whole);
  for (const auto &part : parts) BRep_Builder().Add(whole, part);
  return whole;
}

TopoDS_Shape combined(BRepAlgoAPI_BooleanOperation &&operation, const Shapes &left, const Shapes &right) {
  TopTools_ListOfShape arguments, tools;
  for (const auto &shape : left) arguments.Append(shape);
  for (const auto &shape : right) tools.Append(shape);
  operation.SetArguments(arguments);
  operation.SetTools(tools);
  operation.Build();
  if (!operation.IsDone() || operation.HasErrors()) throw std::runtime_error("a Boolean operation failed");
  return operation.Shape();
}

TopoDS_Shape cut(const TopoDS_Shape &from, const Shapes &tools) { return combined(BRepAlgoAPI_Cut(), {from}, tools); }
TopoDS_Shape fuse(const TopoDS_Shape &one, const Shapes &others) { return combined(BRepAlgoAPI_Fuse(), {one}, others); }
TopoDS_Shape common(const TopoDS_Shape &one, const TopoDS_Shape &other) { return combined(BRepAlgoAPI_Common(), {one}, {other}); }

TopoDS_Shape moved(const TopoDS_Shape &shape, const gp_Trsf &motion) { return BRepBuilderAPI_Transform(shape, motion, true).Shape(); }

gp_Trsf translation(double x, double y, double z) {
  gp_Trsf motion;
  motion.SetTranslation(gp_Vec(x, y, z));
  return motion;
}

gp_Trsf rotation(const gp_Dir &axis, double angle) {
  gp_Trsf motion;
  motion.SetRotation(gp_Ax1(ORIGIN, axis), angle);
  return motion;
}

TopoDS_Wire polygon(const Points &points) {
  BRepBuilderAPI_MakePolygon made;
  for (const auto &point : points) made.Add(point);
  made.Close();
  return made.Wire();
}

TopoDS_Wire circle(const gp_Ax2 &at, double radius) { return BRepBuilderAPI_MakeWire(BRepBuilderAPI_MakeEdge(gp_Circ(at, radius))).Wire(); }

TopoDS_Edge spline(const Points &points) {
  TColgp_Array1OfPnt array(1, int(points.size()));
  for (size_t i = 0; i < points.size(); i++) array.SetValue(int(i) + 1, points[i]);
  return BRepBuilderAPI_MakeEdge(GeomAPI_PointsToBSpline(array).Curve()).Edge();
}

TopoDS_Shape extruded(const TopoDS_Shape &face, double height) { return BRepPrimAPI_MakePrism(face, gp_Vec(0, 0, height)).Shape(); }
TopoDS_Face filled(const TopoDS_Wire &wire) { return BRepBuilderAPI_MakeFace(wire).Face(); }
TopoDS_Shape prism(const Points &points, double height) { return extruded(filled(polygon(points)), height); }

// Points on a circle in the plane of X and Y whose radius is taken from a list in turn.
Points star(int count, const std::vector<double> &radii) {
  Points points;
  for (int i = 0; i < count; i++) {
    double angle = 2 * M_PI * i / count, radius = radii[i % radii.size()];
    points.emplace_back(radius * cos(angle), radius * sin(angle), 0);
  }
  return points;
}

TopoDS_Shape shell_of(const Shapes &faces) {
  TopoDS_Shell shell;
  BRep_Builder().MakeShell(shell);
  for (const auto &face : faces) BRep_Builder().Add(shell, face);
  return shell;
}

TopoDS_Shape solid_of(const Shapes &shells) {
  TopoDS_Solid solid;
  BRep_Builder().MakeSolid(solid);
  for (const auto &shell : shells) BRep_Builder().Add(solid, shell);
  return solid;
}

Shapes faces_of(const TopoDS_Shape &shape) {
  Shapes faces;
  for (TopExp_Explorer found(shape, TopAbs_FACE); found.More(); found.Next()) faces.push_back(found.Current());
  return faces;
}

TopoDS_Shape sewn(const Shapes &faces) {
  BRepBuilderAPI_Sewing sewing;
  for (const auto &face : faces) sewing.Add(face);
  sewing.Perform();
  TopoDS_Solid solid = BRepBuilderAPI_MakeSolid(TopoDS::Shell(first(sewing.SewedShape(), TopAbs_SHELL))).Solid();
  BRepLib::OrientClosedSolid(solid);
  return solid;
}

TopoDS_Shape polyhedron(const Points &points, const std::vector<std::vector<int>> &faces) {
  Shapes made;
  for (const auto &face : faces) {
    Points corners;
    for (int corner : face) corners.push_back(points[corner]);
    made.push_back(filled(polygon(corners)));
  }
  return sewn(made);
}

TopoDS_Shape tetrahedron(const gp_Pnt &apex, double size) {
  double x = apex.X(), y = apex.Y(), z = apex.Z();
  Points points = {apex, gp_Pnt(x + size, y + size, z), gp_Pnt(x + size, y, z + size), gp_Pnt(x, y + size, z + size)};
  return polyhedron(points, {{0, 1, 2}, {0, 2, 3}, {0, 3, 1}, {1, 2, 3}});
}

TopoDS_Shape pyramid() {
  Points points = {gp_Pnt(0, 0, 0), gp_Pnt(9, 0, 0), gp_Pnt(9, 9, 0), gp_Pnt(0, 9, 0), gp_Pnt(4, 4, 8)};
  return polyhedron(points, {{0, 1, 2, 3}, {0, 1, 4}, {1, 2, 4}, {2, 3, 4}, {3, 0, 4}});
}

// A solid with this outer shell and these shapes as its voids.
TopoDS_Shape with_voids(const TopoDS_Shape &outer, const Shapes &voids) {
  Shapes shells = {first(outer, TopAbs_SHELL)};
  for (const auto &one : voids) shells.push_back(first(one, TopAbs_SHELL).Reversed());
  return solid_of(shells);
}

// The second shape with the vertices of the first where both have one at the same point.
TopoDS_Shape with_vertices_of(const TopoDS_Shape &one, const TopoDS_Shape &other) {
  Handle(BRepTools_ReShape) reshape = new BRepTools_ReShape;
  for (const auto &old : all(other, TopAbs_VERTEX))
    for (const auto &kept : all(one, TopAbs_VERTEX))
      if (BRep_Tool::Pnt(TopoDS::Vertex(old)).IsEqual(BRep_Tool::Pnt(TopoDS::Vertex(kept)), 1e-9)) reshape->Replace(old, kept.Oriented(old.Orientation()));
  return reshape->Apply(other);
}

TopoDS_Shape without_faces(const TopoDS_Shape &shape, size_t count) {
  Shapes faces = faces_of(shape);
  faces.erase(faces.begin(), faces.begin() + count);
  return solid_of({shell_of(faces)});
}

TopoDS_Shape unsewn(const TopoDS_Shape &shape) {
  Shapes faces;
  for (const auto &face : faces_of(shape)) faces.push_back(BRepBuilderAPI_Copy(face).Shape());
  return solid_of({shell_of(faces)});
}

TopoDS_Shape filleted(const TopoDS_Shape &shape, double radius, size_t count) {
  BRepFilletAPI_MakeFillet fillet(shape);
  Shapes edges = all(shape, TopAbs_EDGE);
  for (size_t i = 0; i < edges.size() && i < count; i++) fillet.Add(radius, TopoDS::Edge(edges[i]));
  return fillet.Shape();
}

TopoDS_Shape chamfered(const TopoDS_Shape &shape, double length, size_t count) {
  BRepFilletAPI_MakeChamfer chamfer(shape);
  Shapes edges = all(shape, TopAbs_EDGE);
  for (size_t i = 0; i < edges.size() && i < count; i++) chamfer.Add(length, TopoDS::Edge(edges[i]));
  return chamfer.Shape();
}

TopoDS_Shape hollowed(const TopoDS_Shape &shape, const TopoDS_Shape &opening, double thickness) {
  TopTools_ListOfShape open;
  open.Append(opening);
  BRepOffsetAPI_MakeThickSolid hollow;
  hollow.MakeThickSolidByJoin(shape, open, -thickness, 1e-3);
  return hollow.Shape();
}

TopoDS_Shape without_last_wall(const TopoDS_Shape &shape, double thickness) { return hollowed(shape, faces_of(shape).back(), thickness); }

TopoDS_Shape drafted() {
  TopoDS_Shape block = box(0, 0, 0, 20, 20, 10);
  BRepOffsetAPI_DraftAngle draft(block);
  Shapes faces = faces_of(block);
  for (int i = 0; i < 4; i++) draft.Add(TopoDS::Face(faces[i]), Z, 0.1, gp_Pln(ORIGIN, Z));
  draft.Build();
  return draft.Shape();
}

TopoDS_Shape stretched(const TopoDS_Shape &shape, double x, double y, double z) {
  gp_GTrsf motion;
  motion.SetValue(1, 1, x);
  motion.SetValue(2, 2, y);
  motion.SetValue(3, 3, z);
  return BRepBuilderAPI_GTransform(shape, motion, true).Shape();
}

TopoDS_Shape revolved(const TopoDS_Shape &face, double angle) { return BRepPrimAPI_MakeRevol(face, gp_Ax1(ORIGIN, Z), angle).Shape(); }

TopoDS_Shape lofted(const std::vector<TopoDS_Wire> &wires, bool ruled) {
  BRepOffsetAPI_ThruSections loft(true, ruled);
  for (const auto &wire : wires) loft.AddWire(wire);
  loft.Build();
  return loft.Shape();
}

TopoDS_Wire helix(double radius, double pitch, double turns) {
  Handle(Geom_CylindricalSurface) surface = new Geom_CylindricalSurface(gp_Ax3(ORIGIN, Z), radius);
  Handle(Geom2d_Line) line = new Geom2d_Line(gp_Pnt2d(0, 0), gp_Dir2d(2 * M_PI, pitch));
  TopoDS_Edge edge = BRepBuilderAPI_MakeEdge(line, surface, 0, turns * hypot(2 * M_PI, pitch)).Edge();
  BRepLib::BuildCurves3d(edge);
  return BRepBuilderAPI_MakeWire(edge).Wire();
}

TopoDS_Shape swept(const TopoDS_Wire &spine, const TopoDS_Wire &profile) {
  BRepOffsetAPI_MakePipeShell pipe(spine);
  pipe.SetMode(true);
  pipe.Add(profile);
  pipe.Build();
  pipe.MakeSolid();
  return pipe.Shape();
}

TopoDS_Shape spring() { return swept(helix(10, 6, 3), circle(axes(10, 0, 0, Y), 1.5)); }

// A round rod along a closed curve, whose two ends meet but are two caps.
TopoDS_Shape knot() {
  int count = 24;
  Handle(TColgp_HArray1OfPnt) points = new TColgp_HArray1OfPnt(1, count);
  for (int i = 0; i < count; i++) {
    double t = 2 * M_PI * i / count;
    points->SetValue(i + 1, gp_Pnt(10 * (sin(t) + 2 * sin(2 * t)), 10 * (cos(t) - 2 * cos(2 * t)), -10 * sin(3 * t)));
  }
  GeomAPI_Interpolate curve(points, true, 1e-6);
  curve.Perform();
  gp_Pnt start;
  gp_Vec tangent;
  curve.Curve()->D1(0, start, tangent);
  return swept(BRepBuilderAPI_MakeWire(BRepBuilderAPI_MakeEdge(curve.Curve())).Wire(), circle(gp_Ax2(start, tangent), 2));
}

// A thread on a cylinder: a triangle along a helix, with its tip outside of this radius, or inside where the height is negative.
TopoDS_Shape thread(double radius, double height, double pitch, double turns) {
  double root = radius - height / 4;
  TopoDS_Wire tooth = polygon({gp_Pnt(radius + height, 0, 0), gp_Pnt(root, 0, 0.4 * pitch), gp_Pnt(root, 0, -0.4 * pitch)});
  TopoDS_Solid made = TopoDS::Solid(swept(helix(radius, pitch, turns), tooth));
  BRepLib::OrientClosedSolid(made);
  return moved(made, translation(0, 0, pitch));
}

TopoDS_Shape hexagon(double radius, double z, double height) { return moved(prism(star(6, {radius}), height), translation(0, 0, z)); }

TopoDS_Shape bolt(double radius, double length) {
  TopoDS_Shape shank = fuse(cylinder(axes(0, 0, 0), radius, length), {thread(radius, 0.8, 2, length / 2 - 2)});
  return fuse(shank, {hexagon(1.8 * radius, length, 1.3 * radius)});
}

TopoDS_Shape nut(double radius, double height) {
  TopoDS_Shape drilled = cut(hexagon(1.8 * radius, 0, height), {cylinder(axes(0, 0, -1), radius, height + 2)});
  return fuse(drilled, {thread(radius, -0.8, 2, height / 2 - 2)});
}

TopoDS_Shape threaded_rod(double radius, double length) { return fuse(cylinder(axes(0, 0, 0), radius, length), {thread(radius, 0.8, 2, length / 2 - 2)}); }

TopoDS_Wire rectangle(double x, double y, double a, double b) {
  return polygon({gp_Pnt(x, y, 0), gp_Pnt(x + a, y, 0), gp_Pnt(x + a, y + b, 0), gp_Pnt(x, y + b, 0)});
}

TopoDS_Shape plate(int rows, double step, bool round) {
  double side = rows * step;
  BRepBuilderAPI_MakeFace face(rectangle(0, 0, side, side));
  for (int i = 0; i < rows * rows; i++) {
    double x = (i % rows + 0.5) * step, y = (i / rows + 0.5) * step, r = step / 4;
    TopoDS_Wire hole = round ? circle(axes(x, y, 0), r) : rectangle(x - r, y - r, 2 * r, 2 * r);
    face.Add(TopoDS::Wire(hole.Reversed()));
  }
  return extruded(face.Face(), 2);
}

TopoDS_Shape crossed_holes() {
  return cut(cube(20), {cylinder(axes(10, 10, -1), 4, 30), cylinder(axes(-1, 10, 10, X), 4, 30), cylinder(axes(10, -1, 10, Y), 4, 30)});
}

TopoDS_Shape bracket() {
  TopoDS_Shape rib = moved(prism({gp_Pnt(4, 4, 0), gp_Pnt(30, 4, 0), gp_Pnt(4, 24, 0)}, 3), rotation(X, M_PI / 2));
  return fuse(box(0, 0, 0, 40, 20, 4), {box(0, 0, 0, 4, 20, 30), moved(rib, translation(0, 12, 0))});
}

TopoDS_Shape heat_sink() {
  Shapes fins;
  for (int i = 0; i < 12; i++) fins.push_back(box(4 * i, 0, 3, 1.5, 30, 20));
  return fuse(box(-2, 0, 0, 50, 30, 3), fins);
}

TopoDS_Shape mirrored() {
  gp_Trsf mirror;
  mirror.SetMirror(gp_Ax2(ORIGIN, X));
  return moved(cut(cube(20), {cylinder(axes(5, 5, -1), 3, 30)}), mirror);
}

TopoDS_Shape scaled() {
  gp_Trsf scale;
  scale.SetScale(ORIGIN, 2.54);
  return moved(filleted(cube(20), 3, 4), scale);
}

TopoDS_Shape flange() {
  Shapes holes = {cylinder(axes(0, 0, -1), 8, 40)};
  for (const auto &at : star(6, {22})) holes.push_back(cylinder(gp_Ax2(at.Translated(gp_Vec(0, 0, -1)), Z), 2, 40));
  return cut(fuse(cylinder(axes(0, 0, 0), 28, 5), {cylinder(axes(0, 0, 0), 12, 25)}), holes);
}

TopoDS_Shape bottle() {
  Points side = {gp_Pnt(-25, 0, 0), gp_Pnt(-25, -8, 0), gp_Pnt(25, -8, 0), gp_Pnt(25, 0, 0)};
  TopoDS_Edge arc = BRepBuilderAPI_MakeEdge(GC_MakeArcOfCircle(side[1], gp_Pnt(0, -15, 0), side[2]).Value());
  BRepBuilderAPI_MakeWire half(BRepBuilderAPI_MakeEdge(side[0], side[1]), arc, BRepBuilderAPI_MakeEdge(side[2], side[3]));
  gp_Trsf mirror;
  mirror.SetMirror(gp_Ax1(ORIGIN, X));
  BRepBuilderAPI_MakeWire whole;
  whole.Add(half.Wire());
  whole.Add(TopoDS::Wire(moved(half.Wire(), mirror)));
  TopoDS_Shape body = filleted(extruded(filled(whole.Wire()), 70), 2.5, 100);
  body = fuse(body, {cylinder(axes(0, 0, 70), 7.5, 7)});
  TopoDS_Shape top;
  for (const auto &face : faces_of(body))
    if (all(face, TopAbs_EDGE).size() == 1 && std::abs(BRep_Tool::Pnt(TopoDS::Vertex(first(face, TopAbs_VERTEX))).Z() - 77) < 1e-6) top = face;
  return hollowed(body, top, 1);
}

TopoDS_Shape staircase(int steps) {
  Points points = {gp_Pnt(0, 0, 0)};
  for (int i = 0; i < steps; i++) {
    points.emplace_back(3 * i, 2 * (i + 1), 0);
    points.emplace_back(3 * (i + 1), 2 * (i + 1), 0);
  }
  points.emplace_back(3 * steps, 0, 0);
  return prism(points, 10);
}

TopoDS_Shape elbow() {
  BRepBuilderAPI_MakeWire spine(BRepBuilderAPI_MakeEdge(ORIGIN, gp_Pnt(0, 0, 20)),
                                BRepBuilderAPI_MakeEdge(GC_MakeArcOfCircle(gp_Pnt(0, 0, 20), gp_Vec(0, 0, 1), gp_Pnt(15, 0, 35)).Value()),
                                BRepBuilderAPI_MakeEdge(gp_Pnt(15, 0, 35), gp_Pnt(40, 0, 35)));
  BRepBuilderAPI_MakeFace ring(circle(axes(0, 0, 0), 5));
  ring.Add(TopoDS::Wire(circle(axes(0, 0, 0), 4).Reversed()));
  return BRepOffsetAPI_MakePipe(spine.Wire(), ring.Face()).Shape();
}

TopoDS_Shape snake() {
  Points points;
  for (int i = 0; i <= 12; i++) points.emplace_back(6.0 * i, 8 * sin(i * 0.7), 4 * cos(i * 0.5));
  TopoDS_Wire spine = BRepBuilderAPI_MakeWire(spline(points)).Wire();
  return BRepOffsetAPI_MakePipe(spine, filled(circle(gp_Ax2(points[0], gp_Dir(1, 0.9, 0)), 2))).Shape();
}

TopoDS_Shape vase() {
  TopoDS_Edge side = spline({gp_Pnt(6, 0, 0), gp_Pnt(11, 0, 8), gp_Pnt(7, 0, 18), gp_Pnt(5, 0, 25), gp_Pnt(9, 0, 32)});
  BRepBuilderAPI_MakeWire wire(BRepBuilderAPI_MakeEdge(ORIGIN, gp_Pnt(6, 0, 0)), side, BRepBuilderAPI_MakeEdge(gp_Pnt(9, 0, 32), gp_Pnt(0, 0, 32)),
                               BRepBuilderAPI_MakeEdge(gp_Pnt(0, 0, 32), ORIGIN));
  return revolved(filled(wire.Wire()), 2 * M_PI);
}

TopoDS_Shape ring(double angle) { return revolved(filled(polygon({gp_Pnt(10, 0, 0), gp_Pnt(14, 0, 0), gp_Pnt(12, 0, 6)})), angle); }

TopoDS_Shape ellipse() { return filled(BRepBuilderAPI_MakeWire(BRepBuilderAPI_MakeEdge(gp_Elips(axes(0, 0, 0), 12, 5))).Wire()); }

TopoDS_Shape cam() {
  BRepBuilderAPI_MakeWire wire(spline({gp_Pnt(0, 0, 0), gp_Pnt(12, 2, 0), gp_Pnt(20, 10, 0), gp_Pnt(14, 22, 0), gp_Pnt(0, 20, 0)}),
                               BRepBuilderAPI_MakeEdge(gp_Pnt(0, 20, 0), ORIGIN));
  return extruded(filled(wire.Wire()), 5);
}

// A bent sheet of some thickness: its other side is an offset surface.
TopoDS_Shape thick_sheet() {
  TColgp_Array2OfPnt points(1, 6, 1, 6);
  for (int i = 0; i < 6; i++)
    for (int j = 0; j < 6; j++) points.SetValue(i + 1, j + 1, gp_Pnt(6 * i, 6 * j, 3 * sin(i * 0.9) * cos(j * 0.8)));
  BRepOffsetAPI_MakeThickSolid thick;
  thick.MakeThickSolidBySimple(BRepBuilderAPI_MakeFace(GeomAPI_PointsToBSplineSurface(points).Surface(), 1e-6).Face(), 2);
  return thick.Shape();
}

TopoDS_Wire square(double side, double z, double angle) {
  Points points;
  for (int i = 0; i < 4; i++) points.emplace_back(side * cos(angle + i * M_PI / 2), side * sin(angle + i * M_PI / 2), z);
  return polygon(points);
}

std::vector<TopoDS_Wire> twisting(int count) {
  std::vector<TopoDS_Wire> wires;
  for (int i = 0; i < count; i++) wires.push_back(square(10 - i, 5 * i, 0.15 * i));
  return wires;
}

// Two towers on one plate that touch along an edge.
TopoDS_Shape pinched_edge() { return fuse(box(-5, -5, -5, 30, 30, 5), {cube(10), box(10, 10, 0, 10, 10, 10)}); }

// Two boxes that touch at a vertex, joined by a plate and a column.
TopoDS_Shape pinched_vertex() { return fuse(box(0, 0, -5, 30, 20, 5), {cube(10), box(20, 10, -5, 10, 10, 25), box(10, 10, 10, 10, 10, 10)}); }

// Two solids' shells as one shell, with common vertices where they meet.
TopoDS_Shape one_shell(const TopoDS_Shape &one, const TopoDS_Shape &other) {
  Shapes faces = faces_of(one);
  for (const auto &face : faces_of(with_vertices_of(one, other))) faces.push_back(face);
  return solid_of({shell_of(faces)});
}

TopoDS_Shape void_at_corner() {
  TopoDS_Shape outer = cube(20);
  return with_voids(outer, {with_vertices_of(outer, tetrahedron(ORIGIN, 8))});
}

TopoDS_Shape voids_at_a_vertex() {
  TopoDS_Shape one = tetrahedron(gp_Pnt(10, 10, 10), 5);
  gp_Trsf mirror;
  mirror.SetMirror(gp_Pnt(10, 10, 10));
  TopoDS_Solid other = TopoDS::Solid(moved(one, mirror));
  BRepLib::OrientClosedSolid(other);
  return with_voids(cube(20), {one, with_vertices_of(one, other)});
}

TopoDS_Shape with_turned_face(const TopoDS_Shape &shape) {
  Shapes faces = faces_of(shape);
  faces[2].Reverse();
  return solid_of({shell_of(faces)});
}

TopoDS_Shape with_stray_face(const TopoDS_Shape &shape) {
  Shapes faces = faces_of(shape);
  faces.push_back(filled(square(3, 30, 0)));
  return solid_of({shell_of(faces)});
}

// Solids that share the faces at which they meet.
TopoDS_Shape glued(const Shapes &parts) {
  TopTools_ListOfShape arguments;
  for (const auto &part : parts) arguments.Append(part);
  BRepAlgoAPI_BuilderAlgo builder;
  builder.SetArguments(arguments);
  builder.Build();
  return builder.Shape();
}

TopoDS_Shape two_rooms() { return glued({cube(10), box(10, 0, 0, 10, 10, 10)}); }

// A box that a wall divides into two rooms, as one shell: each edge of the wall is used by three faces.
TopoDS_Shape with_wall_inside() { return solid_of({shell_of(all(two_rooms(), TopAbs_FACE))}); }

Shapes grid(int count) {
  Shapes parts;
  for (int i = 0; i < count * count * count; i++) parts.push_back(box(10 * (i % count), 10 * (i / count % count), 10 * (i / count / count), 6, 6, 6));
  return parts;
}

TopoDS_Shape three_times(const TopoDS_Shape &one) {
  return compound({one, one.Moved(TopLoc_Location(translation(80, 0, 0))), one.Moved(TopLoc_Location(rotation(X, 1)))});
}

Shapes three_solids() { return {cube(10), cylinder(axes(30, 0, 0), 5, 12), ball(60, 0, 0, 6)}; }

const std::string CLOSED = "closed";

std::vector<Recipe> primitives() {
  return {
      {"box", CLOSED, [] { return cube(10); }},
      {"box_placed", CLOSED, [] { return moved(moved(box(0, 0, 0, 3, 5, 7), rotation(gp_Dir(1, 2, 3), 0.7)), translation(100, -50, 25)); }},
      {"box_with_location", CLOSED, [] { return cube(10).Moved(TopLoc_Location(translation(7, 8, 9))); }},
      {"box_tiny", CLOSED, [] { return cube(0.01); }},
      {"box_huge", CLOSED, [] { return cube(100000); }},
      {"wedge", CLOSED, [] { return BRepPrimAPI_MakeWedge(20, 10, 15, 8).Shape(); }},
      {"tetrahedron", CLOSED, [] { return tetrahedron(ORIGIN, 12); }},
      {"pyramid", CLOSED, pyramid},
      {"prism_hexagonal", CLOSED, [] { return hexagon(8, 0, 20); }},
      {"cylinder", CLOSED, [] { return cylinder(axes(0, 0, 0), 5, 20); }},
      {"cylinder_sector", CLOSED, [] { return BRepPrimAPI_MakeCylinder(5, 20, 1.2).Shape(); }},
      {"cone", CLOSED, [] { return BRepPrimAPI_MakeCone(8, 0, 15).Shape(); }},
      {"cone_cut_off", CLOSED, [] { return BRepPrimAPI_MakeCone(8, 3, 15).Shape(); }},
      {"cone_sector", CLOSED, [] { return BRepPrimAPI_MakeCone(8, 3, 15, 2.5).Shape(); }},
      {"sphere", CLOSED, [] { return ball(0, 0, 0, 10); }},
      {"hemisphere", CLOSED, [] { return BRepPrimAPI_MakeSphere(10, 0, M_PI / 2).Shape(); }},
      {"sphere_zone", CLOSED, [] { return BRepPrimAPI_MakeSphere(10, -0.5, 0.8).Shape(); }},
      {"sphere_sector", CLOSED, [] { return BRepPrimAPI_MakeSphere(gp_Pnt(0, 0, 0), 10, 1.5).Shape(); }},
      {"torus", CLOSED, [] { return BRepPrimAPI_MakeTorus(20, 5).Shape(); }},
      {"torus_sector", CLOSED, [] { return BRepPrimAPI_MakeTorus(20, 5, 2.0).Shape(); }},
  };
}

std::vector<Recipe> dressed() {
  return {
      {"fillet_all_edges", CLOSED, [] { return filleted(cube(20), 3, 100); }},
      {"fillet_one_edge", CLOSED, [] { return filleted(cube(20), 3, 1); }},
      {"fillet_cylinder", CLOSED, [] { return filleted(cylinder(axes(0, 0, 0), 8, 20), 2, 100); }},
      {"fillet_three_edges", CLOSED, [] { return filleted(box(0, 0, 0, 30, 20, 10), 2, 3); }},
      {"chamfer_all_edges", CLOSED, [] { return chamfered(cube(20), 3, 100); }},
      {"chamfer_two_edges", CLOSED, [] { return chamfered(cube(20), 3, 2); }},
      {"draft", CLOSED, drafted},
      {"hollow_box", CLOSED, [] { return without_last_wall(cube(20), 2); }},
      {"thick_sheet", CLOSED, thick_sheet},
      {"hollow_cylinder", CLOSED, [] { return without_last_wall(cylinder(axes(0, 0, 0), 8, 20), 1); }},
      {"bottle", CLOSED, bottle},
  };
}

std::vector<Recipe> combinations() {
  return {
      {"box_with_hole", CLOSED, [] { return cut(cube(20), {cylinder(axes(10, 10, -1), 4, 30)}); }},
      {"box_with_blind_hole", CLOSED, [] { return cut(cube(20), {cylinder(axes(10, 10, 8), 4, 30)}); }},
      {"box_with_counterbore", CLOSED, [] { return cut(cube(20), {cylinder(axes(10, 10, -1), 3, 30), cylinder(axes(10, 10, 14), 6, 30)}); }},
      {"box_with_crossed_holes", CLOSED, crossed_holes},
      {"plate_with_square_holes", CLOSED, [] { return plate(12, 8, false); }},
      {"plate_with_round_holes", CLOSED, [] { return plate(14, 8, true); }},
      {"plate_with_400_holes", CLOSED, [] { return plate(20, 8, true); }},
      {"tube", CLOSED, [] { return cut(cylinder(axes(0, 0, 0), 10, 50), {cylinder(axes(0, 0, -1), 8, 60)}); }},
      {"tubes_crossed", CLOSED, [] { return fuse(cylinder(axes(0, 0, -20), 6, 40), {cylinder(axes(-20, 0, 0, X), 4, 40)}); }},
      {"lens", CLOSED, [] { return common(ball(0, 0, 0, 10), ball(0, 0, 12, 10)); }},
      {"ball_with_hole", CLOSED, [] { return cut(ball(0, 0, 0, 10), {cylinder(axes(0, 0, -20), 4, 40)}); }},
      {"rounded_cross", CLOSED, [] { return common(ball(0, 0, 0, 13), box(-10, -10, -10, 20, 20, 20)); }},
      {"bolt", CLOSED, [] { return bolt(5, 12); }},
      {"thread", CLOSED, [] { return threaded_rod(5, 16); }},
      {"nut", CLOSED, [] { return nut(5.5, 9); }},
      {"flange", CLOSED, flange},
      {"washer", CLOSED, [] { return cut(cylinder(axes(0, 0, 0), 10, 1), {cylinder(axes(0, 0, -1), 5, 3)}); }},
      {"gear", CLOSED, [] { return cut(prism(star(80, {20, 20, 24, 24}), 6), {cylinder(axes(0, 0, -1), 6, 10)}); }},
      {"bracket", CLOSED, bracket},
      {"heat_sink", CLOSED, heat_sink},
      {"mirrored", CLOSED, mirrored},
      {"scaled", CLOSED, scaled},
  };
}

std::vector<Recipe> swept_solids() {
  return {
      {"extruded_star", CLOSED, [] { return prism(star(10, {10, 4}), 7); }},
      {"extruded_ellipse", CLOSED, [] { return extruded(ellipse(), 9); }},
      {"extruded_cam", CLOSED, cam},
      {"staircase", CLOSED, [] { return staircase(15); }},
      {"revolved_ring", CLOSED, [] { return ring(2 * M_PI); }},
      {"revolved_part", CLOSED, [] { return ring(2); }},
      {"revolved_vase", CLOSED, vase},
      {"revolved_at_axis", CLOSED, [] { return revolved(filled(polygon({gp_Pnt(0, 0, 0), gp_Pnt(8, 0, 0), gp_Pnt(0, 0, 12)})), 1.5); }},
      {"loft_ruled", CLOSED, [] { return lofted({square(10, 0, 0), circle(axes(0, 0, 15), 4)}, true); }},
      {"loft_smooth", CLOSED, [] { return lofted({circle(axes(0, 0, 0), 10), circle(axes(0, 0, 10), 4), circle(axes(0, 0, 20), 8)}, false); }},
      {"loft_twisting", CLOSED, [] { return lofted(twisting(6), false); }},
      {"pipe_elbow", CLOSED, elbow},
      {"pipe_along_spline", CLOSED, snake},
      {"spring", CLOSED, spring},
      {"knot_not_joined", "PAIR", knot},
      {"crossed_profile", CLOSED, [] { return prism({gp_Pnt(0, 0, 0), gp_Pnt(10, 10, 0), gp_Pnt(10, 0, 0), gp_Pnt(0, 10, 0)}, 5); }},
      {"helix_square", CLOSED, [] { return swept(helix(12, 8, 2), polygon({gp_Pnt(11, 0, -1), gp_Pnt(13, 0, -1), gp_Pnt(13, 0, 1), gp_Pnt(11, 0, 1)})); }},
      {"spline_box", CLOSED, [] { return BRepBuilderAPI_NurbsConvert(cube(10), true).Shape(); }},
      {"spline_torus", CLOSED, [] { return BRepBuilderAPI_NurbsConvert(BRepPrimAPI_MakeTorus(20, 5).Shape(), true).Shape(); }},
      {"spline_ellipsoid", CLOSED, [] { return stretched(ball(0, 0, 0, 10), 1, 0.6, 1.5); }},
      {"spline_stretched_cylinder", CLOSED, [] { return stretched(cylinder(axes(0, 0, 0), 5, 20), 1, 2, 1); }},
  };
}

std::vector<Recipe> of_several_shells() {
  return {
      {"void_box", CLOSED, [] { return cut(cube(20), {box(5, 5, 5, 8, 8, 8)}); }},
      {"void_sphere", CLOSED, [] { return cut(cube(20), {ball(10, 10, 10, 6)}); }},
      {"void_torus", CLOSED, [] { return cut(box(-20, -20, -8, 40, 40, 16), {BRepPrimAPI_MakeTorus(12, 4).Shape()}); }},
      {"void_in_ball", CLOSED, [] { return cut(ball(0, 0, 0, 10), {ball(0, 0, 0, 9)}); }},
      {"voids_27", CLOSED, [] { return cut(box(-4, -4, -4, 34, 34, 34), grid(3)); }},
      {"void_sphere_touching_walls", CLOSED, [] { return with_voids(cube(20), {ball(10, 10, 10, 10)}); }},
      {"void_sphere_cut_to_walls", CLOSED, [] { return cut(cube(20), {ball(10, 10, 10, 10)}); }},
      {"void_through_a_wall", CLOSED, [] { return with_voids(cube(20), {ball(20, 10, 10, 5)}); }},
      {"two_lumps_in_two_shells", CLOSED, [] { return solid_of({first(cube(10), TopAbs_SHELL), first(box(20, 0, 0, 5, 5, 5), TopAbs_SHELL)}); }},
      {"two_lumps_in_one_shell", "REACH", [] { return one_shell(cube(10), box(20, 0, 0, 5, 5, 5)); }},
      {"lumps_at_a_vertex", "REACH", [] { return one_shell(cube(10), box(10, 10, 10, 5, 5, 5)); }},
      {"void_at_a_corner", "APART", void_at_corner},
      {"voids_at_a_vertex", "APART", voids_at_a_vertex},
  };
}

std::vector<Recipe> faulty() {
  return {
      {"pinched_edge", "PAIR", pinched_edge},
      {"pinched_vertex", "LINK", pinched_vertex},
      {"open_box", "PAIR", [] { return without_faces(cube(10), 1); }},
      {"open_box_two_faces", "PAIR", [] { return without_faces(cube(10), 2); }},
      {"open_cylinder", "PAIR", [] { return without_faces(cylinder(axes(0, 0, 0), 5, 20), 1); }},
      {"open_fillets", "PAIR", [] { return without_faces(filleted(cube(20), 3, 100), 1); }},
      {"open_flange", "PAIR", [] { return without_faces(flange(), 2); }},
      {"unsewn_box", "PAIR", [] { return unsewn(cube(10)); }},
      {"unsewn_fillets", "PAIR", [] { return unsewn(filleted(cube(20), 3, 100)); }},
      {"turned_face", "PAIR", [] { return with_turned_face(cube(10)); }},
      {"stray_face", "PAIR", [] { return with_stray_face(cube(10)); }},
      {"wall_inside", "PAIR", with_wall_inside},
  };
}

std::vector<Recipe> of_several_solids() {
  return {
      {"three_solids", CLOSED, [] { return compound(three_solids()); }},
      {"solids_27", CLOSED, [] { return compound(grid(3)); }},
      {"two_rooms", CLOSED, two_rooms},
      {"compound_of_compounds", CLOSED, [] { return compound({compound(three_solids()), compound(grid(2))}); }},
      {"one_solid_three_times", CLOSED, [] { return three_times(flange()); }},
      {"bolt_and_nut", CLOSED, [] { return compound({bolt(4, 10), moved(nut(4.5, 8), translation(30, 0, 0))}); }},
  };
}

using Parts = std::vector<Part>;

Parts named_three() {
  Shapes it = three_solids();
  return {{it[0], "left", 1, 0, 0}, {it[1], "middle", 0, 1, 0}, {it[2], "right", 0.2, 0.3, 0.9}};
}

Parts coloured_faces() {
  TopoDS_Shape hollow = cut(box(40, 0, 0, 20, 20, 20), {ball(50, 10, 10, 6)});
  return {{filleted(cube(20), 3, 100), "cushion", 0.9, 0.9, 0, 5}, {hollow, "hollow", 0, 0.5, 0, 1}};
}

// A bent lead of a package, on its right side.
TopoDS_Shape lead(double y) {
  Points side = {gp_Pnt(1.9, 0.8, 0), gp_Pnt(2.4, 0.8, 0), gp_Pnt(2.6, 0.1, 0), gp_Pnt(3, 0.1, 0),
                 gp_Pnt(3, 0, 0),     gp_Pnt(2.5, 0, 0),   gp_Pnt(2.3, 0.7, 0), gp_Pnt(1.9, 0.7, 0)};
  return moved(moved(prism(side, 0.4), rotation(X, M_PI / 2)), translation(0, y, 0));
}

// A package with eight leads, as those of electronic parts are: a body with a mark at its first lead, and the leads, each a solid.
Parts chip() {
  TopoDS_Shape body = cut(chamfered(box(-1.95, -2.45, 0.2, 3.9, 4.9, 1.4), 0.2, 100), {cylinder(axes(-1.2, 1.7, 1.5), 0.3, 1)});
  Parts parts = {{body, "SOIC-8 body", 0.1, 0.1, 0.1}};
  for (int i = 0; i < 4; i++) {
    TopoDS_Shape right = lead(1.27 * i - 1.7);
    gp_Trsf turn = rotation(Z, M_PI);
    parts.push_back({right, "pin " + std::to_string(i + 5), 0.8, 0.8, 0.85});
    parts.push_back({moved(right, turn), "pin " + std::to_string(i + 1), 0.8, 0.8, 0.85});
  }
  return parts;
}

std::vector<Recipe> with_colours_and_names() {
  return {
      {"named_box", CLOSED, nullptr, [] { return Parts{{cube(10), "housing", 0.8, 0.1, 0.1}}; }},
      {"named_three", CLOSED, nullptr, named_three},
      {"named_flange", CLOSED, nullptr, [] { return Parts{{flange(), "flange DN 20", 0.5, 0.5, 0.55, 3}}; }},
      {"named_long", CLOSED, nullptr, [] { return Parts{{cube(4), std::string(150, 'n'), 0.1, 0.7, 0.7}}; }},
      {"named_coloured_faces", CLOSED, nullptr, coloured_faces},
      {"named_chip", CLOSED, nullptr, chip},
      {"named_open", "PAIR", nullptr, [] { return Parts{{without_faces(cube(10), 1), "lidless", 0.3, 0.3, 0.3}}; }},
  };
}

}  // namespace

std::vector<Recipe> recipes() {
  std::vector<Recipe> all;
  for (auto some : {primitives, dressed, combinations, swept_solids, of_several_shells, faulty, of_several_solids, with_colours_and_names}) {
    std::vector<Recipe> found = some();
    all.insert(all.end(), found.begin(), found.end());
  }
  return all;
}
