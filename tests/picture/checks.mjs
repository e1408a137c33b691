/** The checks of the picture's geometry: each gives names and whether they hold. */
import { curveOf, edgePoints, evenFit, pointsAlong } from "../../companion/picture_js/curves.js";
import { areaOf, meshOf } from "../../companion/picture_js/mesh.js";
import { Picture } from "../../companion/picture_js/picture.js";
import { IgesFile } from "../../companion/picture_js/records.js";
import { sceneOf } from "../../companion/picture_js/scene.js";
import { Solid } from "../../companion/picture_js/solid.js";
import { normalAt } from "../../companion/picture_js/spline_surfaces.js";
import { surfaceOf } from "../../companion/picture_js/surfaces.js";
import { cross, lengthOf, minus } from "../../companion/picture_js/vectors.js";
import { answerOf, NotUnderstood } from "../../companion/picture_js/where_text.js";
import { faceFile, fileOf } from "./iges.mjs";

const ROOT = Math.sqrt(2), isZero = it => Math.abs(it) < 1e-9;
const isOnCircle = ([x, y, z]) => isZero(Math.hypot(x, y) - 2) && isZero(z - 1);
const isOnSegment = ([x, y, z]) => isZero(y) && isZero(z) && x >= -1e-9 && x <= 3 + 1e-9;
const zeros = count => Array(count).fill(0);
const LINE = [110, 0, [0, 0, 0, 3, 0, 0]];
/** Curves from one point to another, all points of which fulfil a condition. */
const CURVES = [
  ["arc", [[100, 0, [1, 0, 0, 2, 0, 0, 2]]], [2, 0, 1], [0, 2, 1], isOnCircle],
  ["full circle", [[100, 0, [1, 0, 0, 2, 0, 2, 0]]], [2, 0, 1], [2, 0, 1], isOnCircle],
  ["ellipse", [[104, 1, [1, 0, 4, 0, 0, -4, 0, 2, 0, 0, 1]]], [2, 0, 0], [0, 1, 0], ([x, y]) =>
    isZero(x * x + 4 * y * y - 4)],
  ["turned ellipse", [[104, 1, [5, -6, 5, 0, 0, -8, 0, ROOT, ROOT, -ROOT, -ROOT]]],
    [ROOT, ROOT, 0], [-ROOT, -ROOT, 0], ([x, y]) => isZero(5 * x * x - 6 * x * y + 5 * y * y - 8)],
  ["hyperbola", [[104, 2, [1, 0, -1, 0, 0, -1, 0, ROOT, -1, ROOT, 1]]], [ROOT, -1, 0],
    [ROOT, 1, 0], ([x, y]) => isZero(x * x - y * y - 1) && x > 0],
  ["upright hyperbola", [[104, 2, [0, 1, 0, 0, 0, -1, 0, 1, 1, 2, 0.5]]], [1, 1, 0], [2, 0.5, 0],
    ([x, y]) => isZero(x * y - 1)],
  ["parabola", [[104, 3, [1, 0, 0, 0, -1, 0, 0, -1, 1, 2, 4]]], [-1, 1, 0], [2, 4, 0], ([x, y]) =>
    isZero(x * x - y)],
  ["lying parabola", [[104, 3, [0, 0, 1, -1, 0, 0, 0, 1, -1, 4, 2]]], [1, -1, 0], [4, 2, 0],
    ([x, y]) => isZero(y * y - x)],
  ["path in a plane", [[106, 11, [1, 3, 0, 0, 0, 1, 0, 3, 0]]], [0, 0, 0], [3, 0, 0], isOnSegment],
  ["path in space", [[106, 12, [2, 2, 0, 0, 0, 3, 0, 0]]], [0, 0, 0], [3, 0, 0], isOnSegment],
  ["path with directions", [[106, 13, [3, 2, 0, 0, 0, 1, 1, 1, 3, 0, 0, 1, 1, 1]]], [0, 0, 0],
    [3, 0, 0], isOnSegment],
  ["closed path", [[106, 63, [1, 3, 0, 0, 0, 1, 0, 3, 0]]], [0, 0, 0], [0, 0, 0], isOnSegment],
  ["line", [LINE], [0, 0, 0], [3, 0, 0], isOnSegment],
  ["line, the other way", [LINE], [3, 0, 0], [0, 0, 0], isOnSegment],
  ["cubics", [[112, 0,
    [3, 1, 3, 2, 0, 1, 2, 0, 1, 0, 0, 0, 0, 1, ...zeros(5), 1, 1, 0, 0, 1, 2, 1, ...zeros(17)]]],
    [0, 0, 0], [2, 4, 0], ([x, y]) => isZero(y - x * x)],
  ["B-spline of degree 1",
    [[126, 0, [1, 1, 1, 0, 1, 0, 0, 0, 1, 1, 1, 1, 0, 0, 0, 3, 0, 0, 0, 1, 0, 0, 1]]], [0, 0, 0],
    [3, 0, 0], isOnSegment],
  ["rational B-spline",
    [[126, 0, [2, 2, 1, 0, 0, 0, 0, 0, 0, 1, 1, 1, 1, 1 / ROOT, 1, 2, 0, 1, 2, 2, 1, 0, 2, 1, 0, 1,
    0, 0, 1]]], [2, 0, 1], [0, 2, 1], isOnCircle],
  ["composite",
    [[102, 0, [3, 3, 7, 5]], [110, 0, [0, 0, 0, 1, 0, 0]], [110, 0, [1, 0, 0, 3, 0, 0]],
    [116, 0, [9, 9, 9, 0]]], [0, 0, 0], [3, 0, 0], isOnSegment],
  ["offset of a line",
    [[130, 0, [3, 1, 0, 3, 1, 2, 0, 0, 0, 0, 0, 1, 0, 1]], [110, 0, [0, -2, 0, 3, -2, 0]]],
    [0, 0, 0], [3, 0, 0], isOnSegment],
  ["part of an offset",
    [[130, 0, [3, 1, 0, 3, 1, -1, 0, 0, 0, 0, 0, 1, 0, Math.PI / 2]],
    [100, 0, [1, 0, 0, 1, 0, -1, 0]]], [2, 0, 1], [0, 2, 1], ([x, y]) =>
    Math.abs(Math.hypot(x, y) - 2) < 1e-6],
  ["a line under two matrices",
    [[110, 0, [0, 0, 0, 3, 0, 0], 3], [124, 0, [0, -1, 0, 0, 1, 0, 0, 0, 0, 0, 1, 0], 5],
    [124, 0, [1, 0, 0, 1, 0, 1, 0, 0, 0, 0, 1, 5]]], [1, 0, 5], [1, 3, 5], ([x, y, z]) =>
    isZero(x - 1) && isZero(z - 5)],
];
/** Curves that aren't drawn, which is told and no fault of the page. */
const UNDRAWN = [
  ["of another type", [[114, 0, [0]]]], ["that names itself", [[102, 0, [2, 1, 1]]]],
    ["without values", [[100, 0, []]]],
  ["of a text", [[110, 0, Array(6).fill("3Habc")]]],
    ["too large", [[110, 0, [0, 0, 0, "1E400", 0, 0]]]],
  ["with a huge count", [[126, 0, [1e9, 3]]]], ["of no spans", [[112, 0, [3, 1, 3, 0]]]],
  ["that ends elsewhere", [[110, 0, [5, 5, 5, 6, 5, 5]]]],
    ["with a negative count", [[102, 0, [-3, 5]]]],
  ["with weights of 0", [[126, 0, [1, 1, 0, 0, 0, 0, 0, 0, 1, 1, ...zeros(8), 0, 1]]]],
  ["beside nothing", [[130, 0, [99, 1, 0, 3, 1, ...zeros(9)]]]],
  ["that is a point", [[130, 0, [3, 1, 0, 3, 1, ...zeros(9)]], [110, 0, zeros(6)]]],
  ["under matrices that name each other",
    [[110, 0, [0, 0, 0, 3, 0, 0], 3], [124, 0, zeros(12), 5], [124, 0, zeros(12), 3]]],
];

/** The greatest distance of a curve from the points drawn of it, sampled between them. */
function deviationOf(curve, points) {
  let most = 0;
  const [first, last] = [curve.breaks[0], curve.breaks.at(-1)];
  for (let k = 0; k <= 2000; k++) {
    const p = curve.at(first + ((last - first) * k) / 2000);
    let least = Infinity;
    for (let n = 1; n < points.length; n++) {
      const [a, b] = [points[n - 1], points[n]], chord = b.map((it, axis) => it - a[axis]);
      const square = chord.reduce((sum, it) => sum + it * it, 0);
      const part = square
        ? chord.reduce((sum, it, axis) => sum + it * (p[axis] - a[axis]), 0) / square : 0;
      const near = a.map((it, axis) => it + chord[axis] * Math.max(0, Math.min(1, part)));
      least = Math.min(least, Math.hypot(...near.map((it, axis) => it - p[axis])));
    }
    most = Math.max(most, least);
  }
  return most;
}

export function* curves() {
  for (const [name, records, start, end, holds] of CURVES) {
    const curve = curveOf(new IgesFile(fileOf(records)), 1);
    const points = edgePoints(curve, start, end, evenFit(0.003));
    const isThere = points[0] === start && points.at(-1) === end;
    yield [`picture: ${name}`, isThere && points.every(holds)];
    yield [`picture: ${name} is near its chords`,
      deviationOf(curve, pointsAlong(curve, evenFit(0.003))) <= 0.0031];
  }
  for (const [name, records] of UNDRAWN) {
    let isRefused = false;
    try {
      edgePoints(curveOf(new IgesFile(fileOf(records)), 1), [0, 0, 0], [3, 0, 0], evenFit(0.01));
    } catch {
      isRefused = true;
    }
    yield [`picture: a curve ${name}`, isRefused];
  }
}

// ---- Areas. ----

const TAU = 2 * Math.PI;
const circle = (radius, z, at = radius) =>
  ({ kind: 100, values: [z, 0, 0, at, 0, at, 0], start: 0, end: 0 });
const more = k => ({ more: k });
const AXES = [[116, 0, [0, 0, 0, 0]], [123, 0, [0, 0, 1]], [123, 0, [1, 0, 0]]];
const quarter = (start, end, ax, ay, bx, by, z) =>
  ({ kind: 100, values: [z, 0, 0, ax, ay, bx, by], start, end });
const line = (start, end, vertices) =>
  ({ kind: 110, values: [...vertices[start], ...vertices[end]], start, end });
const square = [[0, 0, 0], [2, 0, 0], [2, 2, 0], [0, 2, 0]];
const rim = vertices => vertices.map((_, k) => line(k, (k + 1) % vertices.length, vertices));
const CYLINDER =
  { vertices: [[2, 0, 0], [2, 0, 3]],
  surface: { kind: 192, form: 1, values: [more(0), more(1), 2, more(2)] }, more: AXES };
const TORUS = { kind: 198, form: 1, values: [more(0), more(1), 5, 1, more(2)] };
const SPHERE = { kind: 196, form: 1, values: [more(0), 2, more(1), more(2)] };
const IDENTITY = [0, 0, 1, 1];
/** The bilinear B-spline surface over the square. */
const PATCH =
  { kind: 128,
  values: [1, 1, 1, 1, 0, 0, 1, 0, 0, ...IDENTITY, ...IDENTITY, 1, 1, 1, 1, ...square[0],
  ...square[1], ...square[3], ...square[2], 0, 1, 0, 1] };
/** The parametric spline surface x = s, y = t over the square of side 2. */
const BICUBIC =
  { kind: 114,
  values: [3, 1, 1, 1, 0, 2, 0, 2, ...[[0, 1], [0, 0, 0, 0, 1], []]
  .flatMap(it => [...it, ...zeros(16 - it.length)]), ...zeros(144)] };
const upright = { kind: 100, values: [0, 0, 0, 2, 0, 2, 0], start: 0, end: 0 };
/** A flank of a thread: two turns of a helix of pitch 1, between the radii 1 and 2. */
function flank() {
  const helix = radius => Array.from({ length: 241 }, (_, k) => {
    const angle = (TAU * k) / 120;
    return [radius * Math.cos(angle), radius * Math.sin(angle), angle / TAU]
      .map(it => it.toFixed(9));
  });
  const [inner, outer] = [helix(1), helix(2)];
  const vertices = [inner[0], inner[240], outer[240], outer[0]];
  const curve = (points, start, end) =>
    ({ kind: 106, form: 12, values: [2, 241, ...points.flat()], start, end });
  const edges =
    [curve(inner, 0, 1), line(1, 2, vertices), curve(outer, 3, 2), line(3, 0, vertices)];
  const more = edges.filter(it => it.form === 12).map(it => [106, 12, it.values]);
  const surface = { kind: 118, form: 1, values: [{ more: 0 }, { more: 1 }, 0, 0] };
  return { vertices, edges, loops: [[[0, 1], [1, 1], [2, 0], [3, 1]]], surface, more };
}

/** The area of the helicoid of that flank. */
function flankArea() {
  const c = 1 / TAU;
  const primitive = r => (r * Math.sqrt(r * r + c * c) + c * c * Math.asinh(r / c)) / 2;
  return 2 * TAU * (primitive(2) - primitive(1));
}

/** The name of a face, the face, and its area. */
const FACES = [
  ["a plate", { vertices: square, edges: rim(square), loops: [[[0, 1], [1, 1], [2, 1], [3, 1]]],
    surface: { kind: 108, values: [0, 0, 1, 0, 0, 0, 0, 0, 0] } }, 4],
  ["a plate by its point",
    { vertices: square, edges: rim(square), loops: [[[0, 1], [1, 1], [2, 1], [3, 1]]],
    surface: { kind: 190, values: [more(0), more(1)] }, more: AXES }, 4],
  ["a plate with a hole",
    { vertices: [[5, 0, 0], [1, 0, 0]],
    edges: [{ ...circle(5, 0) }, { ...circle(1, 0), start: 1, end: 1 }],
    loops: [[[0, 1]], [[1, 0]]], surface: { kind: 108, values: [0, 0, 1, 0, 0, 0, 0, 0, 0] } },
    24 * Math.PI],
  ["a cylinder with a seam",
    { ...CYLINDER,
    edges: [circle(2, 0), { ...circle(2, 3), start: 1, end: 1 }, line(0, 1, CYLINDER.vertices)],
    loops: [[[0, 1], [2, 1], [1, 0], [2, 0]]] }, 6 * TAU],
  ["a cylinder of two loops",
    { ...CYLINDER, edges: [circle(2, 0), { ...circle(2, 3), start: 1, end: 1 }],
    loops: [[[0, 1]], [[1, 0]]] }, 6 * TAU],
  ["a quarter of a cylinder",
    { ...CYLINDER, vertices: [[2, 0, 0], [0, 2, 0], [0, 2, 3], [2, 0, 3]],
    edges: [quarter(0, 1, 2, 0, 0, 2, 0), line(1, 2, [[2, 0, 0], [0, 2, 0], [0, 2, 3]]),
    quarter(3, 2, 2, 0, 0, 2, 3), line(3, 0, [[2, 0, 0], 0, 0, [2, 0, 3]])],
    loops: [[[0, 1], [1, 1], [2, 0], [3, 1]]] }, 1.5 * TAU],
  ["a cone with its apex",
    { vertices: [[2, 0, 0], [0, 0, 2]],
    edges: [circle(2, 0), { kind: 110, values: [2, 0, 0, 0, 0, 2], start: 0, end: 1 }],
    loops: [[[0, 1], [1, 1], [1, 0]]],
    surface: { kind: 194, form: 1, values: [more(0), more(1), 2, -45, more(2)] }, more: AXES },
    Math.PI * 2 * Math.sqrt(8)],
  ["a cone of one loop",
    { vertices: [[2, 0, 0]], edges: [circle(2, 0)], loops: [[[0, 1]]],
    surface: { kind: 194, form: 1, values: [more(0), more(1), 2, -45, more(2)] }, more: AXES },
    Math.PI * 2 * Math.sqrt(8)],
  ["a sphere at a pole",
    { vertices: [[0, 0, 2]], edges: [], loops: [[[-1, 0]]], surface: SPHERE, more: AXES },
    16 * Math.PI],
  ["an upper half of a sphere",
    { vertices: [[2, 0, 0]], edges: [upright], loops: [[[0, 1]]], surface: SPHERE, more: AXES },
    8 * Math.PI],
  ["a lower half of a sphere",
    { vertices: [[2, 0, 0]], edges: [upright], loops: [[[0, 0]]], surface: SPHERE, more: AXES },
    8 * Math.PI],
  ["a torus of two seams",
    { vertices: [[6, 0, 0]],
    edges: [circle(6, 0),
    { kind: 100, values: [0, 0, 0, 1, 0, 1, 0], start: 0, end: 0, isUpright: true }],
    loops: [[[0, 1], [1, 1], [0, 0], [1, 0]]], surface: TORUS, more: AXES }, 20 * Math.PI ** 2],
  ["half a torus, of two loops",
    { vertices: [[6, 0, 0], [4, 0, 0]],
    edges: [circle(6, 0), { ...circle(4, 0), start: 1, end: 1 }], loops: [[[0, 1]], [[1, 0]]],
    surface: TORUS, more: AXES }, 10 * Math.PI ** 2],
  ["a ruled surface",
    { vertices: square, edges: rim(square), loops: [[[0, 1], [1, 1], [2, 1], [3, 1]]],
    surface: { kind: 118, form: 1, values: [more(0), more(1), 0, 0] },
    more: [[110, 0, [0, 0, 0, 2, 0, 0]], [110, 0, [0, 2, 0, 2, 2, 0]]] }, 4],
  ["a tabulated cylinder",
    { vertices: CYLINDER.vertices, edges: [circle(2, 0), { ...circle(2, 3), start: 1, end: 1 }],
    loops: [[[0, 1]], [[1, 0]]], surface: { kind: 122, values: [more(0), 2, 0, 3] },
    more: [[100, 0, [0, 0, 0, 2, 0, 2, 0]]] }, 6 * TAU],
  ["a surface of revolution",
    { vertices: CYLINDER.vertices, edges: [circle(2, 0), { ...circle(2, 3), start: 1, end: 1 }],
    loops: [[[0, 1]], [[1, 0]]], surface: { kind: 120, values: [more(0), more(1), 0, TAU] },
    more: [[110, 0, [0, 0, 0, 0, 0, 1]], [110, 0, [2, 0, 0, 2, 0, 3]]] }, 6 * TAU],
  ["a B-spline surface",
    { vertices: square, edges: rim(square), loops: [[[0, 1], [1, 1], [2, 1], [3, 1]]],
    surface: PATCH }, 4],
  ["a parametric spline surface",
    { vertices: square, edges: rim(square), loops: [[[0, 1], [1, 1], [2, 1], [3, 1]]],
    surface: BICUBIC }, 4],
  ["a flank of a thread", flank(), flankArea()],
  ["an offset surface",
    { vertices: [[2, 0, 0], [2, 0, 3]],
    edges: [circle(2, 0), { ...circle(2, 3), start: 1, end: 1 }], loops: [[[0, 1]], [[1, 0]]],
    surface: { kind: 140, values: [-1, 0, 0, 1, more(3)] },
    more: [...AXES, [192, 1, [more(0), more(1), 1, more(2)]]] }, 6 * TAU],
];

/** Whether the normals of a mesh of a sphere lead outwards. */
function leadOutwards(bytes) {
  const solid = new Solid(new IgesFile(bytes), 1), picture = new Picture(solid);
  const mesh = picture.mesh(solid.shells[0].faces[0], Infinity, true);
  const product = (a, b) =>
    a.reduce((sum, it, axis) => sum + it * (b[axis] + picture.middle[axis]), 0);
  return mesh.points.every((it, k) => product(mesh.normals[k], it) > 1.99);
}

/** The area of each shell of a solid, and the reasons of faces without one. */
export function areasOf(bytes, number) {
  const solid = new Solid(new IgesFile(bytes), number), picture = new Picture(solid);
  return solid.shells.map(shell => shell.faces.reduce((sum, face) => {
    const trimmed = picture.trimmed(face);
    return sum + (trimmed ? areaOf(meshOf(trimmed.surface, trimmed.region, picture.tolerance / 4))
      : NaN);
  }, 0));
}

/** The area that Open CASCADE finds of the thick sheet. */
const THICK_SHEET = 2117.692822;

/** Each point of an offset surface is as far from its base as is told, along the normal there. */
export function* offsets({ file }) {
  const source = new IgesFile(file("thick_sheet_with_an_offset_surface"));
  const picture = new Picture(new Solid(source, 1));
  const face = [...picture.faces.values()].find(it => picture.surfaceOf(it).kind === 140);
  const values = source.values(face.surface).map(Number), base = surfaceOf(source, values[4]);
  const { at, ranges: [us, vs] } = picture.surfaceOf(face);
  let most = 0;
  for (let i = 0; i <= 20; i++) {
    for (let j = 0; j <= 20; j++) {
      const u = us[0] + ((us[1] - us[0]) * i) / 20, v = vs[0] + ((vs[1] - vs[0]) * j) / 20;
      const way = minus(at(u, v), base.at(u, v)), normal = normalAt(base, u, v);
      most = Math.max(most, Math.abs(lengthOf(way) - Math.abs(values[3])),
        lengthOf(cross(way, normal)));
    }
  }
  yield ["picture: an offset surface is beside its base", Math.abs(values[3]) === 2 && most < 1e-6];
  const [area] = areasOf(file("thick_sheet_with_an_offset_surface"), 1);
  yield [`picture: the area of a thick sheet: ${area}`, isNear(area, THICK_SHEET)];
}

const isNear = (found, wanted) => Math.abs(found - wanted) < 0.004 * wanted;

export function* areas({ file }) {
  for (const [name, face, wanted] of FACES) {
    const edges =
      face.edges.map(it =>
      (it.isUpright ? { kind: 126, values: uprightCircle() , start: 0, end: 0 } : it));
    const [found] = areasOf(faceFile({ more: [], ...face, edges }), 1);
    yield [`picture: the area of ${name}: ${found.toFixed(3)} for ${wanted.toFixed(3)}`,
      isNear(found, wanted)];
  }
  for (const [name, face] of FACES.filter(it => / of a sphere$/.test(it[0]))) {
    yield [`picture: the normals of ${name}`, leadOutwards(faceFile({ more: [], ...face }))];
  }
  const known = [
    ["cube", 1, [6]], ["cylinder", 1, [4 * Math.PI]], ["ball", 1, [4 * Math.PI]],
      ["point", 1, [4 * Math.PI]],
    ["14_box_void_sphere", 3, [2400, 100 * Math.PI]], ["05_sphere", 1, [196 * Math.PI]],
    ["torus", 1, [400 * Math.PI ** 2]],
    ["box_under_a_parametric_spline_surface", 1, [70 + lidArea()]],
  ];
  for (const [name, number, wanted] of known) {
    const found = areasOf(file(name), number);
    yield [`picture: the area of ${name}: ${found}`, found.every((it, k) => isNear(it, wanted[k]))];
  }
}

/** The area of z = p(x) + p(y) / 2 for x and y from 0 to 4 (tests/spline_files.py says of p). */
function lidArea() {
  const count = 400, slope = x =>
    (x < 2 ? x * (1.5 - 0.75 * x) : (x - 2) * (0.75 * (x - 2) - 1.5));
  const places = Array.from({ length: count }, (_, k) => slope((4 * (k + 0.5)) / count) ** 2);
  const sum = places.reduce((sum, a) =>
    sum + places.reduce((part, b) => part + Math.sqrt(1 + a + b / 4), 0), 0);
  return sum * (4 / count) ** 2;
}

/** The circle of radius 1 round (5, 0, 0) in the XZ plane, from (6, 0, 0) on, as a B-spline. */
function uprightCircle() {
  const w = 1 / ROOT;
  const corners = [[1, 0], [1, 1], [0, 1], [-1, 1], [-1, 0], [-1, -1], [0, -1], [1, -1], [1, 0]];
  const knots = [0, 0, 0, 1, 1, 2, 2, 3, 3, 4, 4, 4];
  const weights = corners.map((_, k) => (k % 2 ? w : 1));
  return [8, 2, 1, 1, 0, 0, ...knots, ...weights, ...corners.flatMap(([x, z]) => [5 + x, 0, z]), 0,
    4, 0, 1, 0];
}

// ---- Drawn vertices, faults, hints, and geometry changed at random. ----

/** The text that is marked in the lines of a bad file or record. */
const MARKED = { fail_index: "2", fail_entry: "17", fail_record: ";", fail_once: "5" };

/** A vertex and its coordinates in the text of `where`. */
const VERTEX_TOLD =
  /(?:vertex|start|end|ends|starts|at|touches) (\d+) (\d+) (\S+) (\S+) (\S+)/g;

export function* vertices({ file, texts }) {
  for (const { name, number, text } of texts) {
    const scene = sceneOf(`${name}.igs`, number, text, file(name)), { picture } = scene;
    if (!picture) continue;
    let count = 0, held = 0;
    for (const [, list, index, x, y, z] of text.matchAll(VERTEX_TOLD)) {
      const point = picture.points[picture.solid.vertexNumbers.get(`${list} ${index}`)];
      count++;
      held += [x, y, z]
        .every((it, axis) => Math.abs(Number(it) - picture.middle[axis] - point[axis]) < 1e-9);
    }
    yield [`picture: ${name}: ${count} vertices are drawn where the text tells`, held === count];
  }
}

export function* faults({ file, texts }) {
  for (const { name, number, text } of texts) {
    const scene = sceneOf(`${name}.igs`, number, text, file(name));
    const listed = scene.rules.reduce((sum, rule) => sum + rule.faults.length + rule.more, 0);
    yield [`picture: ${name} has its faults`, scene.verdict === text.split("\n")[0]
      && (listed > 0 || /^(closed|bad)/.test(text))];
    yield [`picture: ${name} has a picture or lines`,
      Boolean(scene.picture) !== Boolean(scene.excerpt) || scene.notes.length > 0];
    let isRefused = false;
    try {
      answerOf(text.replace(/^rule.*$/m, "$& x").replace(/^(closed|bad).*$/m, "$& x"));
    } catch (fault) {
      isRefused = fault instanceof NotUnderstood;
    }
    const hints = [...text.matchAll(/^hint (?!remedy|stuck|more)(.*)$/gm)].map(it => it[1]);
    const told = scene.hints.filter(it => !it.command).map(it => it.head);
    yield [`picture: the hints of ${name}`, told.join() === hints.join()];
    const commands = scene.hints.map(it => it.command).filter(Boolean), isTwice = name === "fail_once";
    yield [`picture: what mends ${name}`, isTwice === scene.says.includes("twice")
      && commands.join() === (isTwice ? `igesolid mend FILE ${number} > mended.igs` : "")];
    if (name in MARKED)
      yield [`picture: what is marked of ${name}`, markedIn(scene.excerpt) === MARKED[name]];
    yield [`picture: ${name} with a word more isn't understood`, isRefused
      || !/^(rule|closed|bad)/m.test(text)];
  }
}

/** What remedies mark of a text: faces, how many edges and vertices; and the command or none. */
const REMEDIES = {
  "76_pinched_vertex": [["copy 1 vertex, copy 3 edges", "", 3, 1, true]],
  "one_sided": [],
  "stray_face": [
    ["remove 1 face", "113 removed", 0, 0, true],
    ["part it into 2 bodies, make a face on 1 rim", "5 body 1,113 body 2", 4, 0, false],
  ],
  "turned": [
    ["turn 1 face", "21 turned", 0, 0, true],
    ["reverse 1 loop, change the flags of 4 uses", "21 loop reversed", 4, 0, true],
  ],
  "two_lumps": [["part it into 2 bodies", "5 body 1,129 body 2", 0, 0, true]],
  "unsewn_box": [
    ["sew 12 pairs of edges", "", 8, 0, true], ["sew 12 pairs of edges", "", 4, 0, true],
    ["remove 5 faces, make a face on 1 rim", [69, 81, 93, 105, 117].map(it => `${it} removed`).join(),
      4, 0, false],
  ],
};

export function* remedies({ file, withRemedies }) {
  for (const { name, number, text } of withRemedies) {
    const [{ shell, remedies: told, left }] =
      sceneOf("", number, text, file(name), `a ${name}.igs`).remedies;
    const marked = told.map(it => [
      it.words, it.faces.map(([face], k) => `${face.entity} ${it.said[k]}`).join(), it.spokes.length,
      it.dots.length, it.command.startsWith(`igesolid mend 'a ${name}.igs' ${number} ${it.remedy} `),
    ]);
    yield [`picture: the remedies of ${name}`,
      JSON.stringify(marked) === JSON.stringify(REMEDIES[name]) && shell === 1];
    yield [`picture: more remedies of ${name}`, left === (name === "unsewn_box" ? 2 : 0)];
    const steps = told.flatMap(it => it.steps);
    yield [`picture: the steps of ${name} are told`,
      steps.every(it => it.sentence && it.told.length)];
  }
}

function markedIn({ first, lines, marks }) {
  return marks.map(([line, column, length]) => lines[line - first]
    .slice(column - 1, column - 1 + length)).join("");
}

/** Numbers that look like chance, from a seed. */
function* chances(seed) {
  for (let state = seed; ; ) {
    state = (state * 1103515245 + 12345) % 2147483648;
    yield state / 2147483648;
  }
}

/** A file with some bytes changed, in records of curves, surfaces, points and matrices alone. */
function changed(bytes, chance) {
  const file = new IgesFile(bytes), copy = bytes.slice(), places = [];
  for (let number = 1; number < file.recordsAt - file.directoryAt; number += 2) {
    const { kind, first, lines } = file.entry(number);
    if (kind >= 186 && kind < 600 && ![190, 192, 194, 196, 198, 502].includes(kind)) continue;
    for (let line = 0; line < lines; line++)
      places.push(file.starts[file.recordsAt + first - 1 + line]);
  }
  const pick = list => list[Math.floor(chance.next().value * list.length)];
  for (let k = 0; k < 5; k++)
    copy[pick(places) + 4 + Math.floor(chance.next().value * 60)] = pick([..."9,;E-.H "])
    .charCodeAt(0);
  return copy;
}

/** Whatever geometry holds, there is a picture with the same faults, and only numbers in it. */
export function* randomGeometry({ file, texts }) {
  const chance = chances(126);
  let held = 0, count = 0;
  for (const { name, number, text } of texts.filter(it => /^shells/m.test(it.text))) {
    const whole = sceneOf("", number, text, file(name))
      .rules.flatMap(it => it.faults.map(fault => fault.head)).join();
    for (let k = 0; k < 25; k++, count++) {
      const scene = sceneOf("", number, text, changed(file(name), chance)), { picture } = scene;
      if (!picture) {
        held += scene.notes.length > 0;
        continue;
      }
      for (const face of picture.faces.values()) {
        picture.insideOf(face);
        picture.mesh(face, 2000, true);
        picture.isolines(face, 1);
      }
      const isNumeric = [...picture.points.filter(Boolean), ...picture.edges.flat()]
        .every(it => it.every(Number.isFinite));
      held += isNumeric && scene.rules.flatMap(it => it.faults.map(fault => fault.head))
        .join() === whole;
    }
  }
  yield [`picture: geometry changed at random: ${held} of ${count}`, held === count && count > 0];
}
