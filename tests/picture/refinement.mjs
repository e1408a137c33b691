/** What is drawn finer where the view is near: counts of vertices, and their positions. */
import { Camera } from "../../companion/picture_js/camera.js";
import { Lines } from "../../companion/picture_js/lines.js";
import { Picture } from "../../companion/picture_js/picture.js";
import { IgesFile } from "../../companion/picture_js/records.js";
import { Refining } from "../../companion/picture_js/refining.js";
import { CurvedFace } from "../../companion/picture_js/silhouettes.js";
import { Solid } from "../../companion/picture_js/solid.js";

const WIDTH = 800, HEIGHT = 600, THOUSANDTH = 0.001 * HEIGHT;

/** What a view draws of a solid, with a camera. */
function drawnOf(bytes, number) {
  const picture = new Picture(new Solid(new IgesFile(bytes), number));
  const camera = Object.assign(new Camera(picture.size), { width: WIDTH, height: HEIGHT });
  camera.scale = (0.6 * HEIGHT) / picture.size;
  const curved = [...picture.faces.values()].filter(it => picture.isCurved(it));
  const curves = curved.flatMap(it => picture.isolineCurves(it, 2));
  const faces = curved.map(it =>
    new CurvedFace(picture.mesh(it, Infinity, true), picture.surfaceOf(it), picture.middle));
  const edges = new Lines(picture.edges), isolines =
    new Lines(curves.map(it => picture.isolinePoints(it)));
  return { picture, camera, drawn: { edges, isolines, curves, faces } };
}

/** The coarse silhouettes, as a view draws them from afar. */
function coarseOf({ faces }, towards) {
  const lines = [];
  for (const face of faces)
    face.eachCrossed(towards, (places, facing) => lines.push(face.ends(places, facing)));
  return new Lines(lines);
}

/** The lines in view, as places on the screen. */
function placesOf(camera, lines) {
  const found = [];
  for (let k = 0; k < lines.count; k++) {
    const line = [];
    for (let p = lines.from[k]; p < lines.from[k + 1]; p++)
      line.push(camera.project([...lines.points.subarray(3 * p, 3 * p + 3)]));
    const [us, vs] = [0, 1].map(axis => line.map(it => it[axis]));
    const isBeside = Math.max(...us) < 0 || Math.min(...us) > WIDTH;
    if (!isBeside && Math.max(...vs) > 0 && Math.min(...vs) < HEIGHT) found.push(line);
  }
  return found;
}

function awayFrom([u, v], lines) {
  let least = Infinity;
  for (const line of lines) {
    for (let k = 1; k < line.length; k++) {
      const [[a, b], [c, d]] = [line[k - 1], line[k]], x = c - a, y = d - b;
      const square = x * x + y * y;
      const part = square ? Math.max(0, Math.min(1, ((u - a) * x + (v - b) * y) / square)) : 0;
      least = Math.min(least, Math.hypot(a + part * x - u, b + part * y - v));
    }
  }
  return least;
}

/** Whether each point that is due and in view is near to a line, by pixels. */
function areDrawn(camera, due, lines) {
  const places = due.map(it => camera.project(it))
    .filter(([u, v]) => u > 0 && v > 0 && u < WIDTH && v < HEIGHT);
  return places.length > 20 && places.every(it => awayFrom(it, lines) <= THOUSANDTH);
}

const vectorOf = (turn, row) => turn.slice(3 * row, 3 * row + 3);
const mixed = (a, x, b, y) => a.map((it, k) => it * x + b[k] * y);

/** Points of a circle round the origin, from an angle on, so many as a view of this zoom needs. */
function* arcOf(right, up, radius, zoom) {
  for (let k = -400; k <= 400; k++) {
    const angle = 0.7 + k / (400 * zoom);
    yield mixed(right, radius * Math.cos(angle), up, radius * Math.sin(angle));
  }
}

const ZOOMS = [1, 4, 30, 1000, 30000];

/** The outline of a sphere is a circle, whatever its zoom; what is seen of it has few vertices. */
function* ofSphere(file) {
  const { picture, camera, drawn } = drawnOf(file("05_sphere"), 1), radius = 7;
  const [right, up, towards] = [0, 1, 2].map(it => vectorOf(camera.turn, it));
  const own = camera.scale, coarse = coarseOf(drawn, towards).pointCount;
  const middle = picture.middle.map(it => -it);
  for (const zoom of ZOOMS) {
    const refining = new Refining(picture, camera);
    camera.scale = own * zoom;
    camera.centre = mixed(middle, 1,
      mixed(right, radius * Math.cos(0.7), up, radius * Math.sin(0.7)), zoom > 1 ? 1 : 0);
    const isFine = refining.refine(drawn), lines = refining.silhouettes || coarseOf(drawn, towards);
    const due = [...arcOf(right, up, radius, zoom)].map(it => mixed(it, 1, middle, 1));
    const seen = placesOf(camera, lines), count = seen.reduce((sum, it) => sum + it.length, 0);
    const told = `${lines.pointCount} vertices for ${coarse}, ${count} in view`;
    yield [`picture: a sphere's outline, ${zoom} times as near: ${told}`,
      areDrawn(camera, due, seen) && isFine === zoom > 1 && lines.pointCount < 4 * coarse];
    if (zoom > 1) {
      const finest = zoom < 30 || lines.pointCount > coarse, points = seen.flat();
      const isOnIt = points.every(([u, v]) =>
        u < 0 || v < 0 || u > WIDTH || v > HEIGHT || isOnCircle(camera, middle, radius, [u, v]));
      yield [`picture: vertices of a sphere's outline, ${zoom} times as near`, finest && isOnIt];
    }
    const isSame = refining.refine(drawn);
    yield [`picture: the same view of a sphere, ${zoom} times as near`, !isSame];
  }
}

function isOnCircle(camera, middle, radius, [u, v]) {
  const [x, y] = camera.project(middle);
  // Half a thousandth of the view and what single precision loses.
  return Math.abs(Math.hypot(u - x, v - y) - radius * camera.scale)
    < 0.0005 * HEIGHT + 1e-6 * radius * camera.scale;
}

/** The circles and the outline of a cylinder, of radius 1 and height 1. */
function* ofCylinder(file) {
  const { picture, camera, drawn } = drawnOf(file("cylinder"), 1), own = camera.scale;
  const towards = vectorOf(camera.turn, 2), middle = picture.middle;
  const before = drawn.edges.pointCount;
  for (const zoom of ZOOMS.slice(1)) {
    const refining = new Refining(picture, camera);
    camera.scale = own * zoom;
    camera.centre = [Math.cos(0.7) - middle[0], Math.sin(0.7) - middle[1], 1 - middle[2]];
    const isFine = refining.refine(drawn);
    const lines = new Lines(picture.edges.map((it, k) => refining.edges.get(k) || it));
    const due = [...arcOf([1, 0, 0], [0, 1, 0], 1, zoom)]
      .map(([x, y]) => [x - middle[0], y - middle[1], 1 - middle[2]]);
    const fine = [...refining.edges.values()].flat().map(it => mixed(it, 1, middle, 1));
    const areOnIt = fine.every(([x, y, z]) => Math.hypot(x, y) < 1 + 1e-9 && z > -1e-9
      && z < 1 + 1e-9 && (Math.abs(Math.hypot(x, y) - 1) < 1e-9));
    const told = `${lines.pointCount} vertices for ${before}`;
    const isMore = lines.pointCount > (zoom < 30 ? before - 1 : before);
    yield [`picture: the rim of a cylinder, ${zoom} times as near: ${told}`,
      isFine && areOnIt && isMore && areDrawn(camera, due, placesOf(camera, lines))];
    const outline = placesOf(camera, refining.silhouettes).flat();
    const across = Math.hypot(towards[0], towards[1]);
    // There the outline meets the rim: the normal is across the line of sight.
    const tangent = [-towards[1] / across - middle[0], towards[0] / across - middle[1]];
    camera.centre = [...tangent, 1 - middle[2]];
    refining.refine(drawn);
    const bottom = camera.project([...tangent, 0.999 - middle[2]]);
    const top = camera.project([...tangent, 1 - middle[2]]);
    const seen = placesOf(camera, refining.silhouettes);
    yield [`picture: the outline of a cylinder, ${zoom} times as near`, outline.length >= 0
      && awayFrom(top, seen) < THOUSANDTH && (zoom > 30 || awayFrom(bottom, seen) < THOUSANDTH)];
  }
}

/** Back from near, all is as coarse as before; lines inside of faces are refined too. */
function* thereAndBack(file) {
  const { picture, camera, drawn } = drawnOf(file("12_box_fillet_all"), 3), own = camera.scale;
  const refining = new Refining(picture, camera);
  yield ["picture: a view from afar", !refining.refine(drawn)];
  camera.scale = 20 * own;
  camera.centre = picture.box.high;
  const isNearer = refining.refine(drawn), fine = [...refining.isolines.values()];
  const isMore = fine.length > 0 && [...refining.isolines].every(([k, it]) =>
    it.length >= drawn.isolines.from[k + 1] - drawn.isolines.from[k]);
  yield ["picture: lines inside of faces, nearer", isNearer && isMore];
  camera.scale = own;
  yield ["picture: back from near", refining.refine(drawn) && refining.edges.size === 0
    && refining.isolines.size === 0 && refining.ofThisView === null];
}

export function* refinement({ file }) {
  yield* ofSphere(file);
  yield* ofCylinder(file);
  yield* thereAndBack(file);
}
