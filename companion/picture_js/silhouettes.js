/** Silhouettes of curved faces: the lines between what faces the eye and what doesn't. */
import { normalAt } from "./spline_surfaces.js";
import { dot, minus } from "./vectors.js";

const MOST_STEPS = 60, EXACT = 1e-13, BEYOND = 1.5;

const between = ([a, b], [c, d], part) => [a + (c - a) * part, b + (d - b) * part];

/** Where a function is 0 between two places at which it has other signs (the Illinois method). */
function rootOf(of, low, atLow, high, atHigh) {
  let [a, fa, b, fb] = [low, atLow, high, atHigh];
  for (let k = 0; k < MOST_STEPS && Math.abs(b - a) > EXACT && fb !== fa; k++) {
    const middle = b - (fb * (b - a)) / (fb - fa), found = of(middle);
    if (Math.abs(found) < EXACT) return middle;
    if (found > 0 === fb > 0) fa /= 2;
    else [a, fa] = [b, fb];
    [b, fb] = [middle, found];
  }
  return b;
}

/** The triangles of a curved face, with parameters and a normal at each point. */
export class CurvedFace {
  /** @param {object} surface @param {number[]} middle that the mesh's points are less */
  constructor({ points, parameters, normals, triangles }, surface, middle) {
    Object.assign(this, { surface, middle });
    this.points = Float32Array.from(points.flat());
    this.parameters = Float64Array.from(parameters.flat());
    this.normals = Float32Array.from(normals.flat());
    this.triangles = Uint32Array.from(triangles);
  }

  /** Calls for each triangle that the silhouette crosses: its lone corner, and the other two. */
  eachCrossed([x, y, z], call) {
    const { normals, triangles } = this;
    const facing = k => normals[3 * k] * x + normals[3 * k + 1] * y + normals[3 * k + 2] * z;
    for (let k = 0; k < triangles.length; k += 3) {
      const a = triangles[k], b = triangles[k + 1], c = triangles[k + 2];
      const fa = facing(a), fb = facing(b), fc = facing(c);
      const isA = fa > 0, isB = fb > 0, isC = fc > 0;
      if (isA === isB && isB === isC) continue;
      if (isB === isC) call([a, b, c], [fa, fb, fc]);
      else if (isA === isC) call([b, c, a], [fb, fc, fa]);
      else call([c, a, b], [fc, fa, fb]);
    }
  }

  /** The ends of the silhouette's piece in a triangle, between corners. */
  ends([a, b, c], [fa, fb, fc]) {
    const { points } = this;
    const meet = (other, there) => [0, 1, 2].map(axis => points[3 * a + axis]
      + ((points[3 * other + axis] - points[3 * a + axis]) * fa) / (fa - there));
    return [meet(b, fb), meet(c, fc)];
  }

  /** The corners of a triangle. */
  corners(places) {
    return places.map(k => [...this.points.subarray(3 * k, 3 * k + 3)]);
  }

  /**
   * The silhouette's piece in a triangle as a curve on the surface. Its parameter leads from the
   * second corner to the third; its point lies on the line to there from the lone corner.
   */
  curve(towards, places, [fa]) {
    const { surface, middle } = this;
    const [lone, one, other] = places.map(k => this.parameters.subarray(2 * k, 2 * k + 2));
    const facing = at => {
      const normal = normalAt(surface, ...at);
      return normal ? dot(normal, towards) : 0;
    };
    const at = part => {
      const aim = between(one, other, part), of = it => facing(between(lone, aim, it));
      const far = [1, BEYOND].map(it => [it, of(it)]).find(it => it[1] > 0 !== fa > 0);
      const root = far ? rootOf(of, 0, fa, ...far) : 1;
      return minus(surface.at(...between(lone, aim, root)), middle);
    };
    return { at, breaks: [0, 1], kind: surface.kind };
  }
}
