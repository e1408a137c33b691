/**
 * Triangles of a face, near enough to its surface: each trapezoid of its region is cut into a grid.
 */
import { even } from "./curves.js";
import { normalAt } from "./spline_surfaces.js";
import { trapezoidsOf } from "./trapezoids.js";
import { boxOf, crossings } from "./trimming.js";
import { cross, distance, lengthOf, minus, plus, scaled } from "./vectors.js";

const MOST_CUTS = 96, SAMPLES = 6;

/**
 * @typedef {{points: number[][], parameters: number[][], normals: number[][],
 * triangles: number[]}} Mesh
 */

const cuts = new WeakMap();

/**
 * The trapezoids of a region, found once; but those without height, which rounding leaves along its
 * rim: on a curved rim their triangles would add area.
 */
function cutOf(region) {
  if (!cuts.has(region)) {
    const [low, high] = boxOf(region)[1], least = 1e-6 * (high - low);
    cuts.set(region, trapezoidsOf(region).filter(it => it.high - it.low > least));
  }
  return cuts.get(region);
}

/** How long the steps of both parameters may be, for chords within a tolerance of the surface. */
function stepsOf(surface, box, tolerance) {
  if (surface.isFlat) return [Infinity, Infinity];
  return [0, 1].map(axis => {
    const step = (box[axis][1] - box[axis][0]) / (2 * SAMPLES);
    let bend = 0;
    for (let i = 0; i < SAMPLES; i++) {
      for (let j = 0; j <= SAMPLES; j++) {
        const there = [0, 0];
        there[axis] = box[axis][0] + step * (2 * i + 1);
        there[1 - axis] = box[1 - axis][0] + ((box[1 - axis][1] - box[1 - axis][0]) * j) / SAMPLES;
        const at = by => surface.at(there[0] + (axis ? 0 : by), there[1] + (axis ? by : 0));
        const sum = plus(plus(at(-step), at(step)), scaled(at(0), -2));
        bend = Math.max(bend, lengthOf(sum));
      }
    }
    // A chord over a step of h is as far from the curve as an eighth of h * h times the bend.
    return bend > 0 ? step * Math.sqrt((8 * tolerance) / bend) : Infinity;
  });
}

const cutsOf = (length, step) => Math.max(1, Math.min(MOST_CUTS, Math.ceil(length / step - 1e-9)));

/** Adds the grid of a trapezoid to a mesh. */
function addGrid(mesh, surface, trapezoid, steps) {
  const { low, high, left, right } = trapezoid;
  const wide = Math.max(right.at(low) - left.at(low), right.at(high) - left.at(high));
  const rows = cutsOf(high - low, steps[1]), columns = cutsOf(wide, steps[0]);
  const first = mesh.points.length, width = columns + 1;
  for (let i = 0; i <= rows; i++) {
    const v = low + ((high - low) * i) / rows, from = left.at(v), to = right.at(v);
    for (let j = 0; j <= columns; j++) {
      const u = from + ((to - from) * j) / columns;
      mesh.points.push(surface.at(u, v));
      mesh.parameters.push([u, v]);
    }
  }
  for (let i = 0; i < rows; i++) {
    for (let j = 0; j < columns; j++) {
      const k = first + i * width + j;
      mesh.triangles.push(k, k + 1, k + width, k + 1, k + width + 1, k + width);
    }
  }
}

/** The mesh of a region of a surface. @returns {Mesh} */
export function meshOf(surface, region, tolerance, mostPoints = Infinity) {
  const mesh = { points: [], parameters: [], triangles: [] };
  const steps = stepsOf(surface, boxOf(region), tolerance);
  for (const trapezoid of cutOf(region)) {
    if (mesh.points.length > mostPoints) return { ...mesh, isCut: true };
    addGrid(mesh, surface, trapezoid, steps);
  }
  return mesh;
}

/** The normals of a mesh; at a pole that of a point near by. */
export function normalsOf(surface, mesh, region) {
  const middle = boxOf(region).map(([low, high]) => (low + high) / 2);
  // At a pole rounding may turn the normal round, so it isn't asked for there.
  const isAtPole = at => surface.poles.some(({ axis, value }) =>
    Math.abs(at[axis] - value) < 1e-9 * (1 + Math.abs(value)));
  return mesh.parameters.map(([u, v]) => {
    const nudged = [u + (middle[0] - u) * 1e-3, v + (middle[1] - v) * 1e-3];
    const own = isAtPole([u, v]) ? null : normalAt(surface, u, v);
    return own || normalAt(surface, ...nudged) || [0, 0, 0];
  });
}

export function areaOf({ points, triangles }) {
  let sum = 0;
  for (let k = 0; k < triangles.length; k += 3) {
    const [a, b, c] = [0, 1, 2].map(corner => points[triangles[k + corner]]);
    sum += lengthOf(cross(minus(b, a), minus(c, a))) / 2;
  }
  return sum;
}

/** A point inside of a face: the middle of its greatest trapezoid, by its extent in space. */
export function insideOf(surface, region) {
  let best = null, greatest = -1;
  for (const { low, high, left, right } of cutOf(region)) {
    const v = (low + high) / 2, from = left.at(v), to = right.at(v), u = (from + to) / 2;
    const wide = distance(surface.at(from, v), surface.at(u, v))
      + distance(surface.at(u, v), surface.at(to, v));
    const tall = distance(surface.at(u, low), surface.at(u, v))
      + distance(surface.at(u, v), surface.at(u, high));
    const extent = Math.min(wide, tall) + 0.01 * Math.max(wide, tall);
    if (extent > greatest) [best, greatest] = [surface.at(u, v), extent];
  }
  return best;
}

/** A line of one value of a parameter, as a curve of the other one. */
function isoline(surface, axis, value, [first, last]) {
  const at = it => (axis === 0 ? surface.at(value, it) : surface.at(it, value));
  const isRound = surface.periods[1 - axis] && last - first > surface.periods[1 - axis] / 4;
  return { at, breaks: even(first, last, isRound ? 4 : 1), kind: surface.kind };
}

/** Lines inside of a curved face, evenly between its ends, so many of each parameter. */
export function isolinesOf(surface, region, count) {
  const box = boxOf(region), lines = [];
  for (const axis of [0, 1]) {
    for (let k = 1; k <= count; k++) {
      // Not quite evenly, so that none runs through a corner.
      const value = box[axis][0] + ((box[axis][1] - box[axis][0]) * (k + 0.003)) / (count + 1);
      for (const span of crossings(region, axis, value)) {
        if (span[1] - span[0] > 1e-9) lines.push(isoline(surface, axis, value, span));
      }
    }
  }
  return lines;
}
