/**
 * Surfaces that are known by their points alone: where they are closed, where their poles are, and
 * the parameters of a point, by Newton's method from the nearest of some points, or from one
 * before.
 */
import { distance, dot, lengthOf, minus } from "./vectors.js";

const GRID = 16, MOST_STEPS = 30;

const part = ([low, high], k, steps) => low + ((high - low) * k) / steps;

/** Points of a surface in rows and columns. */
function gridOf(at, ranges) {
  const found = [];
  for (let i = 0; i <= GRID; i++) {
    for (let j = 0; j <= GRID; j++) {
      const u = part(ranges[0], i, GRID), v = part(ranges[1], j, GRID);
      found.push({ parameters: [u, v], point: at(u, v) });
    }
  }
  return found;
}

function extentOf(points) {
  return points.reduce((most, it) => Math.max(most, distance(points[0], it)), 0);
}

/** The points of one row of the grid: those of a value of one parameter. */
function rowOf(at, ranges, axis, value) {
  return Array.from({ length: 9 }, (_, k) => {
    const other = part(ranges[1 - axis], k, 8);
    return axis === 0 ? at(value, other) : at(other, value);
  });
}

/** Whether the first and the last row of a parameter are the same. */
function isClosed(at, ranges, axis, size) {
  const first = rowOf(at, ranges, axis, ranges[axis][0]);
  const last = rowOf(at, ranges, axis, ranges[axis][1]);
  const middle = rowOf(at, ranges, axis, part(ranges[axis], 1, 3));
  const isSame = first.every((it, k) => distance(it, last[k]) < 1e-5 * size);
  return isSame && middle.some((it, k) => distance(it, first[k]) > 1e-4 * size);
}

function polesOf(at, ranges, size) {
  const found = [];
  for (const axis of [0, 1]) {
    for (const value of ranges[axis]) {
      const row = rowOf(at, ranges, axis, value);
      if (extentOf(row) < 1e-6 * size) found.push({ axis, value, point: row[0] });
    }
  }
  return found;
}

/** A step of Newton's method for the nearest point, or null where the surface has no extent. */
function stepTowards(at, ranges, [u, v], point) {
  const here = at(u, v), away = minus(point, here);
  const slopes = [0, 1].map(axis => {
    const step = 1e-6 * (ranges[axis][1] - ranges[axis][0]);
    const isLate = (axis ? v : u) + step > ranges[axis][1];
    const signed = isLate ? -step : step;
    const there = axis ? at(u, v + signed) : at(u + signed, v);
    return minus(there, here).map(it => it / signed);
  });
  const [a, b] = slopes, aa = dot(a, a), ab = dot(a, b), bb = dot(b, b), det = aa * bb - ab * ab;
  const right = [dot(a, away), dot(b, away)];
  if (det > 1e-14 * aa * bb && det > 0) {
    return [(bb * right[0] - ab * right[1]) / det, (aa * right[1] - ab * right[0]) / det];
  }
  if (aa >= bb) return aa > 0 ? [right[0] / aa, 0] : null;
  return [0, right[1] / bb];
}

/** The parameters of a point from a start on, and how far the point is from there. */
function settle(surface, start, point) {
  const { at, ranges, periods } = surface;
  const held = (it, axis) =>
    periods[axis] ? it : Math.max(ranges[axis][0], Math.min(ranges[axis][1], it));
  let best = start.map(held), away = distance(at(...best), point);
  for (let k = 0, damping = 1; k < MOST_STEPS && damping > 1e-3; k++) {
    const step = stepTowards(at, ranges, best, point);
    if (!step) break;
    const next = best.map((it, axis) => held(it + step[axis] * damping, axis));
    const there = distance(at(...next), point);
    if (!(there < away)) {
      damping /= 4;
      continue;
    }
    const gain = away - there;
    [best, away, damping] = [next, there, 1];
    if (gain < 1e-12 * surface.size) break;
  }
  return { best, away };
}

/**
 * The parameters of a point: from a hint if that leads to it, else from the nearest of the grid.
 */
function locator(surface) {
  let grid = null;
  return (point, hint) => {
    const near = hint ? settle(surface, hint, point) : null;
    if (near && near.away < 1e-6 * surface.size) return near.best;
    grid = grid || gridOf(surface.at, surface.ranges);
    let nearest = grid[0], least = Infinity;
    for (const it of grid) {
      const away = lengthOf(minus(it.point, point));
      if (away < least) [nearest, least] = [it, away];
    }
    const found = settle(surface, nearest.parameters, point);
    return near && near.away <= found.away ? near.best : found.best;
  };
}

/** A surface of a function of two parameters within ranges. */
export function numericSurface(inner, uRange, vRange) {
  const ranges = [uRange, vRange], size = extentOf(gridOf(inner, ranges).map(it => it.point)) || 1;
  const closed = [0, 1].map(axis => isClosed(inner, ranges, axis, size));
  const periods = closed.map((it, axis) => (it ? ranges[axis][1] - ranges[axis][0] : 0));
  const into = (it, axis) => {
    const [low, high] = ranges[axis], period = periods[axis];
    if (!period || (it >= low && it <= high)) return it;
    return it - period * Math.floor((it - low) / period);
  };
  const at = (u, v) => inner(into(u, 0), into(v, 1));
  const surface = { at, ranges, periods, size, poles: polesOf(inner, ranges, size) };
  surface.locate = locator(surface);
  return surface;
}
