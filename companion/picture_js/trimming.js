/**
 * The region of a face in the parameters of its surface: closed paths, of which a point lies in an
 * odd number or in none (by the even-odd rule). Loops that lead round the surface, along a seam or
 * without one, and loops through poles become closed paths here.
 */
import { Unreadable } from "./records.js";
import { distance } from "./vectors.js";

/**
 * An edge of a loop, with its points in the loop's direction; -1 at a vertex.
 * @typedef {{edge: number, along: boolean, points: number[][]}} Side
 */
/** @typedef {[number, number][]} Path */

/**
 * The points of a loop in order, each with the pole it stands on; a turn leads back on its edge.
 */
function entriesOf(surface, sides, size) {
  const entries = [], near = 1e-6 * size;
  let before = sides.findLast(it => it.edge >= 0);
  sides.forEach(side => {
    const { edge, along, points } = side;
    const isBack = edge >= 0 && before.edge === edge && before.along !== along;
    points.slice(0, Math.max(1, points.length - 1)).forEach((point, place) => {
      const pole = surface.poles.find(it => distance(it.point, point) < near) || null;
      entries.push({ point, pole, isTurn: place === 0 && isBack });
    });
    if (edge >= 0) before = side;
  });
  const first = entries.findIndex(it => !it.pole);
  return first < 0 ? [] : [...entries.slice(first), ...entries.slice(0, first)];
}

/** A pair of parameters, moved by whole periods as near as can be to another pair. */
function nearest(parameters, other, periods) {
  return parameters.map((it, axis) => {
    const period = periods[axis];
    return period ? it + period * Math.round((other[axis] - it) / period) : it;
  });
}

/** The path of a loop, and how far it leads round. A turn at a pole goes round once, then back. */
function unrolled(surface, entries, firstSign) {
  const { periods } = surface, path = [], start = surface.locate(entries[0].point);
  let last = start, sign = firstSign, pole = null, isTurn = false;
  for (const entry of [...entries, entries[0]]) {
    if (entry.pole) {
      [pole, isTurn] = [entry.pole, isTurn || entry.isTurn];
      continue;
    }
    let next = nearest(surface.locate(entry.point, last), last, periods);
    if (pole) {
      const free = 1 - pole.axis;
      const corner = from => from.map((it, k) => (k === free ? it : pole.value));
      path.push(corner(last));
      if (isTurn && periods[free]) {
        next = next.map((it, axis) => (axis === free ? it + sign * periods[free] : it));
        sign = -sign;
      }
      path.push(corner(next));
      [pole, isTurn] = [null, false];
    }
    path.push(next);
    last = next;
  }
  const end = path.pop();
  return { path,
    round: start.map((it, k) => (periods[k] ? Math.round((end[k] - it) / periods[k]) : 0)) };
}

function pathOf(surface, sides, size) {
  const entries = entriesOf(surface, sides, size);
  if (entries.length < 2) return null;
  const found = unrolled(surface, entries, 1);
  if (!found.round.some(Boolean)) return found;
  const other = unrolled(surface, entries, -1);
  return other.round.some(Boolean) ? found : other;
}

/** Whether a path encloses nothing, as one that leads out and back does. */
function isSlit({ path, round }) {
  if (round.some(Boolean)) return false;
  let sum = 0, length = 0;
  path.forEach(([a, b], k) => {
    const [c, d] = path[(k + 1) % path.length];
    sum += (a * d - b * c) / 2;
    length += Math.abs(a - c) + Math.abs(b - d);
  });
  return Math.abs(sum) < 1e-9 * length * length;
}

/** The least and the greatest value of a parameter along a path. */
function spanOfPath(path, axis) {
  let low = Infinity, high = -Infinity;
  for (const it of path) {
    low = Math.min(low, it[axis]);
    high = Math.max(high, it[axis]);
  }
  return [low, high];
}

const shifted = (path, axis, by) =>
  path.map(it => it.map((value, k) => (k === axis ? value + by : value)));

/** A path that leads round, begun at another of its points. */
function begunAt(path, place, axis, by) {
  return [...path.slice(place), ...shifted(path.slice(0, place), axis, by)];
}

/** A place of a path that leads round at which no closed path would be cut. */
function freePlace(path, closed, axis, period) {
  const spans = closed.map(it => spanOfPath(it, axis));
  const isFree = value => !spans.some(([low, high]) => {
    const moved = value + period * Math.ceil((low - value) / period);
    return moved < high;
  });
  const place = path.findIndex(it => isFree(it[axis]));
  return Math.max(place, 0);
}

/** The path that leads round along a pole, on the side on which the face lies. */
function alongPole(surface, path, axis, round, period) {
  const poles = surface.poles.filter(it => it.axis === 1 - axis);
  // The face is on the left: above a path to the right, left of a path that leads up.
  const isAbove = round > 0 === (axis === 0);
  const middle = spanOfPath(path, 1 - axis).reduce((a, b) => a + b) / 2;
  const pole = poles.length === 1 ? poles[0] : poles.find(it => it.value > middle === isAbove);
  if (!pole) return null;
  const at = k => (axis === 0 ? [path[0][0] + k, pole.value] : [pole.value, path[0][1] + k]);
  return [at(0), at(round * period)];
}

/** The closed path between two that lead round. */
function joined(one, other, axis, period) {
  const first = one.path[0], round = one.round[axis] * period;
  const oneEnd = first.map((it, k) => (k === axis ? it + round : it));
  const way = other.round[axis] * one.round[axis] > 0 ? other.path
    : reversedRound(other, axis, period);
  const aimed = way.map(it => Math.abs(wrapped(it[axis] - first[axis], period)));
  const place = aimed.indexOf(Math.min(...aimed)), begun = begunAt(way, place, axis, round);
  const by = period * Math.round((first[axis] - begun[0][axis]) / period);
  const moved = shifted(begun, axis, by);
  const end = moved[0].map((it, k) => (k === axis ? it + round : it));
  return [...one.path, oneEnd, end, ...moved.reverse()];
}

const wrapped = (it, period) => it - period * Math.round(it / period);

/** A path that leads round, in the other direction. */
function reversedRound({ path, round }, axis, period) {
  return [path[0], ...shifted(path.slice(1).reverse(), axis, -round[axis] * period)];
}

/** The closed paths between those that lead round along an axis. */
function betweenRounds(surface, rounds, closed, axis) {
  const period = surface.periods[axis], other = 1 - axis, found = [];
  const middle = it => spanOfPath(it.path, other).reduce((a, b) => a + b) / 2;
  const sorted = rounds.map(it => {
    const place = freePlace(it.path, closed, axis, period);
    return { ...it, path: begunAt(it.path, place, axis, it.round[axis] * period) };
  }).sort((a, b) => middle(a) - middle(b));
  for (let k = 0; k < sorted.length; k += 2) {
    const one = sorted[k];
    let next = sorted[k + 1];
    if (!next) {
      const path = alongPole(surface, one.path, axis, one.round[axis], period);
      if (!path) throw new Unreadable("a face without an outer loop");
      const end = one.path[0].map((it, k) => (k === axis ? it + one.round[axis] * period : it));
      found.push([...one.path, end, ...path.reverse()]);
      continue;
    }
    if (Math.abs(middle(next) - middle(one)) < 1e-9 * (surface.periods[other] || 0)) {
      next = { ...next, path: shifted(next.path, other, surface.periods[other]) };
    }
    found.push(joined(one, next, axis, period));
  }
  return found;
}

/** The whole surface, or what lies between its poles. */
function wholeOf({ ranges }) {
  if (!ranges.flat().every(Number.isFinite)) throw new Unreadable("a face without an outer loop");
  const [[a, b], [c, d]] = ranges;
  return [[[a, c], [b, c], [b, d], [a, d]]];
}

/** Closed paths, each moved by whole periods to lie where the widest one does. */
function together(paths, periods) {
  const extent = path => [0, 1].reduce((product, axis) => {
    const [low, high] = spanOfPath(path, axis);
    return product * (high - low);
  }, 1);
  const widest = paths.reduce((best, it) => (extent(it) > extent(best) ? it : best), paths[0]);
  return paths.map(path => periods.reduce((moved, period, axis) => {
    if (!period || path === widest) return moved;
    const [low] = spanOfPath(widest, axis), [first, last] = spanOfPath(moved, axis);
    return shifted(moved, axis, -period * Math.floor(((first + last) / 2 - low) / period));
  }, path));
}

/**
 * The region of a face. @param {Side[][]} loops @param {number} size of the solid
 * @returns {Path[]}
 */
export function regionOf(surface, loops, size) {
  const found = loops.map(sides => pathOf(surface, sides, size)).filter(it => it && !isSlit(it));
  const closed = found.filter(it => !it.round.some(Boolean)).map(it => it.path);
  const paths = [...closed];
  for (const axis of [0, 1]) {
    const rounds = found.filter(it => it.round[axis] !== 0 && !(axis === 1 && it.round[0]));
    if (rounds.length) paths.push(...betweenRounds(surface, rounds, closed, axis));
  }
  return paths.length ? together(paths, surface.periods) : wholeOf(surface);
}

/** Whether a point, moved by whole periods if need be, lies in a region. */
export function isInside(region, periods, parameters) {
  const choices = periods.map(period => (period ? [-period, 0, period] : [0]));
  return choices[0].some(du => choices[1].some(dv => {
    const [u, v] = [parameters[0] + du, parameters[1] + dv];
    let isIn = false;
    for (const path of region) {
      path.forEach(([a, b], k) => {
        const [c, d] = path[(k + 1) % path.length];
        if (b > v !== d > v && u < a + ((c - a) * (v - b)) / (d - b)) isIn = !isIn;
      });
    }
    return isIn;
  }));
}

/** Where a region meets the line of one value of a parameter: pairs of values of the other one. */
export function crossings(region, axis, value) {
  const found = [], other = 1 - axis;
  for (const path of region) {
    for (let k = 0; k < path.length; k++) {
      const one = path[k], next = path[(k + 1) % path.length];
      if (one[axis] > value === next[axis] > value) continue;
      const part = (value - one[axis]) / (next[axis] - one[axis]);
      found.push(one[other] + (next[other] - one[other]) * part);
    }
  }
  found.sort((a, b) => a - b);
  return found.slice(0, found.length - 1).map((it, k) => [it, found[k + 1]])
    .filter((_, k) => k % 2 === 0);
}

/** The ranges of both parameters in a region. */
export function boxOf(region) {
  return [0, 1].map(axis => {
    const spans = region.map(path => spanOfPath(path, axis));
    return [spans.reduce((a, it) => Math.min(a, it[0]), Infinity),
      spans.reduce((a, it) => Math.max(a, it[1]), -Infinity)];
  });
}
