/**
 * The curves of edges, each as a function of a parameter: circular arcs (100), composite curves
 * (102), conic arcs (104), copious data (106), lines (110), parametric splines (112), rational
 * B-splines (126) and offset curves (130), under the matrix (124) of their entry. IGES 5.3,
 * sections 4.3 to 4.7, 4.13, 4.14, 4.21, 4.23 and 4.25.
 */
import { anglesBetween, conicArc } from "./conics.js";
import { matrixOf, movedPoint } from "./matrices.js";
import { integer, real, reals, Unreadable } from "./records.js";
import { breaksOf, deBoor, spanOf, unweighted } from "./splines.js";
import {
  between, cross, distance, fromChord, isFinitePoint, minus, plus, scaled, unit,
} from "./vectors.js";

/**
 * A curve: the point of each parameter, and the parameters between which it is smooth, the first
 * and the last among them. @typedef {{at: function(number): number[], breaks: number[]}} Curve
 */

const DEEPEST = 4, MOST_SPANS = 20000, MOST_PARTS = 1000, MOST_HALVINGS = 10;
/** No line of the picture has more points. */
export const MOST_POINTS = 8000;
/** An edge's curve must end this near its vertices, as a part of the curve's size. */
const NEARNESS = 0.02;

const firstOf = curve => curve.breaks[0];
const lastOf = curve => curve.breaks[curve.breaks.length - 1];

/** Parameters from the first to the last, in so many equal steps. */
export function even(first, last, steps) {
  return Array.from({ length: steps + 1 }, (_, k) => first + ((last - first) * k) / steps);
}

function wrong(kind) {
  return new Unreadable(`the record of a curve of type ${kind}`);
}

function line({ values }) {
  const start = reals(values, 0, 3), end = reals(values, 3, 6);
  return { breaks: [0, 1], at: t => between(start, end, t), isStraight: true };
}

/** Counterclockwise from the start to the end; a full circle where they are the same. */
function arc({ values }) {
  const [z, x, y, a, b, c, d] = reals(values, 0, 7), radius = Math.hypot(a - x, b - y);
  const [first, last] = anglesBetween(a - x, b - y, c - x, d - y);
  const steps = Math.max(1, Math.ceil((last - first) / (Math.PI / 2) - 1e-9));
  const at = t => [x + radius * Math.cos(t), y + radius * Math.sin(t), z];
  return { breaks: even(first, last, steps), at };
}

function conic({ values }) {
  const numbers = reals(values, 0, 11), z = numbers[6];
  const [first, last, point] = conicArc(numbers.slice(0, 6), numbers.slice(7, 9), numbers.slice(9));
  return { breaks: even(first, last, 4), at: t => [...point(t), z] };
}

/** A path through points, whose parameters are their places. */
function path(points) {
  if (points.length < 2) throw wrong(106);
  const at = t => {
    const place = Math.max(0, Math.min(points.length - 2, Math.floor(t)));
    return between(points[place], points[place + 1], t - place);
  };
  return { breaks: points.map((_, k) => k), at, isStraight: true };
}

/** A path of points: in a plane, in space, or in space with a direction at each. */
function copious({ values, form }) {
  const kind = integer(values[0]), count = integer(values[1]), points = [];
  const width = kind === 1 ? 2 : 3 * (kind - 1), first = kind === 1 ? 3 : 2;
  if (![1, 2, 3].includes(kind) || count < 1 || values.length < first + width * count)
    throw wrong(106);
  const z = kind === 1 ? real(values[2]) : 0;
  for (let k = 0; k < count; k++) {
    const point = reals(values, first + width * k, first + width * k + (kind === 1 ? 2 : 3));
    points.push(kind === 1 ? [...point, z] : point);
  }
  if (form === 63) points.push(points[0]);
  return path(points);
}

/** The place of the span of breaks that holds a parameter. */
export function placeIn(breaks, t) {
  let low = 0, high = breaks.length - 1;
  while (high - low > 1) {
    const middle = (low + high) >> 1;
    if (t < breaks[middle]) high = middle;
    else low = middle;
  }
  return low;
}

/** Cubics, each by its four coefficients for each axis. */
function spline({ values }) {
  const count = integer(values[3]);
  if (!(count >= 1 && count <= MOST_SPANS)) throw wrong(112);
  const breaks = reals(values, 4, 5 + count), numbers = reals(values, 5 + count, 5 + 13 * count);
  const at = t => {
    const place = placeIn(breaks, t), s = t - breaks[place];
    return [0, 4, 8].map(axis => {
      const [a, b, c, d] = numbers.slice(12 * place + axis, 12 * place + axis + 4);
      return a + s * (b + s * (c + s * d));
    });
  };
  return { breaks, at };
}

function bSpline({ values }) {
  const last = integer(values[0]), degree = integer(values[1]);
  if (!(degree >= 1 && degree <= last && last <= MOST_SPANS)) throw wrong(126);
  const numbers = reals(values, 6, 14 + 5 * last + degree);
  const knots = numbers.splice(0, last + degree + 2), weights = numbers.splice(0, last + 1);
  const poles = weights.map((weight, k) => {
    const pole = numbers.slice(3 * k, 3 * k + 3);
    return [...pole.map(it => it * weight), weight];
  });
  const [start, end] = numbers.slice(3 * last + 3, 3 * last + 5);
  const at = t => {
    const span = spanOf(knots, degree, last, t);
    return unweighted(deBoor(knots, degree, span, t, poles.slice(span - degree, span + 1)));
  };
  return { breaks: breaksOf(knots, start, end), at, isStraight: degree === 1 };
}

/** The curves one after the other; points among them add nothing. */
function composite({ file, values, depth, budget }) {
  const numbers = values.slice(1, 1 + Math.max(0, integer(values[0]))).map(integer);
  const parts = numbers.filter(it => ![116, 132].includes(file.entry(it).kind))
    .map(it => curveOf(file, it, depth + 1, budget));
  if (!parts.length) throw wrong(102);
  const breaks = [0], owners = [];
  for (const part of parts) {
    const shift = breaks[breaks.length - 1] - firstOf(part);
    for (let k = 1; k < part.breaks.length; k++) {
      breaks.push(part.breaks[k] + shift);
      owners.push([part, shift]);
    }
  }
  const at = t => {
    const [part, shift] = owners[placeIn(breaks, t)];
    return part.at(Math.max(firstOf(part), Math.min(lastOf(part), t - shift)));
  };
  return { breaks, at, isStraight: parts.every(it => it.isStraight) };
}

/** The direction of a curve at a parameter. */
function tangentAt(curve, t) {
  const step = (lastOf(curve) - firstOf(curve)) * 1e-5;
  const low = Math.max(firstOf(curve), t - step), high = Math.min(lastOf(curve), t + step);
  return unit(minus(curve.at(high), curve.at(low)));
}

/** The length of a curve from its first parameter on, from a table of many points. */
function lengthAlong(curve) {
  const at = even(firstOf(curve), lastOf(curve), 256), points = at.map(curve.at), sums = [0];
  for (let k = 1; k < at.length; k++) sums.push(sums[k - 1] + distance(points[k - 1], points[k]));
  return t => {
    const place = placeIn(at, t), part = (t - at[place]) / (at[place + 1] - at[place] || 1);
    return sums[place] + (sums[place + 1] - sums[place]) * part;
  };
}

/** A curve beside another, at a distance that is fixed or grows evenly. */
function offset({ file, values, depth, budget }) {
  const kind = integer(values[1]), isByLength = integer(values[4]) === 1;
  const [d1, t1, d2, t2, nx, ny, nz, first, last] = reals(values, 5, 14);
  if (kind !== 1 && kind !== 2)
    throw new Unreadable("an offset curve whose distance is a function");
  const base = curveOf(file, integer(values[0]), depth + 1, budget);
  const low = Math.max(Math.min(first, last), firstOf(base));
  const high = Math.min(Math.max(first, last), lastOf(base));
  if (!(low < high)) throw new Unreadable("an offset curve of no part of its curve");
  const grown = isByLength ? lengthAlong(base) : t => t;
  const rate = kind === 2 && t2 !== t1 ? (d2 - d1) / (t2 - t1) : 0;
  const at = t => {
    const side = unit(cross([nx, ny, nz], tangentAt(base, t)));
    return plus(base.at(t), scaled(side, d1 + rate * (grown(t) - t1)));
  };
  if (!tangentAt(base, low).some(Boolean)) throw wrong(130);
  return { breaks: breaksOf(base.breaks, low, high), at };
}

const READERS = {
  100: arc, 102: composite, 104: conic, 106: copious, 110: line, 112: spline, 126: bSpline,
  130: offset,
};

/** The curve of this directory number. @returns {Curve} */
export function curveOf(file, number, depth = 0, budget = { parts: MOST_PARTS }) {
  const entry = file.entry(number), reader = READERS[entry.kind];
  if (!reader) throw new Unreadable(`a curve of type ${entry.kind}`);
  if (depth > DEEPEST || budget.parts-- < 0) throw new Unreadable("a curve of too many others");
  const curve = reader({ file, values: file.values(number), form: entry.form, depth, budget });
  const m = matrixOf(file, entry.matrix), inner = curve.at;
  if (m) curve.at = t => movedPoint(m, inner(t));
  curve.kind = entry.kind;
  const ends = [curve.at(firstOf(curve)), curve.at(lastOf(curve))];
  if (!(curve.breaks.length > 1) || !ends.every(isFinitePoint)) throw wrong(entry.kind);
  return curve;
}

/**
 * How near chords must be to a curve: nowhere farther than `coarse`, and where it is seen than
 * `tolerance`. @typedef {{tolerance: number, coarse: number, halvings: number,
 * isSeen: function(number[][], number): boolean}} Fit
 */

/** The same tolerance everywhere. @returns {Fit} */
export const evenFit = tolerance =>
  ({ tolerance, coarse: tolerance, halvings: MOST_HALVINGS, isSeen: () => true });

/** Points of a span, found by halving it until its chords are near enough to the curve. */
function addSpan(curve, low, high, fit, points, halvings) {
  const start = curve.at(low), end = curve.at(high), middle = (low + high) / 2;
  const inner = [0.25, 0.5, 0.75].map(part => curve.at(low + (high - low) * part));
  const far = inner.reduce((most, it) => Math.max(most, fromChord(it, start, end)), 0);
  const isNear = far <= fit.tolerance
    || (far <= fit.coarse && !fit.isSeen([start, ...inner, end], far));
  if (isNear || halvings === 0 || points.length >= MOST_POINTS) {
    points.push(end);
    return;
  }
  addSpan(curve, low, middle, fit, points, halvings - 1);
  addSpan(curve, middle, high, fit, points, halvings - 1);
}

/** Points along a curve that is nowhere farther from their chords than a fit asks for. */
export function pointsAlong(curve, fit) {
  const { breaks } = curve, points = [curve.at(breaks[0])];
  const step = Math.ceil(breaks.length / MOST_POINTS);
  for (let k = 0; k + 1 < breaks.length; k += step) {
    const high = breaks[Math.min(k + step, breaks.length - 1)];
    if (curve.isStraight) points.push(curve.at(high));
    else addSpan(curve, breaks[k], high, fit, points, fit.halvings);
  }
  if (!points.every(isFinitePoint)) throw wrong(curve.kind);
  return points;
}

/** The points of an edge's curve from its start to its end vertex. */
export function edgePoints(curve, start, end, fit) {
  const points = pointsAlong(curve, fit), first = points[0], last = points[points.length - 1];
  const far = points.reduce((most, it) => Math.max(most, distance(first, it)), 0);
  const size = Math.max(distance(start, end), far, 1e-12);
  const isNear = (one, other) => distance(one, other) <= NEARNESS * size;
  if (isNear(first, start) && isNear(last, end)) return [start, ...points.slice(1, -1), end];
  if (isNear(first, end) && isNear(last, start))
    return [start, ...points.slice(1, -1).reverse(), end];
  throw new Unreadable("a curve that doesn't end at its edge's vertices");
}
