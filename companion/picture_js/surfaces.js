/**
 * The surfaces of faces, each as a function of two parameters, with the way back from a point.
 *
 * Planes (108, 190), ruled surfaces (118), surfaces of revolution (120), tabulated cylinders (122),
 * matrices (124), right circular cylinders (192), cones (194), spheres (196) and tori (198). IGES
 * 5.3, sections 4.10, 4.17 to 4.19 and 4.136 to 4.140. Others are in spline_surfaces.js.
 */
import { curveOf } from "./curves.js";
import { inverse, matrixOf, movedPoint, tripleOf } from "./matrices.js";
import { integer, real, reals, Unreadable } from "./records.js";
import { numericSurface } from "./numeric_surfaces.js";
import { offsetOf, bSplineSurface, parametricSplineSurface } from "./spline_surfaces.js";
import { across, between, cross, dot, minus, plus, scaled, unit } from "./vectors.js";

/**
 * A surface: the point of two parameters, and the parameters of a point near one before. A period
 * is 0 where there is none. At a pole all points of one parameter are one: axis 1 is the second.
 * @typedef {{
 *   at: function(number, number): number[],
 *   locate: function(number[], number[]=): number[],
 *   ranges: [number, number][], periods: [number, number],
 *   poles: {axis: number, value: number, point: number[]}[], isFlat?: boolean,
 * }} Surface
 */

const FULL_TURN = 2 * Math.PI, DEEPEST = 4;
const ENDLESS = [-Infinity, Infinity], TURN = [0, FULL_TURN];

/** The three axes of a frame: z along an axis, x towards a direction across it. */
function axesOf(axis, towards) {
  const z = unit(axis), aside = minus(towards, scaled(z, dot(towards, z)));
  const x = aside.some(it => Math.abs(it) > 1e-12) ? unit(aside) : across(z);
  return [x, cross(z, x), z];
}

const inFrame = (origin, axes, point) => axes.map(axis => dot(minus(point, origin), axis));
const outOfFrame = (origin, [x, y, z], [a, b, c]) =>
  origin.map((it, k) => it + a * x[k] + b * y[k] + c * z[k]);

/**
 * The frame of an origin, an axis and a direction that records name; the latter may be left out.
 */
function frameOf(file, location, axis, reference) {
  const z = axis ? tripleOf(file, axis) : [0, 0, 1];
  const x = reference && integer(reference) ? tripleOf(file, reference) : across(unit(z));
  return [tripleOf(file, location), axesOf(z, x)];
}

function planeSurface(origin, axes) {
  return {
    at: (u, v) => outOfFrame(origin, axes, [u, v, 0]),
    locate: point => inFrame(origin, axes, point).slice(0, 2),
    ranges: [ENDLESS, ENDLESS], periods: [0, 0], poles: [], isFlat: true,
  };
}

/** A plane by its equation A x + B y + C z = D. */
function planeByEquation({ values }) {
  const [a, b, c, d] = reals(values, 0, 4), normal = [a, b, c], square = dot(normal, normal);
  if (!(square > 0)) throw new Unreadable("a plane without a normal");
  return planeSurface(scaled(normal, d / square), axesOf(normal, across(unit(normal))));
}

function planeByPoint({ file, values }) {
  return planeSurface(...frameOf(file, values[0], values[1], values[2]));
}

/** A surface of turns about an axis: the radius and the height of a second parameter, and back. */
function turnedSurface([origin, axes], profile, back, more) {
  return {
    at: (u, v) => {
      const [radius, height] = profile(v);
      return outOfFrame(origin, axes, [radius * Math.cos(u), radius * Math.sin(u), height]);
    },
    locate: point => {
      const [x, y, z] = inFrame(origin, axes, point);
      const angle = Math.atan2(y, x);
      return [angle < 0 ? angle + FULL_TURN : angle, back(Math.hypot(x, y), z)];
    },
    ranges: [TURN, more.range || ENDLESS], periods: [FULL_TURN, more.period || 0],
    poles: (more.poles || []).map(value => ({
      axis: 1, value, point: outOfFrame(origin, axes, [0, 0, profile(value)[1]]),
    })),
  };
}

function cylinder({ file, values }) {
  const radius = real(values[2]), frame = frameOf(file, values[0], values[1], values[3]);
  return turnedSurface(frame, v => [radius, v], (_, z) => z, {});
}

/**
 * The second parameter is the height; the radius is 0 at the apex, and beyond it the cone goes on.
 */
function cone({ file, values }) {
  const radius = real(values[2]), slope = Math.tan((real(values[3]) * Math.PI) / 180);
  const frame = frameOf(file, values[0], values[1], values[4]);
  const more = slope ? { poles: [-radius / slope] } : {};
  return turnedSurface(frame, v => [radius + v * slope, v], (_, z) => z, more);
}

function sphere({ file, values }) {
  const radius = real(values[1]), frame = frameOf(file, values[0], values[2], values[3]);
  const profile = v => [radius * Math.cos(v), radius * Math.sin(v)], quarter = Math.PI / 2;
  const more = { range: [-quarter, quarter], poles: [-quarter, quarter] };
  return turnedSurface(frame, profile, (r, z) => Math.atan2(z, r), more);
}

function torus({ file, values }) {
  const [major, minor] = reals(values, 2, 4);
  const frame = frameOf(file, values[0], values[1], values[4]);
  const profile = v => [major + minor * Math.cos(v), minor * Math.sin(v)];
  const back = (r, z) => {
    const angle = Math.atan2(z, r - major);
    return angle < 0 ? angle + FULL_TURN : angle;
  };
  return turnedSurface(frame, profile, back, { range: TURN, period: FULL_TURN });
}

/** A curve by a parameter from 0 to 1, evenly by the curve's own parameter. */
function byPart(curve) {
  const first = curve.breaks[0], last = curve.breaks[curve.breaks.length - 1];
  return part => curve.at(first + (last - first) * Math.max(0, Math.min(1, part)));
}

/** Lines between the points of two curves. */
function ruled({ file, values }) {
  const one = byPart(curveOf(file, integer(values[0])));
  const other = byPart(curveOf(file, integer(values[1])));
  const isReversed = integer(values[2]) === 1;
  const at = (u, v) => between(one(u), other(isReversed ? 1 - u : u), v);
  return numericSurface(at, [0, 1], [0, 1]);
}

/** A curve that is moved evenly: the second parameter is 1 at the terminate point. */
function tabulated({ file, values }) {
  const curve = byPart(curveOf(file, integer(values[0])));
  const way = minus(reals(values, 1, 4), curve(0));
  return numericSurface((u, v) => plus(curve(u), scaled(way, v)), [0, 1], [0, 1]);
}

/** A curve that turns about a line: the second parameter is the angle. */
function revolved({ file, values }) {
  const axis = byPart(curveOf(file, integer(values[0])));
  const curve = byPart(curveOf(file, integer(values[1])));
  const [start, end] = reals(values, 2, 4), origin = axis(0), z = unit(minus(axis(1), origin));
  const at = (u, angle) => {
    const way = minus(curve(u), origin), along = scaled(z, dot(way, z)), aside = minus(way, along);
    const turned = plus(scaled(aside, Math.cos(angle)), scaled(cross(z, aside), Math.sin(angle)));
    return plus(origin, plus(along, turned));
  };
  return numericSurface(at, [0, 1], [start, end > start ? end : end + FULL_TURN]);
}

function offset({ file, values, depth }) {
  const [nx, ny, nz, far] = reals(values, 0, 4);
  return offsetOf(surfaceOf(file, integer(values[4]), depth + 1), [nx, ny, nz], far);
}

const READERS = {
  108: planeByEquation, 114: parametricSplineSurface, 118: ruled, 120: revolved, 122: tabulated,
  128: bSplineSurface, 140: offset, 190: planeByPoint, 192: cylinder, 194: cone, 196: sphere,
  198: torus,
};

/** A surface under a matrix. */
function movedSurface(surface, m) {
  const back = inverse(m);
  return {
    ...surface,
    at: (u, v) => movedPoint(m, surface.at(u, v)),
    locate: (point, hint) => surface.locate(movedPoint(back, point), hint),
    poles: surface.poles.map(it => ({ ...it, point: movedPoint(m, it.point) })),
  };
}

/** The surface of this directory number. @returns {Surface} */
export function surfaceOf(file, number, depth = 0) {
  const entry = file.entry(number), reader = READERS[entry.kind];
  if (!reader || depth > DEEPEST) throw new Unreadable(`a surface of type ${entry.kind}`);
  const surface = reader({ file, values: file.values(number), form: entry.form, depth });
  const m = matrixOf(file, entry.matrix), moved = m ? movedSurface(surface, m) : surface;
  return { ...moved, kind: entry.kind };
}
