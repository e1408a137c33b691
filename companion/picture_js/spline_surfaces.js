/**
 * Parametric spline surfaces (114), rational B-spline surfaces (128) and offset surfaces (140):
 * IGES 5.3, sections 4.15, 4.24 and 4.33.
 */
import { placeIn } from "./curves.js";
import { numericSurface } from "./numeric_surfaces.js";
import { integer, reals, Unreadable } from "./records.js";
import { deBoor, spanOf, unweighted } from "./splines.js";
import { cross, dot, lengthOf, minus, plus, scaled, unit } from "./vectors.js";

const MOST_POLES = 1e6;

/** Bicubic patches, each by sixteen coefficients for each axis. */
export function parametricSplineSurface({ values }) {
  const rows = integer(values[2]), columns = integer(values[3]), count = (rows + 1) * (columns + 1);
  if (!(rows >= 1 && columns >= 1 && 48 * count <= MOST_POLES)) {
    throw new Unreadable("the record of a surface of type 114");
  }
  const first = 4 + rows + 1 + columns + 1;
  const us = reals(values, 4, 5 + rows), vs = reals(values, 5 + rows, first);
  const numbers = reals(values, first, first + 48 * count);
  const at = (u, v) => {
    const i = placeIn(us, u), j = placeIn(vs, v), s = u - us[i], t = v - vs[j];
    const patch = 48 * (i * (columns + 1) + j);
    return [0, 16, 32].map(axis => {
      let sum = 0;
      for (let k = 3; k >= 0; k--) {
        const [a, b, c, d] = numbers.slice(patch + axis + 4 * k, patch + axis + 4 * k + 4);
        sum = sum * t + (a + s * (b + s * (c + s * d)));
      }
      return sum;
    });
  };
  return numericSurface(at, [us[0], us[rows]], [vs[0], vs[columns]]);
}

/** The poles of a B-spline surface, multiplied by their weights, column after column. */
function polesOf(numbers, count) {
  return Array.from({ length: count }, (_, k) => {
    const weight = numbers[k];
    return [0, 1, 2].map(axis => numbers[count + 3 * k + axis] * weight).concat(weight);
  });
}

export function bSplineSurface({ values }) {
  const [lastU, lastV, degreeU, degreeV] = values.slice(0, 4).map(integer);
  const count = (lastU + 1) * (lastV + 1);
  if (!(degreeU >= 1 && degreeV >= 1 && degreeU <= lastU && degreeV <= lastV
    && count <= MOST_POLES)) {
    throw new Unreadable("the record of a surface of type 128");
  }
  const knotsU = lastU + degreeU + 2, knotsV = lastV + degreeV + 2;
  const numbers = reals(values, 9, 9 + knotsU + knotsV + 4 * count + 4);
  const us = numbers.slice(0, knotsU), vs = numbers.slice(knotsU, knotsU + knotsV);
  const poles = polesOf(numbers.slice(knotsU + knotsV), count);
  const [u0, u1, v0, v1] = numbers.slice(knotsU + knotsV + 4 * count);
  const at = (u, v) => {
    const spanU = spanOf(us, degreeU, lastU, u), spanV = spanOf(vs, degreeV, lastV, v), near = [];
    for (let j = spanV - degreeV; j <= spanV; j++) {
      const first = j * (lastU + 1) + spanU - degreeU;
      near.push(deBoor(us, degreeU, spanU, u, poles.slice(first, first + degreeU + 1)));
    }
    return unweighted(deBoor(vs, degreeV, spanV, v, near));
  };
  return numericSurface(at, [u0, u1], [v0, v1]);
}

/** The normal of a surface at two parameters, from points near by. */
export function normalAt(surface, u, v) {
  const around = [0, 1].map(axis => {
    const [low, high] = surface.ranges[axis], width = Number.isFinite(high - low) ? high - low : 1;
    const step = 1e-5 * width, mid = axis ? v : u;
    const isFree = surface.periods[axis] || !Number.isFinite(low);
    const one = isFree ? mid - step : Math.max(low, mid - step);
    const other = isFree ? mid + step : Math.min(high, mid + step);
    return axis ? minus(surface.at(u, other), surface.at(u, one))
      : minus(surface.at(other, v), surface.at(one, v));
  });
  const normal = cross(...around), size = lengthOf(around[0]) * lengthOf(around[1]);
  return lengthOf(normal) > 1e-9 * size && size > 0 ? unit(normal) : null;
}

/** A surface beside another, on the side of an indicator (at the middle of its parameters). */
export function offsetOf(base, indicator, far) {
  const middle =
    base.ranges.map(([low, high]) => (Number.isFinite(high - low) ? (low + high) / 2 : 0));
  const normal = normalAt(base, ...middle) || [0, 0, 0];
  const signed = dot(normal, indicator) < 0 ? -far : far;
  const beside = (u, v) => {
    // At a pole the normal is that of a point near by.
    const nudged = [u, v].map((it, axis) => it + (middle[axis] - it) * 1e-4);
    const way = normalAt(base, u, v) || normalAt(base, ...nudged) || [0, 0, 0];
    return plus(base.at(u, v), scaled(way, signed));
  };
  if (base.isFlat) {
    return { ...base, at: beside, locate: point =>
      base.locate(minus(point, scaled(normal, signed))) };
  }
  if (!base.ranges.flat().every(Number.isFinite)) {
    const poles =
      base.poles.map(it =>
      ({ ...it, point: beside(...(it.axis ? [0, it.value] : [it.value, 0])) }));
    return { ...base, at: beside, poles };
  }
  return numericSurface(beside, ...base.ranges);
}
