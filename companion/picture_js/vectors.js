/** Points and directions in space, as lists of three numbers. */

/** @typedef {number[]} Vector */

export const plus = (a, b) => [a[0] + b[0], a[1] + b[1], a[2] + b[2]];
export const minus = (a, b) => [a[0] - b[0], a[1] - b[1], a[2] - b[2]];
export const scaled = (a, factor) => [a[0] * factor, a[1] * factor, a[2] * factor];
export const dot = (a, b) => a[0] * b[0] + a[1] * b[1] + a[2] * b[2];
export const lengthOf = a => Math.hypot(a[0], a[1], a[2]);
export const distance = (a, b) => Math.hypot(a[0] - b[0], a[1] - b[1], a[2] - b[2]);
export const between = (a, b, part) => [
  a[0] + (b[0] - a[0]) * part, a[1] + (b[1] - a[1]) * part, a[2] + (b[2] - a[2]) * part,
];
export const cross = (a, b) => [
  a[1] * b[2] - a[2] * b[1], a[2] * b[0] - a[0] * b[2], a[0] * b[1] - a[1] * b[0],
];
export const isFinitePoint = p => p.every(Number.isFinite);

/** The direction of a vector; the zero vector for one without length. */
export function unit(a) {
  const length = lengthOf(a);
  return length > 0 ? scaled(a, 1 / length) : [0, 0, 0];
}

/** Some direction across a direction. */
export function across(axis) {
  const [x, y, z] = axis.map(Math.abs);
  const other = x <= y && x <= z ? [1, 0, 0] : y <= z ? [0, 1, 0] : [0, 0, 1];
  return unit(cross(axis, other));
}

/** How far a point is from the chord between two others. */
export function fromChord(point, start, end) {
  const chord = minus(end, start), square = dot(chord, chord), way = minus(point, start);
  const part = square > 0 ? Math.max(0, Math.min(1, dot(way, chord) / square)) : 0;
  return distance(point, between(start, end, part));
}
