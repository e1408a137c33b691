/**
 * Transformation matrices (type 124; IGES 5.3, section 4.21): three rows of a rotation and a shift.
 */
import { integer, reals, Unreadable } from "./records.js";

const DEEPEST = 4;

/** The point under a matrix of twelve numbers. */
export function movedPoint(m, p) {
  return [0, 4, 8].map(k => m[k] * p[0] + m[k + 1] * p[1] + m[k + 2] * p[2] + m[k + 3]);
}

/** One matrix after another. */
function product(a, b) {
  const found = [];
  for (const row of [0, 4, 8]) {
    for (let column = 0; column < 4; column++) {
      const sum = [0, 1, 2].reduce((sum, k) => sum + a[row + k] * b[4 * k + column], 0);
      found.push(sum + (column === 3 ? a[row + 3] : 0));
    }
  }
  return found;
}

/** The matrix that undoes a matrix. */
export function inverse(m) {
  const [a, b, c, x, d, e, f, y, g, h, i, z] = m;
  const det = a * (e * i - f * h) - b * (d * i - f * g) + c * (d * h - e * g);
  const rows = [
    [e * i - f * h, c * h - b * i, b * f - c * e],
    [f * g - d * i, a * i - c * g, c * d - a * f],
    [d * h - e * g, b * g - a * h, a * e - b * d],
  ].map(row => row.map(it => it / det));
  return rows.flatMap(row => [...row, -(row[0] * x + row[1] * y + row[2] * z)]);
}

/** The matrix of an entry, after which come those that it names; null where there is none. */
export function matrixOf(file, number, depth = 0) {
  if (number <= 0) return null;
  const entry = file.entry(number);
  if (entry.kind !== 124 || depth > DEEPEST) throw new Unreadable(`the matrix ${number}`);
  const own = reals(file.values(number), 0, 12), outer = matrixOf(file, entry.matrix, depth + 1);
  return outer ? product(outer, own) : own;
}

/** The coordinates of a point (116) or a direction (123) that a value names. */
export function tripleOf(file, value) {
  const number = integer(value), { kind, matrix } = file.entry(number);
  if (kind !== 116 && kind !== 123)
    throw new Unreadable(`entity ${number} in the place of a point`);
  const triple = reals(file.values(number), 0, 3), m = matrixOf(file, matrix);
  if (!m) return triple;
  return movedPoint(kind === 116 ? m : m.map((it, k) => (k % 4 === 3 ? 0 : it)), triple);
}
