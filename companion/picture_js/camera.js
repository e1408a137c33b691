/**
 * The camera: a turn (three rows), the point in the middle of the view, and pixels for each unit.
 */
import { cross, unit } from "./vectors.js";

/** @typedef {number[]} Turn nine numbers, row by row: right, up, and towards the eye */

export const apply = (m, p) => [0, 3, 6].map(k => m[k] * p[0] + m[k + 1] * p[1] + m[k + 2] * p[2]);
const times = (a, b) => [0, 3, 6].flatMap(i =>
  [0, 1, 2].map(j => a[i] * b[j] + a[i + 1] * b[3 + j] + a[i + 2] * b[6 + j]));
const back = m => [m[0], m[3], m[6], m[1], m[4], m[7], m[2], m[5], m[8]];

/** A turn whose rows are at right angles again. @returns {Turn} */
export function straightened(m) {
  const a = unit(m.slice(0, 3)), along = a[0] * m[3] + a[1] * m[4] + a[2] * m[5];
  const b = unit([0, 1, 2].map(k => m[3 + k] - along * a[k]));
  return [...a, ...b, ...cross(a, b)];
}

/** The turn of an eye at so many degrees round the Z axis and above the XY plane. */
export function looking(around, up) {
  const [a, u] = [around, up].map(it => (it * Math.PI) / 180);
  const [sa, ca, su, cu] = [Math.sin(a), Math.cos(a), Math.sin(u), Math.cos(u)];
  return [-sa, ca, 0, -su * ca, -su * sa, cu, cu * ca, cu * sa, su];
}

export const VIEWS = {
  iso: looking(-57, 23), x: [0, 1, 0, 0, 0, 1, 1, 0, 0], y: [-1, 0, 0, 0, 0, 1, 0, 1, 0],
  z: [1, 0, 0, 0, 1, 0, 0, 0, 1],
};

export class Camera {
  constructor(size) {
    Object.assign(this, { size, width: 1, height: 1, scale: 1, centre: [0, 0, 0] });
    this.turn = straightened(VIEWS.iso);
  }

  /** What tells one view from another. */
  get key() {
    return [...this.turn, ...this.centre, this.scale, this.width, this.height].join();
  }

  /** Where a point is seen, in pixels from the left upper corner. */
  project(p) {
    const q = apply(this.turn, p.map((it, k) => it - this.centre[k]));
    return [this.width / 2 + q[0] * this.scale, this.height / 2 - q[1] * this.scale];
  }

  /** Puts the places of points, three numbers each, into a list of two numbers each. */
  projectAll(points, places) {
    const [a, b, c, d, e, f] = this.turn, [x, y, z] = this.centre, { scale } = this;
    const halfX = this.width / 2, halfY = this.height / 2;
    for (let k = 0, n = points.length / 3; k < n; k++) {
      const u = points[3 * k] - x, v = points[3 * k + 1] - y, w = points[3 * k + 2] - z;
      places[2 * k] = halfX + (a * u + b * v + c * w) * scale;
      places[2 * k + 1] = halfY - (d * u + e * v + f * w) * scale;
    }
  }

  /** Whether a ball is in view, at least in part. */
  sees(x, y, z, radius) {
    const [u, v] = this.project([x, y, z]), r = radius * this.scale + 4;
    return u > -r && v > -r && u < this.width + r && v < this.height + r;
  }

  turnBy(around, up) {
    const [ca, sa, cu, su] = [Math.cos(around), Math.sin(around), Math.cos(up), Math.sin(up)];
    const turned = times(this.turn, [ca, -sa, 0, sa, ca, 0, 0, 0, 1]);
    this.turn = straightened(times([1, 0, 0, 0, cu, -su, 0, su, cu], turned));
  }

  moveBy(x, y) {
    const q = apply(back(this.turn), [-x / this.scale, y / this.scale, 0]);
    this.centre = this.centre.map((it, k) => it + q[k]);
  }

  /** Zooms about a place of the view, told from its middle. */
  zoomBy(factor, x = 0, y = 0) {
    const held = Math.max(1e-3 / this.size, Math.min(1e9 / this.size, this.scale * factor));
    const by = held / this.scale;
    this.moveBy(-x * (1 - 1 / by), -y * (1 - 1 / by));
    this.scale = held;
  }

  /** The middle and the scale with which points fill a part of the view. */
  framed(points, turn, part) {
    const low = [Infinity, Infinity, Infinity], high = [-Infinity, -Infinity, -Infinity];
    for (const p of points) {
      apply(turn, p).forEach((it, k) => {
        low[k] = Math.min(low[k], it);
        high[k] = Math.max(high[k], it);
      });
    }
    const room = [(this.width - 40) * part, (this.height - 110) * part];
    const fits = [0, 1]
      .map(k => Math.max(room[k], 40) / Math.max(high[k] - low[k], this.size * 0.01));
    return [apply(back(turn), low.map((it, k) => (it + high[k]) / 2)), Math.min(...fits)];
  }
}
