/** Lines through points, in flat lists that can be drawn at once. */

/** Lines: those of line k are the points from[k] to from[k + 1]. */
export class Lines {
  /** @param {number[][][]} lines */
  constructor(lines) {
    this.from = new Uint32Array(lines.length + 1);
    lines.forEach((it, k) => { this.from[k + 1] = this.from[k] + it.length; });
    this.points = new Float32Array(3 * this.from[lines.length]);
    this.balls = new Float32Array(4 * lines.length);
    lines.forEach((line, k) => {
      line.forEach((point, place) => this.points.set(point, 3 * (this.from[k] + place)));
      if (line.length) this.balls.set(ballOf(line), 4 * k);
    });
  }

  get count() {
    return this.from.length - 1;
  }

  get pointCount() {
    return this.points.length / 3;
  }
}

/** The middle and the radius of a ball that holds some points. */
export function ballOf(points) {
  const low = [...points[0]], high = [...points[0]];
  for (const p of points) {
    for (let axis = 0; axis < 3; axis++) {
      low[axis] = Math.min(low[axis], p[axis]);
      high[axis] = Math.max(high[axis], p[axis]);
    }
  }
  const span = high.map((it, axis) => it - low[axis]);
  return [...low.map((it, axis) => it + span[axis] / 2), Math.hypot(...span) / 2];
}
