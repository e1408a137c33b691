/** Conic arcs (type 104; IGES 5.3, section 4.6): A x^2 + B x y + C y^2 + D x + E y + F = 0. */

const FULL_TURN = 2 * Math.PI;

/** The angles of the start and the end of an arc that runs counterclockwise. */
export function anglesBetween(startX, startY, endX, endY) {
  const first = Math.atan2(startY, startX), last = Math.atan2(endY, endX);
  return [first, last > first + 1e-9 ? last : last + FULL_TURN];
}

/** A conic, turned so that B is 0 and, if it has a centre, moved there. */
class Conic {
  constructor(a, b, c, d, e, f) {
    const turn = b ? 0.5 * Math.atan2(b, a - c) : 0, cos = Math.cos(turn), sin = Math.sin(turn);
    const size = Math.max(Math.abs(a), Math.abs(b), Math.abs(c));
    const isFlat = it => Math.abs(it) <= 1e-12 * size;
    Object.assign(this, { cos, sin, x: 0, y: 0, f, d: d * cos + e * sin, e: e * cos - d * sin });
    this.a = a * cos * cos + b * cos * sin + c * sin * sin;
    this.c = a * sin * sin - b * cos * sin + c * cos * cos;
    this.isParabola = isFlat(this.a) || isFlat(this.c);
    if (isFlat(this.a)) {
      // A quarter turn on: the square is then of the first coordinate.
      [this.cos, this.sin, this.a, this.c] = [-this.sin, this.cos, this.c, 0];
      [this.d, this.e] = [this.e, -this.d];
    }
    if (!this.isParabola) {
      [this.x, this.y] = [-this.d / (2 * this.a), -this.e / (2 * this.c)];
      this.f = f - this.a * this.x ** 2 - this.c * this.y ** 2;
    }
  }

  inward(x, y) {
    return [x * this.cos + y * this.sin - this.x, y * this.cos - x * this.sin - this.y];
  }

  outward(x, y) {
    const u = x + this.x, v = y + this.y;
    return [u * this.cos - v * this.sin, u * this.sin + v * this.cos];
  }

  parabola(x0, x1) {
    const [square, linear, rest] = [this.a, this.d, this.f].map(it => -it / this.e);
    return [x0, x1, x => this.outward(x, (square * x + linear) * x + rest)];
  }

  /** The first and the last parameter from one point to the other, and the point of each. */
  between(start, end) {
    const [x0, y0] = this.inward(...start), [x1, y1] = this.inward(...end);
    if (this.isParabola) return this.parabola(x0, x1);
    const wide = -this.f / this.a, high = -this.f / this.c;
    const a = Math.sqrt(Math.abs(wide)), b = Math.sqrt(Math.abs(high));
    if (wide > 0 && high > 0) {
      const angles = anglesBetween(x0 / a, y0 / b, x1 / a, y1 / b);
      return [...angles, t => this.outward(a * Math.cos(t), b * Math.sin(t))];
    }
    if (wide > 0) {
      const side = x0 < 0 ? -a : a;
      const point = t => this.outward(side * Math.cosh(t), b * Math.sinh(t));
      return [Math.asinh(y0 / b), Math.asinh(y1 / b), point];
    }
    const side = y0 < 0 ? -b : b, point = t => this.outward(a * Math.sinh(t), side * Math.cosh(t));
    return [Math.asinh(x0 / a), Math.asinh(x1 / a), point];
  }
}

/** The parameters of a conic arc, and its points in a plane. */
export function conicArc(coefficients, start, end) {
  return new Conic(...coefficients).between(start, end);
}
