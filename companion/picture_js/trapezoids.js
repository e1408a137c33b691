/**
 * A region cut into trapezoids by a line that sweeps over it: between two values of the second
 * parameter each lies between two sides of the region's paths. The time is n log n and the number
 * of sides the line meets for each of its stops.
 */

/** @typedef {{low: number, high: number, left: Line, right: Line}} Trapezoid */

/** A side of a path, from its lower to its upper end. */
class Line {
  constructor([a, b], [c, d]) {
    const isUp = b < d;
    [this.x0, this.low, this.x1, this.high] = isUp ? [a, b, c, d] : [c, d, a, b];
    this.mate = null;
    this.since = 0;
  }

  /** The first parameter of this side at a value of the second. */
  at(y) {
    if (y <= this.low) return this.x0;
    if (y >= this.high) return this.x1;
    return this.x0 + ((this.x1 - this.x0) * (y - this.low)) / (this.high - this.low);
  }
}

function linesOf(paths) {
  const lines = [];
  for (const path of paths) {
    path.forEach((one, k) => {
      const other = path[(k + 1) % path.length];
      if (one[1] !== other[1]) lines.push(new Line(one, other));
    });
  }
  return lines.sort((a, b) => a.low - b.low);
}

/** The lines that the sweep meets, from left to right a little above a stop. */
function merged(met, begun, y, next) {
  const middle = (y + next) / 2, key = line => line.at(middle);
  begun.sort((a, b) => key(a) - key(b));
  const found = [];
  let place = 0;
  for (const line of met) {
    const here = key(line);
    while (place < begun.length && key(begun[place]) < here) found.push(begun[place++]);
    found.push(line);
  }
  while (place < begun.length) found.push(begun[place++]);
  return found;
}

/** Ends the trapezoids whose sides are no longer neighbours, and begins others. */
function pairUp(met, y, end) {
  for (let k = 0; k + 1 < met.length; k += 2) {
    const left = met[k], right = met[k + 1];
    if (left.mate === right) continue;
    end(left, y);
    if (right.mate) end(right, y);
    for (const other of [left, right])
      if (other.owner && other.owner.mate === other) end(other.owner, y);
    [left.mate, left.since, right.owner] = [right, y, left];
  }
}

/** @returns {Trapezoid[]} */
export function trapezoidsOf(paths) {
  const lines = linesOf(paths), found = [];
  const stops = [...new Set(lines.flatMap(it => [it.low, it.high]))].sort((a, b) => a - b);
  const end = (left, y) => {
    if (left.mate && y > left.since)
      found.push({ low: left.since, high: y, left, right: left.mate });
    left.mate = null;
  };
  let met = [], place = 0;
  stops.forEach((y, k) => {
    const gone = met.filter(it => it.high <= y), begun = [];
    for (const line of gone) {
      end(line, y);
      if (line.owner && line.owner.mate === line) end(line.owner, y);
    }
    while (place < lines.length && lines[place].low <= y) begun.push(lines[place++]);
    if (gone.length) met = met.filter(it => it.high > y);
    if (begun.length) met = merged(met, begun, y, stops[k + 1]);
    pairUp(met, y, end);
  });
  return found;
}
