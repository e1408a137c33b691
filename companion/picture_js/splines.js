/** B-splines by de Boor's scheme, from poles that are multiplied by their weights. */

/** The place of the span of the knots that holds a parameter. */
export function spanOf(knots, degree, last, t) {
  let low = degree, high = last + 1;
  if (t >= knots[high]) {
    for (low = last; low > degree && knots[low] >= knots[low + 1]; low--);
    return low;
  }
  while (high - low > 1) {
    const middle = (low + high) >> 1;
    if (t < knots[middle]) high = middle;
    else low = middle;
  }
  return low;
}

/** The point, with its weight, of poles near a parameter: those from span - degree to span. */
export function deBoor(knots, degree, span, t, near) {
  for (let level = 1; level <= degree; level++) {
    for (let place = degree; place >= level; place--) {
      const low = knots[span - degree + place], high = knots[span + 1 + place - level];
      const part = high > low ? (t - low) / (high - low) : 0;
      const one = near[place - 1], other = near[place];
      near[place] = one.map((it, axis) => it + (other[axis] - it) * part);
    }
  }
  return near[degree];
}

/** The point in space of a pole that is multiplied by its weight. */
export const unweighted = ([x, y, z, weight]) => [x / weight, y / weight, z / weight];

/** The different knots from a first to a last parameter, both among them. */
export function breaksOf(knots, first, last) {
  const inner = [...new Set(knots)].filter(it => it > first && it < last).sort((a, b) => a - b);
  return [first, ...inner, last];
}
