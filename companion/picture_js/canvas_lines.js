/**
 * Lines drawn on a canvas, where there is no WebGL: shades by depth, paths of few points, and no
 * more calls than a frame may take. Where there are too many lines, first their inner points are
 * left out, then some lines.
 */

const SHADES = 12, MOST_CALLS = 110000;
/** No path has more points. */
export const MOST_PATH_POINTS = 8000;

const shadeOf = (near, far, part) =>
  `rgb(${near.map((it, k) => Math.round(far[k] + (it - far[k]) * part)).join(",")})`;

/**
 * Strokes lines in paths of few points. @param {function(function): void} trace calls for points
 */
export class Pen {
  constructor(context, mostCalls) {
    Object.assign(this, { context, left: mostCalls, points: 0, isCut: false });
  }

  /** Draws the places from a first to a last one, by so many chords at most. */
  line(places, first, last, mostChords = Infinity) {
    const { context } = this, chords = Math.min(mostChords, last - first);
    if (this.left < chords + 1) {
      this.isCut = true;
      return;
    }
    this.moveTo(places, first);
    for (let chord = 1; chord <= chords; chord++) {
      const k = first + Math.round(((last - first) * chord) / chords);
      context.lineTo(places[2 * k], places[2 * k + 1]);
      if (++this.points >= MOST_PATH_POINTS && chord < chords) this.moveTo(places, k);
    }
    this.left -= chords + 1;
  }

  /** Begins a line; a path of many points ends before it. */
  moveTo(places, k) {
    if (this.points > MOST_PATH_POINTS - 2) this.restart();
    this.context.moveTo(places[2 * k], places[2 * k + 1]);
    this.points++;
  }

  begin() {
    this.points = 0;
    this.context.beginPath();
  }

  restart() {
    this.context.stroke();
    this.begin();
  }

  end() {
    this.context.stroke();
  }
}

export class CanvasLines {
  constructor(context) {
    Object.assign(this, { context, kinds: new Map(), isWebgl: false });
  }

  get vertexCount() {
    return [...this.kinds.values()].reduce((sum, it) => sum + it.lines.pointCount, 0);
  }

  setLines(kind, lines, isLeftOut = () => false) {
    const places = new Float32Array(2 * lines.pointCount);
    this.kinds.set(kind, { lines, isLeftOut, places });
  }

  begin(camera) {
    this.camera = camera;
    this.left = MOST_CALLS;
  }

  /** The lines by the depth of their middles. */
  shades({ lines, isLeftOut }, step) {
    const shades = Array.from({ length: SHADES }, () => []);
    const [, , , , , , x, y, z] = this.camera.turn;
    for (let k = 0; k < lines.count; k += step) {
      if (isLeftOut(k) || lines.from[k + 1] === lines.from[k]) continue;
      const [a, b, c, radius] = lines.balls.subarray(4 * k, 4 * k + 4);
      if (!this.camera.sees(a, b, c, radius)) continue;
      const depth = (a * x + b * y + c * z) / this.camera.size + 0.5;
      shades[Math.max(0, Math.min(SHADES - 1, Math.floor(depth * SHADES)))].push(k);
    }
    return shades;
  }

  /** Draws the lines of a kind; whether all of them were drawn. */
  draw(kind, near, far, strength) {
    const found = this.kinds.get(kind);
    if (!found || !found.lines.count) return true;
    const { lines, places } = found, { context } = this;
    const isRough = lines.pointCount + lines.count > this.left;
    const step = isRough ? Math.max(1, Math.ceil((2 * lines.count) / this.left)) : 1;
    const share = (step * this.left) / lines.count;
    const chords = isRough ? Math.max(1, Math.floor(share) - 1) : Infinity;
    this.camera.projectAll(lines.points, places);
    const pen = new Pen(context, this.left);
    context.globalAlpha = strength;
    this.shades(found, step).forEach((shade, k) => {
      if (!shade.length) return;
      context.strokeStyle = shadeOf(near, far, k / (SHADES - 1));
      context.lineWidth = 1 + (0.5 * k) / SHADES;
      pen.begin();
      for (const line of shade) {
        pen.line(places, lines.from[line], lines.from[line + 1] - 1, chords);
      }
      pen.end();
    });
    context.globalAlpha = 1;
    this.left = pen.left;
    return step === 1 && !pen.isCut;
  }
}
