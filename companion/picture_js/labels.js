/**
 * Labels in the picture: each at a place where it hides no other. Those without room are counted.
 */
import { colours } from "./colours.js";

export const FONT = "600 12px system-ui, 'DejaVu Sans', Arial, sans-serif";
const HEIGHT = 19;

/**
 * @typedef {{
 *   text: string, fault: number, x: number, y: number, width: number, height: number,
 * }} Label
 */

export class Labels {
  constructor(pen, width, height) {
    Object.assign(this, { pen, width, height, placed: [], taken: [], lost: 0 });
  }

  /** Keeps labels away from a box. */
  cover(x, y, width, height) {
    this.taken.push([x, y, width, height]);
  }

  /** Keeps labels away from a line through places of two numbers each. */
  coverLine(places) {
    for (let k = 0; k + 3 < places.length; k += 2) {
      const [x, y, u, v] = places.slice(k, k + 4);
      const steps = Math.min(60, Math.ceil(Math.hypot(u - x, v - y) / 12)) || 1;
      for (let s = 0; s <= steps; s++) {
        this.cover(x + ((u - x) * s) / steps - 5, y + ((v - y) * s) / steps - 5, 10, 10);
      }
    }
  }

  isFree([x, y, w, h]) {
    const isInside = x >= 2 && y >= 50 && x + w <= this.width - 2 && y + h <= this.height - 2;
    return isInside && !this.taken.some(t =>
      x < t[0] + t[2] + 3 && t[0] < x + w + 3 && y < t[1] + t[3] + 2 && t[1] < y + h + 2);
  }

  /** A free place near a point, if there is a way to go that way; null where there is none. */
  spot(at, w, away) {
    const base = away ? Math.atan2(away[1], away[0]) : -Math.PI / 2, spots = away ? [] : [[0, 0]];
    for (const far of away ? [34, 58, 84, 120, 170] : [24, 44, 70, 110]) {
      for (const swing of [0, 0.6, -0.6, 1.2, -1.2, 1.9, -1.9, Math.PI]) {
        const [x, y] = [Math.cos(base + swing), Math.sin(base + swing)];
        spots.push([x * (far + (Math.abs(x) * w) / 2), y * far]);
      }
    }
    const boxes = spots.map(([x, y]) => [at[0] + x - w / 2, at[1] + y - HEIGHT / 2, w, HEIGHT]);
    return boxes.find(it => this.isFree(it)) || null;
  }

  /** Places a label; whether there was room. */
  add(at, text, colour, away, fault) {
    const { pen } = this;
    pen.font = FONT;
    const w = pen.measureText(text).width + 12, box = this.spot(at, w, away);
    if (!box) {
      this.lost++;
      return false;
    }
    this.taken.push(box);
    const middle = [box[0] + w / 2, box[1] + HEIGHT / 2];
    if (Math.hypot(middle[0] - at[0], middle[1] - at[1]) > 12) this.lead(at, middle, colour);
    pen.fillStyle = colour;
    pen.beginPath();
    pen.roundRect(...box, 4);
    pen.fill();
    pen.fillStyle = colours().label;
    pen.textAlign = "center";
    pen.textBaseline = "middle";
    pen.fillText(text, middle[0], middle[1] + 0.5);
    this.placed.push({ text, fault: fault ? fault.number : 0, x: box[0], y: box[1], width: w,
      height: HEIGHT });
    return true;
  }

  lead(at, middle, colour) {
    const { pen } = this;
    pen.strokeStyle = colour;
    pen.lineWidth = 1.2;
    pen.beginPath();
    pen.moveTo(...at);
    pen.lineTo(...middle);
    pen.stroke();
  }
}
