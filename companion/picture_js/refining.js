/**
 * What is drawn finer where the view is near: edges, lines inside of faces, and silhouettes. No
 * chord of theirs is farther from its curve than a thousandth of the view's size.
 */
import { pointsAlong } from "./curves.js";
import { ballOf, Lines } from "./lines.js";
import { Unreadable } from "./records.js";

/** A little less than a thousandth, for deviations are found at a few points only. */
const PART = 0.0009, MOST_HALVINGS = 40;
/** So many lines of a kind at most are drawn finer, and so many points of theirs. */
const MOST_LINES = 2000, MOST_POINTS = 200000;

export class Refining {
  constructor(picture, camera) {
    Object.assign(this, { picture, camera, edges: new Map(), isolines: new Map() });
    this.forget();
  }

  /** Lets all be worked out again. */
  forget() {
    Object.assign(this, { silhouettes: null, key: "" });
  }

  /** The silhouettes of this very view, or null. */
  get ofThisView() {
    return this.key === this.camera.key ? this.silhouettes : null;
  }

  /** How far chords may be from curves in this view. */
  get tolerance() {
    const { width, height, scale } = this.camera;
    return (PART * Math.min(width, height)) / scale;
  }

  isSeen(points, far) {
    const [x, y, z, radius] = ballOf(points);
    return this.camera.sees(x, y, z, radius + far);
  }

  /** @returns {import("./curves.js").Fit} */
  fit() {
    const { tolerance, picture } = this, isSeen = (points, far) => this.isSeen(points, far);
    return { tolerance, coarse: picture.tolerance, halvings: MOST_HALVINGS, isSeen };
  }

  /**
   * Works out what the view needs; whether anything changed.
   * @param {{edges: Lines, isolines: Lines, curves: object[], faces: object[]}} drawn
   */
  refine(drawn) {
    const { camera, picture, edges, isolines } = this;
    if (this.key === camera.key) return false;
    this.forget();
    this.key = camera.key;
    const wasFine = edges.size + isolines.size > 0;
    edges.clear();
    isolines.clear();
    if (this.tolerance >= picture.tolerance) return wasFine;
    const fit = this.fit();
    this.fill(edges, drawn.edges, it => picture.fineEdge(it, fit));
    this.fill(isolines, drawn.isolines, it => picture.isolinePoints(drawn.curves[it], fit));
    this.silhouettes = this.silhouettesOf(drawn.faces, fit);
    return true;
  }

  /** The points of those lines that are seen, unless they are too many. */
  fill(found, lines, pointsOf) {
    const seen = [];
    for (let k = 0; k < lines.count && seen.length <= MOST_LINES; k++) {
      if (lines.from[k + 1] - lines.from[k] < 2) continue;
      if (this.camera.sees(...lines.balls.subarray(4 * k, 4 * k + 4))) seen.push(k);
    }
    if (seen.length > MOST_LINES) return;
    let left = MOST_POINTS;
    for (const k of seen) {
      if (left < 0) return;
      const points = pointsOf(k);
      left -= points.length;
      found.set(k, points);
    }
  }

  /** The silhouettes of all curved faces, with more points where they are seen. */
  silhouettesOf(faces, fit) {
    const towards = this.camera.turn.slice(6, 9), lines = [];
    let left = MOST_LINES;
    for (const face of faces) {
      face.eachCrossed(towards, (places, facing) => {
        const isFine = left > 0 && this.isSeen(face.corners(places), fit.coarse);
        const fine = isFine ? pieceOf(face.curve(towards, places, facing), fit) : null;
        if (isFine) left--;
        lines.push(fine || face.ends(places, facing));
      });
    }
    return new Lines(lines);
  }
}

/** The points of a silhouette's piece, or null where the surface has none there. */
function pieceOf(curve, fit) {
  try {
    return pointsAlong(curve, fit);
  } catch (fault) {
    if (!(fault instanceof Unreadable)) throw fault;
    return null;
  }
}
