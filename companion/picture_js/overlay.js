/**
 * What is drawn over the lines of the solid: faces at a fault, failing edges, arrows, axes, a
 * scale.
 */
import { Pen, MOST_PATH_POINTS } from "./canvas_lines.js";
import { colourOf, colours } from "./colours.js";
import { FONT } from "./labels.js";
import { cross, minus, plus, scaled, unit } from "./vectors.js";

/** In each frame: calls for edges, of which failing edges are kept some, and triangles of faces. */
const MOST_STROKE_CALLS = 45000, RESERVED = 10000, MOST_TRIANGLES = 6000;
/** Of each curved face, which is filled more coarsely where it would have more. */
const MOST_OF_CURVED = 2500;
const MOST_MESH_POINTS = 200000, HATCH_STEP = 16, MOST_DOTS = 2000;

export class Overlay {
  constructor(pen, view) {
    Object.assign(this, { pen, view, hatchings: new Map() });
    this.begin();
  }

  /** Begins a frame. */
  begin() {
    Object.assign(this, { callsLeft: MOST_STROKE_CALLS, trianglesLeft: MOST_TRIANGLES });
  }

  /** The places of an edge's points on the screen, two numbers each. */
  placesOf(edge) {
    return this.view.pointsOf(edge).flatMap(it => this.view.camera.project(it));
  }

  isInView(edge) {
    const { balls } = this.view.edgeLines, { camera } = this.view;
    return camera.sees(balls[4 * edge], balls[4 * edge + 1], balls[4 * edge + 2],
      balls[4 * edge + 3]);
  }

  /** Strokes edges, as many as a frame may. */
  stroke(edges, colour, thickness, dash = [], reserved = 0) {
    const { pen } = this, shown = edges.filter(it => this.isInView(it));
    if (!shown.length) return;
    pen.strokeStyle = colour;
    pen.lineWidth = thickness;
    pen.setLineDash(dash);
    const most = Math.max(0, this.callsLeft - reserved), writer = new Pen(pen, most);
    const isMany = shown.length > 1000, chords = most / shown.length - 1;
    const mostChords = isMany ? Math.max(1, Math.floor(chords)) : Infinity;
    writer.begin();
    for (const edge of shown) {
      const places = this.placesOf(edge);
      if (places.length) writer.line(places, 0, places.length / 2 - 1, mostChords);
    }
    writer.end();
    pen.setLineDash([]);
    this.callsLeft -= most - writer.left;
    this.view.isPart = this.view.isPart || writer.isCut;
  }

  /**
   * Red edges; the chords of curves that aren't drawn are dashed, and points stand for those of no
   * length.
   */
  strokeRed(strength) {
    const { picture, edgeLines, camera } = this.view, red = [...picture.redEdges], { pen } = this;
    const isPoint = edge => edgeLines.balls[4 * edge + 3] * camera.scale < 1;
    red.filter(isPoint).slice(0, MOST_DOTS)
      .forEach(it => this.dot(picture.solid.edges[it].start, 5, colours().red));
    pen.globalAlpha = strength;
    this.stroke(red.filter(it => !picture.chords.has(it)), colours().red, 3);
    this.stroke(red.filter(it => picture.chords.has(it)), colours().red, 3, [7, 5]);
    pen.globalAlpha = 1;
  }

  dot(vertex, radius, colour) {
    const point = this.view.picture.points[vertex], { pen } = this;
    if (!point) return;
    pen.beginPath();
    pen.arc(...this.view.camera.project(point), radius, 0, 7);
    pen.fillStyle = colour;
    pen.fill();
    pen.lineWidth = 1.5;
    pen.strokeStyle = colours().rim;
    pen.stroke();
  }

  hatching(group) {
    const colour = colourOf(group), key = `${group % 4} ${colour}`, step = HATCH_STEP;
    if (!this.hatchings.has(key)) {
      const tile = document.createElement("canvas"), kind = group % 4;
      tile.width = tile.height = step;
      const ink = tile.getContext("2d");
      ink.strokeStyle = colour;
      ink.beginPath();
      for (const at of [-step, 0, step]) {
        if (kind === 0) { ink.moveTo(at, step); ink.lineTo(at + step, 0); }
        if (kind === 1) { ink.moveTo(at, 0); ink.lineTo(at + step, step); }
        if (kind === 2) { ink.moveTo(0, step / 2); ink.lineTo(step, step / 2); }
        if (kind === 3) { ink.moveTo(step / 2, 0); ink.lineTo(step / 2, step); }
      }
      ink.stroke();
      this.hatchings.set(key, this.pen.createPattern(tile, "repeat"));
    }
    return this.hatchings.get(key);
  }

  /** The triangles of a face in view, six numbers each, all turned the same way. */
  trianglesOf(face) {
    const fill = this.view.picture.fillOf(face, MOST_MESH_POINTS, MOST_OF_CURVED);
    if (!fill || fill.isCut) return null;
    const { camera } = this.view, places = fill.points.map(it => camera.project(it));
    const found = [];
    const { triangles } = fill, { width, height } = camera;
    for (let k = 0; k < triangles.length; k += 3) {
      const corners = [0, 1, 2].map(it => places[triangles[k + it]]), [a, b, c] = corners;
      const xs = corners.map(it => it[0]), ys = corners.map(it => it[1]);
      if (Math.max(...xs) < 0 || Math.min(...xs) > width || Math.max(...ys) < 0
        || Math.min(...ys) > height) continue;
      const turn = (b[0] - a[0]) * (c[1] - a[1]) - (b[1] - a[1]) * (c[0] - a[0]);
      if (Math.abs(turn) < 1e-6) continue;
      found.push(turn > 0 ? [...a, ...b, ...c] : [...a, ...c, ...b]);
      if (found.length > this.trianglesLeft) return null;
    }
    this.trianglesLeft -= found.length;
    return found;
  }

  fill(triangles, style, strength) {
    const { pen } = this, most = Math.floor(MOST_PATH_POINTS / 3);
    pen.fillStyle = style;
    pen.globalAlpha = strength;
    for (let first = 0; first < triangles.length; first += most) {
      pen.beginPath();
      for (const [a, b, c, d, e, f] of triangles.slice(first, first + most)) {
        pen.moveTo(a, b);
        pen.lineTo(c, d);
        pen.lineTo(e, f);
      }
      pen.fill();
    }
    pen.globalAlpha = 1;
  }

  /**
   * A face is filled and hatched by its group, and its edges are drawn; those of a broken loop
   * open.
   */
  drawFace(face, group) {
    const triangles = this.trianglesOf(face), { pen } = this;
    if (triangles) {
      this.fill(triangles, colourOf(group), 0.16);
      this.fill(triangles, this.hatching(group), 0.35);
    } else if (!this.view.picture.isBroken(face)) this.view.unfilled.push(face.entity);
    pen.globalAlpha = 0.9;
    const edges = face.loops.flatMap(loop => loop.uses.map(it => it.edge).filter(it => it >= 0));
    this.stroke([...new Set(edges)], colourOf(group), 1.8, [], RESERVED);
    pen.globalAlpha = 1;
  }

  drawChosen(chosen) {
    const ranks = new Map();
    chosen.spokes.forEach(([edge, group]) => this.stroke([edge], colourOf(group), 3.5));
    this.stroke(chosen.edges, colours().red, 4.5);
    chosen.vertices.forEach(it => this.dot(it, 6, colours().red));
    for (const [vertex, group] of chosen.dots || []) this.dot(vertex, 7, colourOf(group));
    for (const [edge, isAlong, group] of chosen.arrows) {
      if (!ranks.has(edge)) ranks.set(edge, { "1": 0, "-1": 0 });
      const face = chosen.faces.find(it => it[1] === group) || chosen.faces[0];
      this.drawArrow(edge, isAlong, face ? face[0] : null, ranks.get(edge), colourOf(group));
    }
  }

  /** A point on the side of an edge on which a face has its material, or the face's middle. */
  sideOf(edge, face) {
    const { picture } = this.view, points = this.view.pointsOf(edge);
    const trimmed = picture.trimmed(face);
    const k = Math.max(1, points.length >> 1);
    const middle = points[k].map((it, axis) => (it + points[k - 1][axis]) / 2);
    if (trimmed && face.loops.length) {
      const way = unit(minus(points[k], points[k - 1])), { surface } = trimmed;
      const [u, v] = surface.locate(plus(middle, picture.middle)), h = 1e-4 * picture.size;
      const near = [[1e-4, 0], [0, 1e-4]].map(([du, dv]) =>
        unit(minus(surface.at(u + du, v + dv), surface.at(u - du, v - dv))));
      const aside = unit(cross(cross(...near), way));
      for (const sign of [1, -1]) {
        const point = plus(middle, scaled(aside, sign * h));
        if (picture.hasMaterialAt(face, point))
          return plus(middle, scaled(aside, sign * picture.size * 0.05));
      }
    }
    return picture.insideOf(face);
  }

  /**
   * An arrow beside an edge's middle, on its face's side, in the direction in which the face uses
   * it.
   */
  drawArrow(edge, isAlong, face, ranks, colour) {
    const flat = this.placesOf(edge), { camera } = this.view, steps = 12;
    const places = Array.from({ length: flat.length / 2 }, (_, k) => flat.slice(2 * k, 2 * k + 2));
    if (places.length < 2) return;
    const total = places.slice(1)
      .reduce((sum, it, k) => sum + Math.hypot(it[0] - places[k][0], it[1] - places[k][1]), 0);
    const half = Math.min(0.28, 45 / Math.max(total, 1));
    const path =
      Array.from({ length: steps + 1 }, (_, k) =>
      alongPath(places, 0.5 - half + (2 * half * k) / steps));
    const middle = path[steps / 2], one = path[steps / 2 - 1], other = path[steps / 2 + 1];
    const length = Math.hypot(other[0] - one[0], other[1] - one[1]);
    if (length < 1e-6) return;
    const across = [-(other[1] - one[1]) / length, (other[0] - one[0]) / length];
    const aimed = face && this.sideOf(edge, face), aim = aimed ? camera.project(aimed) : middle;
    const side = across[0] * (aim[0] - middle[0]) + across[1] * (aim[1] - middle[1]) >= 0 ? 1 : -1;
    const off = (9 + 9 * ranks[side]++) * side;
    const line = path.map(p => [p[0] + across[0] * off, p[1] + across[1] * off]);
    this.strokeArrow(isAlong ? line : line.reverse(), colour);
  }

  strokeArrow(line, colour) {
    const { pen } = this, tip = line[line.length - 1], before = line[line.length - 2];
    pen.strokeStyle = pen.fillStyle = colour;
    pen.lineWidth = 2.6;
    pen.beginPath();
    line.forEach((p, k) => (k ? pen.lineTo(...p) : pen.moveTo(...p)));
    pen.stroke();
    const last = Math.hypot(tip[0] - before[0], tip[1] - before[1]) || 1;
    const [x, y] = [(tip[0] - before[0]) / last, (tip[1] - before[1]) / last];
    pen.beginPath();
    pen.moveTo(tip[0] + x * 10, tip[1] + y * 10);
    pen.lineTo(tip[0] - y * 5.5, tip[1] + x * 5.5);
    pen.lineTo(tip[0] + y * 5.5, tip[1] - x * 5.5);
    pen.fill();
  }

  drawAxes() {
    const { pen } = this, { turn, height } = this.view.camera, at = [46, height - 46], length = 30;
    const axes = ["X", "Y", "Z"]
      .map((word, k) =>
      ({ word, colour: colours().axes[k], x: turn[k], y: turn[3 + k], z: turn[6 + k] }));
    for (const { word, colour, x, y } of axes.sort((one, other) => one.z - other.z)) {
      pen.strokeStyle = pen.fillStyle = colour;
      pen.lineWidth = 2;
      pen.beginPath();
      pen.moveTo(...at);
      pen.lineTo(at[0] + x * length, at[1] - y * length);
      pen.stroke();
      pen.font = FONT;
      pen.textAlign = "center";
      pen.textBaseline = "middle";
      pen.fillText(word, at[0] + x * (length + 9), at[1] - y * (length + 9));
    }
  }

  drawScale(unitName) {
    const { pen } = this, { scale, width, height } = this.view.camera, wanted = 120 / scale;
    const power = 10 ** Math.floor(Math.log10(wanted));
    const n = ([5, 2, 1].find(it => it * power <= wanted) || 1) * power;
    const w = n * scale, x = width - 24 - w, y = height - 24;
    pen.strokeStyle = pen.fillStyle = colours().ink;
    pen.lineWidth = 1.5;
    pen.beginPath();
    pen.moveTo(x, y - 5);
    pen.lineTo(x, y);
    pen.lineTo(x + w, y);
    pen.lineTo(x + w, y - 5);
    pen.stroke();
    pen.font = "12px system-ui, 'DejaVu Sans', sans-serif";
    pen.textAlign = "center";
    pen.textBaseline = "alphabetic";
    pen.fillText(`${+n.toPrecision(3)}${unitName ? ` ${unitName}` : ""}`, x + w / 2, y - 8);
  }
}

/** The place at a part of a path, by its number of places. */
function alongPath(places, part) {
  const n = (places.length - 1) * part, k = Math.max(0, Math.min(places.length - 2, Math.floor(n)));
  return [0, 1].map(axis => places[k][axis] + (places[k + 1][axis] - places[k][axis]) * (n - k));
}
