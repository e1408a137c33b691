/** The view of a solid: what stands in it, which fault is chosen, and where the camera goes. */
import { Camera, looking, straightened } from "./camera.js";
import { CanvasLines } from "./canvas_lines.js";
import { colourOf, colours } from "./colours.js";
import { Labels } from "./labels.js";
import { Lines } from "./lines.js";
import { Overlay } from "./overlay.js";
import { commonest } from "./picture.js";
import { Refining } from "./refining.js";
import { CurvedFace } from "./silhouettes.js";
import { normalAt } from "./spline_surfaces.js";
import { WebglLines } from "./webgl_lines.js";
import { distance, dot, plus } from "./vectors.js";

const MOST_LABELS = 60, MOST_HEADS = 16, MOST_DOTS = 5000, MOST_FITTED = 50000;
/** Vertices in buffers: those of isolines, of triangles of curved faces, and of silhouettes. */
const MOST_ISOLINE_POINTS = 300000, MOST_MESH_POINTS = 600000, MOST_SILHOUETTE_POINTS = 200000;
/** So many curved faces are worked out at once; of more the others follow, a few in each slice. */
const AT_ONCE = 400, SLICE = 25, BETWEEN = 2000, FEW_CURVED = 3000;
const GROUP_WORDS = { LINK: "fan", REACH: "part", APART: "shell" };

const shortHead = ({ head, rule }) => head.split(" ").slice(0, rule === "REACH" ? 2 : 3).join(" ");

export class View {
  /** @param {{lines: HTMLCanvasElement, over: HTMLCanvasElement}} canvases */
  constructor(scene, faults, canvases, hooks) {
    const { picture } = scene;
    Object.assign(this,
      { scene, picture, faults, hooks, chosen: null, flight: null, isPart: false });
    Object.assign(this,
      { unfilled: [], labels: [], curved: [], curves: [], isolines: [], later: 0 });
    Object.assign(this,
      { isWhole: false, shownAt: 0, onlyFaults: false, withLabels: true, frames: 0 });
    this.over = canvases.over;
    this.pen = this.over.getContext("2d");
    this.camera = new Camera(picture.size);
    this.refining = new Refining(picture, this.camera);
    this.overlay = new Overlay(this.pen, this);
    const { lines } = canvases, onLost = () => this.paintOnCanvas();
    this.painter = (lines && WebglLines.on(lines, onLost)) || new CanvasLines(this.pen);
    this.canvases = canvases;
    this.atEdges = new Set(picture.solid.edges.flatMap(it => [it.start, it.end]));
    this.lone = picture.points.map((_, vertex) => vertex).filter(it => !this.atEdges.has(it));
    this.setEdges();
    this.setIsolines();
    this.work = this.curvedWork();
    this.workOn(Infinity, AT_ONCE);
  }

  /** Goes on without WebGL, which a browser may end. */
  paintOnCanvas() {
    this.painter = new CanvasLines(this.pen);
    this.setEdges();
    this.setIsolines();
    this.draw();
  }

  /** The points of an edge, finer where the view is near it. */
  pointsOf(edge) {
    return this.refining.edges.get(edge) || this.picture.edges[edge];
  }

  setEdges() {
    const { picture, painter } = this, isRed = edge => picture.redEdges.has(edge);
    this.edgeLines = new Lines(picture.edges.map((_, edge) => this.pointsOf(edge)));
    painter.setLines("edges", this.edgeLines, edge => isRed(edge) || picture.chords.has(edge));
  }

  setIsolines() {
    const { isolines } = this.refining;
    this.isolineLines = new Lines(this.isolines.map((it, k) => isolines.get(k) || it));
    this.painter.setLines("isolines", this.isolineLines);
  }

  // ---- Curved faces, a few at a time: their isolines, and triangles for silhouettes. ----

  *curvedWork() {
    const { picture } = this, all = [...picture.faces.values()].filter(it => picture.isCurved(it));
    let isolinePoints = 0, meshPoints = 0, left = 0;
    for (const face of all) {
      for (const curve of picture.isolineCurves(face, all.length > FEW_CURVED ? 1 : 2)) {
        const line = picture.isolinePoints(curve);
        isolinePoints += line.length;
        if (!line.length || isolinePoints >= MOST_ISOLINE_POINTS) continue;
        this.curves.push(curve);
        this.isolines.push(line);
      }
      const room = Math.min(20000, MOST_MESH_POINTS - meshPoints);
      const mesh = room > 100 ? picture.mesh(face, room, true) : null;
      if (mesh && !mesh.isCut && mesh.triangles.length) {
        mesh.points.forEach(it => picture.box.add(it));
        this.curved.push(new CurvedFace(mesh, picture.surfaceOf(face), picture.middle));
        meshPoints += mesh.points.length;
      } else left++;
      yield;
    }
    this.leftOut = left;
    this.meshPoints = meshPoints;
  }

  /** Works on curved faces for some milliseconds, or on so many faces. */
  workOn(milliseconds, mostFaces) {
    const end = performance.now() + milliseconds;
    for (let k = 0; k < mostFaces && performance.now() < end && !this.isWhole; k++) {
      if (this.work.next().done) this.isWhole = true;
    }
    const isDue = this.isWhole || performance.now() > this.shownAt + BETWEEN;
    if (isDue) this.setIsolines();
    if (isDue) this.refining.forget();
    if (this.isWhole) this.hooks.told(this.facesNote());
    clearTimeout(this.working);
    if (!this.isWhole) this.working = setTimeout(() => this.workOn(SLICE, Infinity), 0);
    if (isDue && this.frames) this.draw();
    if (isDue) this.shownAt = performance.now();
  }

  /** What isn't drawn of faces. */
  facesNote() {
    const { faceReasons } = this.picture;
    if (!faceReasons.size && !this.leftOut) return "";
    const reasons = faceReasons.size ? `: ${commonest(faceReasons)}` : ", since there are too many";
    return `Some faces are drawn by their edges alone, without outline and inner lines${reasons}.`;
  }

  /** The silhouettes of all curved faces. */
  silhouettes() {
    const towards = this.camera.turn.slice(6, 9), lines = [];
    for (const face of this.curved) {
      if (2 * lines.length > MOST_SILHOUETTE_POINTS) break;
      face.eachCrossed(towards, (places, facing) => lines.push(face.ends(places, facing)));
    }
    return new Lines(lines);
  }

  /** Draws finer what the present view is near to; whether anything changed. */
  refine() {
    const { refining, edgeLines, isolineLines, curves, curved } = this;
    const drawn = { edges: edgeLines, isolines: isolineLines, curves, faces: curved };
    if (!refining.refine(drawn)) return false;
    this.setEdges();
    this.setIsolines();
    return true;
  }

  // ---- The camera. ----

  everything() {
    const { picture } = this, found = picture.points.filter(Boolean), { low, high } = picture.box;
    if (this.edgeLines.pointCount + found.length > MOST_FITTED || this.curved.length) {
      return [0, 1, 2, 3, 4, 5, 6, 7]
        .map(k => [0, 1, 2].map(axis => ((k >> axis) & 1 ? high : low)[axis]));
    }
    return [...found, ...picture.edges.flat()];
  }

  showAll(turn, atOnce) {
    this.go(...this.camera.framed(this.everything(), turn || this.camera.turn, 0.94), turn, atOnce);
  }

  go(middle, fitting, turn, atOnce) {
    const { camera } = this;
    if (atOnce || matchMedia("(prefers-reduced-motion: reduce)").matches) {
      Object.assign(camera, { centre: middle, scale: fitting, turn: turn || camera.turn });
      this.flight = null;
      this.draw();
      return;
    }
    const { centre, scale } = camera;
    this.flight =
      { centre, scale, turn: camera.turn, middle, fitting, aim: turn, begun: performance.now() };
    requestAnimationFrame(now => this.fly(now));
  }

  fly(now) {
    const { camera, flight: f } = this;
    if (!f) return;
    const k = Math.max(0, Math.min(1, (now - f.begun) / 350)), eased = k * k * (3 - 2 * k);
    camera.scale = f.scale * (f.fitting / f.scale) ** eased;
    const isLevel = Math.abs(f.fitting / f.scale - 1) < 0.01;
    const moved = isLevel ? eased
      : (1 / camera.scale - 1 / f.scale) / (1 / f.fitting - 1 / f.scale);
    camera.centre = f.centre.map((it, axis) => it + (f.middle[axis] - it) * moved);
    if (f.aim) camera.turn =
      straightened(f.turn.map((it, place) => it + (f.aim[place] - it) * eased));
    if (k === 1) {
      Object.assign(camera, { centre: f.middle, scale: f.fitting, turn: f.aim || camera.turn });
      this.flight = null;
      this.draw();
    } else {
      this.draw(true);
      requestAnimationFrame(later => this.fly(later));
    }
  }

  /** Changes the camera by hand. */
  move(change) {
    this.flight = null;
    change(this.camera);
    this.draw(true);
  }

  // ---- Choosing a fault: the camera goes there. ----

  choose(fault, goes, atOnce) {
    this.chosen = fault;
    this.hooks.chosen(fault);
    const core = fault ? this.coreOf(fault) : [];
    const boxes = fault ? fault.faces.map(it => this.picture.boxOf(it[0]))
      .filter(it => !it.isEmpty) : [];
    const all = [...core, ...boxes.flatMap(it => [it.low, it.high])];
    if (!goes || !all.length) {
      this.draw();
      return;
    }
    const turn = this.facing(fault), [wideMiddle, wide] = this.camera.framed(all, turn, 0.8);
    const [nearMiddle, near] = this.camera.framed(core.length ? core : all, turn, 0.5);
    const fitting = Math.max(wide, Math.min(near, 8 * wide));
    this.go(fitting > 1.3 * wide ? nearMiddle : wideMiddle, fitting, turn, atOnce);
  }

  /**
   * The turn as it is, or, if a face of the fault would be seen on edge, one with which none is.
   */
  facing(fault) {
    const normals = fault.faces.slice(0, 6).map(it => this.normalOf(it[0])).filter(Boolean);
    const openness = turn => Math.min(1, ...normals.map(it => Math.abs(dot(turn.slice(6), it))));
    if (openness(this.camera.turn) >= 0.2) return this.camera.turn;
    const turns = [-57, -20, 33, 70, 123, 160, 213, 250]
      .flatMap(around => [23, 50, -23].map(up => straightened(looking(around, up))));
    return turns.reduce((best, it) => (openness(it) > openness(best) + 0.05 ? it : best),
      this.camera.turn);
  }

  /** The normal of a flat face. */
  normalOf(face) {
    const surface = this.picture.surfaceOf(face);
    return surface && surface.isFlat ? normalAt(surface, 0, 0) : null;
  }

  coreOf(fault) {
    if (fault.rule === "REACH") return [];
    const edges = fault.edges.length ? fault.edges : fault.spokes.map(it => it[0]);
    const vertices = [...fault.vertices, ...(fault.dots || []).map(it => it[0])];
    const points = vertices.map(it => this.picture.points[it]).filter(Boolean);
    return [...edges.flatMap(it => this.pointsOf(it)), ...points];
  }

  hop(by) {
    const { faults } = this, at = faults.indexOf(this.chosen);
    if (!faults.length) return;
    const first = by > 0 ? 0 : faults.length - 1;
    this.choose(faults[at < 0 ? first : (at + by + faults.length) % faults.length], true);
  }

  // ---- Drawing. ----

  draw(isMoving) {
    const { pen, camera, painter, overlay, chosen } = this, { near, far, inner } = colours();
    clearTimeout(this.later);
    this.frames++;
    pen.setTransform(this.density, 0, 0, this.density, 0, 0);
    pen.clearRect(0, 0, camera.width, camera.height);
    pen.lineJoin = pen.lineCap = "round";
    Object.assign(this, { isPart: false, unfilled: [] });
    painter.begin(camera, this.density);
    overlay.begin();
    const strength = this.onlyFaults ? 0.12 : chosen ? 0.55 : 1;
    if (this.curved.length)
      painter.setLines("silhouettes", this.refining.ofThisView || this.silhouettes());
    const drawn = [
      painter.draw("isolines", inner, far, 0.6 * strength),
        painter.draw("silhouettes", near, far, strength),
      painter.draw("edges", near, far, strength),
    ];
    this.isPart = drawn.includes(false);
    pen.globalAlpha = strength;
    overlay.stroke([...this.picture.chords].filter(it => !this.picture.redEdges.has(it)), colours()
      .chord, 1.2, [5, 4]);
    pen.globalAlpha = 1;
    this.drawFaults();
    this.drawLabels();
    overlay.drawAxes();
    overlay.drawScale(this.scene.unit);
    this.hooks.drawn(this.notice());
    if (!this.flight)
      this.later = setTimeout(() => this.refine() && this.draw(), isMoving ? 150 : 0);
  }

  drawFaults() {
    const { overlay, chosen, picture } = this;
    if (chosen) chosen.faces.forEach(([face, group]) => overlay.drawFace(face, group));
    this.lone.slice(0, MOST_DOTS).forEach(it => overlay.dot(it, 3, colours().chord));
    overlay.strokeRed(chosen ? 0.45 : 1);
    if (picture.redVertices.size < MOST_DOTS)
      picture.redVertices.forEach(it => overlay.dot(it, 5, colours().red));
    if (chosen) overlay.drawChosen(chosen);
  }

  /** What isn't in the picture, though it should be. */
  notice() {
    const told = [];
    if (this.lostLabels) told.push(`${this.lostLabels} labels have no room here`);
    if (this.isPart) told.push("some lines are left out");
    if (this.unfilled.length) told.push(`not filled: face ${this.unfilled.slice(0, 3).join(", ")}`);
    return told.length ? `${told.join("; ")} (zoom in)` : "";
  }

  drawLabels() {
    const { camera, chosen, picture, faults } = this;
    const labels = new Labels(this.pen, camera.width, camera.height);
    this.labels = labels.placed;
    this.lostLabels = 0;
    if (!this.withLabels) return;
    if (chosen) this.labelChosen(labels);
    else if (picture.redEdges.size <= MOST_LABELS) picture.redEdges.forEach(it =>
      labels.coverLine(this.overlay.placesOf(it)));
    const isShort = chosen || faults.length > MOST_HEADS;
    for (const fault of faults) {
      const spot = fault === chosen ? null : this.spotOf(fault), at = spot && camera.project(spot);
      if (!at || at[0] < -20 || at[1] < -20 || at[0] > camera.width + 20 || at[1] > camera.height
        + 20) continue;
      const text = isShort ? String(fault.number) : `${fault.number}  ${shortHead(fault)}`;
      if (labels.placed.length >= MOST_LABELS) labels.lost++;
      else labels.add(at, text, chosen ? colours().paleRed : colours().red,
        this.awayFrom(at, fault), fault);
    }
    this.lostLabels = labels.lost;
  }

  labelChosen(labels) {
    const { camera, chosen } = this, spot = this.spotOf(chosen), word = GROUP_WORDS[chosen.rule];
    for (const edge of chosen.edges) labels.coverLine(this.overlay.placesOf(edge));
    for (const vertex of chosen.vertices) {
      const at = this.picture.points[vertex] && camera.project(this.picture.points[vertex]);
      if (at) labels.cover(at[0] - 8, at[1] - 8, 16, 16);
    }
    if (spot && chosen.number) {
      const at = camera.project(spot);
      labels.add(at, `${chosen.number}  ${shortHead(chosen)}`, colours().red,
        this.awayFrom(at, chosen), chosen);
    }
    const shown = chosen.faces.slice(0, chosen.rule === "REACH" ? 3 : 12);
    shown.forEach(([face, group], k) => {
      const said = chosen.said ? ` ${chosen.said[k]}` : "";
      const inside = this.picture.insideOf(face), more = word ? ` ${word} ${group + 1}` : said;
      if (inside) labels.add(camera.project(inside), `face ${face.entity}${more}`, colourOf(group),
        null, null);
    });
  }

  spotOf(fault) {
    const edge = fault.edges.find(it => this.pointsOf(it).length);
    const vertex = fault.vertices.find(it => this.picture.points[it]);
    if (fault.rule !== "REACH" && edge !== undefined) return middleOf(this.pointsOf(edge));
    if (fault.rule !== "REACH" && vertex !== undefined) return this.picture.points[vertex];
    return fault.faces.length ? this.picture.insideOf(fault.faces[0][0]) : null;
  }

  /** The way out of the solid, or of the one or two faces there, on the screen. */
  awayFrom(at, fault) {
    const few = fault.faces.length < 3 ? fault.faces.map(it => this.picture.insideOf(it[0]))
      .filter(Boolean) : [];
    const middle = few.length ? few.reduce(plus).map(it => it / few.length)
      : this.picture.box.middle;
    const inside = this.camera.project(middle), way = [at[0] - inside[0], at[1] - inside[1]];
    return Math.hypot(...way) < 4 ? [0.7, -0.7] : way;
  }

  /** The vertex or the edge nearest to a place of the view. */
  nearest(x, y) {
    const { camera, picture } = this;
    let best = null, closest = 7;
    picture.points.forEach((point, vertex) => {
      const at = point && camera.project(point), away = at ? Math.hypot(at[0] - x, at[1] - y) : 9;
      if (away < closest) [closest, best] = [away, { vertex }];
    });
    if (best) return best;
    const { balls } = this.edgeLines;
    for (let edge = 0; edge < picture.edges.length; edge++) {
      const [u, v] = camera.project([balls[4 * edge], balls[4 * edge + 1], balls[4 * edge + 2]]);
      if (Math.hypot(u - x, v - y) > balls[4 * edge + 3] * camera.scale + 6) continue;
      const away = awayFromLine(this.overlay.placesOf(edge), x, y);
      if (away < Math.min(closest, 6)) [closest, best] = [away, { edge }];
    }
    return best;
  }

  faultAt(hit) {
    const isThere = it =>
      ("vertex" in hit ? it.vertices.includes(hit.vertex) : it.edges.includes(hit.edge));
    return this.faults.find(isThere) || null;
  }

  /** Whether the size of the view changed. */
  measure() {
    const { camera, over, canvases } = this;
    const before = [this.density, camera.width, camera.height].join();
    this.density = devicePixelRatio || 1;
    [camera.width, camera.height] = [over.clientWidth || 1, over.clientHeight || 1];
    if (before === [this.density, camera.width, camera.height].join()) return false;
    for (const canvas of [over, canvases.lines].filter(Boolean)) {
      [canvas.width, canvas.height] = [camera.width * this.density, camera.height * this.density];
    }
    return true;
  }
}

/** The point in the middle of a line through points, by its length. */
function middleOf(points) {
  const sums = [0];
  for (let k = 1; k < points.length; k++)
    sums.push(sums[k - 1] + distance(points[k - 1], points[k]));
  const half = sums[sums.length - 1] / 2, k = Math.max(1, sums.findIndex(it => it >= half));
  const part = (half - sums[k - 1]) / (sums[k] - sums[k - 1] || 1);
  return points[k - 1].map((it, axis) => it + (points[k][axis] - it) * part);
}

/** How far a place is from a line through places of two numbers each. */
function awayFromLine(places, x, y) {
  let least = Infinity;
  for (let k = 0; k + 3 < places.length; k += 2) {
    const [a, b, c, d] = places.slice(k, k + 4), u = c - a, v = d - b, square = u * u + v * v;
    const t = square ? Math.max(0, Math.min(1, ((x - a) * u + (y - b) * v) / square)) : 0;
    least = Math.min(least, Math.hypot(a + t * u - x, b + t * v - y));
  }
  return least;
}
