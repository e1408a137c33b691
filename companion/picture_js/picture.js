/**
 * The picture of a solid in numbers: its vertices, the points along its edges, and of its faces
 * what is asked for. Coordinates are those of the file less the middle of the solid, so that no
 * digit is lost where a solid lies far from the origin.
 */
import { curveOf, edgePoints, evenFit, pointsAlong } from "./curves.js";
import { insideOf, isolinesOf, meshOf, normalsOf } from "./mesh.js";
import { real, Unreadable } from "./records.js";
import { surfaceOf } from "./surfaces.js";
import { isInside, regionOf } from "./trimming.js";
import { minus, plus } from "./vectors.js";

/** No point of a drawn curve or surface is farther from it than this part of the solid's size. */
export const DEVIATION = 0.001;
/** The most points of all edges; beyond it edges are drawn as their chords. */
const MOST_EDGE_POINTS = 500000, MOST_SAMPLED = 1000, MOST_BOXED = 3000;

/** A box that grows round points. */
export class Box {
  constructor() {
    this.low = [Infinity, Infinity, Infinity];
    this.high = [-Infinity, -Infinity, -Infinity];
  }

  add(point) {
    for (let axis = 0; axis < 3; axis++) {
      if (point[axis] < this.low[axis]) this.low[axis] = point[axis];
      if (point[axis] > this.high[axis]) this.high[axis] = point[axis];
    }
    return this;
  }

  get isEmpty() {
    return !(this.low[0] <= this.high[0]);
  }

  get middle() {
    return this.isEmpty ? [0, 0, 0] : this.low.map((it, axis) => (it + this.high[axis]) / 2);
  }

  get size() {
    return this.isEmpty ? 0 : Math.max(...this.high.map((it, axis) => it - this.low[axis]));
  }
}

/** The coordinates of a vertex, or null where they can't be drawn. */
function pointOf(solid, vertex) {
  try {
    const point = solid.coordinates(vertex).map(real);
    return point.length === 3 ? point : null;
  } catch (fault) {
    if (fault instanceof Unreadable) return null;
    throw fault;
  }
}

/** Points of a surface whose parameters are bounded. */
function* samplesOf(surface) {
  const [[a, b], [c, d]] = surface.ranges;
  if (![a, b, c, d].every(Number.isFinite)) return;
  for (let i = 0; i <= 8; i++) {
    for (let j = 0; j <= 8; j++) yield surface.at(a + ((b - a) * i) / 8, c + ((d - c) * j) / 8);
  }
}

export class Picture {
  constructor(solid) {
    Object.assign(this, { solid, faces: new Map(), surfaces: new Map(), reasons: new Map() });
    Object.assign(this, { chords: new Set(), redEdges: new Set(), redVertices: new Set() });
    this.faceReasons = new Map();
    for (const shell of solid.shells)
      for (const face of shell.faces) this.faces.set(face.entity, face);
    const points = solid.vertices.map((_, vertex) => pointOf(solid, vertex)), box = new Box();
    points.filter(Boolean).forEach(it => box.add(it));
    this.middle = box.middle;
    this.points = points.map(it => it && minus(it, this.middle));
    this.used = new Uint32Array(solid.edges.length);
    for (const shell of solid.shells) shell.eachRow(edge => this.used[edge]++);
    this.size = this.sizeFrom(box);
    this.tolerance = DEVIATION * this.size;
    this.left = MOST_EDGE_POINTS;
    this.edges = solid.edges.map((_, edge) => this.edgeFrom(edge));
    this.box = new Box();
    this.points.forEach(it => it && this.box.add(it));
    for (const edge of this.edges) edge.forEach(it => this.box.add(it));
  }

  /** The solid's size; of one whose vertices are one point, or are few, by its surfaces too. */
  sizeFrom(box) {
    const whole = new Box();
    if (!box.isEmpty) whole.add(box.low).add(box.high);
    const few = [...this.faces.values()].slice(0, MOST_SAMPLED);
    if (this.solid.edges.length < 12) {
      for (const face of few) {
        const surface = this.surfaceOf(face);
        if (surface && !surface.isFlat) for (const it of samplesOf(surface)) whole.add(it);
      }
    }
    return whole.size || 1;
  }

  /** The surface of a face, or null where it can't be read. */
  surfaceOf(face) {
    if (!this.surfaces.has(face.surface)) {
      let surface = null;
      try {
        surface = surfaceOf(this.solid.file, face.surface);
      } catch (fault) {
        this.note(this.faceReasons, fault);
      }
      this.surfaces.set(face.surface, surface);
    }
    return this.surfaces.get(face.surface);
  }

  note(reasons, fault) {
    const known = fault instanceof Unreadable ? fault.message : "a record that isn't understood";
    reasons.set(known, (reasons.get(known) || 0) + 1);
  }

  /** The points of the curve of an edge whose ends have places; Unreadable for some curves. */
  curvePoints(edge, fit) {
    const { curve, start, end } = this.solid.edges[edge];
    const ends = [this.points[start], this.points[end]];
    const told = ends.map(it => plus(it, this.middle)), isSeen = this.seenBy(fit);
    const points = edgePoints(curveOf(this.solid.file, curve), ...told, { ...fit, isSeen });
    return [ends[0], ...points.slice(1, -1).map(it => minus(it, this.middle)), ends[1]];
  }

  /** What is seen, asked of points whose coordinates are the file's. */
  seenBy(fit) {
    return (points, far) => fit.isSeen(points.map(it => minus(it, this.middle)), far);
  }

  /** The points of an edge from its start to its end; of a curve that isn't drawn, its chord. */
  edgeFrom(edge) {
    const { start, end } = this.solid.edges[edge], ends = [this.points[start], this.points[end]];
    if (!ends[0] || !ends[1]) return [];
    try {
      if (this.left < 0) throw new Unreadable("a curve beyond the most points of a page");
      const points = this.curvePoints(edge, evenFit(this.tolerance));
      this.left -= points.length;
      return points;
    } catch (fault) {
      this.note(this.reasons, fault);
      this.chords.add(edge);
      return ends;
    }
  }

  /** The points of an edge, more where it is seen. */
  fineEdge(edge, fit) {
    const points = this.edges[edge];
    return this.chords.has(edge) || points.length < 2 ? points : this.curvePoints(edge, fit);
  }

  /** Whether a loop of a face doesn't join. */
  isBroken(face) {
    return face.loops.some(({ uses }) =>
      uses.some((use, k) => use.end !== uses[(k + 1) % uses.length].start));
  }

  /** The sides of a loop with their points in space. */
  sidesOf(loop) {
    return loop.uses.map(({ edge, along, start }) => {
      const points = edge < 0 ? [this.points[start]] : this.edges[edge];
      const told = points.map(it => it && plus(it, this.middle));
      if (!told.length || !told[0]) throw new Unreadable("an edge without a place");
      return { edge, along, points: along || edge < 0 ? told : told.reverse() };
    });
  }

  /**
   * The surface and the region of a face; null where they can't be found, and the reason is noted.
   * @returns {{surface: object, region: number[][][]} | null}
   */
  trimmed(face) {
    if (face.trimmed !== undefined) return face.trimmed;
    face.trimmed = null;
    const surface = this.surfaceOf(face);
    if (!surface) return null;
    try {
      if (this.isBroken(face)) throw new Unreadable("a loop that doesn't join");
      const region = regionOf(surface, face.loops.map(it => this.sidesOf(it)), this.size);
      face.trimmed = { surface, region };
    } catch (fault) {
      this.note(this.faceReasons, fault);
    }
    return face.trimmed;
  }

  isCurved(face) {
    const surface = this.surfaceOf(face);
    return Boolean(surface) && !surface.isFlat;
  }

  /** The triangles of a face, with normals where it is curved and they are wanted. */
  mesh(face, mostPoints, withNormals, tolerance = this.tolerance) {
    const trimmed = this.trimmed(face);
    if (!trimmed) return null;
    const mesh = meshOf(trimmed.surface, trimmed.region, tolerance, mostPoints);
    if (withNormals) mesh.normals = normalsOf(trimmed.surface, mesh, trimmed.region);
    mesh.points = mesh.points.map(it => minus(it, this.middle));
    return mesh;
  }

  /** The triangles with which a face is filled: of a curved face no more than so many. */
  fillOf(face, mostPoints, mostTriangles) {
    for (let tolerance = this.tolerance; face.fill === undefined; tolerance *= 4) {
      const mesh = this.mesh(face, mostPoints, false, tolerance);
      const isCoarse = !this.isCurved(face) || tolerance > 100 * this.tolerance;
      if (!mesh || isCoarse || mesh.triangles.length <= 3 * mostTriangles) face.fill = mesh;
    }
    return face.fill;
  }

  /** Lines inside of a curved face, as curves. */
  isolineCurves(face, count) {
    const trimmed = this.trimmed(face);
    if (!trimmed) return [];
    return isolinesOf(trimmed.surface, trimmed.region, count)
      .map(line => ({ ...line, at: t => minus(line.at(t), this.middle) }));
  }

  /** The points of a line inside of a face; none where it leads nowhere. */
  isolinePoints(line, fit = evenFit(this.tolerance)) {
    try {
      return pointsAlong(line, fit);
    } catch (fault) {
      this.note(this.faceReasons, fault);
      return [];
    }
  }

  isolines(face, count) {
    return this.isolineCurves(face, count).map(it => this.isolinePoints(it))
      .filter(it => it.length);
  }

  /**
   * A point in the face's material, for its label; of a face without a region the middle of its
   * edges.
   */
  insideOf(face) {
    if (face.inside === undefined) {
      const trimmed = this.trimmed(face);
      const inside = trimmed && insideOf(trimmed.surface, trimmed.region);
      face.inside = inside ? minus(inside, this.middle) : this.middleOf(face);
    }
    return face.inside;
  }

  middleOf(face) {
    const box = this.boxOf(face);
    return box.isEmpty ? null : box.middle;
  }

  boxOf(face) {
    if (!face.box) {
      face.box = new Box();
      for (const loop of face.loops) {
        for (const use of loop.uses) {
          const points = use.edge < 0 ? [this.points[use.start]] : this.edges[use.edge];
          points.forEach(it => it && face.box.add(it));
        }
      }
      // A curved face may bulge far beyond its edges.
      const mesh = this.isCurved(face) ? this.mesh(face, MOST_BOXED) : null;
      if (mesh) mesh.points.forEach(it => face.box.add(it));
    }
    return face.box;
  }

  /** Whether a face's material is at a point near its surface. */
  hasMaterialAt(face, point) {
    const trimmed = this.trimmed(face);
    if (!trimmed) return false;
    const { surface, region } = trimmed, at = surface.locate(plus(point, this.middle));
    return isInside(region, surface.periods, at);
  }

  /** What isn't drawn as it is. */
  notes() {
    const notes = [], { solid } = this;
    if (this.reasons.size) {
      notes.push(`Dashed: ${this.chords.size} of ${solid.edges.length} edges drawn as straight `
        + `lines, since this isn't drawn or couldn't be read: ${commonest(this.reasons)}.`);
    }
    const lost = this.points.filter(it => !it).length;
    const count = this.points.length;
    if (lost) notes.push(`${lost} of ${count} vertices have coordinates that can't be drawn.`);
    if (!solid.edges.length) notes.push("The solid has no edges.");
    const { matrix } = solid.file.entry(solid.entity);
    const before = `before the matrix ${matrix} of the solid`;
    if (matrix) notes.push(`Coordinates and picture are meant ${before}.`);
    return notes;
  }
}

/** The reasons that were met most often, with their numbers. */
export function commonest(reasons) {
  const sorted = [...reasons].sort((a, b) => b[1] - a[1]).slice(0, 5);
  return sorted.map(([reason, count]) => `${reason} (${count})`).join(", ");
}
