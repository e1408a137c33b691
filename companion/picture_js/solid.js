/**
 * The faces, loops, edges and vertices of a solid, as its records tell them (IGES 5.3, sections
 * 4.144 to 4.148: types 186, 514, 510, 508, 504 and 502). The program has found the records whole.
 */
import { integer, Unreadable } from "./records.js";

/** @typedef {{edge: number, along: boolean, start: number, end: number}} Use edge -1 at a vertex */
/** @typedef {{entity: number, uses: Use[]}} Loop */
/** @typedef {{entity: number, surface: number, flag: number, loops: Loop[]}} Face */
/** @typedef {{list: number, index: number, curve: number, start: number, end: number}} Edge */

/** Pairs of a pointer and a flag. */
function pairs(values) {
  const found = [];
  for (let k = 0; k + 1 < values.length; k += 2)
    found.push([integer(values[k]), integer(values[k + 1])]);
  return found;
}

/** A shell with its faces. */
export class Shell {
  constructor(entity, flag, faces) {
    Object.assign(this, { entity, flag, faces });
  }

  /** Calls for each use of an edge: the edge, whether the shell runs along it, the face's place. */
  eachRow(call) {
    this.faces.forEach((face, place) => {
      const same = this.flag === face.flag;
      for (const loop of face.loops) {
        for (const use of loop.uses) if (use.edge >= 0) call(use.edge, use.along === same, place);
      }
    });
  }

  /** How many faces, edges and vertices the shell has. */
  counts() {
    const edges = new Set(), vertices = new Set();
    for (const face of this.faces) {
      for (const loop of face.loops) {
        for (const use of loop.uses) {
          if (use.edge >= 0) edges.add(use.edge);
          vertices.add(use.start).add(use.end);
        }
      }
    }
    return [this.faces.length, edges.size, vertices.size];
  }
}

/** A solid's shells, the outer one first; its edges and vertices in the order they are met. */
export class Solid {
  constructor(file, number) {
    Object.assign(this, { file, entity: number, edges: [], vertices: [] });
    this.edgeNumbers = new Map();
    this.vertexNumbers = new Map();
    const values = file.values(number), more = integer(values[2]);
    const pointers = [...values.slice(0, 2), ...values.slice(3, 3 + 2 * more)];
    this.shells = pairs(pointers).map(([entity, flag]) => this.shell(entity, flag));
  }

  shell(entity, flag) {
    const values = this.file.values(entity), last = 1 + 2 * integer(values[0]);
    return new Shell(entity, flag, pairs(values.slice(1, last)).map(it => this.face(...it)));
  }

  face(entity, flag) {
    const values = this.file.values(entity), last = 3 + integer(values[1]);
    const loops = values.slice(3, last).map(it => this.loop(integer(it)));
    return { entity, surface: integer(values[0]), flag, loops };
  }

  loop(entity) {
    const values = this.file.values(entity), uses = [], count = integer(values[0]);
    for (let at = 1, tuple = 0; tuple < count; tuple++) {
      if (at >= values.length) throw new Unreadable("the records of the solid");
      const [kind, list, index, flag, curves] = values.slice(at, at + 5).map(integer);
      uses.push(this.use(kind, list, index, flag === 1));
      at += 5 + 2 * (curves || 0);
    }
    return { entity, uses };
  }

  use(kind, list, index, along) {
    if (kind === 1) {
      const vertex = this.vertex(list, index);
      return { edge: -1, along, start: vertex, end: vertex };
    }
    const number = this.edge(list, index), { start, end } = this.edges[number];
    return along ? { edge: number, along, start, end }
      : { edge: number, along, start: end, end: start };
  }

  /** The number of an edge, which is met here for the first time or again. */
  edge(list, index) {
    const key = `${list} ${index}`;
    let number = this.edgeNumbers.get(key);
    if (number === undefined) {
      const values = this.file.values(list).slice(5 * index - 4, 5 * index + 1).map(integer);
      if (values.length < 5) throw new Unreadable("the records of the solid");
      const start = this.vertex(values[1], values[2]), end = this.vertex(values[3], values[4]);
      number = this.edges.length;
      this.edgeNumbers.set(key, number);
      this.edges.push({ list, index, curve: values[0], start, end });
    }
    return number;
  }

  vertex(list, index) {
    const key = `${list} ${index}`;
    let number = this.vertexNumbers.get(key);
    if (number === undefined) {
      number = this.vertices.length;
      this.vertexNumbers.set(key, number);
      this.vertices.push([list, index]);
    }
    return number;
  }

  /** The three coordinates of a vertex as they are spelled. */
  coordinates(vertex) {
    const [list, index] = this.vertices[vertex];
    return this.file.values(list).slice(3 * index - 2, 3 * index + 1);
  }
}
