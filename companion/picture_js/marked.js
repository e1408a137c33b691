/**
 * What a fault marks of a solid, by the text of `igesolid-where` alone: red edges and vertices;
 * faces, arrows along edges and spokes from a vertex by groups; the group of each fact. A group is
 * a face at an edge, a tuple at a gap, a fan at a vertex, a part, or a shell.
 */
import { keyOf } from "./where_text.js";

/**
 * @typedef {{
 *   edges: number[], vertices: number[], faces: [number, number][],
 *   arrows: [number, number, number][], spokes: [number, number][], groups: number[],
 * }} Marked
 */

const vertexOf = (solid, line) => solid.vertexNumbers.get(keyOf(line));
const edgeOf = (solid, line) => solid.edgeNumbers.get(keyOf(line));

/** What a fact marks, by the rule; each returns the fact's group, -1 where it has none. */
const MARKS = {
  JOIN(marked, { told }, fact, solid) {
    if ("face" in told) marked.faces.push([Number(told.face), 0]);
    else if ("x" in told) marked.vertices.push(vertexOf(solid, fact));
    else if ("curve" in told) {
      const edge = edgeOf(solid, fact), group = Number(fact.words.startsWith("next"));
      marked.edges.push(edge);
      marked.arrows.push([edge, Number(told.flag), group]);
      return group;
    }
    return -1;
  },
  PAIR(marked, { told }, fact) {
    if (!("face" in told)) return -1;
    const face = Number(told.face), known = marked.groupOfFace;
    if (!known.has(face)) known.set(face, known.size);
    marked.faces.push([face, known.get(face)]);
    marked.arrows.push([marked.edges[0], Number(fact.words.startsWith("along")), known.get(face)]);
    return known.get(face);
  },
  REACH(marked, { told }, fact, solid, item) {
    const group = Number(item.told.part) - 1;
    if (fact.words === "touches") marked.vertices.push(vertexOf(solid, fact));
    if (!("face" in told)) return -1;
    marked.faces.push([Number(told.face), group]);
    return group;
  },
  LINK(marked, { told }, fact, solid, item) {
    const isPoint = fact.words.startsWith("point");
    const group = "fan" in told ? Number(told.fan) - 1 : isPoint ? Number(item.told.fans) : -1;
    if ("fan" in told) marked.spokes.push([edgeOf(solid, fact), group]);
    if ("face" in told) marked.faces.push([Number(told.face), group]);
    return group;
  },
  APART(marked, { told }) {
    if (!("face" in told)) return -1;
    marked.faces.push([Number(told.face), Number(told.shell) - 1]);
    return Number(told.shell) - 1;
  },
};

/** @returns {Marked} */
export function markedOf(item, rule, solid) {
  const marked = {
    edges: [], vertices: [], faces: [], arrows: [], spokes: [], groups: [], groupOfFace: new Map(),
  };
  if (rule === "PAIR") marked.edges.push(edgeOf(solid, item));
  if (rule === "LINK" || rule === "APART") marked.vertices.push(vertexOf(solid, item));
  for (const fact of item.facts) marked.groups.push(MARKS[rule](marked, fact, fact, solid, item));
  marked.edges = [...new Set(marked.edges)];
  marked.vertices = [...new Set(marked.vertices)];
  if ([...marked.edges, ...marked.vertices].includes(undefined)) {
    throw new Error("the file doesn't match the text of igesolid-where");
  }
  return marked;
}
