/**
 * The remedies of the text: in words, and what each marks of the solid: faces that are removed or
 * turned, seams, new vertices and edges, bodies and rims, by groups.
 */
import { keyOf } from "./where_text.js";

/** Of each step what it does, and to what, one and several. */
const STEPS = {
  remove: ["remove", "face", "faces"], turn: ["turn", "face", "faces"],
  reverse: ["reverse", "loop", "loops"], flags: ["change the flags of", "use", "uses"],
  sew: ["sew", "pair of edges", "pairs of edges"], copy: ["copy", "vertex", "vertices"],
  renew: ["copy", "edge", "edges"], part: ["part it into", "body", "bodies"],
  fill: ["make a face on", "rim", "rims"],
};
/** The group, and so the colour, of what a step marks, and what is said at a face of it. */
const GROUPS = { remove: 6, turn: 0, reverse: 7, flags: 7, sew: 2, copy: 5, renew: 5, fill: 1 };
const SAID = {
  remove: "removed", turn: "turned", reverse: "loop reversed", part: "body",
};
/** So many items of a step are marked and listed at most. */
const MOST_MARKED = 300, MOST_TOLD = 100;

const nameOf = step => step.text.split(" ")[1];
const countOf = step => Number(step.text.split(" ").pop());

/** What a step changes, in a few words. */
function wordsOf(step) {
  const [does, one, several] = STEPS[nameOf(step)], count = countOf(step);
  return `${does} ${count} ${count === 1 ? one : several}`;
}

/** The place of a vertex, by which ends of edges are compared here. */
const placeOf = (solid, vertex) => solid.coordinates(vertex).map(Number).join(" ");

/** What the kept faces of a shell use after the seams of a remedy: each edge and how often. */
function usesAfter(remedy, shell, solid) {
  const gone = new Set(), taken = new Map(), uses = new Map();
  for (const step of remedy.items) {
    for (const item of step.items) {
      const edges = nameOf(step) === "sew" && ["", "left_"].map(it => keyOf(item, it));
      if (nameOf(step) === "remove") gone.add(Number(item.told.face));
      if (edges) taken.set(...[edges[1], edges[0]].map(it => solid.edgeNumbers.get(it)));
    }
  }
  shell.eachRow((edge, _, place) => {
    const now = taken.has(edge) ? taken.get(edge) : edge;
    if (!gone.has(shell.faces[place].entity)) uses.set(now, (uses.get(now) || 0) + 1);
  });
  return uses;
}

/** The edges that one face uses then, by the places of their ends. */
function freeEdges(remedy, shell, solid) {
  const byPlace = new Map();
  for (const [edge, count] of usesAfter(remedy, shell, solid)) {
    if (count !== 1) continue;
    for (const vertex of [solid.edges[edge].start, solid.edges[edge].end]) {
      const place = placeOf(solid, vertex);
      if (!byPlace.has(place)) byPlace.set(place, []);
      byPlace.get(place).push(edge);
    }
  }
  return byPlace;
}

/** The edges of a rim, where those that hang together with its first are as many; else that one. */
function rimOf(first, count, byPlace, solid) {
  const found = new Set([first]);
  for (const edge of found) {
    if (found.size > count) return [first];
    for (const vertex of [solid.edges[edge].start, solid.edges[edge].end]) {
      (byPlace.get(placeOf(solid, vertex)) || []).forEach(it => found.add(it));
    }
  }
  return found.size === count ? [...found] : [first];
}

/** What the items of a step mark. Each adds to the faces, spokes (edges) and dots (vertices). */
const MARKS = {
  faces(marked, items, group, said) {
    for (const { told } of items) {
      marked.faces.push([Number(told.face), told.body ? Number(told.body) - 1 : group]);
      marked.said.push(told.body ? `body ${told.body}` : said);
    }
  },
  flags(marked, items, group, _, { shell }) {
    const loops = new Map(shell.faces.flatMap(it => it.loops).map(it => [String(it.entity), it]));
    for (const { told } of items) {
      const use = loops.get(told.loop)?.uses[Number(told.tuple) - 1];
      if (use && use.edge >= 0) marked.spokes.push([use.edge, group]);
    }
  },
  sew(marked, items, group, _, { solid }) {
    for (const item of items) {
      for (const its of ["", "left_"]) {
        marked.spokes.push([solid.edgeNumbers.get(keyOf(item, its)), group]);
      }
    }
  },
  copy(marked, items, group, _, { solid }) {
    for (const item of items) marked.dots.push([solid.vertexNumbers.get(keyOf(item)), group]);
  },
  renew(marked, items, group, _, { solid }) {
    for (const item of items) marked.spokes.push([solid.edgeNumbers.get(keyOf(item)), group]);
  },
  fill(marked, items, group, _, { solid, remedy, shell }) {
    const byPlace = freeEdges(remedy, shell, solid);
    for (const item of items) {
      const first = solid.edgeNumbers.get(keyOf(item)), count = Number(item.told.edges);
      for (const edge of rimOf(first, count, byPlace, solid)) marked.spokes.push([edge, group]);
    }
  },
};

/** All that a remedy marks; nothing that the solid doesn't have. */
function markedOf(remedy, picture) {
  const marked = { faces: [], said: [], spokes: [], dots: [] }, { solid } = picture;
  const shell = solid.shells[Number(remedy.told.shell) - 1];
  if (!shell) return marked;
  for (const step of remedy.items) {
    const name = nameOf(step), mark = MARKS[name] || MARKS.faces;
    mark(marked, step.items.slice(0, MOST_MARKED), GROUPS[name], SAID[name],
      { solid, remedy, shell });
  }
  const known = [...marked.spokes, ...marked.dots].every(([it]) => it !== undefined);
  if (!known) throw new Error("the file doesn't match the text of igesolid-where");
  return marked;
}

/** A step: its words, its sentence, and its items with the group of each. */
function stepOf(step) {
  const name = nameOf(step), items = step.items.slice(0, MOST_TOLD);
  const more = step.more + step.items.length - items.length;
  const groupOf = item => (item.told.body ? Number(item.told.body) - 1 : GROUPS[name]);
  const told = items.map(it => [it.text, groupOf(it)]);
  if (more) told.push([`.. and ${more} more`, -1]);
  return { words: wordsOf(step), sentence: step.sentence, told };
}

/** A name as a shell reads it. */
const quoted = name => (/^[\w.+,/@%-]+$/.test(name) ? name : `'${name.replaceAll("'", "'\\''")}'`);

/** The command that mends a solid, by the remedy of this number or else by the one that is sure. */
export const mending = ({ file, solid }, remedy = "") =>
  `igesolid mend ${quoted(file)} ${solid}${remedy && ` ${remedy}`} > mended.igs`;

/** A remedy as the page shows it; `command` mends with it, unless a face must be made anew. */
function remedyOf(remedy, picture, named, factsOf) {
  const { faces, said, spokes, dots } = picture ? markedOf(remedy, picture)
    : { faces: [], said: [], spokes: [], dots: [] };
  const told = faces.map(([face, group]) => [picture.faces.get(face), group]);
  for (const [face] of told) face.facts = face.facts || factsOf(face.entity);
  const number = Number(remedy.told.remedy);
  const needsFaces = remedy.items.some(it => nameOf(it) === "fill");
  const words = remedy.items.map(wordsOf).join(", ");
  const command = mending(named, String(number));
  return {
    remedy: number, words, steps: remedy.items.map(stepOf), command: needsFaces ? "" : command,
    number: 0, rule: "", head: `remedy ${number}: ${words}`, says: "", facts: [],
    edges: [], vertices: [], arrows: [], faces: told, said, spokes, dots,
  };
}

/** The remedies of each shell of the text, by shell; `named` has the file's name and the number. */
export function remediesOf(answer, picture, named, factsOf) {
  const shells = new Map();
  for (const it of answer.hints) {
    if (!["hint remedy shell", "hint stuck shell"].includes(it.words)) continue;
    const shell = Number(it.told.shell);
    if (!shells.has(shell)) {
      shells.set(shell, { shell, sentence: it.sentence, remedies: [], left: 0 });
    }
    const found = shells.get(shell);
    found.left += it.left || 0;
    if (it.told.remedy) found.remedies.push(remedyOf(it, picture, named, factsOf));
  }
  return [...shells.values()];
}

/** Whether a hint is told among the remedies. */
export const isOfRemedies = hint => ["hint remedy shell", "hint stuck shell"].includes(hint.words);
