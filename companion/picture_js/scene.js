/**
 * What a page shows of a solid: the faults that `igesolid-where` reports, and the solid's picture.
 */
import { markedOf } from "./marked.js";
import { Picture } from "./picture.js";
import { IgesFile, Unreadable } from "./records.js";
import { Solid } from "./solid.js";
import { isOfRemedies, mending, remediesOf } from "./remedies.js";
import { answerOf, factsOf } from "./where_text.js";

/** At most so many faults of a rule are listed, and of all; facts of a fault, lines of the text. */
const MOST_LISTED = 300, MOST_OF_ALL = 3000, MOST_FACTS = 100, MOST_LINES = 3000;
/** At most so many rules are listed, and so many shells with their remedies. */
const MOST_RULES = 500, MOST_SHELLS = 50;
const AROUND = 6, LONGEST = 200;
const COUNTED = {
  JOIN: ["gap in a loop", "gaps in loops"],
  PAIR: ["edge that isn't paired", "edges that aren't paired"],
  REACH: ["face apart from the first", "faces apart from the first"],
  LINK: ["pinched vertex", "pinched vertices"],
  APART: ["vertex that shells share", "vertices that shells share"],
};
/**
 * The units by global parameter 14 (IGES 5.3, 2.2.4.3.14); 3 stands for the name in parameter 15.
 */
const UNITS = {
  1: "IN", 2: "MM", 4: "FT", 5: "MI", 6: "M", 7: "KM", 8: "MIL", 9: "UM", 10: "CM", 11: "UIN",
};
/** The columns that a reason speaks of; of any other the whole line. */
const COLUMNS_OF = {
  "not-fixed": [73, 1], "letter": [73, 1], "number": [74, 7], "counts": [1, 32],
  "types-differ": [1, 8], "range": [1, 32], "back-pointer": [66, 7],
};

const counted = (count, one, many) => `${count} ${count === 1 ? one : many}`;

/** The verdict in a sentence. */
function summaryOf(answer) {
  if (answer.verdict.word === "closed") return "The solid is closed.";
  if (answer.verdict.word === "bad") {
    return "The file isn't one of IGES 5.3 in the fixed form, so it isn't read any further.";
  }
  const { rule, entity, place } = answer.verdict.told;
  if (!answer.shells) {
    if (["ENTRY", "TYPE"].includes(rule) && place === "0") {
      return `There is no solid with the number ${entity} in this file.`;
    }
    const cause = rule === "ONCE" ? "The solid names a shell, a face or a loop twice"
      : "A record of the solid is wrong";
    return `${cause}, so nothing can be said of its faces yet.`;
  }
  const totals = new Map();
  for (const it of answer.rules) {
    totals.set(it.told.rule, (totals.get(it.told.rule) || 0) + Number(it.told.faults));
  }
  const told = [...totals].map(([name, count]) => counted(count, ...COUNTED[name]));
  return `The solid isn't closed: ${told.join(", ")}.`;
}

/** A line for each shell: its counts, and how many faults it has. */
function shellsOf(answer, solid) {
  if (!solid) return [];
  const words = [["face", "faces"], ["edge", "edges"], ["vertex", "vertices"]], all = new Map();
  for (const { told } of answer.rules) {
    all.set(told.shell, (all.get(told.shell) || 0) + Number(told.faults));
  }
  return solid.shells.slice(0, MOST_SHELLS).map((shell, k) => {
    const counts = shell.counts().map((count, place) => counted(count, ...words[place])).join(", ");
    const faults = all.get(String(k + 1)) || 0;
    const role = k ? "void" : "outer shell";
    return { text: `shell ${k + 1} (${role}, entity ${shell.entity}): ${counts}`, faults };
  });
}

/** The lines of the file around some marks, a character for each byte. */
function excerptOf(file, marks, says) {
  const first = Math.max(1, marks[0][0] - AROUND);
  const last = Math.min(file.count, marks[marks.length - 1][0] + AROUND), lines = [];
  for (let number = first; number <= last; number++) {
    lines.push(file.line(number - 1, LONGEST).replace(/[^ -~\u00a1-\u00ff]/g, "?"));
  }
  if (marks[0][0] > file.count) lines.push("(the file ends here)");
  return { first, lines, marks, says };
}

function ofBadFile(file, { told }) {
  const [column, length] = COLUMNS_OF[told.reason] || [1, LONGEST];
  const says = `The first line of the file that fails is line ${told.line} (${told.reason}):`;
  return excerptOf(file, [[Number(told.line), column, length]], says);
}

/** The lines that hold the bad value of a record; of a solid that is none, its directory entry. */
function ofRecord(file, answer) {
  const item = answer.rules[0].items[0], entity = Number(item.told.entity);
  const fact = item.facts.find(it => "value" in it.told);
  if (fact) {
    const { value, found } = fact.told, marks = file.marks(entity, Number(value));
    const isTwice = answer.rules[0].told.rule === "ONCE";
    const wrong = isTwice ? `names entity ${found} a second time` : "is wrong";
    return excerptOf(file, marks,
      `Value ${value} of the record of entity ${entity} ${wrong}: `
      + `line ${marks[0][0]}, column ${marks[0][1]}:`);
  }
  if (answer.verdict.told.rule !== "TYPE") return null;
  const line = file.directoryAt + entity, marks = [[line, 1, 8], [line + 1, 1, 8]];
  return excerptOf(file, marks,
    `Entity ${entity} is of another type, or another form, than a solid's:`);
}

/** A fault in plain words. */
function meaningOf({ told }, rule) {
  if (rule === "PAIR") {
    const along = Number(told.along), against = Number(told.against);
    if (along + against === 1) return "one face alone uses it: an open edge";
    if (along + against === 2) return "both faces run along it in the same direction";
    return along === against ? "bodies or parts of one touch along it"
      : "a face too many meets here";
  }
  if (rule === "REACH")
    return told.part === "1" ? "the first part" : "shares no edge with the parts before";
  return {
    JOIN: "the loop is broken here", LINK: "fans of faces meet at this point only",
    APART: "shells share this point",
  }[rule] || "";
}

/** An item: its lines with the group of each, what it means, and what it marks in the picture. */
function faultOf(number, item, marked, rule, picture, answer) {
  const nothing = { edges: [], vertices: [], faces: [], arrows: [], spokes: [], groups: [] };
  const { edges, vertices, faces, arrows, spokes, groups } = marked || nothing;
  const facts = item.facts.slice(0, MOST_FACTS).map(({ text }, k) => [text, groups[k] ?? -1]);
  if (item.facts.length > MOST_FACTS)
    facts.push([`.. and ${item.facts.length - MOST_FACTS} lines more`, -1]);
  const shown = new Map(faces.map(it => [it.join(), it]));
  const told = [...shown.values()].map(([face, group]) => [picture.faces.get(face), group]);
  for (const [face] of told) face.facts = face.facts || factsOf(answer, face.entity);
  return {
    number, rule, head: item.text, says: meaningOf(item, rule), facts, edges, vertices, faces: told,
    arrows, spokes,
  };
}

/** A rule with the faults that are listed; all its failing edges and vertices are red. */
function ruleOf(rule, first, most, picture, answer) {
  const name = rule.told.rule, faults = [];
  rule.items.forEach((item, k) => {
    const marked = picture ? markedOf(item, name, picture.solid) : null;
    if (marked) {
      marked.edges.forEach(it => picture.redEdges.add(it));
      marked.vertices.forEach(it => picture.redVertices.add(it));
    }
    if (k < most) faults.push(faultOf(first + k, item, marked, name, picture, answer));
  });
  const more = rule.more + Math.max(0, rule.items.length - most);
  return { name, head: rule.text, sentence: rule.sentence, faults, more };
}

/** What mends something that is named twice: all but a loop that a face itself names twice. */
function leavingOut(answer, named) {
  if (answer.verdict.told.rule !== "ONCE") return [];
  const [{ told, facts }] = answer.rules[0].items;
  const isFace = answer.entities.get(Number(told.entity)).told.type === "face";
  if (isFace && facts.some(it => it.words === "first item" && it.told.entity === told.entity))
    return [];
  const sentence = "The mended file leaves out what is named again. What fails then is mended, "
    + "too, where the records tell how; otherwise no file is written.";
  return [{ head: "What mends this", command: mending(named), sentence }];
}

/** The hints of the text but the remedies of shells. */
function hintsOf(answer, named) {
  const others = answer.hints.filter(it => !isOfRemedies(it)).map(({ text, sentence }) =>
    ({ head: text.slice(text.indexOf(" ") + 1), sentence }));
  return [...leavingOut(answer, named), ...others];
}

function fewLines(text) {
  const lines = text.split("\n");
  if (lines.length <= MOST_LINES) return text;
  return [...lines.slice(0, MOST_LINES), `.. and ${lines.length - MOST_LINES} lines more`]
    .join("\n");
}

/** The rules with their faults, numbered through. */
function rulesOf(answer, picture) {
  if (answer.verdict.word === "bad") {
    return [{ name: "", head: "", sentence: answer.verdict.sentence, faults: [], more: 0 }];
  }
  let number = 1, left = MOST_OF_ALL;
  return answer.rules.map(rule => {
    const first = number, most = Math.min(MOST_LISTED, left);
    number += rule.items.length + rule.more;
    left -= Math.min(most, rule.items.length);
    return ruleOf(rule, first, most, picture, answer);
  });
}

/** The solid, and the lines to show where there is none. */
function readFile(bytes, number, answer, notes) {
  try {
    const file = new IgesFile(bytes);
    if (answer.verdict.word === "bad") return { excerpt: ofBadFile(file, answer.verdict) };
    if (answer.shells) return { solid: new Solid(file, number), excerpt: null };
    return { excerpt: ofRecord(file, answer) };
  } catch (fault) {
    if (!(fault instanceof Unreadable)) throw fault;
    notes.push(`No picture: ${fault.message} couldn't be read.`);
    return { excerpt: null };
  }
}

/**
 * All that the page of a solid shows. @param {string} title @param {number} number of the solid
 * @param {string} text of `igesolid-where` @param {Uint8Array} bytes of the file
 * @param {string} file the name of the file, for the command that mends it
 */
export function sceneOf(title, number, text, bytes, file = "FILE") {
  const answer = answerOf(text), notes = [];
  const { solid = null, excerpt } = readFile(bytes, number, answer, notes);
  const picture = solid ? new Picture(solid) : null, named = { file, solid: number };
  const { flag, unit } = answer.units ? answer.units.told : { flag: "-", unit: "-" };
  return {
    title, verdict: answer.verdict.text, kind: answer.verdict.word, says: summaryOf(answer), notes,
    rules: rulesOf(answer, picture).slice(0, MOST_RULES), hints: hintsOf(answer, named),
    excerpt, picture,
    remedies: remediesOf(answer, picture, named, it => factsOf(answer, it))
      .slice(0, MOST_SHELLS),
    shells: shellsOf(answer, solid), shellCount: solid ? solid.shells.length : 0,
    text: fewLines(text), unit: UNITS[flag] || (unit === "-" ? "" : unit),
  };
}
