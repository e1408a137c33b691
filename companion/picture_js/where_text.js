/**
 * The text of `igesolid where FILE N`: its lines are read into rules, items and facts, and a line
 * of another shape is refused (docs/WHERE.md).
 */
import { ALIKE, ITEMS, KINDS, NUMBER, SENTENCES, TABLE, UNSAID } from "./where_lines.js";

/** A shape of lines: fixed words, and values in `<>` by their names. */
class Shape {
  constructor(line) {
    const parts = line.split(" "), isValue = part => part.startsWith("<");
    this.names = parts.filter(isValue).map(part => part.slice(1, -1));
    this.words = parts.filter(part => !isValue(part)).join(" ");
    const kindOf = part => (Object.hasOwn(KINDS, part) ? KINDS[part] : NUMBER);
    const shapes = parts.map(part => (isValue(part) ? `(${kindOf(part.slice(1, -1))})` : part));
    this.expression = new RegExp(`^${shapes.join(" ")}$`, "s");
  }

  /** What a line of this shape says, by name; null for another line. */
  told(text) {
    const match = this.expression.exec(text);
    return match && Object.fromEntries(this.names.map((name, k) => [name, match[k + 1]]));
  }
}

/** The shapes of head lines by their first word, and those of the facts that may follow these. */
const HEADS = new Map(), FACTS = new Map();

function addShapes() {
  let word = "";
  for (const line of TABLE.trim().split("\n")) {
    const isFact = line.startsWith("  "), shapes = isFact ? FACTS : HEADS;
    if (!isFact) word = line.split(" ", 1)[0];
    if (!shapes.has(word)) shapes.set(word, []);
    shapes.get(word).push(new Shape(line.trim()));
  }
  for (const [name, other] of Object.entries(ALIKE)) FACTS.set(name, FACTS.get(other));
}

addShapes();

/** A line of the text that has none of the shapes. */
export class NotUnderstood extends Error {}

/** @typedef {{text: string, words: string, told: Object<string, string>}} Line */
/**
 * @typedef {Line & {
 *   word: string, facts: Line[], sentence: string, items: Paragraph[], more: number,
 * }} Paragraph
 */

/** A line with the fixed words of its shape, and what it says by name. @returns {Line} */
function read(shapes, word, text) {
  for (const shape of shapes.get(word) || []) {
    const told = shape.told(text);
    if (told) return { text, words: shape.words, told };
  }
  throw new NotUnderstood(`a line of the text of igesolid-where isn't understood: ${text}`);
}

/** The key of the edge or the vertex that a line tells: its list and its index. */
export const keyOf = (line, its = "") => `${line.told[`${its}list`]} ${line.told[`${its}index`]}`;

/** Each head line with the facts or the sentence after it. @returns {Paragraph[]} */
function paragraphs(lines) {
  const found = [];
  for (const line of lines) {
    const last = found[found.length - 1];
    if (line.startsWith("  ") && last) {
      const text = line.slice(2), isSaid = SENTENCES.includes(last.word) && last.words !== UNSAID;
      if (isSaid) last.sentence += (last.sentence ? " " : "") + text;
      else last.facts.push(read(FACTS, last.word, text));
    } else if (line) {
      const word = line.split(" ", 1)[0];
      found.push({ ...read(HEADS, word, line), word, facts: [], sentence: "", items: [], more: 0 });
    }
  }
  return found;
}

const isItem = word => Object.values(ITEMS).some(words => words.includes(word));

/** Puts a paragraph to its place in an answer; an item to the step, rule or hint before it. */
function take(answer, it, open) {
  while (open.length && !ITEMS[open[open.length - 1].word].includes(it.word)) open.pop();
  const holder = open[open.length - 1];
  if (Object.hasOwn(ITEMS, it.word)) open.push(it);
  if (holder && it.word === "more") holder.more = Number(it.told.more);
  else if (holder) holder.items.push(it);
  else if (it.word === "units" || it.word === "shells") answer[it.word] = it;
  else if (it.word === "shell") answer.failing.push(it);
  else if (it.words === UNSAID) answer.hints[answer.hints.length - 1].left = Number(it.told.more);
  else if (it.word === "hint" || it.word === "rule") answer[`${it.word}s`].push(it);
  else if (it.word === "entity") answer.entities.set(Number(it.told.entity), it);
  else if (isItem(it.word) && it.word !== "more") {
    throw new NotUnderstood(`the text of igesolid-where has an item of nothing: ${it.text}`);
  }
}

/** The text read into its parts; NotUnderstood for a line of another shape. */
export function answerOf(text) {
  const found = paragraphs(text.split("\n")), verdict = found[0];
  if (!verdict || !["closed", "fail", "bad"].includes(verdict.word)) {
    throw new NotUnderstood("the text of igesolid-where begins with no verdict");
  }
  const answer = {
    text, verdict, units: null, shells: null, failing: [], hints: [], rules: [],
      entities: new Map(),
  };
  const open = [];
  for (const it of found.slice(1)) take(answer, it, open);
  const isWhole = answer.rules.length > 0 && answer.rules.every(rule => rule.items.length);
  if (verdict.word === "fail" && !isWhole) {
    throw new NotUnderstood("the text of igesolid-where has a rule without items, or none");
  }
  return answer;
}

/** What the text says of an entity: level, colour, label, names; not its lines in the file. */
export function factsOf(answer, entity) {
  const found = answer.entities.get(entity);
  return found ? found.facts.map(it => it.text).filter(it => !it.startsWith("lines ")) : [];
}
