/**
 * The side of the page: text is only ever set as text, so nothing of the file is taken for markup.
 */
import { colourOf } from "./colours.js";

export const find = id => document.getElementById(id);

export function make(tag, name, text) {
  const it = document.createElement(tag);
  if (name) it.className = name;
  if (text !== undefined) it.textContent = text;
  return it;
}

function swatch(group) {
  const it = make("span", "swatch");
  it.style.background = colourOf(group);
  it.dataset.group = group;
  return it;
}

/** The colours of the swatches again, when those of the picture changed. */
export function recolour() {
  for (const it of document.querySelectorAll(".swatch"))
    it.style.background = colourOf(Number(it.dataset.group));
}

/** The paragraph of a fault. */
function faultBox(fault, choose) {
  const box = make("div", "fault"), button = make("button"), facts = make("pre");
  const words = make("span", "", fault.head);
  if (fault.says) words.append(make("span", "", fault.says));
  button.append(make("b", "", fault.number), words);
  button.setAttribute("aria-expanded", "false");
  button.onclick = () => choose(fault);
  for (const [text, group] of fault.facts) {
    if (group >= 0) facts.append(swatch(group));
    facts.append(`${text}\n`);
  }
  for (const face of new Set(fault.faces.map(it => it[0]))) {
    if (face.facts.length)
      facts.append(make("span", "about", `face ${face.entity}: ${face.facts.join(", ")}\n`));
  }
  box.append(button, facts);
  Object.assign(fault, { box, button });
  return box;
}

function hintBox(hint) {
  const box = make("div", "hint");
  box.append(make("code", "", hint.head), hint.sentence);
  if (hint.command) box.append(make("code", "command", hint.command));
  return box;
}

/** The steps of a remedy with their items, and the command that mends with it. */
function fillRemedy(place, remedy) {
  place.replaceChildren(...(remedy.steps.length > 1 ? [make("code", "", remedy.words)] : []));
  for (const { words, sentence, told } of remedy.steps) {
    const items = make("details"), list = make("pre");
    for (const [text, group] of told) {
      if (group >= 0) list.append(swatch(group));
      list.append(`${text}\n`);
    }
    items.append(make("summary", "", words), list);
    place.append(items, sentence);
  }
  const says = "No file is written by this remedy, since a face must be made anew: make it in the "
    + "CAD system.";
  place.append(remedy.command ? make("code", "command", remedy.command) : make("p", "", says));
}

/** The remedies of a shell: a button for each, which shows its steps and marks them. */
function remediesBox({ shell, sentence, remedies, left }, isOne, choose) {
  const box = make("div", "hint remedies"), place = make("div"), buttons = make("div", "choices");
  const title = remedies.length ? "What makes it closed" : "No remedy is known";
  const head = isOne ? title : `${title}: shell ${shell}`;
  box.append(make("code", "", head), sentence, buttons, place);
  const show = remedy => {
    fillRemedy(place, remedy);
    for (const it of remedies) it.button.setAttribute("aria-pressed", String(it === remedy));
  };
  for (const remedy of remedies) {
    remedy.button = make("button", "", `Remedy ${remedy.remedy}`);
    remedy.button.title = remedy.words;
    remedy.button.onclick = () => { show(remedy); choose(remedy); };
    buttons.append(remedy.button);
  }
  if (left) buttons.append(make("span", "more", `and ${left} more`));
  if (remedies.length) show(remedies[0]);
  return box;
}

function addRule(rule, choose) {
  const rules = find("rules");
  if (rule.head) rules.append(make("h2", "rule", rule.head));
  rules.append(make("div", "sentence", rule.sentence));
  for (const fault of rule.faults) rules.append(faultBox(fault, choose));
  if (rule.more)
    rules.append(make("div", "more",
    `and ${rule.more} more: "igesolid where FILE N all" lists them`));
}

export const addNote = text => find("notes").append(make("div", "note", text));

/** Fills the side with what a scene tells. */
export function fillSide(scene, choose) {
  document.title = `${scene.verdict} - ${scene.title}`;
  find("title").textContent = scene.title;
  find("verdict").textContent = scene.verdict;
  find("verdict").className = scene.kind;
  find("says").textContent = scene.says;
  find("text").textContent = scene.text;
  for (const { text, faults } of scene.shells.slice(0, 20)) {
    find("shells").append(make("li", "", text + (faults ? `; faults: ${faults}` : "")));
  }
  if (scene.shellCount > 20)
    find("shells").append(make("li", "", `and ${scene.shellCount - 20} shells more`));
  scene.notes.forEach(addNote);
  for (const hint of scene.hints) find("hints").append(hintBox(hint));
  const isOne = scene.remedies.length === 1;
  for (const it of scene.remedies) find("hints").append(remediesBox(it, isOne, choose));
  for (const rule of scene.rules) addRule(rule, choose);
}

/** A line of an excerpt, with its marks. */
function excerptRow(line, number, marks) {
  const head = String(number).padStart(7) + (marks.length ? " > " : "   ");
  const row = make("span", marks.length ? "here" : "", head);
  let at = 0;
  for (const [, column, length] of marks) {
    const end = column - 1 + length;
    row.append(line.slice(at, column - 1), make("mark", "", line.slice(column - 1, end) || " "));
    at = end;
  }
  row.append(line.slice(at), "\n");
  return row;
}

/** The lines of a file that isn't drawn, with the bad value marked. */
export function fillExcerpt(excerpt) {
  const box = find("excerpt");
  box.hidden = false;
  for (const id of ["bar", "help", "over", "lines"]) find(id).hidden = true;
  box.append(make("div", "", excerpt ? excerpt.says : "There is no picture."));
  if (!excerpt) return;
  const text = make("pre");
  excerpt.lines.forEach((line, place) => {
    const number = excerpt.first + place;
    text.append(excerptRow(line, number, excerpt.marks.filter(it => it[0] === number)));
  });
  box.append(text);
  const mark = text.querySelector("mark");
  if (mark && mark.offsetWidth < text.clientWidth)
    mark.scrollIntoView({ block: "nearest", inline: "nearest" });
}
