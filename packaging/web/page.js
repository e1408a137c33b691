"use strict";
// The page: files that are dropped, a table of their solids, and what is asked of each. What is said of a file comes from the worker.
const REFUSED = {
  2: "The page asked what the checker doesn't know.",
  3: "It isn't an IGES file of the fixed form.",
  6: "Memory ran out.",
  7: "The solid can't be extracted.",
  8: "It has more than 164,000,000 bytes.",
};
const MEANING = {
  ENTRY: "a dangling pointer", TYPE: "wrong type or form", RECORD: "parameters don't fit the entity", ONCE: "a shell, face or loop occurs twice",
  INDEX: "no such edge or vertex in its list", GEOMETRY: "a curve or surface is missing", JOIN: "a loop's edges aren't joined head to tail",
  PAIR: "a free or non-manifold edge, or faces of opposite orientation", REACH: "several lumps in one shell", LINK: "a non-manifold vertex",
  APART: "shells touch at a vertex",
};
// The rules that Mend mends.
const MENDED = ["ONCE", "JOIN", "PAIR", "REACH", "LINK", "APART"];
const element = id => document.getElementById(id);
const shown = bytes => new TextDecoder().decode(bytes);

function made(tag, properties = {}, ...inside) {
  const it = Object.assign(document.createElement(tag), properties);
  it.append(...inside);
  return it;
}

function size(count) {
  return count < 1e6 ? `${(count / 1e3).toFixed(count < 1e5 ? 1 : 0)} kB` : `${(count / 1e6).toFixed(1)} MB`;
}

function time(ms) {
  return ms < 1000 ? `${ms.toFixed(ms < 10 ? 1 : 0)} ms` : `${(ms / 1000).toFixed(2)} s`;
}

let module = null, worker = null, ready = null, running = null, last = 0;
// What is asked and not yet answered, in order; the files that were given, by their keys; and those whose bytes the worker holds.
const jobs = [], givens = new Map(), held = new Set();

/** Starts a worker, and gives it the module. */
function employ() {
  worker = new Worker(URL.createObjectURL(new Blob([element("work").textContent], { type: "text/javascript" })));
  // What brings the module, or forgets a file, is no job.
  worker.onmessage = ({ data }) => { if (running && data.job === running.message.job) end(data); };
  worker.onerror = fault => { if (running) end({ fault: fault.message }); };
  held.clear();
  worker.postMessage({ module });
}

/** Compiles the module that stands in the page. */
async function begin() {
  if (typeof WebAssembly !== "object" || typeof Worker !== "function") throw new Error("it has no WebAssembly");
  const text = element("module").textContent.trim();
  module = await WebAssembly.compile(Uint8Array.from(atob(text), it => it.charCodeAt(0)));
  employ();
}

/** Gives the worker the next job, with the bytes of its file where the worker doesn't hold them. */
async function next() {
  if (running || jobs.length === 0) return;
  const job = running = jobs.shift(), { message } = job;
  try {
    if (!message.bytes && !held.has(message.file)) message.bytes = await givens.get(message.file)?.arrayBuffer();
  } catch (fault) {
    if (running === job) end({ fault: `The file can't be read: ${fault.message}` });
  }
  // The file may have been removed meanwhile.
  if (running !== job) return;
  if (message.bytes) held.add(message.file);
  worker.postMessage(message, message.bytes ? [message.bytes] : []);
}

function end(got) {
  const { settle } = running;
  running = null;
  settle(got);
  next();
}

/** What the worker answers; a sentence in `fault` where it can't. */
async function asked(message) {
  try {
    await ready;
  } catch (fault) {
    return { fault: `This browser can't run the checker: ${fault.message}` };
  }
  return new Promise(settle => {
    message.job = ++last;
    jobs.push({ message, settle });
    next();
  });
}

/** Ends what is asked of a file. A call can't be stopped, but its worker can; another one goes on with the other files. */
function removed(key) {
  givens.delete(key);
  const others = jobs.filter(it => it.message.file !== key), said = { fault: "The file was removed." };
  for (const { message, settle } of jobs.splice(0, jobs.length, ...others)) if (message.file === key) settle(said);
  if (running?.message.file === key) {
    worker.terminate();
    employ();
    end(said);
  } else if (held.delete(key)) {
    worker.postMessage({ file: key, forget: true });
  }
}

function save(name, bytes) {
  const link = made("a", { href: URL.createObjectURL(new Blob([bytes])), download: name });
  link.click();
  setTimeout(() => URL.revokeObjectURL(link.href), 60000);
}

/** While a call runs, what runs and for how long; returns what ends that. */
function busy(place, what) {
  const label = made("span"), line = made("p", { className: "note", role: "status" }, made("progress"), " ", label), start = performance.now();
  const tick = () => { label.textContent = `${what}, ${((performance.now() - start) / 1000).toFixed(0)} s`; };
  tick();
  const timer = setInterval(tick, 250);
  place.append(line);
  return () => { clearInterval(timer); line.remove(); };
}

/** A button that is pressed once at a time. */
function button(label, box, what, run) {
  const it = made("button", { textContent: label });
  it.onclick = async () => {
    it.disabled = true;
    const stop = busy(box, what);
    await run();
    stop();
    it.disabled = false;
  };
  return it;
}

/** Why a solid isn't mended, where that is the answer. */
function unmended(text) {
  const [, cause, count] = text.match(/^(stuck|needs faces (\d+))$/m) || [];
  if (/^fail .*\n$/.test(text)) return `No file is written: a record of this solid is wrong also without what is named twice.\n${text}`;
  if (!cause) return null;
  const faces = count === "1" ? "a face" : `${count} faces`;
  const said = count ? `No file is written, since ${faces} must be made anew. Where tells the edges of each.` : "No remedy is known that closes this solid.";
  return `${said}\n${text}`;
}

function reason(got) {
  const said = got.fault ?? REFUSED[got.status] ?? `The checker answered with status ${got.status}.`;
  return got.text && got.text.length ? `${said}\n${shown(got.text)}` : said;
}

/** Shows the page of a solid, which is the one that `igesolid page` writes, in a frame over all. */
function showPicture(parts) {
  let page = shown(Uint8Array.from(atob(element("picture").textContent.trim()), it => it.charCodeAt(0)));
  for (const [word, value] of Object.entries(parts)) page = page.replace(`@${word}@`, () => value);
  const frame = made("iframe", { srcdoc: page, title: "The solid" });
  const dialog = made("dialog", {}, made("button", { textContent: "Close", onclick: () => dialog.close() }), frame);
  dialog.onclose = () => dialog.remove();
  document.body.append(dialog);
  dialog.showModal();
}

/** The line of a solid in the table, and below it the room for what is told of it. */
class Row {
  constructor(file, box, words, facts) {
    const [, number, verdict, rule, entity, place] = words;
    const isJudged = verdict !== "unjudged", mayMend = MENDED.includes(rule) || !isJudged;
    Object.assign(this, { file, box, number, isClosed: verdict === "closed", isUnpaired: rule === "PAIR", mayMend });
    this.out = made("pre", { hidden: true });
    const plain = (className, textContent) => made("td", { className, textContent });
    const said = this.isClosed ? plain("good", "closed") : !isJudged ? plain("bad", "not judged with the others: press Where")
      : made("td", { className: "bad" }, made("span", { textContent: `fails ${rule}` }),
        made("small", { textContent: `${MEANING[rule] ?? ""}: entity ${entity}, place ${place}` }));
    const about = made("td", {}, ...facts.map(it => made("small", { textContent: it })));
    this.elements = [made("tr", { className: "solid" }, made("td", { textContent: number }), said, about, this.actions()),
      made("tr", {}, made("td", { colSpan: 4, className: "told" }, this.out))];
  }

  actions() {
    const cell = made("td", { className: "actions" });
    const add = (label, run) => cell.append(button(label, this.box, `${label.toLowerCase()} of solid ${this.number}`, run));
    add("Where", () => this.tellWhere());
    add("Picture", () => this.draw());
    if (this.isClosed) add("Certificate", () => this.download("certify", "cert"));
    add("Extract", () => this.download("extract", "igs"));
    if (this.mayMend) add("Mend", () => this.mend());
    if (this.isUnpaired) add("Reorient", () => this.download("reorient", "reoriented.igs"));
    return cell;
  }

  tell(text, isBad = false) {
    Object.assign(this.out, { hidden: false, textContent: text, className: isBad ? "bad" : "" });
  }

  async tellWhere() {
    const got = await asked({ file: this.file.key, words: ["where", "-", this.number] });
    const isTold = !got.fault && got.status <= 1;
    this.tell(isTold ? shown(got.text) : reason(got), !isTold);
  }

  async draw() {
    const got = await asked({ file: this.file.key, picture: { name: this.file.name, number: this.number } });
    if (got.parts) showPicture(got.parts);
    else this.tell(reason(got), true);
  }

  /** Saves the mended solid, and tells what was changed; where the records don't tell which remedy is meant, one is offered first. */
  async mend(remedy) {
    const words = remedy ? [this.number, remedy] : [this.number];
    const got = await asked({ file: this.file.key, words: ["mend", "-", ...words] }), text = got.text ? shown(got.text) : "";
    const [, other] = got.status === 1 && text.match(/^unsure (\d)$/m) || [];
    if (got.status !== 0 && !other) return this.tell(unmended(text) ?? reason(got), true);
    const changes = await asked({ file: this.file.key, words: ["mended", "-", ...(other ? [this.number, other] : words)] });
    const told = changes.status === 0 ? shown(changes.text) : "";
    if (!other) {
      save(`${this.file.stem}.${this.number}.mended.igs`, got.text);
      return this.tell(`The mended file is saved. What changed in it, by the numbers of this file:\n\n${told}`);
    }
    this.tell(`The records don't tell which remedy is meant. This one closes the solid:\n\n${told}`);
    this.out.append(button(`Save with remedy ${other}`, this.box, `mend of solid ${this.number}`, () => this.mend(other)));
    return null;
  }

  async download(command, ending) {
    const got = await asked({ file: this.file.key, words: [command, "-", this.number] });
    if (got.status === 0) save(`${this.file.stem}.${this.number}.${ending}`, got.text);
    else this.tell(reason(got), true);
  }
}

/** The rows of the answer of `where` on all solids: a line for each, and the facts below it. */
function rowsOf(file, box, text) {
  const rows = [];
  for (const line of text.split("\n").slice(1)) {
    if (line.startsWith("solid ")) rows.push({ words: line.split(" "), facts: [] });
    else if (line.startsWith("  ") && rows.length) rows.at(-1).facts.push(line.trim());
  }
  return rows.map(({ words, facts }) => new Row(file, box, words, facts));
}

/** Fills the section of a file with the answer of `where` on all solids. */
function fill(file, box, text) {
  const rows = rowsOf(file, box, text), closed = rows.filter(it => it.isClosed).length;
  if (rows.length === 0) {
    box.append(made("p", { className: "note bad", textContent: "There is no solid in it: no entity 186." }), made("pre", { textContent: text }));
    return;
  }
  box.append(made("p", { className: `note ${closed === rows.length ? "good" : "bad"}`, textContent: `${closed} of ${rows.length} closed` }));
  const head = made("thead", {}, made("tr", {}, ...["Solid", "Verdict", "In the file", ""].map(it => made("th", { textContent: it }))));
  box.append(made("table", {}, head, made("tbody", {}, ...rows.flatMap(it => it.elements))));
}

/** Saves the file in the layout of the fixed form, or says why there is none. */
async function mend(file, box) {
  const got = await asked({ file: file.key, words: ["relayout", "-"] });
  if (got.status === 0) save(`${file.stem}.mended.igs`, got.text);
  else box.append(made("pre", { className: "bad", textContent: reason(got) }));
}

/** Says what the layout of the fixed form changes in the file, or why there is none. */
async function tellLayout(file, box) {
  const got = await asked({ file: file.key, words: ["layout", "-"] });
  box.append(made("pre", { textContent: !got.fault && got.status <= 1 ? shown(got.text) : reason(got) }));
}

/** Reads and judges a file, and shows it above the others. */
async function judge(given) {
  const file = { name: given.name, stem: given.name.replace(/\.[^.]*$/, ""), key: `${++last} ${given.name}` };
  const note = made("span"), remove = made("button", { textContent: "Remove" });
  const box = made("section", {}, made("header", {}, made("b", { textContent: given.name }), made("span", { textContent: size(given.size) }), note, remove));
  remove.onclick = () => { box.remove(); removed(file.key); };
  givens.set(file.key, given);
  element("files").prepend(box);
  const stop = busy(box, "reading and judging");
  const got = await asked({ file: file.key, words: ["where", "-"] });
  stop();
  const isJudged = !got.fault && got.status <= 1;
  if (isJudged) {
    note.textContent = `${time(got.took)}, ${size(got.memory)} of memory`;
    fill(file, box, shown(got.text));
  } else {
    box.append(made("p", { className: "note bad", textContent: got.fault ?? REFUSED[got.status] ?? "" }));
    box.append(made("pre", { textContent: got.text ? shown(got.text) : "" }));
    if (got.status === 3) {
      box.append(made("p", { className: "note" }, button("Mend", box, "mending the layout of the lines", () => mend(file, box)),
        button("Layout", box, "comparing the layout of the lines", () => tellLayout(file, box))));
    }
  }
  box.dataset.done = isJudged ? "yes" : "no";
}

function takeFiles() {
  const drop = element("drop");
  const over = isOver => event => { event.preventDefault(); drop.classList.toggle("over", isOver); };
  addEventListener("dragover", over(true));
  addEventListener("dragleave", over(false));
  addEventListener("drop", event => { over(false)(event); for (const it of event.dataTransfer.files) judge(it); });
  element("chosen").onchange = event => { for (const it of event.target.files) judge(it); event.target.value = ""; };
}

takeFiles();
ready = begin();
ready.catch(fault => {
  const others = "Chrome, Edge and Firefox of 2023 or later, and Safari 16.4 or later can.";
  element("says").textContent = `This browser can't run the checker: ${fault.message}. ${others}`;
  element("says").className = "bad";
});
