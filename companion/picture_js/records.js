/**
 * Reading an IGES file: lines, directory entries, and the values of records as they are spelled.
 *
 * The file is one that the proved program has read, so little is checked here. Sources: IGES 5.3,
 * sections 2.2.2 (free format), 2.2.4.3 (global section), 2.2.4.4 (directory entry), 2.2.4.5.
 */

const RECORD_COLUMNS = 64;
const NUMBER = /^[+-]?(?:[0-9]+\.?[0-9]*|\.[0-9]+)(?:[EeDd][+-]?[0-9]+)?$/;
const DELIMITERS_TOLD = /^ *(?:1H([^])?)? *([^]) *(?:1H([^])?)?/;
/** A coordinate beyond this is taken for none: its square would be no number. */
const GREATEST = 1e100;

/** What can't be read or drawn, in words. */
export class Unreadable extends Error {}

/** @typedef {{kind: number, first: number, lines: number, matrix: number, form: number}} Entry */
/** @typedef {[number, number, number]} Mark a line and a column, from 1, and a number of columns */

/** The integer that is spelled so, 0 if it is left out. */
export function integer(spelled) {
  const text = (spelled || "").trim();
  if (text && !/^[+-]?[0-9]+$/.test(text))
    throw new Unreadable("a value that should be an integer");
  return Number(text || 0);
}

/** The number that is spelled so, 0 if it is left out. */
export function real(spelled) {
  if (!spelled) return 0;
  if (!NUMBER.test(spelled)) throw new Unreadable("a value that should be a number");
  const number = Number(spelled.replace(/[dD]/, "E"));
  if (!(Math.abs(number) < GREATEST)) throw new Unreadable("a number that is too large to draw");
  return number;
}

/** The numbers from one place to another; those that the record leaves out at its end are 0. */
export function reals(values, first, last) {
  const found = [];
  for (let place = first; place < last; place++) {
    found.push(place < values.length ? real(values[place]) : 0);
  }
  return found;
}

/** The delimiters of values and of records that the global section sets. */
function delimitersOf(text) {
  const told = DELIMITERS_TOLD.exec(text);
  const parting = (told && told[1]) || ",";
  const after = told && told[2] === parting ? told[3] : null;
  return [parting, after || ";"];
}

/** Where each line begins and ends, without its LF or CR LF. */
function linesOf(bytes) {
  const starts = [], ends = [];
  for (let at = 0; at < bytes.length; ) {
    let end = bytes.indexOf(10, at);
    if (end < 0) end = bytes.length;
    starts.push(at);
    ends.push(end > at && bytes[end - 1] === 13 ? end - 1 : end);
    at = end + 1;
  }
  return { starts, ends };
}

/** The entries of a file by their directory numbers, and their values. */
export class IgesFile {
  /** @param {Uint8Array} bytes */
  constructor(bytes) {
    this.bytes = bytes;
    Object.assign(this, linesOf(bytes));
    this.count = this.starts.length;
    const counts = { S: 0, G: 0, D: 0 };
    for (let place = 0; place < this.count; place++) {
      const letter = this.letter(place);
      if (letter in counts) counts[letter]++;
    }
    this.directoryAt = counts.S + counts.G;
    this.recordsAt = this.directoryAt + counts.D;
    let globals = "";
    for (let place = counts.S; place < this.directoryAt; place++) globals += this.line(place, 72);
    [this.parting, this.ending] = delimitersOf(globals);
    this.entries = new Map();
    this.spelled = new Map();
  }

  letter(place) {
    const at = this.starts[place] + 72;
    return at < this.ends[place] ? String.fromCharCode(this.bytes[at]) : "";
  }

  /** A line from 0, as far as some column, one character for each byte. */
  line(place, columns = 1000) {
    const start = this.starts[place], end = Math.min(this.ends[place], start + columns);
    return String.fromCharCode.apply(null, this.bytes.subarray(start, end));
  }

  /** The entry of this directory number. @returns {Entry} */
  entry(number) {
    if (!this.entries.has(number)) {
      const at = this.directoryAt + number - 1;
      if (number % 2 === 0 || at < this.directoryAt || at >= this.recordsAt - 1) {
        throw new Unreadable(`entity ${number}, which isn't in the directory`);
      }
      const one = this.line(at, 72), two = this.line(at + 1, 72);
      const field = (text, place) => integer(text.slice(8 * place, 8 * place + 8));
      this.entries.set(number, {
        kind: field(one, 0), first: field(one, 1), lines: field(two, 3), matrix: field(one, 6),
        form: field(two, 4),
      });
    }
    return this.entries.get(number);
  }

  record(number) {
    const entry = this.entry(number), parts = [], at = this.recordsAt + entry.first - 1;
    for (let place = at; place < Math.min(at + entry.lines, this.count); place++) {
      parts.push(this.line(place, RECORD_COLUMNS));
    }
    return parts.join("");
  }

  /** The type number and the values of a record, each with the spaces around it. */
  pieces(number) {
    const text = this.record(number), { parting, ending } = this;
    if (!text.includes("H")) return text.split(ending, 1)[0].split(parting);
    const pieces = [], begins = / *([0-9]+)H/y;
    for (let at = 0; ; ) {
      begins.lastIndex = at;
      const told = begins.exec(text);
      let end = told ? begins.lastIndex + Number(told[1]) : at;
      while (end < text.length && text[end] !== parting && text[end] !== ending) end++;
      pieces.push(text.slice(at, end));
      if (end >= text.length || text[end] === ending) return pieces;
      at = end + 1;
    }
  }

  /** The values of an entry's record as they are spelled, without the type number. */
  values(number) {
    let found = this.spelled.get(number);
    if (!found) {
      found = this.pieces(number).map(it => it.replace(/^ +| +$/g, ""));
      found.shift();
      this.spelled.set(number, found);
    }
    return found;
  }

  /**
   * Where the value of this place stands, from 1: itself, or the delimiter if it is left out or the
   * record ends before it. @returns {Mark[]}
   */
  marks(number, place) {
    const pieces = this.pieces(number), piece = place < pieces.length ? pieces[place] : "";
    let at = pieces.slice(0, place).reduce((sum, it) => sum + it.length + 1, 0);
    if (place >= pieces.length) at--;
    else if (piece.trim()) at += piece.length - piece.trimStart().length;
    else at += piece.length;
    const first = this.recordsAt + this.entry(number).first;
    return marksBetween(first, at, at + Math.max(1, piece.trim().length));
  }
}

/**
 * The marks of the bytes from start to end of a record whose first line is this one of the file.
 */
function marksBetween(first, start, end) {
  const marks = [];
  while (start < end) {
    const column = start % RECORD_COLUMNS, length = Math.min(end - start, RECORD_COLUMNS - column);
    marks.push([first + Math.floor(start / RECORD_COLUMNS), column + 1, length]);
    start += length;
  }
  return marks;
}
