"""The index of `--html`: a file whose rows are data, of which a script shows a part at a time, so that ten thousand stay fluent."""
import html
import json
from typing import Any, List, Sequence

from ..saying import printable

# What begins an index that this package wrote.
MARK = b'<!doctype html>\n<meta name="generator" content="igesolid check">\n'
CLOSED = "closed"
# A row: the file, its verdict, how many solids it has and how many are closed, the first reason, and the pages, each with what it is called.
Row = List[Any]
COLUMNS = "File", "Verdict", "Solids", "Closed", "First reason", "Where"
STYLE = """
:root { color-scheme: light dark; --green: #19743a; --red: #c1121f; --line: #cfd6dd; }
@media (prefers-color-scheme: dark) { :root { --green: #5fd38d; --red: #ff6b78; --line: #37424d; } }
body { font: 14px/1.4 system-ui, "DejaVu Sans", Arial, sans-serif; margin: 20px; }
h1 { font-size: 20px; }
table { border-collapse: collapse; }
th, td { text-align: left; vertical-align: top; padding: 4px 10px; border-bottom: 1px solid var(--line); }
th { white-space: nowrap; }
td:nth-child(1), td:nth-child(5) { overflow-wrap: anywhere; min-width: 12em; }
th button { font: inherit; font-weight: 600; border: 0; padding: 0; background: none; color: inherit; cursor: pointer; }
th[aria-sort=ascending] button::after { content: " \\25b2"; }
th[aria-sort=descending] button::after { content: " \\25bc"; }
form { display: flex; flex-wrap: wrap; gap: 6px 16px; align-items: baseline; margin: 12px 0; }
input, select, form button { font: inherit; }
.count { text-align: right; }
.closed { color: var(--green); }
.fails { color: var(--red); font-weight: 600; }
"""
# The rows that are chosen by name and verdict, ordered by the column whose heading is pressed; pressed again, the other way round.
SCRIPT = """
"use strict";
const most = 200, find = id => document.getElementById(id);
const rows = JSON.parse(find("rows").textContent), body = find("body"), heads = [...document.querySelectorAll("th")];
const order = new Intl.Collator(undefined, { numeric: true });
let column = -1, way = 1, first = 0, chosen = rows;

function made(name, text, className) {
  const it = document.createElement(name);
  it.textContent = text;
  if (className) it.className = className;
  return it;
}

function linked(pages) {
  const cell = made("td", "");
  pages.forEach(([page, called], k) => {
    const link = made("a", called);
    link.href = page;
    cell.append(...(k ? [", ", link] : [link]));
  });
  return cell;
}

function rowOf([file, verdict, solids, closed, reason, pages]) {
  const row = document.createElement("tr");
  row.append(made("td", file), made("td", verdict, verdict === "closed" ? "closed" : "fails"), made("td", solids, "count"));
  row.append(made("td", closed, "count"), made("td", reason), linked(pages));
  return row;
}

function show() {
  const end = Math.min(first + most, chosen.length);
  body.replaceChildren(...chosen.slice(first, end).map(rowOf));
  find("shown").textContent = chosen.length ? `${first + 1} to ${end} of ${chosen.length}` : "none";
  find("back").disabled = first === 0;
  find("on").disabled = end === chosen.length;
}

const said = row => column === 5 ? row[5].map(it => it[1]).join(", ") : String(row[column]);

function choose() {
  const name = find("name").value.toLowerCase(), verdict = find("verdict").value;
  const fits = it => verdict === "" || (verdict === "fails" ? it !== "closed" : it === verdict);
  chosen = rows.filter(row => fits(row[1]) && row[0].toLowerCase().includes(name));
  if (column >= 0) chosen.sort((one, other) => way * order.compare(said(one), said(other)));
  first = 0;
  show();
}

function turn(by) {
  first += by;
  show();
}

heads.forEach((head, place) => {
  head.firstChild.onclick = () => {
    way = head.getAttribute("aria-sort") === "ascending" ? -1 : 1;
    column = place;
    heads.forEach(it => it.removeAttribute("aria-sort"));
    head.setAttribute("aria-sort", way > 0 ? "ascending" : "descending");
    choose();
  };
});
document.forms[0].onsubmit = () => false;
find("name").oninput = find("verdict").onchange = choose;
find("back").onclick = () => turn(-most);
find("on").onclick = () => turn(most);
choose();
"""
HEAD = """<html lang="en">
<meta charset="utf-8">
<meta name="viewport" content="width=device-width, initial-scale=1">
<meta http-equiv="Content-Security-Policy" content="default-src 'none'; style-src 'unsafe-inline'; script-src 'unsafe-inline'; img-src data:">
<link rel="icon" href="data:,">
<title>igesolid check</title>
"""
FORM = """<form><label>Name has <input type="search" id="name"></label>
<label>Verdict <select id="verdict">{choices}</select></label>
<span>Rows <span id="shown"></span></span>
<button type="button" id="back">Back</button><button type="button" id="on">On</button></form>
<noscript><p>The rows are shown by JavaScript; igesolid check --csv prints them without it.</p></noscript>
"""


def escaped(text: str) -> str:
    return html.escape(printable(text), quote=False)


def choices_of(rows: Sequence[Row]) -> str:
    """What may be chosen of the verdicts, with how many rows each has."""
    words = [row[1] for row in rows]
    counts = {"": ("all", len(words)), "fails": ("not closed, or not judged", len(words) - words.count(CLOSED))}
    counts.update((word, (word, words.count(word))) for word in sorted(set(words)))
    return "".join(f'<option value="{value}">{called} ({count:,})</option>' for value, (called, count) in counts.items())


def data_of(rows: Sequence[Row]) -> str:
    """The rows as JSON, those that fail first; what would end the element, or isn't UTF-8, is spelled."""
    ordered = sorted(rows, key=lambda row: bool(row[1] == CLOSED))
    return json.dumps(ordered, separators=(",", ":")).replace("<", "\\u003c")


def index_of(rows: Sequence[Row], told: str) -> bytes:
    heads = "".join(f"<th scope=col><button>{it}</button>" for it in COLUMNS)
    table = f'<table>\n<thead><tr>{heads}\n<tbody id="body"></table>\n'
    data = f'<script type="application/json" id="rows">{data_of(rows)}</script>\n'
    text = f"{HEAD}<style>{STYLE}</style>\n<h1>igesolid check</h1>\n<p>{escaped(told)}</p>\n{FORM.format(choices=choices_of(rows))}{table}{data}"
    return MARK + f"{text}<script>{SCRIPT}</script>\n".encode("utf-8", "replace")
