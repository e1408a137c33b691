/** Files for the tests of the picture: text of entries, and solids of one face. */

const LINE = 64;

/** The values of a record on lines. */
function filled(words) {
  const lines = [];
  let line = "";
  for (const word of words) {
    if (line && line.length + word.length > LINE) {
      lines.push(line);
      line = "";
    }
    line += word;
  }
  return [...lines, line];
}

const column = it => String(it).padStart(8);

/** The bytes of a file of entries, each a type, a form, its values and perhaps a matrix. */
export function fileOf(records) {
  const directory = [], params = [];
  records.forEach(([kind, form, values, matrix = 0], place) => {
    const words = [kind, ...values].map((it, k) => `${it}${k === values.length ? ";" : ","}`);
    const lines = filled(words), number = 2 * place + 1;
    directory.push([kind, params.length + 1, 0, 0, 0, 0, matrix, 0].map(column).join("")
      + "00000000");
    directory.push([kind, 0, 0, lines.length, form].map(column).join("").padEnd(72));
    params.push(...lines.map(it => `${it.padEnd(LINE)}${column(number)}`));
  });
  const sections = { S: [""], G: ["1H,,1H;;"], D: directory, P: params, T: [""] };
  const text = Object.entries(sections).flatMap(([letter, lines]) =>
    lines.map((line, k) => `${line.padEnd(72)}${letter}${String(k + 1).padStart(7)}\n`)).join("");
  return new TextEncoder().encode(text);
}

/**
 * A file of a solid with one face: loops of uses, each an edge's place and 1 or 0, or [-1, vertex].
 * @param {number[][]} vertices @param {[number, number, any[]][]} curves with start and end vertex
 */
export function faceFile({ vertices, edges, loops, surface, more = [] }) {
  const first = 11 + 2 * loops.length, curveAt = k => first + 2 * k;
  const surfaceAt = first + 2 * edges.length, moreAt = surfaceAt + 2;
  const named = values => values.map(it => (typeof it === "object" ? moreAt + 2 * it.more : it));
  const records = [
    [186, 0, [3, 1, 0]], [514, 1, [1, 9, 1]], [502, 1, [vertices.length, ...vertices.flat()]],
    [504, 1, [edges.length,
      ...edges.flatMap(({ start, end }, k) => [curveAt(k), 5, start + 1, 5, end + 1])]],
    [510, 1, [surfaceAt, loops.length, 1, ...loops.map((_, k) => 11 + 2 * k)]],
    ...loops.map(loop => [508, 1, [loop.length, ...loop.flatMap(([edge, flag]) =>
      (edge < 0 ? [1, 5, flag + 1, 1, 0] : [0, 7, edge + 1, flag, 0]))]]),
    ...edges.map(({ kind, form = 0, values }) => [kind, form, named(values)]),
    [surface.kind, surface.form || 0, named(surface.values), 0],
    ...more.map(([kind, form, values]) => [kind, form, named(values)]),
  ];
  return fileOf(records);
}
