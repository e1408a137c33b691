/**
 * Tests of the picture's geometry, under node: points of curves, areas of faces, drawn vertices
 * beside the coordinates of `where`, the faults, hints and remedies of texts, and geometry that is
 * changed at random. Prints a line for each check: its name, a tab, and whether it holds.
 */
import { readdirSync, readFileSync } from "node:fs";
import { gunzipSync } from "node:zlib";
import { areas, curves, faults, offsets, remedies, randomGeometry, vertices } from "./checks.mjs";
import { refinement } from "./refinement.mjs";

const top = new URL("../../", import.meta.url);

/** The examples by their names. */
function examples(folder = new URL("examples/", top), found = new Map()) {
  for (const it of readdirSync(folder, { withFileTypes: true })) {
    if (it.isDirectory()) examples(new URL(`${it.name}/`, folder), found);
    else if (/\.igs(\.gz)?$/.test(it.name))
      found.set(it.name.replace(/\.igs(\.gz)?$/, ""), new URL(it.name, folder));
  }
  return found;
}

const known = examples(new URL("examples/", top), examples(new URL("tests/inputs/", top)));

/** The bytes of an example. */
function fileOf(name) {
  const bytes = readFileSync(known.get(name));
  return new Uint8Array(known.get(name).pathname.endsWith(".gz") ? gunzipSync(bytes) : bytes);
}

/** The texts of a folder, with the names of their files and the numbers of their solids. */
function textsIn(folder) {
  return readdirSync(folder).filter(it => it.endsWith(".txt")).sort().map(it => {
    const [name, number] = it.split(".");
    return { name, number: Number(number), text: readFileSync(new URL(it, folder), "utf8") };
  });
}

const context = {
  file: fileOf, texts: textsIn(new URL("tests/recorded/", top)),
  withRemedies: textsIn(new URL("tests/remedies/", top)),
};
const all = [curves, areas, offsets, vertices, refinement, faults, remedies, randomGeometry];
for (const checks of all) {
  for (const [name, holds] of checks(context)) console.log(`${name}\t${holds ? "yes" : "no"}`);
}
