"use strict";
// The worker: the module of the proved crate, its memory, and the files that it was given.
const files = new Map(), encoder = new TextEncoder();
let compiled = null, exported = null;

class NoRoom extends Error {}

const bytesAt = (at, count) => new Uint8Array(exported.memory.buffer, Number(at), count);

/** Room in the module's memory, noted among what is held. */
function room(count, held) {
  const at = exported.host_alloc(BigInt(count));
  if (at === 0n) throw new NoRoom();
  held.push(at);
  return at;
}

/** Room that holds these bytes: what a call gets for a slice. */
function put(bytes, held) {
  const at = room(bytes.length, held);
  bytesAt(at, bytes.length).set(bytes);
  return [at, BigInt(bytes.length)];
}

/** Takes a text that a call gave out of the memory. */
function taken(place) {
  const view = new DataView(exported.memory.buffer);
  const at = view.getBigUint64(Number(place), true), count = Number(view.getBigUint64(Number(place) + 8, true));
  const bytes = bytesAt(at, count).slice();
  if (count > 0) exported.host_free(at);
  return bytes;
}

/** One call: its status and its text; status 6 where memory ran out. */
function ask(call, words, slices) {
  const held = [];
  try {
    const given = [encoder.encode(words.join("\n")), ...slices].flatMap(bytes => put(bytes, held));
    const place = room(16, held), view = new DataView(exported.memory.buffer);
    view.setBigUint64(Number(place), place, true);
    view.setBigUint64(Number(place) + 8, 0n, true);
    const status = exported[call](...given, place);
    return { status, text: taken(place) };
  } catch (fault) {
    if (fault instanceof NoRoom) return { status: 6, text: new Uint8Array() };
    // A trap: nothing in that memory is to be used again.
    exported = null;
    throw fault;
  } finally {
    if (exported) for (const at of held) exported.host_free(at);
  }
}

const OF_REPAIR = ["relayout", "layout", "reorient", "mend", "mended"];

/** What a command answers: its words are the program's, with - in the place of the file's name. */
function answer(words, file, certificate) {
  if (words[0] === "where") return ask("igesolid_where", words.slice(1), [file]);
  if (OF_REPAIR.includes(words[0])) return ask("igesolid_repair", words, [file]);
  return ask("igesolid_run", words, [file, certificate]);
}

function base64(bytes) {
  const pieces = [];
  // A multiple of three, so that no piece but the last is filled up.
  for (let at = 0; at < bytes.length; at += 24576) pieces.push(String.fromCharCode(...bytes.subarray(at, at + 24576)));
  return pieces.map(btoa).join("");
}

async function packed(bytes) {
  const stream = new Blob([bytes]).stream().pipeThrough(new CompressionStream("gzip"));
  return base64(new Uint8Array(await new Response(stream).arrayBuffer()));
}

/** What the page of a solid is filled with: the texts that `igesolid page` puts there. */
async function filling(name, number, file) {
  const { status, text } = answer(["where", "-", number, "all"], file);
  if (status > 1) return { status, text };
  return { status, text, parts: { WORDS: base64(encoder.encode(`${name}\0${number}`)), WHERE: base64(text), FILE: await packed(file) } };
}

/** What a message asks for. */
async function done({ module, file, bytes, forget, picture, words, certificate }) {
  if (module) compiled = module;
  if (bytes) files.set(file, new Uint8Array(bytes));
  if (forget) files.delete(file);
  if (!words && !picture) return {};
  exported ??= (await WebAssembly.instantiate(compiled, {})).exports;
  const held = files.get(file) ?? new Uint8Array();
  if (picture) return filling(picture.name, picture.number, held);
  const start = performance.now(), got = answer(words, held, new Uint8Array(certificate ?? 0));
  return { ...got, took: performance.now() - start, memory: Number(exported.host_peak()) };
}

onmessage = async ({ data }) => {
  try {
    const got = await done(data);
    postMessage({ job: data.job, ...got }, got.text ? [got.text.buffer] : []);
  } catch (fault) {
    postMessage({ job: data.job, fault: String(fault) });
  }
};
