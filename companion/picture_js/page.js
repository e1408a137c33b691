/** The page: it unpacks the file and the text of `where` that stand in it, and shows them. */
import { onColoursChanged, setPrinted } from "./colours.js";
import { actionsOf, takeKeys, takePointers } from "./hands.js";
import { sceneOf } from "./scene.js";
import { addNote, fillExcerpt, fillSide, find, recolour } from "./side.js";
import { View } from "./view.js";

/** The bytes that stand in an element of the page, in base64; packed ones are unpacked. */
async function bytesIn(id, isPacked) {
  const text = atob(find(id).textContent.replace(/\s+/g, "")), bytes = new Uint8Array(text.length);
  for (let k = 0; k < text.length; k++) bytes[k] = text.charCodeAt(k);
  if (!isPacked) return bytes;
  const stream = new Blob([bytes]).stream().pipeThrough(new DecompressionStream("gzip"));
  return new Uint8Array(await new Response(stream).arrayBuffer());
}

/** What is under the mouse, or under a finger. */
function tellHit(view, hit, x, y) {
  const tip = find("tip"), { picture } = view;
  tip.hidden = !hit;
  if (!hit) return;
  if ("vertex" in hit) {
    const [list, index] = picture.solid.vertices[hit.vertex];
    tip.textContent = `vertex ${list} ${index}\n${picture.solid.coordinates(hit.vertex).join(" ")}`;
  } else {
    const { list, index, curve } = picture.solid.edges[hit.edge], used = picture.used[hit.edge];
    const isChord = picture.chords.has(hit.edge) ? ", not drawn" : "";
    const times = used === 1 ? "1 time" : `${used} times`;
    tip.textContent = `edge ${list} ${index}\ncurve ${curve}${isChord}\nused ${times}`;
  }
  tip.style.left = `${Math.max(0, Math.min(x + 14, view.camera.width - 200))}px`;
  tip.style.top = `${Math.max(0, Math.min(y + 12, view.camera.height - 70))}px`;
}

/** Marks the paragraph of the chosen fault, and says it to screen readers. */
function showChosen(faults, fault) {
  for (const it of faults) {
    it.box.classList.toggle("chosen", it === fault);
    it.button.setAttribute("aria-expanded", String(it === fault));
  }
  if (fault && fault.box) fault.box.scrollIntoView({ block: "nearest" });
  const name = fault && fault.number ? `Fault ${fault.number}: ` : "";
  const meaning = fault && fault.says ? `, ${fault.says}` : "";
  find("spoken").textContent = fault ? name + fault.head + meaning : "";
}

/** Before paper and after it: light colours, and the whole picture at once. */
function takePrinting(view) {
  const paint = isPrinted => {
    setPrinted(isPrinted);
    recolour();
    if (view) view.draw();
  };
  addEventListener("beforeprint", () => paint(true));
  addEventListener("afterprint", () => paint(false));
  onColoursChanged(() => paint(false));
}

function startView(scene, faults) {
  const canvases =
    { over: find("over"), lines: location.hash.includes("canvas") ? null : find("lines") };
  const hooks = {
    chosen: fault => showChosen(faults, fault),
    drawn: notice => { find("notice").textContent = notice; },
    told: note => note && addNote(note),
  };
  const view = new View(scene, faults, canvases, hooks);
  const actions = actionsOf(view), toggles = { only: find("only"), labels: find("labels") };
  takePointers(view, find("over"), (hit, x, y) => tellHit(view, hit, x, y));
  takeKeys(view, actions, toggles);
  for (const button of document.querySelectorAll("#bar button"))
    button.onclick = actions[button.dataset.do];
  toggles.only.onchange = () => { view.onlyFaults = toggles.only.checked; view.draw(); };
  toggles.labels.onchange = () => { view.withLabels = toggles.labels.checked; view.draw(); };
  find("over").setAttribute("aria-label",
    `The edges of the solid. ${scene.says} Arrow keys lead from fault to fault.`);
  view.measure();
  const wanted = Number(new URLSearchParams(location.hash.slice(1)).get("fault"));
  const fault = faults.find(it => it.number === wanted);
  const [centre, scale] = view.camera.framed(view.everything(), view.camera.turn, 0.94);
  Object.assign(view.camera, { centre, scale });
  if (fault) view.choose(fault, true, true);
  else view.draw();
  new ResizeObserver(() => { if (view.measure()) view.draw(); }).observe(find("view"));
  return view;
}

/** What is shown, for tests and scripts. */
export const shown = { scene: null, faults: [], view: null };

async function start() {
  const bytes = await bytesIn("file", true), decoder = new TextDecoder();
  const text = decoder.decode(await bytesIn("where", false));
  const [name, number] = decoder.decode(await bytesIn("words", false)).split("\0");
  const title = number ? `${name}, solid ${Number(number)}` : name;
  const scene = sceneOf(title, Number(number), text, bytes, name);
  const faults = scene.rules.flatMap(it => it.faults);
  let view = null;
  const choose = fault => {
    if (view) view.choose(fault === view.chosen ? null : fault, true);
    else showChosen(faults, fault.box && fault.box.classList.contains("chosen") ? null : fault);
  };
  fillSide(scene, choose);
  Object.assign(shown, { scene, faults });
  if (scene.picture) view = shown.view = startView(scene, faults);
  else {
    fillExcerpt(scene.excerpt);
    if (faults.length) showChosen(faults, faults[0]);
  }
  takePrinting(view);
}

/** Settles when the page is filled. */
export const ready = start().catch(fault => {
  find("verdict").textContent = "The page can't be shown";
  find("says").textContent = fault.message;
  throw fault;
});
