/** Mouse, touch and keys. */
import { VIEWS } from "./camera.js";

const TURNS = { ArrowLeft: [-1, 0], ArrowRight: [1, 0], ArrowUp: [0, -1], ArrowDown: [0, 1] };
const MOVES = { a: [1, 0], d: [-1, 0], w: [0, 1], s: [0, -1] };
const ZOOMS = { "+": 1.25, "=": 1.25, "-": 0.8 };
const MOVE_STEP = 40, TURN_STEP = 0.12, TURN_OF_PIXEL = 0.008;

/** One finger or the mouse turns or moves; two fingers move, and zoom by their distance. */
class Fingers {
  constructor(view, tell) {
    Object.assign(this,
      { view, tell, down: new Map(), length: 0, isMoving: false, wereTwo: false });
  }

  begin(event) {
    if (!this.down.size) {
      this.length = 0;
      this.wereTwo = false;
      this.isMoving = event.button !== 0 || event.shiftKey;
    }
    this.down.set(event.pointerId, [event.offsetX, event.offsetY]);
    if (this.down.size > 1) this.wereTwo = true;
    this.view.flight = null;
  }

  /** The middle of the fingers, and how far apart the first two are. */
  pose() {
    const [one, other = one] = [...this.down.values()];
    return {
      middle: [(one[0] + other[0]) / 2, (one[1] + other[1]) / 2],
      apart: Math.hypot(one[0] - other[0], one[1] - other[1]),
    };
  }

  move(event) {
    if (!this.down.has(event.pointerId)) return;
    const before = this.pose();
    this.down.set(event.pointerId, [event.offsetX, event.offsetY]);
    const after = this.pose(), x = after.middle[0] - before.middle[0];
    const y = after.middle[1] - before.middle[1];
    this.length += Math.abs(x) + Math.abs(y);
    this.view.move(camera => {
      if (this.down.size > 1 || this.isMoving) camera.moveBy(x, y);
      else if (!this.wereTwo) camera.turnBy(x * TURN_OF_PIXEL, y * TURN_OF_PIXEL);
      if (this.down.size > 1 && before.apart > 0) {
        const [u, v] = after.middle;
        camera.zoomBy(after.apart / before.apart, u - camera.width / 2, v - camera.height / 2);
      }
    });
  }

  /** Whether what ends was a tap or a click. */
  end(event) {
    const isTap = this.down.delete(event.pointerId) && !this.wereTwo && !this.isMoving
      && this.length < 4;
    return isTap && !this.down.size;
  }
}

/**
 * Lets the mouse and fingers move the view. @param {function} tell about what is under the mouse
 */
export function takePointers(view, canvas, tell) {
  const fingers = new Fingers(view);
  const release = () => canvas.classList.toggle("turning", fingers.down.size > 0);
  canvas.oncontextmenu = event => event.preventDefault();
  canvas.onpointerdown = event => {
    fingers.begin(event);
    try { canvas.setPointerCapture(event.pointerId); } catch { /* the pointer is gone already */ }
    release();
  };
  canvas.onpointermove = event => {
    if (fingers.down.size) fingers.move(event);
    else tell(view.nearest(event.offsetX, event.offsetY), event.offsetX, event.offsetY);
  };
  canvas.onpointerup = event => {
    const isTap = fingers.end(event);
    release();
    if (!isTap) return;
    const hit = view.nearest(event.offsetX, event.offsetY), fault = hit && view.faultAt(hit);
    if (event.pointerType !== "mouse") tell(hit, event.offsetX, event.offsetY);
    if (fault) view.choose(fault, false);
  };
  canvas.onpointercancel = event => { fingers.end(event); release(); };
  canvas.onpointerleave = () => tell(null);
  canvas.ondblclick = () => { view.choose(null); view.showAll(); };
  canvas.addEventListener("wheel", event => {
    event.preventDefault();
    const factor = Math.exp(-event.deltaY * 0.0015);
    view.move(it => it.zoomBy(factor, event.offsetX - it.width / 2, event.offsetY - it.height / 2));
  }, { passive: false });
}

/** What the buttons and keys of the bar do. */
export function actionsOf(view) {
  const actions = {
    all: () => { view.choose(null); view.showAll(); },
    previous: () => view.hop(-1),
    next: () => view.hop(1),
    nearer: () => view.move(it => it.zoomBy(1.25)),
    farther: () => view.move(it => it.zoomBy(0.8)),
  };
  for (const [name, turn] of Object.entries(VIEWS)) {
    actions[name] = () => {
      if (view.chosen) view.go(view.camera.centre, view.camera.scale, turn);
      else view.showAll(turn);
    };
  }
  return actions;
}

/** What a key does, or null for a key that does nothing here. */
function keyAction(view, actions, event) {
  const turn = TURNS[event.key], move = MOVES[event.key], zoom = ZOOMS[event.key];
  if (turn && event.shiftKey)
    return () => view.move(it => it.turnBy(turn[0] * TURN_STEP, turn[1] * TURN_STEP));
  if (turn) return () => view.hop(turn[0] + turn[1]);
  if (move) return () => view.move(it => it.moveBy(move[0] * MOVE_STEP, move[1] * MOVE_STEP));
  if (zoom) return () => view.move(it => it.zoomBy(zoom));
  const named = { f: "all", Escape: "all", i: "iso", x: "x", y: "y", z: "z" }[event.key];
  return named ? actions[named] : null;
}

/** Lets keys move the view and lead through the faults. */
export function takeKeys(view, actions, toggles) {
  addEventListener("keydown", event => {
    if (event.ctrlKey || event.metaKey || event.altKey || event.target.tagName === "INPUT") return;
    const toggle = { o: toggles.only, l: toggles.labels }[event.key];
    const action = toggle ? () => toggle.click() : keyAction(view, actions, event);
    if (!action) return;
    action();
    event.preventDefault();
  });
}
