// How the timeline is moved: by keys, by buttons, with a mouse, with fingers.

import { find } from './dom.js';

const ZOOM = 0.6; // what a step nearer leaves of a view
const STEP = 0.5; // of a view, by a button
const STILL = 4; // pixels: what moves less is a click
const WHEEL = 0.0015; // of a view's logarithm, for each pixel of a wheel

export function steer(timeline) {
  byKeys(timeline);
  byButtons(timeline);
  byWheel(timeline);
  byPointers(timeline);
}

function byKeys(timeline) {
  const { box } = timeline;
  const step = (by) => () => timeline.choose(timeline.chosen.hart, timeline.chosen.number + by);
  const lane = (by) => () => timeline.choose(timeline.chosen.hart + by, timeline.chosen.number);
  const keys = {
    ArrowLeft: step(-1), ArrowRight: step(1), Home: step(-Infinity), End: step(Infinity),
    ArrowUp: lane(-1), ArrowDown: lane(1),
    PageUp: () => timeline.pan(-1), PageDown: () => timeline.pan(1),
    '+': () => timeline.zoom(ZOOM), '=': () => timeline.zoom(ZOOM), '-': () => timeline.zoom(1 / ZOOM),
  };
  box.addEventListener('keydown', (event) => {
    if (!keys[event.key] || event.ctrlKey || event.metaKey || event.altKey) return;
    event.preventDefault();
    keys[event.key]();
  });
}

function byButtons(timeline) {
  const press = (id, does) => find(id).addEventListener('click', does);
  press('earlier', () => timeline.pan(-STEP));
  press('later', () => timeline.pan(STEP));
  press('nearer', () => timeline.zoom(ZOOM));
  press('farther', () => timeline.zoom(1 / ZOOM));
  const choose = () => timeline.choose(Number(find('hart').value), Math.trunc(Number(find('slot').value)) - 1 || 0);
  find('slot').addEventListener('change', choose);
  find('hart').addEventListener('change', choose);
}

// A wheel that is turned for the page alone goes on: that of the timeline is held by Ctrl or by the focus.
function byWheel(timeline) {
  timeline.box.addEventListener('wheel', (event) => {
    const isAside = Math.abs(event.deltaX) > Math.abs(event.deltaY);
    if (!isAside && !event.ctrlKey && document.activeElement !== timeline.box) return;
    event.preventDefault();
    if (isAside) timeline.pan(event.deltaX / timeline.width);
    else timeline.zoom(Math.exp(event.deltaY * WHEEL), timeline.placeOf(event.clientX));
  }, { passive: false });
}

// One pointer drags the view, two stretch it, and one that has not moved chooses a slot.
function byPointers(timeline) {
  const { box } = timeline;
  const down = new Map(); // where each pointer is
  let moved = 0;
  box.addEventListener('pointerdown', (event) => {
    if (event.button !== 0) return;
    if (down.size === 0) moved = 0;
    down.set(event.pointerId, event.clientX);
    box.setPointerCapture(event.pointerId);
  });
  box.addEventListener('pointermove', (event) => {
    if (!down.has(event.pointerId)) return;
    const before = [...down.values()];
    const by = event.clientX - down.get(event.pointerId);
    down.set(event.pointerId, event.clientX);
    moved += Math.abs(by);
    if (down.size === 1) timeline.pan(-by / (timeline.width - timeline.left));
    else stretch(timeline, before, [...down.values()]);
  });
  box.addEventListener('pointerup', (event) => {
    if (down.delete(event.pointerId) && moved < STILL) timeline.chooseAt(event.clientX, event.clientY);
  });
  box.addEventListener('pointercancel', (event) => down.delete(event.pointerId));
}

// The view between two fingers grows as their distance does, about the middle of them.
function stretch(timeline, [one, two], [oneNow, twoNow]) {
  const [apart, apartNow] = [Math.abs(one - two), Math.abs(oneNow - twoNow)];
  if (apart > 0 && apartNow > 0) timeline.zoom(apart / apartNow, timeline.placeOf((oneNow + twoNow) / 2));
}
