// The timeline: of each hart a lane, in which each of its domains has a row with its slots; pads, and what
// switches used of them, go across the lane.

import { element, find, svg } from './dom.js';
import { Lane } from './lane.js';
import { Mail } from './mail.js';
import { ticks } from './scale.js';
import { drawnInWords, HEADS, legendRows, mailInWords, rowOf, slotInWords, whyInWords } from './slot_words.js';
import { classOf, facts, grouped, legendOf, nameOf, run, short, table, widthOf } from './words.js';

const MOST_DRAWN = 300; // slots of all lanes
const FIRST_SHOWN = 12; // slots, and where there is little room
const FIRST_SHOWN_NARROW = 4;
const LEAST_CYCLES = 50; // of a view
const ROW = 26;
const BETWEEN = 22; // lanes
const AXIS = 24;
const LETTER = 7; // how wide one is
const NARROW = 500; // pixels, in which names are cut short

export class Timeline {
  constructor(schedule) {
    this.schedule = schedule;
    const nominal = Math.max(1000, ...schedule.entries.map(({ pad }) => pad));
    this.lanes = Array.from({ length: schedule.harts }, (_, hart) => (
      new Lane(hart, schedule.entries, schedule.slots, nominal)));
    this.most = Math.max(1, Math.floor(MOST_DRAWN / this.lanes.length));
    this.end = Math.max(...this.lanes.map((lane) => lane.end));
    this.mail = schedule.mail && new Mail(schedule.mail, this.lanes);
    this.chosen = { hart: 0, number: 0 };
    this.box = find('timeline');
    const isNarrow = widthOf(this.box) < NARROW;
    const shown = Math.min(isNarrow ? FIRST_SHOWN_NARROW : FIRST_SHOWN, schedule.slots);
    this.show(0, Math.max(...this.lanes.map((lane) => lane.slot(shown - 1).padEnd)));
    new ResizeObserver(() => this.drawSoon()).observe(this.box);
    find('time-table').addEventListener('toggle', () => this.#tabulate());
  }

  // ---- what is in view

  get length() {
    return this.to - this.from;
  }

  // Shows these cycles, as far as there are any, and no more slots than are drawn.
  show(from, to) {
    const length = Math.min(Math.max(to - from, LEAST_CYCLES), this.end);
    this.from = Math.max(0, Math.min(from, this.end - length));
    this.to = this.from + length;
    for (const lane of this.lanes) {
      const past = lane.at(this.from) + this.most;
      if (past < lane.slots) this.to = Math.min(this.to, lane.slot(past).start);
    }
    this.drawSoon();
  }

  // Moves on by a part of the view.
  pan(part) {
    const length = this.length;
    const from = Math.max(0, Math.min(this.from + part * length, this.end - length));
    this.show(from, from + length);
  }

  // Zooms about a place, 0 at the view's left end and 1 at its right.
  zoom(factor, place = 0.5) {
    const at = this.from + place * this.length;
    const length = Math.max(this.length * factor, LEAST_CYCLES);
    this.show(at - place * length, at + (1 - place) * length);
  }

  // The cycle at a place of the screen.
  placeOf(clientX) {
    const { left, width } = this.box.getBoundingClientRect();
    return (clientX - left - this.left) / Math.max(1, width - this.left);
  }

  // ---- the slot that is chosen

  choose(hart, number) {
    const lane = this.lanes[Math.max(0, Math.min(hart, this.lanes.length - 1))];
    this.chosen = { hart: lane.hart, number: Math.max(0, Math.min(number, lane.slots - 1)) };
    const { start, end } = this.slot;
    if (start < this.from || end > this.to) {
      const length = Math.max(this.length, (end - start) * 1.2);
      this.show(start - 0.1 * length, start + 0.9 * length);
    }
    this.drawSoon();
  }

  get slot() {
    return this.lanes[this.chosen.hart].slot(this.chosen.number);
  }

  // Chooses what is at a place of the screen.
  chooseAt(clientX, clientY) {
    const y = clientY - this.box.getBoundingClientRect().top;
    const lane = this.lanes.findLast((it) => it.top <= y) ?? this.lanes[0];
    this.choose(lane.hart, lane.at(this.from + this.placeOf(clientX) * this.length));
  }

  // ---- drawing

  drawSoon() {
    cancelAnimationFrame(this.frame);
    this.frame = requestAnimationFrame(() => this.draw());
  }

  draw() {
    this.width = widthOf(this.box);
    this.left = this.width < NARROW ? 72 : 132;
    let top = AXIS;
    for (const lane of this.lanes) {
      lane.top = top;
      lane.height = lane.domains.length * ROW;
      top += lane.height + BETWEEN;
    }
    const height = top - BETWEEN + 2;
    const inner = svg('svg', { x: this.left, y: 0, width: this.width - this.left, height });
    inner.append(...this.#axis(height), ...this.lanes.flatMap((lane) => this.#lane(lane)), ...this.#told());
    const picture = svg('svg', { viewBox: `0 0 ${this.width} ${height}`, 'aria-hidden': 'true', focusable: 'false' });
    picture.append(...this.lanes.flatMap((lane) => this.#names(lane)), inner);
    this.box.replaceChildren(picture);
    this.#tell();
    this.#tabulate();
  }

  #x(cycle) {
    return ((cycle - this.from) / this.length) * (this.width - this.left);
  }

  #rect(kind, from, to, y, height) {
    const x = this.#x(from);
    return svg('rect', { class: kind, x, y, width: Math.max(0.4, this.#x(to) - x), height });
  }

  // Without lengths a place on the axis has no cycle.
  #axis(height) {
    if (this.schedule.why_not) return [];
    return ticks(this.from, this.to, (this.width - this.left) / 110).flatMap((cycle) => {
      const [x, told] = [this.#x(cycle), grouped(cycle)];
      const hasRoom = x + told.length * LETTER < this.width - this.left;
      return [
        svg('line', { class: 'grid', x1: x, x2: x, y1: 16, y2: height }),
        svg('text', { class: 'axis', x: x + 3, y: 12 }, hasRoom ? told : ''),
      ];
    });
  }

  #names(lane) {
    const most = Math.floor((this.left - 12) / LETTER);
    const names = lane.domains.map((domain, row) => svg('text', {
      x: this.left - 8, y: lane.top + (row + 0.5) * ROW + 4, 'text-anchor': 'end',
    }, domain === null ? 'slots' : short(nameOf(domain), most)));
    const at = { x: this.left - 8, y: lane.top - 6, 'text-anchor': 'end' };
    return this.lanes.length > 1 ? [svg('text', { class: 'axis', ...at }, `hart ${lane.hart}`), ...names] : names;
  }

  #lane(lane) {
    const slots = lane.between(this.from, this.to, this.most);
    const isFirst = slots[0]?.number === 0;
    return [
      ...(isFirst ? this.#pad(lane, 0, lane.boot.pad, lane.boot.used) : []),
      ...slots.flatMap(({ entry, end, padEnd }) => (padEnd > end ? this.#pad(lane, end, padEnd, entry.used) : [])),
      ...slots.flatMap((slot) => this.#slot(lane, slot)),
    ];
  }

  #pad(lane, from, to, used) {
    const [y, height] = [lane.top, lane.height];
    const told = grouped(used);
    const waits = this.#rect('pad', from, to, y, height);
    const works = this.#rect('used', from, Math.min(to, from + used), y, height);
    const right = this.#x(to) - 4;
    if (right - this.#x(from + used) < told.length * LETTER) return [waits, works];
    return [waits, works, svg('text', { class: 'axis', x: right, y: y + height / 2 + 4, 'text-anchor': 'end' }, told)];
  }

  #slot(lane, { number, entry, start, end }) {
    const y = lane.top + lane.domains.indexOf(entry.domain) * ROW + 3;
    const isChosen = lane.hart === this.chosen.hart && number === this.chosen.number;
    const known = this.schedule.why_not ? 'unknown' : 'slot';
    const kinds = `${known} ${classOf(entry.domain)}${isChosen ? ' chosen' : ''}`;
    const told = `${number + 1}`;
    const [x, width] = [this.#x(start), this.#x(end) - this.#x(start)];
    const found = [this.#rect(kinds, start, end, y, ROW - 6), ...this.#clocks(entry.domain, start, end, y)];
    if (width > told.length * LETTER + 6) found.push(svg('text', { x: x + 4, y: y + 14 }, told));
    return found;
  }

  // The clocks that the domain read in its slot, of those that a report lists.
  #clocks(domain, start, end, y) {
    const kept = run.domains[domain]?.readings.kept ?? [];
    return kept.filter((it) => it >= start && it < end).map((it) => (
      svg('line', { class: 'clock', x1: this.#x(it), x2: this.#x(it), y1: y + ROW - 10, y2: y + ROW - 6 })));
  }

  // Arrows from the ends of slots to those in which their words came in.
  #told() {
    const mid = (lane, domain) => lane.top + (lane.domains.indexOf(domain) + 0.5) * ROW;
    const arrow = ({ box: { from, to, sender, receiver }, left, came, isOpen }) => svg('line', {
      class: isOpen ? 'mail open' : 'mail', 'marker-end': 'url(#mail-head)',
      x1: this.#x(left.end), y1: mid(from, sender), x2: this.#x(came.start), y2: mid(to, receiver),
    });
    if (!this.mail) return [];
    const size = { viewBox: '0 0 6 6', refX: 6, refY: 3, markerWidth: 6, markerHeight: 6, orient: 'auto' };
    const head = svg('marker', { id: 'mail-head', ...size }, svg('path', { class: 'mail', d: 'M0 0L6 3L0 6' }));
    return [svg('defs', {}, head), ...this.mail.among(this.#shown()).map(arrow)];
  }

  // The slots of each lane that are in view.
  #shown() {
    return this.lanes.map((lane) => lane.between(this.from, this.to, this.most));
  }

  // ---- in words

  #tell() {
    const { slot, chosen: { hart, number }, schedule, mail, most } = this;
    const told = mail ? mailInWords(schedule, mail.by(hart, slot), mail.to(hart, slot)) : [];
    tell('slot-told', [slotInWords(schedule, slot, hart), ...told].join(' '));
    find('slot').value = number + 1;
    find('hart').value = hart;
    tell('time-drawn', drawnInWords(schedule, this.#shown(), most));
  }

  #tabulate() {
    const details = find('time-table');
    if (!details.open) return;
    const rows = this.lanes.flatMap((lane) => (
      lane.between(this.from, this.to, this.most).map((slot) => rowOf(this.schedule, slot, lane.hart))));
    details.querySelector('.scrolled').replaceChildren(table('Slots in view, in cycles of their hart', HEADS, rows));
  }
}

// What is said already is not said again.
function tell(id, words) {
  if (find(id).textContent !== words) find(id).textContent = words;
}

// Puts the timeline into the page; where no slot was run there is none.
export function startTimeline() {
  const { schedule } = facts;
  find('time-why').textContent = whyInWords(schedule);
  if (schedule.slots === 0) {
    for (const id of ['time-tools', 'timeline', 'slot-told', 'time-keys', 'time-table']) find(id).hidden = true;
    return null;
  }
  const option = (_, hart) => element('option', { value: hart }, hart);
  find('slot').max = schedule.slots;
  find('hart').replaceChildren(...Array.from({ length: schedule.harts }, option));
  for (const it of [find('hart'), find('hart-label')]) it.hidden = schedule.harts === 1;
  legendOf(find('time-legend'), legendRows(schedule));
  return new Timeline(schedule);
}
