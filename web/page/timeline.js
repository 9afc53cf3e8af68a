// Slots, pads and switches of a run, drawn by the schedule and the report.

import { element, svg } from './dom.js';
import { grouped } from './fill.js';
import { hartOf, slotsOn } from './image.js';
import { Lane } from './lane.js';
import { Mail } from './mail.js';

export const MOST_SLOTS = 8; // that are drawn

const WIDE = 640;
const LEFT = 76;
const ROW = 40;
const COLOURS = 4;
const LETTER = 6.5; // how wide one is

// `did` has of each slot that is drawn what the domain did in it, where it is known: instructions
// retired, and whether it had ended before. `mail` has the boxes, where there are some.
export function timelineOf(image, report, did, mail) {
  const slots = Math.min(MOST_SLOTS, ...slotsOfEach(image, report));
  const lanes = Array.from({ length: image.harts }, (_, hart) => laneOf(image, hart, slots));
  const last = Math.max(1, ...lanes.flatMap(({ slots: some }) => some.map((it) => it.padEnd)));
  const x = (cycle) => LEFT + (cycle / last) * (WIDE - LEFT - 8);
  const isOfEnded = ({ box: { from }, left }) => did?.[from.hart]?.[left.number]?.hadEnded;
  const told = mail && slots ? deliveries(image, slots, mail).filter((it) => !isOfEnded(it)) : [];
  const words = [...lanes.map((lane) => described(image, lane, did)), ...told.map((it) => toldOf(image, it))];
  let top = 8;
  const picture = svg('svg', { class: 'timeline', role: 'img', 'aria-labelledby': 'timeline-title timeline-desc' });
  picture.append(
    svg('title', { id: 'timeline-title' }, `The first ${slots} slots${image.harts > 1 ? ' of each hart' : ''}`),
    svg('desc', { id: 'timeline-desc' }, words.join(' ')),
  );
  const rows = new Map(); // the middle of each domain's
  for (const lane of lanes) {
    picture.append(...drawnLane(image, report, lane, did, x, top));
    for (const [place, domain] of lane.domains.entries()) rows.set(domain, top + (place + 0.5) * ROW);
    top += lane.domains.length * ROW + 26;
  }
  if (told.length) picture.append(headOfArrow(), ...told.map((it) => arrowOf(it, x, rows)));
  const clock = image.harts > 1 ? ', by each hart’s own clock' : '';
  picture.append(svg('text', { class: 'axis', x: LEFT, y: top - 4 }, `0 to ${grouped(last)} cycles${clock}`));
  picture.setAttribute('viewBox', `0 0 ${WIDE} ${top + 4}`);
  return picture;
}

// A legend in words.
export function legend(mail) {
  return element('p', { class: 'told' }, 'Filled: a slot, with the instructions retired in it. Dashed: the domain '
    + 'had ended. Grey: the pad, and in it dark the most that a switch of that entry used. Strokes: clocks that '
    + 'it read.'
    + (mail ? ' Arrows: words of a box, if any were put in, to the slot in which they came in; dotted, or in one '
      + 'earlier or later: by who passed an end.' : ''));
}

// ---- words of boxes

function deliveries(image, count, mail) {
  const lanes = Array.from({ length: image.harts }, (_, hart) => new Lane(hart, image.entries, count, 0));
  const shown = lanes.map((lane) => Array.from({ length: count }, (_, number) => lane.slot(number)));
  return new Mail(mail, lanes).among(shown);
}

function arrowOf({ box: { sender, receiver }, left, came, isOpen }, x, rows) {
  return svg('line', {
    class: isOpen ? 'mail open' : 'mail', 'marker-end': 'url(#mail-head)',
    x1: x(left.end), y1: rows.get(sender), x2: x(came.start), y2: rows.get(receiver),
  });
}

function headOfArrow() {
  const size = { viewBox: '0 0 6 6', refX: 6, refY: 3, markerWidth: 6, markerHeight: 6, orient: 'auto' };
  const lines = svg('path', { class: 'mail', d: 'M0 0L6 3L0 6' });
  return svg('defs', {}, svg('marker', { id: 'mail-head', ...size }, lines));
}

function toldOf({ names }, { box, left, came, isOpen }) {
  const open = isOpen ? ', or in one earlier or later' : '';
  const put = `What ${names[box.sender]} put into box ${box.number} until cycle ${left.end}, if anything,`;
  return `${put} came in in the slot of ${names[box.receiver]} from ${came.start}${open}.`;
}

// ---- slots

// How many slots each hart had: its own switches, counted.
function slotsOfEach(image, report) {
  return Array.from({ length: image.harts }, (_, hart) => report.switches
    .filter(({ entry }) => image.entries[entry]?.hart === hart).reduce((sum, { count }) => sum + count, 0));
}

function laneOf(image, hart, count) {
  const domains = image.names.flatMap((_, number) => (hartOf(image, number) === hart ? [number] : []));
  return { hart, domains, slots: slotsOn(image, hart, count) };
}

function described(image, { hart, slots }, did) {
  const of = image.harts > 1 ? `Hart ${hart}: ` : '';
  return of + slots.map(({ domain, start, end }, place) => {
    const retired = did?.[hart]?.[place]?.retired;
    const told = retired === undefined ? '' : `, ${retired} instructions`;
    return `${image.names[domain]} from cycle ${start} to ${end}${told}.`;
  }).join(' ');
}

function drawnLane(image, report, { hart, domains, slots }, did, x, top) {
  const row = (domain) => top + domains.indexOf(domain) * ROW;
  const height = domains.length * ROW;
  const boot = slots.length ? [{ start: 0, end: slots[0].start, entry: slots.at(-1).entry }] : [];
  const pads = [...boot, ...slots.slice(0, -1).map(({ end, padEnd, entry }) => ({ start: end, end: padEnd, entry }))];
  return [
    ...domains.map((domain) => svg('text', { x: LEFT - 8, y: row(domain) + ROW / 2 + 4, 'text-anchor': 'end' },
      image.harts > 1 ? `${image.names[domain]} (${hart})` : image.names[domain])),
    ...pads.flatMap(({ start, end, entry }) => {
      const used = Math.min(end - start, report.switches[entry]?.used ?? 0);
      return [
        svg('rect', { class: 'pad', x: x(start), y: top, width: x(end) - x(start), height }),
        svg('rect', { class: 'used', x: x(start), y: top, width: x(start + used) - x(start), height }),
      ];
    }),
    ...slots.flatMap((slot, place) => drawnSlot(report, slot, did?.[hart]?.[place], x, row(slot.domain))),
  ];
}

function drawnSlot(report, { domain, start, end }, did, x, top) {
  const readings = report.sections[domain]?.readings.filter((it) => it >= start && it < end) ?? [];
  const [left, width, height] = [x(start), x(end) - x(start), ROW - 8];
  const words = did && !did.hadEnded ? grouped(did.retired) : '';
  const kind = did?.hadEnded ? 'ended' : 'slot';
  const [above, below] = [top + height - 3, top + height + 4];
  const told = svg('text', { x: left + width / 2, y: top + ROW / 2 + 3, 'text-anchor': 'middle' }, words);
  return [
    svg('rect', { class: `${kind} domain-${domain % COLOURS}`, x: left, y: top + 4, width, height, rx: 2 }),
    ...readings.map((it) => svg('line', { class: 'reading', x1: x(it), x2: x(it), y1: above, y2: below })),
    ...(words.length * LETTER < width ? [told] : []),
  ];
}
