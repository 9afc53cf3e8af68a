// What the timeline has, in words and as rows of a table.

import { grouped, isPadded, many, nameOf, waitedOf } from './words.js';

export const HEADS = ['Slot', 'Hart', 'Entry', 'Domain', 'Starts', 'Ends', 'Pad', 'Used at most', 'Waited at least'];

// A slot as a row. A run ends with its last slot, which has no pad.
export function rowOf({ slots, why_not: whyNot }, { number, entry, start, end }, hart) {
  const domain = entry.domain === null ? null : nameOf(entry.domain);
  const times = whyNot ? [null, null] : [start, end];
  const pads = number === slots - 1 ? [null, null, null] : [entry.pad, entry.used, waitedOf(entry)];
  return [number + 1, hart, entry.place, domain, ...times, ...pads];
}

export function slotInWords({ harts, slots, why_not: whyNot }, { number, entry, start, end }, hart) {
  const of = `Slot ${grouped(number + 1)} of ${grouped(slots)}${harts > 1 ? ` of hart ${hart}` : ''}`;
  const when = whyNot ? `of entry ${entry.place}, of a length that is not known`
    : `${nameOf(entry.domain)} (entry ${entry.place}), from cycle ${grouped(start)} to ${grouped(end)}`;
  if (number === slots - 1) return `${of}: ${when}. ${whyNot ? 'The turn' : 'The run'} ends with it.`;
  const waited = isPadded ? `so ${grouped(waitedOf(entry))} or more were waited` : 'and nothing was waited';
  return `${of}: ${when}. Its pad: ${many(entry.pad, 'cycle')}; switches of this entry used ${grouped(entry.used)} `
    + `at most, ${waited}.`;
}

// Where words came in that a slot put into boxes, and of which slots those are that came in in it.
export function mailInWords({ harts }, by, to) {
  const slotOf = (lane, { number }) => `slot ${grouped(number + 1)}${harts > 1 ? ` of hart ${lane.hart}` : ''}`;
  const open = ({ isOpen }, other) => (isOpen ? `, or in a slot of ${other} earlier or later` : '');
  return [
    ...by.map((it) => `What it put into box ${it.box.number}, if anything, came in in ${slotOf(it.box.to, it.came)}, `
      + `of ${nameOf(it.box.receiver)}${open(it, 'that')}.`),
    ...to.map((it) => `In it came in what ${slotOf(it.box.from, it.left)}, of ${nameOf(it.box.sender)}, put into `
      + `box ${it.box.number}${open(it, 'its own')}.`),
  ];
}

// Which slots are drawn of each hart, and how many are at most.
export function drawnInWords({ harts, slots }, shown, most) {
  const from = (some) => `${grouped(some[0].number + 1)} to ${grouped(some.at(-1).number + 1)}`;
  const each = shown.map((some, hart) => `${harts > 1 ? `of hart ${hart} ` : ''}${some.length ? from(some) : 'none'}`);
  const capped = slots > most ? `, at most ${grouped(most)} at once${harts > 1 ? ' of each hart' : ''}` : '';
  return `Drawn: slots ${each.join(', ')} of ${grouped(slots)}${capped}.`;
}

// Why the timeline is not whole, where it isn't.
export function whyInWords({ slots, why_not: whyNot }) {
  const drawn = whyNot ? 'Drawn is one turn of the entries; a slot is as long as the longest pad.' : '';
  return [whyNot, slots === 0 ? 'No slot was run.' : drawn].filter(Boolean).join(' ');
}

// What stands for what, as `legendOf` takes it.
export function legendRows({ why_not: whyNot, mail }) {
  return [
    whyNot ? ['unknown', 'a slot, of a length that is not known'] : ['slot of-0', 'a slot, with its number'],
    ['pad', isPadded ? 'pad: waited' : 'pad: not waited'],
    ['used', 'pad: the most that a switch of the entry used'],
    ...(whyNot ? [] : [['clock', 'a clock that the domain read, of its first 256 readings']]),
    ...(mail ? [['mail', mail.told]] : []),
    ...(mail?.told_if_open ? [['mail open', mail.told_if_open]] : []),
  ];
}
