// What the page knows of an image by its text: names, the schedule, harts, lists of calls, boxes, segments.

import { readToml } from './toml.js';

const PAGE = 4096; // bytes

// Null where the text has no domains and schedule of the shapes that they have in an image.
export function readImage(text) {
  const { root } = readToml(text);
  const domains = tablesOf(root.domain);
  const schedule = tablesOf(root.schedule);
  if (!domains.length || !schedule.length) return null;
  const entries = schedule.map(({ domain, length, pad, hart = 0 }) => ({ domain, length, pad, hart }));
  const isGood = ({ domain, length, pad, hart }) => [domain, length, pad, hart].every(Number.isSafeInteger)
    && domain >= 0 && domain < domains.length && length > 0 && pad >= 0 && hart >= 0 && hart < 4;
  if (!entries.every(isGood)) return null;
  return {
    names: domains.map((it) => `${it.name}`),
    entries,
    harts: 1 + Math.max(...entries.map((it) => it.hart)),
    calls: domains.map((it) => (Array.isArray(it.calls) ? it.calls : null)),
    boxes: boxesOf(tablesOf(root.mail), domains.length),
    segments: domains.map((it) => tablesOf(it.segment).map(segmentOf)),
  };
}

// The boxes, where each is between two domains; else there are none to tell of.
function boxesOf(tables, domains) {
  const isDomain = (it) => Number.isSafeInteger(it) && it >= 0 && it < domains;
  if (!tables.every(({ from, to }) => isDomain(from) && isDomain(to))) return [];
  return tables.map(({ from, to }, number) => ({ number, from, to }));
}

// The domains that may tell one words, by boxes to it and to those: what it sees goes by theirs, too.
export function sendersOf({ boxes }, domain) {
  const found = [domain];
  for (const own of found) { // (it grows)
    found.push(...boxes.filter(({ from, to }) => to === own && !found.includes(from)).map(({ from }) => from));
  }
  return found.slice(1).sort((one, other) => one - other);
}

// As sdk/ names the segments of an image, which has no names for them.
function segmentOf({ page, pages, rights }, number) {
  return { segment: `segment${number}`, rights: `${rights}`, pages, start: page * PAGE, end: (page + pages) * PAGE };
}

const tablesOf = (value) => (Array.isArray(value) && value.every((it) => it && typeof it === 'object') ? value : []);

// The places of a hart's entries among all.
export function placesOn({ entries }, hart) {
  return entries.flatMap((it, place) => (it.hart === hart ? [place] : []));
}

// A domain that no entry names counts as hart 0's.
export function hartOf({ entries }, domain) {
  return entries.find((it) => it.domain === domain)?.hart ?? 0;
}

// The first slots of a hart: its entries in turn; its boot has its last entry's pad.
export function slotsOn(image, hart, count) {
  const places = placesOn(image, hart);
  if (!places.length) return [];
  const slots = [];
  let start = image.entries[places.at(-1)].pad;
  for (let number = 0; number < count; number++) {
    const entry = places[number % places.length];
    const { domain, length, pad } = image.entries[entry];
    slots.push({ entry, domain, start, end: start + length, padEnd: start + length + pad });
    start += length + pad;
  }
  return slots;
}

// How many cycles of all harts' slots so many slots of each are.
export function cyclesOf(image, count) {
  let cycles = 0;
  for (let hart = 0; hart < image.harts; hart++) {
    const lengths = placesOn(image, hart).map((place) => image.entries[place].length);
    const whole = Math.floor(count / lengths.length);
    const sum = (some) => some.reduce((one, other) => one + other, 0);
    cycles += whole * sum(lengths) + sum(lengths.slice(0, count % lengths.length));
  }
  return cycles;
}
