// Whose each frame of the memory and each set of the second level is: a row for each page colour, or for
// several that are nobody's.

import { element, find, svg } from './dom.js';
import { classOf, facts, grouped, legendOf, many, nameOf, scrolled, short, table, widthOf } from './words.js';

const ROW = 22;
const LEFT = 128;
const LETTER = 7; // how wide one is
const NOBODYS = "nobody's";
const USES = {
  shared: "the kernel's region, shared by all",
  clone: 'clone of the kernel',
  table: 'page tables',
  page: 'pages',
  free: 'free',
  [NOBODYS]: NOBODYS,
};
const OF_DOMAINS = ['clone', 'table', 'page', 'free'];
const OWNERS = ['Domain', 'Colours', 'Frames', 'Clone of the kernel', 'Page tables', 'Pages', 'Free'];
const RUNS = ['Colour', 'Whose', 'What', 'First frame', 'Last frame', 'Frames', 'First page', 'Last page'];

export function showMemory() {
  const { memory } = facts;
  if (memory === null) {
    const why = 'A report does not tell whose memory is whose: an image does, given by --image.';
    find('memory-map').replaceChildren(element('p', { class: 'told' }, why));
    return;
  }
  const { colours, frames, shared_lines: lines, sets_of_colour: sets, ways } = memory;
  const shared = lines.reduce((sum, it) => sum + it, 0);
  find('memory-map').replaceChildren(
    legend(),
    figure(framesOf(memory), `Frames by their page colours: in column c of the row of colour k stands frame ${colours} `
      + `c + k. ${many(frames, 'frame')} in all.`),
    figure(setsOf(memory), `Sets of the second level, of ${many(ways, 'way')}, by their page colours: in column s of `
      + `the row of colour k is set ${sets} k + s. Marked: ${many(shared, 'line')} of the shared region.`),
    scrolled('Owners of the memory', table('Frames of each domain, at the boot', OWNERS, ownersOf(memory))),
    element('details', {},
      element('summary', {}, 'The frames, in numbers'),
      scrolled('Frames by their colours', table('Frames beside each other of one use', RUNS, runsOf(memory)))),
  );
}

function legend() {
  const list = element('ul', { class: 'legend' });
  legendOf(list, [
    [kindOf('shared', null), USES.shared],
    ...OF_DOMAINS.map((it) => [kindOf(it, 0), USES[it]]),
    [kindOf(NOBODYS, null), NOBODYS],
  ]);
  return list;
}

function figure(picture, words) {
  return element('figure', { class: 'chart' }, picture, element('figcaption', { class: 'told' }, words));
}

const kindOf = (use, owner) => `use-${use.replace("'", '')} ${classOf(owner)}`;

const coloursOf = ({ first, last }) => (first === last ? `${first}` : `${first} to ${last}`);

function ownerOf({ first, owner }) {
  if (owner !== null) return nameOf(owner);
  return first === 0 ? 'the kernel' : 'nobody';
}

// ---- the maps

// `cells` gives of each row its parts: `[columns, class, words]`.
function map(memory, columns, label, cells) {
  const width = widthOf(find('memory-map'));
  const left = Math.min(LEFT, 0.35 * width);
  const cell = (width - left) / columns;
  const height = memory.rows.length * ROW;
  const picture = svg('svg', { viewBox: `0 0 ${width} ${height}`, role: 'img', 'aria-label': label });
  memory.rows.forEach((row, place) => {
    const name = short(`${coloursOf(row)}: ${ownerOf(row)}`, Math.floor((left - 10) / LETTER));
    picture.append(svg('text', { x: left - 8, y: place * ROW + 15, 'text-anchor': 'end' }, name));
    let column = 0;
    for (const [count, kind, words] of cells(row)) {
      const at = { x: left + column * cell, y: place * ROW + 1, width: count * cell, height: ROW - 3 };
      picture.append(svg('rect', { class: `frame ${kind}`, ...at }, svg('title', {}, words)));
      column += count;
    }
  });
  return picture;
}

function framesOf(memory) {
  const columns = Math.ceil(memory.frames / memory.colours);
  const label = `A map of ${many(memory.frames, 'frame')}. The tables below have the same in numbers.`;
  return map(memory, columns, label, ({ owner, runs }) => (
    runs.map((it) => [it.count, kindOf(it.use, owner), inWords(it, owner)])));
}

// Runs of sets that are alike: of colour 0 those with lines of the shared region.
function setsOf({ sets_of_colour: sets, shared_lines: shared, ...memory }) {
  const label = `A map of the sets of the second level: ${grouped(sets)} of each colour.`;
  return map(memory, sets, label, ({ first, owner }) => {
    if (owner !== null) return [[sets, kindOf('page', owner), `sets of ${nameOf(owner)}`]];
    if (first !== 0) return [[sets, kindOf(NOBODYS, null), "nobody's sets"]];
    return shared.map((lines) => [1, kindOf(lines ? 'shared' : NOBODYS, null), many(lines, 'shared line')]);
  });
}

function inWords({ use, frames, count, pages }, owner) {
  const of = owner === null ? '' : `${nameOf(owner)}: `;
  const which = pages === null ? '' : `, pages from ${pages[0]} to ${pages[1]}`;
  return `${of}${USES[use]}, ${many(count, 'frame')} from ${frames[0]} on${which}`;
}

// ---- the tables

function ownersOf({ owners }) {
  return owners.map((it, domain) => {
    const counts = OF_DOMAINS.map((use) => it[use]);
    return [nameOf(domain), it.colours.join(', '), counts.reduce((sum, one) => sum + one, 0), ...counts];
  });
}

function runsOf({ rows }) {
  return rows.flatMap((row) => row.runs.map(({ use, frames, count, pages }) => [
    coloursOf(row), ownerOf(row), USES[use], frames[0], frames.at(-1), count, ...(pages ?? [null, null]),
  ]));
}
