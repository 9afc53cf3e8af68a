// What each entry's switches used of its pad: bars, and a table that sorts by each of its columns.

import { element, find, svg } from './dom.js';
import { ticks } from './scale.js';
import { classOf, facts, grouped, isPadded, many, run, short, table, waitedOf, widthOf } from './words.js';

const MOST_BARS = 64;
const BAR = 18;
const LETTER = 7; // how wide one is

const harts = facts.schedule.harts;
const rows = run.switches.map((it) => ({
  ...it,
  of: run.domains.findIndex(({ name }) => name === it.domain),
  hart: facts.schedule.entries[it.entry]?.hart ?? 0,
  waited: waitedOf(it),
  share: it.pad > 0 ? (100 * it.used) / it.pad : 0,
}));

const COLUMNS = [
  ['Entry', 'entry'], ['Domain', 'domain'], ...(harts > 1 ? [['Hart', 'hart']] : []), ['Switches', 'count'],
  ['Pad', 'pad'], ['Used at most', 'used'], ['Waited at least', 'waited'], ['Used, % of the pad', 'share'],
];

let sorted = { key: 'entry', isDown: false };

export function showSwitches() {
  const shown = [...rows].sort((one, two) => (sorted.isDown ? -1 : 1) * compare(one[sorted.key], two[sorted.key]));
  find('switch-chart').replaceChildren(...chart(shown));
  find('switch-table').replaceChildren(tabulated(shown));
}

function compare(one, two) {
  if (typeof one === 'number') return one - two;
  return (one ?? '').localeCompare(two ?? '');
}

function tabulated(shown) {
  const it = table('In cycles; a column is sorted by its head', COLUMNS.map(head), shown.map((row) => (
    COLUMNS.map(([, key]) => (key === 'share' ? Number(row.share.toFixed(1)) : row[key])))));
  it.querySelectorAll('th').forEach((cell, place) => {
    if (COLUMNS[place][1] === sorted.key) cell.setAttribute('aria-sort', sorted.isDown ? 'descending' : 'ascending');
  });
  return it;
}

function head([words, key]) {
  const button = element('button', { type: 'button', class: 'sort', id: `by-${key}` }, words);
  button.addEventListener('click', () => {
    sorted = { key, isDown: sorted.key === key && !sorted.isDown };
    showSwitches();
    find(`by-${key}`).focus();
  });
  return button;
}

function chart(shown) {
  const drawn = shown.slice(0, MOST_BARS);
  if (!drawn.length) return [element('p', { class: 'told' }, 'The report has no line of a switch.')];
  const width = widthOf(find('switch-chart'));
  const names = drawn.map(nameOfRow);
  const left = Math.min(0.4 * width, 12 + LETTER * Math.max(...names.map((it) => it.length)));
  const most = Math.max(1, ...drawn.map(({ pad, used }) => Math.max(pad, used)));
  const x = (cycles) => left + (cycles / most) * (width - left - 8);
  const height = drawn.length * BAR + 20;
  const picture = svg('svg', { viewBox: `0 0 ${width} ${height}`, role: 'img', 'aria-label': told(drawn) });
  picture.append(
    ...ticks(0, most, (width - left) / 110).flatMap((at) => axis(at, x(at), width, height)),
    ...drawn.map((row, place) => bar(row, names[place], place * BAR, left, x)),
  );
  return [picture, element('figcaption', { class: 'told' }, caption(drawn))];
}

function caption(drawn) {
  const rest = `the rest was ${isPadded ? '' : 'not '}waited`;
  const capped = drawn.length < rows.length
    ? ` Drawn are the first ${drawn.length} of ${many(rows.length, 'entry', 'entries')}, as the table is sorted.` : '';
  return `A whole bar: the pad, in cycles. Filled: the most that a switch used of it; ${rest}.${capped}`;
}

function axis(at, x, width, height) {
  const anchor = x > width - 40 ? 'end' : 'middle';
  return [
    svg('line', { class: 'grid', x1: x, x2: x, y1: 0, y2: height - 16 }),
    svg('text', { class: 'axis', x, y: height - 4, 'text-anchor': anchor }, grouped(at)),
  ];
}

const nameOfRow = ({ entry, domain }) => `${entry}${domain === null ? '' : ` ${short(domain)}`}`;

function told(drawn) {
  const share = (it) => Math.max(...it.map((row) => row.share)).toFixed(1);
  return `Bars of ${many(drawn.length, 'entry', 'entries')}: no switch used more than ${share(drawn)} percent of its `
    + 'pad. The table has the numbers.';
}

function bar(row, name, y, left, x) {
  const at = { x: left, y: y + 3, height: BAR - 6 };
  const rect = (kind, cycles) => svg('rect', { class: kind, ...at, width: x(cycles) - left });
  return svg('g', {},
    svg('title', {}, `entry ${name}: ${grouped(row.used)} of ${grouped(row.pad)}`),
    svg('text', { x: left - 6, y: y + 13, 'text-anchor': 'end' }, name),
    rect('pad', row.pad),
    rect(`bar ${classOf(row.of < 0 ? null : row.of)}`, row.used));
}
