// The facts of the page, numbers and names in words, and what charts and tables have in common.

import { element, find } from './dom.js';

export const facts = JSON.parse(find('facts').textContent);
export const run = facts.run;

const COLOURS = 8; // of domains, as run.css has them
const LONGEST = 16; // letters of a name in a chart

export const grouped = (number) => number.toLocaleString('en');

export const many = (count, what, plural = `${what}s`) => `${grouped(count)} ${count === 1 ? what : plural}`;

// What was waited of a pad, at least: `used` is the most. Without the guard nothing is.
export const isPadded = run.unprotected !== 'pad';
export const waitedOf = ({ pad, used }) => (isPadded ? Math.max(0, pad - used) : 0);

// A domain's name; that of an entry whose domain no image tells is the entry itself.
export const nameOf = (domain) => run.domains[domain]?.name ?? '';

export const classOf = (domain) => (domain === null || domain === undefined ? '' : `of-${domain % COLOURS}`);

export const short = (name, most = LONGEST) => (name.length <= most ? name : `${name.slice(0, most - 1)}…`);

// A table: each head is a text, or an element such as a button. Numbers stand to the right.
export function table(caption, heads, rows) {
  const kind = (place) => (rows.some((row) => typeof row[place] === 'number') ? 'number' : null);
  const kinds = heads.map((_, place) => kind(place));
  const told = (it) => (typeof it === 'number' ? grouped(it) : it ?? '–');
  const head = heads.map((it, place) => element('th', { scope: 'col', class: kinds[place] }, it));
  const line = (row) => element('tr', {}, ...row.map((it, place) => element('td', { class: kinds[place] }, told(it))));
  return element('table', {},
    element('caption', {}, caption),
    element('thead', {}, element('tr', {}, ...head)),
    element('tbody', {}, ...rows.map(line)));
}

// What is longer than a page has room for is scrolled, by keys, too.
export function scrolled(name, it, kind = 'div') {
  return element(kind, { class: 'scrolled', role: 'region', 'aria-label': name, tabindex: 0 }, it);
}

// A list of what each colour means: `[[class, words], ..]`.
export function legendOf(list, rows) {
  list.replaceChildren(...rows.map(([kind, words]) => (
    element('li', {}, element('span', { class: `key ${kind}` }), words))));
}

// The width that a chart has; a window that is not shown has none.
export const widthOf = (box) => Math.max(280, Math.floor(box.clientWidth));
