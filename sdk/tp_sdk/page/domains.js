// The run in figures and in sentences: each domain, switches, and the differences to a second report. The
// sentences are those of tp-report.

import { element, find } from './dom.js';
import { classOf, facts, grouped, run } from './words.js';

const LONG = 1500; // letters of a list

export function showRun() {
  find('head').textContent = facts.head;
  const figures = [
    ['slots', run.slots],
    ['domains', run.domains.length],
    ['harts', facts.schedule.why_not ? null : facts.schedule.harts],
    ['entries', run.switches.length],
    ['switches', run.switches.reduce((sum, { count }) => sum + count, 0)],
    ['instructions', run.domains.reduce((sum, { retired }) => sum + retired, 0)],
  ];
  find('figures').replaceChildren(...figures.filter(([, number]) => number !== null).map(([what, number]) => (
    element('div', {}, element('dt', {}, what), element('dd', {}, grouped(number))))));
  find('unprotected').hidden = run.unprotected === null;
  find('unprotected').textContent = `The guard ${run.unprotected} was off: what a domain saw may tell of its `
    + 'neighbours.';
  find('cards').replaceChildren(...run.domains.map(cardOf));
  find('switch-sentences').replaceChildren(...facts.switch_sentences.map(item));
}

// What is printed stands behind a stroke.
const item = (line) => element('li', { class: line.startsWith('|') ? 'part' : null }, line);

function cardOf({ number, sentences: [state, ...lines] }) {
  return element('article', { class: `section ${classOf(number)}` },
    element('h3', {}, state), listOf(lines, state));
}

export function showDifferences() {
  const { differences } = run;
  const box = find('compared');
  if (differences === null) {
    box.replaceChildren(element('p', { class: 'told' }, 'No second report was given by --against.'));
    return;
  }
  const { sections, switches, sentences } = differences;
  const about = switches.length ? switches.map(({ sentence }) => sentence) : [sentences.at(-1)];
  box.replaceChildren(
    element('p', { class: 'lead' }, sentences[0]),
    element('div', { class: 'cards' },
      ...sections.map(comparedOf),
      element('article', { class: 'section plain' }, listOf(about, 'Switches'))),
  );
}

function comparedOf({ number, sentence, differing }) {
  const kind = `section ${classOf(number)} ${differing.length ? 'differs' : 'same'}`;
  const lines = differing.map((it) => it.sentence);
  return element('article', { class: kind }, element('h3', {}, sentence), listOf(lines, sentence));
}

// A list that is long, as of a domain that printed much, is scrolled.
function listOf(lines, name) {
  const isLong = lines.join('').length > LONG;
  const scrolled = isLong ? { class: 'long', tabindex: 0, 'aria-label': name } : {};
  return element('ul', scrolled, ...lines.map(item));
}
