// What a domain measured, as a chart and a table, beside the second report's where there is one; and what
// it printed.

import { element, find, svg } from './dom.js';
import { isWide, ticks } from './scale.js';
import { classOf, facts, grouped, many, nameOf, run, scrolled, table, widthOf } from './words.js';

const HEIGHT = 210;
const LEFT = 64;
const WIDEST = 48; // of a bar
const BELOW = 22;
const ABOVE = 8;
const BOTTOM = HEIGHT - BELOW;
const IN_A_LINE = 16; // bytes

export function startReadings() {
  const option = (value, words) => element('option', { value }, words);
  const [reader, measure] = [find('reader'), find('measure')];
  reader.replaceChildren(...run.domains.map(({ name, readings }, number) => (
    option(number, `${name} (${many(readings.count, 'reading')})`))));
  measure.replaceChildren(...Object.entries(facts.measures).map(([name, what]) => option(name, `${name}: ${what}`)));
  reader.value = Math.max(0, run.domains.findIndex(({ readings }) => readings.count > 0));
  for (const it of [reader, measure]) it.addEventListener('change', showReadings);
  showReadings();
}

export function showReadings() {
  const domain = Number(find('reader').value);
  if (!run.domains[domain]) return;
  const shown = shownOf(domain, find('measure').value);
  find('measured').textContent = inWords(shown);
  find('measured-chart').replaceChildren(...(shown.count ? chart(shown) : []));
  find('measured-table').replaceChildren(tabulated(shown));
  find('measured-table').hidden = !shown.count;
  find('printed').replaceChildren(...printed(run.domains[domain].printed));
}

// A domain's measurements by a measure, those of the second report, and by how much the first are more.
function shownOf(domain, measure) {
  const { cycles, over_end: overEnd, made } = facts.measurements[domain][measure];
  const other = facts.others?.[domain][measure] ?? null;
  const count = Math.max(cycles.length, other?.cycles.length ?? 0);
  const isOver = (place) => overEnd.includes(place);
  return { domain, measure, cycles, made, overEnd, other, count, isOver };
}

function inWords({ domain, measure, cycles, made, overEnd }) {
  if (!cycles.length) return `${nameOf(domain)}: no measurement by ${measure}.`;
  const within = overEnd.length ? `; within ${grouped(overEnd.length)} a slot ended` : '';
  const unlisted = grouped(made - cycles.length);
  const more = made > cycles.length ? `; ${unlisted} more were made, and a report lists the first 256 readings` : '';
  return `${nameOf(domain)}: ${many(cycles.length, 'measurement')} by ${measure}${within}${more}.`;
}

// ---- the chart

// Where values stand: those with a slot's end in them are left out of the scale.
function scaleOf({ cycles, other, isOver }) {
  const within = [cycles, other?.cycles ?? []].flatMap((of) => of.filter((_, place) => !isOver(place)));
  const values = within.length ? within : [...cycles, ...(other?.cycles ?? [])];
  const [least, most] = [Math.min(...values), Math.max(...values, 1)];
  const wide = isWide(values);
  // (a little below the least, so that its bar is seen)
  const far = wide ? (value) => Math.log(Math.max(value, 1) / (0.8 * least)) : (value) => value;
  const part = (value) => Math.max(0, Math.min(1, far(value) / far(most)));
  return { wide, least, most, y: (value) => BOTTOM - (BOTTOM - ABOVE) * part(value) };
}

function chart(shown) {
  const { cycles, other, count, domain } = shown;
  const width = widthOf(find('measured-chart'));
  const scale = scaleOf(shown);
  const cell = Math.min(WIDEST, (width - LEFT - 4) / count);
  const x = (place) => LEFT + place * cell;
  const label = `Bars of ${many(cycles.length, 'measurement')} of ${nameOf(domain)}, ${grouped(scale.least)} to `
    + `${grouped(scale.most)}. The table has the numbers.`;
  const picture = svg('svg', { viewBox: `0 0 ${width} ${HEIGHT}`, role: 'img', 'aria-label': label });
  picture.append(
    ...axes(scale, width, count, x),
    ...cycles.map((value, place) => bar(shown, value, place, x(place), cell, scale)),
    ...(other?.cycles ?? []).map((value, place) => stroke(x(place), cell, scale.y(value))),
  );
  return [picture, element('figcaption', { class: 'told' }, caption(shown, scale))];
}

const widthOfBar = (cell) => Math.max(0.5, cell - (cell > 5 ? 1.5 : 0));

function bar({ isOver, domain }, value, place, x, cell, scale) {
  const over = isOver(place);
  const y = over ? ABOVE : scale.y(value);
  const at = { x, y, width: widthOfBar(cell), height: Math.max(1, BOTTOM - y) };
  const told = `measurement ${place}: ${grouped(value)}${over ? ', within which a slot ended' : ''}`;
  return svg('rect', { class: over ? 'over-end' : `bar ${classOf(domain)}`, ...at }, svg('title', {}, told));
}

const stroke = (x, cell, y) => svg('line', { class: 'its', x1: x, x2: x + widthOfBar(cell), y1: y, y2: y });

function caption({ measure, overEnd, other }, { wide }) {
  const what = measure === 'values' ? 'values' : 'cycles';
  const over = overEnd.length ? ' Grey, of full height: a slot ended within it.' : '';
  const second = other === null ? '' : ' Strokes across: what the second report has.';
  return `Measurements from 0 on; ${what}, ${wide ? 'logarithmic' : 'linear'}.${over}${second}`;
}

function axes({ wide, y, least, most }, width, count, x) {
  const heights = wide ? powers(least, most) : ticks(0, most, 5);
  return [
    ...heights.flatMap((at) => [
      svg('line', { class: 'grid', x1: LEFT, x2: width, y1: y(at), y2: y(at) }),
      svg('text', { class: 'axis', x: LEFT - 6, y: y(at) + 4, 'text-anchor': 'end' }, grouped(at)),
    ]),
    ...ticks(0, count - 1, (width - LEFT) / 50).map((at) => (
      svg('text', { class: 'axis', x: x(at), y: BOTTOM + 16 }, grouped(at)))),
  ];
}

// 1, 2 and 5 of each power of ten that lies between; of many powers those alone.
function powers(least, most) {
  const steps = most / least > 1000 ? [1] : [1, 2, 5];
  const found = [];
  for (let power = 1; power <= most; power *= 10) found.push(...steps.map((it) => it * power));
  return found.filter((it) => it >= least && it <= most);
}

// ---- the table

function tabulated({ domain, measure, cycles, other, count, isOver }) {
  const { kept } = run.domains[domain].readings;
  const step = measure === 'pairs' ? 2 : 1;
  const isDifference = measure !== 'values';
  const heads = isDifference ? ['From', 'To', 'Cycles', 'A slot ended'] : ['Value'];
  const cells = (place) => {
    if (!isDifference) return [cycles[place]];
    return [kept[place * step], kept[place * step + 1], cycles[place], isOver(place) ? 'within it' : ''];
  };
  const its = (place) => (other === null ? [] : [other.cycles[place], other.more[place]]);
  const rows = Array.from({ length: count }, (_, place) => [place, ...cells(place), ...its(place)]);
  const all = ['Number', ...heads, ...(other === null ? [] : ['There', 'More here'])];
  return table(`${nameOf(domain)}, by ${measure}: ${facts.measures[measure]}`, all, rows);
}

// ---- what was printed

// As text where it is text, and its bytes in any case.
function printed({ count, text, hex }) {
  if (count === 0) return [element('p', { class: 'told' }, 'It printed nothing.')];
  const isText = /^[^\p{C}\ufffd]*$/u.test(text.replaceAll('\n', ''));
  const bytes = scrolled('The bytes that it printed', dumped(hex.match(/../g)), 'pre');
  const whole = element('details', { open: !isText }, element('summary', {}, many(count, 'byte')), bytes);
  return isText ? [scrolled('What it printed', text, 'pre'), whole] : [whole];
}

function dumped(bytes) {
  const lines = [];
  for (let at = 0; at < bytes.length; at += IN_A_LINE) {
    const some = bytes.slice(at, at + IN_A_LINE);
    const letters = some.map((it) => letterOf(parseInt(it, 16)));
    lines.push(`${at.toString(16).padStart(4, '0')}  ${some.join(' ').padEnd(3 * IN_A_LINE)} ${letters.join('')}`);
  }
  return lines.join('\n');
}

const letterOf = (byte) => (byte >= 32 && byte < 127 ? String.fromCharCode(byte) : '.');
