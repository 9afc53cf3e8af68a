// The spy's picture: what it measured beside each secret, with all guards on and with one off.

import { element } from './dom.js';
import { bitsOf, differencesOf, pairsOf, scaleOf } from './measurements.js';
import { parseReport } from './report.js';

const SPY = 'spy';
const MOST_NUMBERS = 12; // columns in which there is room for the cycles

export class Picture {
  #engine;
  #asked = 0; // how often: an answer that comes too late is for nobody
  #shown = ''; // what was asked last
  #sides = [];

  // `slid` is told of the secret that was chosen.
  constructor(root, engine, slid = () => {}) {
    this.#engine = engine;
    this.range = element('input', { type: 'range', min: 0, max: 7, value: 5, id: `${root.id}-secret` });
    this.number = element('output', { for: this.range.id }, this.range.value);
    this.sides = element('div', { class: 'sides' });
    this.ran = element('p', { class: 'told ran', role: 'status' });
    const label = element('label', { for: this.range.id }, "The sender's secret");
    root.classList.add('picture');
    root.replaceChildren(
      element('div', { class: 'sliding' }, label, this.range, this.number),
      this.sides,
      this.ran,
    );
    this.range.addEventListener('input', () => {
      this.#draw();
      slid(this.secret);
    });
  }

  get secret() {
    return Number(this.range.value);
  }

  set secret(number) {
    this.range.value = number;
    this.#draw();
  }

  // Runs the image of each secret, with all guards on and with this one off, where one is. `secret` is
  // the one to begin with; where the same is shown already, it is for the reader to choose.
  async show({ texts, slots, off, secret = this.secret }) {
    const shown = JSON.stringify([texts, slots, off]);
    if (shown === this.#shown) return;
    this.#shown = shown;
    const asked = ++this.#asked;
    const began = performance.now();
    const sides = [];
    for (const guard of off ? [null, off] : [null]) {
      const call = guard === null ? { command: 'run', slots } : { command: 'ablate', off: guard, slots };
      const answers = await Promise.all(texts.map((image) => this.#engine.ask({ ...call, image })));
      if (asked !== this.#asked) return;
      sides.push(sideOf(guard, answers));
    }
    this.#sides = sides;
    const runs = texts.length * sides.length;
    const took = Math.round(performance.now() - began);
    this.ran.textContent = 'Bars and colours: by how many cycles a measurement is longer than the shortest '
      + `of its column. ${runs} runs of ${slots} slots, just now in this page: ${took} ms.`;
    this.range.max = texts.length - 1;
    this.secret = secret;
  }

  #draw() {
    this.number.textContent = this.secret;
    const all = this.#sides.flatMap((side) => side.differences.flat());
    const place = scaleOf(all);
    this.sides.replaceChildren(...this.#sides.map((side) => drawn(side, this.secret, place)));
  }
}

// What the spy saw beside each secret, and how many bits that tells.
function sideOf(off, answers) {
  const sections = answers.map(({ text }) => parseReport(text ?? '')?.sections.find(({ name }) => name === SPY));
  if (sections.some((it) => !it)) return { off, rows: [], differences: [], bits: 0, fault: faultOf(answers) };
  const rows = sections.map(({ readings }) => pairsOf(readings));
  return { off, rows, differences: differencesOf(rows), bits: bitsOf(sections.map(({ text }) => text)) };
}

function faultOf(answers) {
  const broken = answers.find(({ status, trap }) => status !== 0 || trap);
  if (!broken) return `No domain is named ${SPY}.`;
  return `The program answers: ${broken.trap ?? (broken.text || `status ${broken.status}`)}`;
}

function drawn(side, secret, place) {
  const title = side.off === null ? 'All guards on' : `${side.off} off`;
  const bits = element('span', { class: 'bits' }, `${side.bits.toFixed(2)} bits`);
  const caption = element('figcaption', {}, element('strong', {}, title), bits);
  const figure = element('figure', { class: side.bits > 0 ? 'leaks' : 'quiet' }, caption);
  if (side.fault) {
    figure.append(element('p', { class: 'warning' }, side.fault));
    return figure;
  }
  const row = Math.min(secret, side.rows.length - 1);
  const verdict = element('p', { class: 'verdict' }, verdictOf(side));
  figure.append(barsOf(side, row, place), matrixOf(side, row, place), verdict);
  return figure;
}

function barsOf({ rows, differences }, secret, place) {
  const told = `With secret ${secret} the spy measures ${rows[secret].join(', ')} cycles.`;
  const bars = element('div', { class: 'bars', role: 'img', 'aria-label': told });
  for (const difference of differences[secret]) {
    const bar = element('div');
    bar.style.setProperty('--d', place(difference).toFixed(3));
    bars.append(bar);
  }
  return bars;
}

function matrixOf({ rows, differences }, secret, place) {
  const told = 'The cycles of each measurement, a row for each secret';
  const table = element('table', { class: 'matrix', 'aria-label': told });
  const hasNumbers = Math.max(...rows.map((row) => row.length)) <= MOST_NUMBERS;
  rows.forEach((row, number) => {
    const cells = row.map((cycles, column) => {
      const cell = element('td', {}, hasNumbers ? `${cycles}` : '');
      cell.style.setProperty('--d', place(differences[number][column]).toFixed(3));
      return cell;
    });
    const head = element('th', { scope: 'row' }, `secret ${number}`);
    table.append(element('tr', { 'aria-current': number === secret ? 'true' : null }, head, ...cells));
  });
  return table;
}

function verdictOf({ rows, bits }) {
  if (bits === 0) return `What the spy sees is the same, to the byte, for all ${rows.length} secrets.`;
  const most = Math.log2(rows.length);
  return bits >= most - 1e-9
    ? `The spy tells all ${rows.length} secrets apart: ${bits.toFixed(2)} bits.`
    : `The spy learns ${bits.toFixed(2)} of ${most.toFixed(2)} bits.`;
}
