// What came of a call: in words, as a timeline, as the spy's picture, and as it is.

import { element, find, marked } from './dom.js';
import { readImage, sendersOf } from './image.js';
import { STATUS } from './module.js';
import { explain, parseRefusal } from './refusal.js';
import { parseReport, parseSection } from './report.js';
import { Telling } from './telling.js';
import { legend, MOST_SLOTS, timelineOf } from './timeline.js';

const TABS = ['words', 'time', 'spy', 'text'];
const QUICK = 400; // milliseconds of a run after which it is run again for more
const FILE = 'image.toml';

export class Results {
  constructor(words, engine, picture) {
    Object.assign(this, { words, engine, picture });
    this.tabs = TABS.map((it) => find(`tab-${it}`));
    this.tabs.forEach((tab, place) => {
      tab.addEventListener('click', () => this.#choose(place));
      tab.addEventListener('keydown', (event) => this.#byKey(event, place));
    });
  }

  async show(text, call, answer, secret) {
    find('report').textContent = answer.text ?? '';
    const report = call.command === 'alone' ? null : parseReport(answer.text ?? '');
    const image = readImage(text);
    if (report) this.#tell(report, image);
    else this.#tellOther(text, call, answer);
    this.#noTimeline(call, report);
    const isQuick = answer.took < QUICK;
    if (report && image && isQuick) await this.#again(text, call, report, image);
    await this.#showPicture(text, call, secret, image);
  }

  #choose(place) {
    this.tabs.forEach((tab, number) => {
      tab.setAttribute('aria-selected', number === place);
      tab.tabIndex = number === place ? 0 : -1;
      find(TABS[number]).hidden = number !== place;
    });
  }

  #byKey(event, place) {
    const to = { ArrowRight: place + 1, ArrowLeft: place - 1, Home: 0, End: TABS.length - 1 }[event.key];
    if (to === undefined || !TABS[to]) return;
    event.preventDefault();
    this.#choose(to);
    this.tabs[to].focus();
  }

  #tell(report, image) {
    const telling = new Telling(this.words, report, FILE, image);
    find('words').replaceChildren(
      element('p', {}, telling.head()),
      ...report.sections.map((section) => sectionOf(telling.domain(section), section)),
      element('ul', { class: 'switches' }, ...telling.switches().map((line) => element('li', {}, line))),
    );
  }

  // What is no report: a section, a refusal, or any other text.
  #tellOther(text, call, answer) {
    const section = call.command === 'alone' && answer.status === STATUS.done ? parseSection(answer.text) : null;
    const refusal = parseRefusal(answer.text ?? '');
    if (section) {
      const telling = new Telling(this.words, { sections: [section], switches: [], off: null }, FILE, readImage(text));
      find('words').replaceChildren(sectionOf(telling.domain(section), section));
    } else if (refusal) {
      const { sentence } = explain(this.words, text, refusal);
      find('words').replaceChildren(element('p', {}, ...marked(sentence)));
    } else find('words').replaceChildren(element('pre', {}, answer.trap ?? answer.text ?? ''));
  }

  // Each domain alone, beside its section; and what each slot did, by runs of fewer slots.
  async #again(text, call, report, image) {
    const ask = (other) => this.engine.ask({ image: text, ...other });
    for (const { number, text: section } of report.sections) {
      const alone = await ask({ command: 'alone', domain: number, slots: call.slots });
      const other = parseSection(alone.text ?? '')?.text;
      const senders = sendersOf(image, number).map((it) => image.names[it]);
      find(`alone-${number}`).replaceChildren(...comparedOf(section, other, senders));
      find(`alone-${number}`).classList.toggle('differs', section !== other && !senders.length);
    }
    if (call.command === 'ablate' && call.off === 'pad') return;
    const runs = [];
    for (let slots = 0; slots <= Math.min(call.slots, MOST_SLOTS); slots++) {
      runs.push(parseReport((await ask({ ...call, slots })).text));
    }
    const mail = await this.#mail(ask, image);
    find('time').replaceChildren(timelineOf(image, report, didOf(image, runs), mail), legend(mail));
  }

  // The boxes into which one may put words, and how long events are, by the bound; null where there is no box.
  async #mail(ask, image) {
    const send = this.words.calls.calls.find((it) => it.name === 'SEND').number;
    const boxes = image.boxes.filter(({ from }) => image.calls[from]?.includes(send) ?? true)
      .map(({ number, from, to }) => ({ number, sender: from, receiver: to }));
    if (!boxes.length) return null;
    return { boxes, longest: longestOf(image, (await ask({ command: 'bound' })).text) };
  }

  #noTimeline(call, report) {
    const why = !report ? 'There is no report to draw.'
      : call.command === 'ablate' && call.off === 'pad' ? 'Without pads the schedule does not tell when a slot begins.'
        : 'It was a long run: ask for fewer slots, and they are drawn.';
    find('time').replaceChildren(element('p', { class: 'told' }, why));
  }

  async #showPicture(text, call, secret, image) {
    const [box, note] = [find('spy-picture'), find('spy-none')];
    const isDrawn = secret !== null && image !== null && call.slots !== undefined;
    box.hidden = !isDrawn;
    note.hidden = isDrawn;
    if (!isDrawn) return;
    const off = image.harts > 1 ? null : call.off ?? secret.channel.guards[0] ?? 'flush';
    await this.picture.show({ texts: secret.texts, slots: call.slots, off, secret: secret.secret });
  }
}

function sectionOf([state, ...lines], { number }) {
  // What belongs to the line above it is set in: lines that were printed, and errors of calls.
  const item = (line) => element('li', { class: /^[| ]/.test(line) ? 'part' : null }, ...marked(line));
  const alone = element('p', { class: 'alone', id: `alone-${number}` });
  return element('article', { class: 'section' }, element('h4', {}, state), element('ul', {}, ...lines.map(item)), alone);
}

function comparedOf(section, alone, senders) {
  if (alone === undefined) return [];
  if (section === alone) return ['✓ Alone it sees the same, to the byte: run again just now with no other domain.'];
  const [lines, others] = [section, alone].map((it) => it.split('\n'));
  const count = lines.filter((line, place) => line !== others[place]).length;
  const differ = count === 1 ? 'line differs' : 'lines differ';
  if (senders.length) {
    return [`Alone no word comes in, and ${count} ${differ}: boxes lead to it, from ${senders.join(', ')}.`];
  }
  return [`✗ Alone it would see something else: ${count} ${differ}, so its neighbours show.`];
}

// How many cycles an event of each domain may take, by what `bound` writes: an instruction, and the
// call that it makes.
function longestOf({ names, entries }, text) {
  const instruction = Number(/^instruction (\d+)$/m.exec(text)[1]);
  const calls = [...text.matchAll(/^(?:entry (\d+) )?operation (\d+)/gm)];
  // (in version 1 it is the same for all)
  const ofDomain = (domain) => calls.filter(([, entry]) => entry === undefined || entries[entry].domain === domain);
  return names.map((_, domain) => instruction + Math.max(0, ...ofDomain(domain).map(([, , cycles]) => Number(cycles))));
}

// What each slot of each hart did: a run of one slot more, less the one before it.
function didOf(image, runs) {
  const isEnded = (section) => section.exitCode !== null || section.stop !== null;
  return Array.from({ length: image.harts }, (_, hart) => {
    const places = image.entries.flatMap((it, place) => (it.hart === hart ? [place] : []));
    return runs.slice(1).map((after, slot) => {
      const { domain } = image.entries[places[slot % places.length]];
      const [one, two] = [runs[slot].sections[domain], after.sections[domain]];
      return { retired: two.retired - one.retired, hadEnded: isEnded(one) };
    });
  });
}
