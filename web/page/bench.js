// The workbench: what is asked, the run, and what came of it.

import { element, find } from './dom.js';
import { Stopped } from './engine.js';
import { grouped } from './fill.js';
import { cyclesOf, readImage } from './image.js';
import { GUARDS, STATUS, wordsOf } from './module.js';
import { Results } from './results.js';

const QUICK = 8_000_000; // cycles that are run without a reckoning
const SAMPLE = 2_000_000; // cycles from which a longer run is reckoned
const TICK = 100; // milliseconds between two looks at the clock

export class Bench {
  #running = null;
  #isLate = false; // what is being run is not what is asked for any more

  constructor(words, gallery, editor, engine, picture) {
    Object.assign(this, { gallery, editor, engine });
    this.results = new Results(words, engine, picture);
    find('off').replaceChildren(...GUARDS.map((it) => element('option', { value: it }, it)));
    find('controls').addEventListener('submit', (event) => {
      event.preventDefault();
      this.run();
    });
    for (const event of ['input', 'change']) find('controls').addEventListener(event, () => this.asked());
    find('stop').addEventListener('click', () => this.engine.stop());
    this.asked();
  }

  // The call that the controls ask for.
  get call() {
    const number = (id) => Number(find(id).value);
    const command = find('command').value;
    const rest = {
      run: () => ({ slots: number('slots') }),
      harts: () => ({ slots: number('slots'), seed: number('seed') }),
      alone: () => ({ domain: number('domain'), slots: number('slots') }),
      ablate: () => ({ off: find('off').value, slots: number('slots') }),
    }[command]?.() ?? {};
    return { command, ...rest };
  }

  set call(call) {
    for (const [name, value] of Object.entries(call)) {
      const field = find(name);
      const isChoice = ({ options }) => !options || [...options].some((it) => it.value === `${value}`);
      if (field?.closest('#controls') && isChoice(field)) field.value = value;
    }
    this.asked();
  }

  // Opens an image: its text, how it is run, and its file where it is one of the gallery.
  open(text, call, file = '') {
    this.editor.text = text;
    find('gallery').value = file;
    this.imageChanged();
    this.call = call;
  }

  async openFile(file) {
    this.open(await this.gallery.text(file), this.gallery.callOf(file), file);
  }

  // Shows the controls that the command has, and the words that one would type.
  asked() {
    const { call } = this;
    for (const it of find('controls').querySelectorAll('[data-for]')) {
      it.hidden = !it.dataset.for.split(' ').includes(call.command);
    }
    find('line').textContent = `./tp ${wordsOf(call).join(' ')} < image.toml`;
  }

  // The image was changed: its domains may be others.
  imageChanged() {
    const names = readImage(this.editor.text)?.names ?? [];
    const field = find('domain');
    if ([...field.options].map((it) => it.dataset.name).join() === names.join()) return;
    const chosen = field.value;
    field.replaceChildren(
      ...names.map((name, number) => element('option', { value: number, 'data-name': name }, `${number} ${name}`)),
    );
    field.value = chosen && Number(chosen) < names.length ? chosen : 0;
    this.asked();
  }

  // Runs the image as it is now, also where another run is under way: then after it.
  async runAgain() {
    if (this.#running) this.#isLate = true;
    else await this.run();
  }

  async run() {
    if (this.#running || !find('controls').reportValidity()) return;
    this.#isLate = false;
    const [text, call] = [this.editor.text, this.call];
    this.#running = new Progress();
    find('run').disabled = true;
    find('stop').disabled = false;
    try {
      const reckoned = await this.#reckon(text, call);
      this.#running.reckoned = reckoned;
      const answer = await this.engine.ask({ ...call, image: text });
      find('outcome').textContent = outcomeOf(answer, reckoned);
      await this.results.show(text, call, answer, this.gallery.secretIn(text));
    } catch (fault) {
      if (!(fault instanceof Stopped)) throw fault;
      find('outcome').textContent = `Stopped after ${secondsOf(this.#running.elapsed)}.`;
    } finally {
      this.#running.end();
      this.#running = null;
      find('run').disabled = false;
      find('stop').disabled = true;
    }
    if (this.#isLate) await this.run();
  }

  // How many milliseconds a long run will take, by a short one of the same image; null of a quick one.
  async #reckon(text, call) {
    const image = call.slots === undefined ? null : readImage(text);
    const cycles = image ? cyclesOf(image, call.slots) : 0;
    if (cycles <= QUICK) return null;
    const slots = Math.max(1, Math.floor((call.slots * SAMPLE) / cycles));
    const load = await this.engine.ask({ ...call, image: text, slots: 0 });
    const sample = await this.engine.ask({ ...call, image: text, slots });
    if (sample.status !== STATUS.done) return null;
    return load.took + (Math.max(0, sample.took - load.took) / slots) * call.slots;
  }
}

// What is told while a run is under way.
class Progress {
  #began = performance.now();
  #timer = setInterval(() => this.#tell(), TICK);
  reckoned = null;

  get elapsed() {
    return performance.now() - this.#began;
  }

  end() {
    clearInterval(this.#timer);
    find('progress').hidden = true;
  }

  #tell() {
    const { elapsed, reckoned } = this;
    if (elapsed < 2 * TICK) return;
    find('progress').hidden = false;
    if (reckoned === null) find('done').removeAttribute('value');
    else find('done').value = Math.min(1, elapsed / reckoned);
    const beside = reckoned === null ? 'so far' : `of some ${secondsOf(reckoned)}`;
    find('elapsed').textContent = `${secondsOf(elapsed)} ${beside}`;
  }
}

function secondsOf(milliseconds) {
  return milliseconds < 1000 ? `${Math.round(milliseconds)} ms` : `${(milliseconds / 1000).toFixed(1)} s`;
}

const OUTCOMES = {
  [STATUS.done]: 'done',
  [STATUS.refused]: 'the image is refused',
  [STATUS.usage]: 'no such command',
  [STATUS.memory]: 'memory ran out',
  [STATUS.tooLong]: 'the image is too long',
};

function outcomeOf({ status, trap, took, memory, text }, reckoned) {
  if (trap) return `The module was stopped: ${trap}. After ${secondsOf(took)}.`;
  const retired = [...text.matchAll(/^retired (\d+)$/gm)].reduce((sum, [, count]) => sum + Number(count), 0);
  const speed = retired && took > 20 ? `, ${grouped(Math.round(retired / took) * 1000)} instructions a second` : '';
  const beside = reckoned === null ? '' : ` (reckoned: ${secondsOf(reckoned)})`;
  const mebibytes = (memory / 2 ** 20).toFixed(1);
  return `Exit code ${status}: ${OUTCOMES[status]}. It took ${secondsOf(took)}${beside}${speed}, in ${mebibytes} MiB.`;
}
