// The editor of an image: CodeMirror, with completions, and the fault that the program finds marked
// at its place as one types.

import { completionsAt } from './completions.js';
import { element, find, marked } from './dom.js';
import { Stopped } from './engine.js';
import { STATUS } from './module.js';
import { explain, parseRefusal, positionOf } from './refusal.js';

const REST = 250; // milliseconds after the last key, before the image is checked
const SHORT = 200_000; // characters up to which a fault's place is looked for

export class Editor {
  #marks = [];
  #timer = 0;
  #isChecking = false;

  // `changed` is told after each change, `run` when one asks for a run by the keyboard.
  constructor(words, schema, engine, { changed, run }) {
    Object.assign(this, { words, engine, changed });
    this.mirror = CodeMirror.fromTextArea(find('image'), {
      mode: 'toml', theme: 'page', lineNumbers: true, inputStyle: 'contenteditable', spellcheck: false,
      screenReaderLabel: 'The image, in TOML',
      // (Tab leaves the editor, as it leaves any other field)
      extraKeys: { 'Ctrl-Space': 'autocomplete', 'Ctrl-Enter': run, 'Cmd-Enter': run, Tab: false, 'Shift-Tab': false },
      hintOptions: { completeSingle: false, hint: (mirror) => hintsOf(schema, mirror) },
    });
    const field = this.mirror.getInputField();
    const told = { role: 'textbox', 'aria-multiline': 'true', 'aria-describedby': 'fault keys' };
    for (const [name, value] of Object.entries(told)) field.setAttribute(name, value);
    this.mirror.on('change', () => this.#changed());
    this.mirror.on('inputRead', (mirror, { text, origin }) => {
      if (origin === '+input' && /^[a-z"[]$/.test(text.join('\n'))) mirror.showHint();
    });
  }

  get text() {
    return this.mirror.getValue();
  }

  set text(text) {
    this.mirror.setValue(text);
    this.mirror.clearHistory();
  }

  // One text in the place of another, as an edit that can be taken back.
  replace(text) {
    const { left, top } = this.mirror.getScrollInfo();
    this.mirror.operation(() => {
      const last = this.mirror.lastLine();
      this.mirror.replaceRange(text, { line: 0, ch: 0 }, { line: last, ch: this.mirror.getLine(last).length });
    });
    this.mirror.scrollTo(left, top);
  }

  #changed() {
    clearTimeout(this.#timer);
    this.#timer = setTimeout(() => this.check(), REST);
    this.changed();
  }

  // Asks the program, and marks what it refuses. What it still says of a text before is for nobody.
  async check() {
    if (this.#isChecking) this.engine.stop();
    const { text } = this;
    let answer;
    this.#isChecking = true;
    try {
      answer = await this.engine.ask({ command: 'check', image: text });
    } catch (fault) {
      if (fault instanceof Stopped) return;
      throw fault;
    }
    this.#isChecking = false;
    this.#unmark();
    const refusal = parseRefusal(answer.text ?? '');
    if (answer.status === STATUS.done) tell('good', 'Accepted: the image breaks no rule.');
    else if (refusal === null || text.length > SHORT) tell('', `The program answers: ${answer.trap ?? answer.text}`);
    else this.#mark(text, explain(this.words, text, refusal));
  }

  #unmark() {
    for (const it of this.#marks.splice(0)) it();
  }

  #mark(text, { start, end, sentence }) {
    const [from, to] = [start, end].map((at) => this.mirror.posFromIndex(at));
    const mark = this.mirror.markText(from, to, { className: 'broken', attributes: { title: sentence } });
    const line = this.mirror.addLineClass(from.line, 'gutter', 'broken-line');
    this.#marks.push(() => mark.clear(), () => this.mirror.removeLineClass(line, 'gutter', 'broken-line'));
    const { line: shown, column } = positionOf(text, start);
    const go = element('button', { type: 'button' }, `line ${shown}, column ${column}`);
    go.addEventListener('click', () => {
      this.mirror.focus();
      this.mirror.setCursor(from);
    });
    tell('', go, ...marked(sentence));
  }
}

function tell(how, ...what) {
  find('fault').className = `fault ${how}`;
  find('fault').replaceChildren(...what);
}

function hintsOf(schema, mirror) {
  const cursor = mirror.getCursor();
  const at = mirror.indexFromPos(cursor);
  const text = mirror.getValue();
  const { begun, items } = completionsAt(schema, text.slice(0, at), text.slice(at));
  const list = items
    .filter(({ shown }) => shown.replace(/^"/, '').startsWith(begun))
    .map(({ text: written, shown, told }) => ({
      text: written,
      displayText: shown,
      render: (line) => line.append(shown, element('small', {}, told)),
    }));
  return { list, from: mirror.posFromIndex(at - begun.length), to: cursor };
}
