// The page: its parts, and what they are to each other.

import { Bench } from './bench.js';
import { find } from './dom.js';
import { Editor } from './editor.js';
import { Engine } from './engine.js';
import { Gallery } from './gallery.js';
import { linkOf, read } from './link.js';
import { compile } from './module.js';
import { Picture } from './picture.js';
import { chooseTheme } from './toggle.js';
import { Tour } from './tour.js';

const FIRST = 'two-domains.toml';
const SLOTS_DRAWN = 16; // of an image that a seed makes

const json = async (file) => (await fetch(file)).json();

async function start() {
  const [compiled, words, gallery, schema, steps] = await Promise.all([
    compile('tp.wasm'), json('data/words.json'), json('data/gallery.json'), json('data/schema.json'), json('tour.json'),
  ]);
  // A worker each, so that none waits for another's runs.
  const [ofTour, ofEditor, ofBench] = [1, 2, 3].map(() => new Engine(compiled));
  const images = new Gallery(gallery);
  const bench = benchOf(words, schema, images, ofEditor, ofBench);
  const tour = new Tour(steps, images, ofTour, (step) => take(bench, images, step));
  find('gallery').replaceChildren(...images.options());
  find('gallery').addEventListener('change', () => bench.openFile(find('gallery').value));
  find('draw').addEventListener('click', () => draw(bench, ofTour));
  find('share').addEventListener('click', () => share(bench));
  addEventListener('hashchange', () => openLink(bench));
  if (!await openLink(bench)) await bench.openFile(FIRST);
  find('loading').remove();
  await tour.go(0);
  document.documentElement.dataset.ready = 'true';
}

// The workbench with its editor, and the picture whose slide puts another secret into the image.
function benchOf(words, schema, images, ofEditor, ofBench) {
  let bench = null;
  const editor = new Editor(words, schema, ofEditor, { changed: () => bench?.imageChanged(), run: () => bench?.run() });
  const picture = new Picture(find('spy-picture'), ofBench, (secret) => {
    const found = images.secretIn(editor.text);
    if (!found) return;
    editor.replace(found.texts[secret]);
    bench.runAgain();
  });
  bench = new Bench(words, images, editor, ofBench, picture);
  return bench;
}

// Opens what a step of the tour shows, with its guard off, and runs it.
async function take(bench, images, { channel, guard, secret }) {
  await bench.openFile(images.channel(channel).files[secret]);
  bench.call = { command: 'ablate', off: guard };
  find('bench').scrollIntoView();
  find('command').focus({ preventScroll: true });
  await bench.run();
}

// Opens an image that the program makes of a seed.
async function draw(bench, engine) {
  const [seed] = crypto.getRandomValues(new Uint32Array(1));
  const { text } = await engine.ask({ command: 'gen', seed });
  bench.open(text, { command: 'run', slots: SLOTS_DRAWN });
}

// The image of the page's own link, where it has one.
async function openLink(bench) {
  try {
    const linked = await read(location.hash);
    if (!linked) return false;
    bench.open(linked.text, linked.call);
    find('bench').scrollIntoView();
    return true;
  } catch {
    find('outcome').textContent = 'The link holds no image.';
    return false;
  }
}

async function share(bench) {
  history.replaceState(null, '', await linkOf(bench.editor.text, bench.call));
  find('shared').hidden = false;
  find('link').value = location.href;
  find('link').select();
  const copied = await navigator.clipboard?.writeText(location.href).then(() => true, () => false);
  find('link-told').textContent = copied ? 'It is copied.' : 'Copy it from here.';
}

find('theme').addEventListener('click', chooseTheme);
start().catch((fault) => {
  find('loading').textContent = `The page could not start: ${fault.message}`;
  find('loading').classList.add('warning');
  throw fault;
});
