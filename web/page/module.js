// The program as a module of WebAssembly: how it is called, and nothing else of the page knows.
//
// A call is an object: its command, what the command wants, and `image`, the bytes of one.

export const GUARDS = ['flush', 'prefetch', 'pad', 'colour', 'clone', 'irq'];

export const STATUS = { done: 0, refused: 1, usage: 2, memory: 5, tooLong: 6 };

export const MOST_BYTES = 1_048_576; // of an image

const TOO_SMALL = 7; // the status where the text has no room: asked for again with more
const ROOM = 1 << 20; // bytes of a text at first
const LENGTH = 8; // bytes of its length
const MOST_MEMORY = 1 << 29; // that an answer may take, so that a page is never the machine's end

// What each command wants before the text: `given` is an image's address and length.
const COMMANDS = {
  check: (it, given) => given,
  bound: (it, given) => given,
  run: (it, given) => [...given, it.slots],
  harts: (it, given) => [...given, it.slots, it.seed],
  alone: (it, given) => [...given, it.domain, it.slots],
  ablate: (it, given) => [...given, GUARDS.indexOf(it.off), it.slots],
  redact: (it, given) => [...given, it.domain],
  gen: (it) => [it.seed],
  demo: (it) => [it.seed],
};

// The command's words, as one would type them.
export function wordsOf(it) {
  const flags = {
    run: ['slots'],
    harts: ['slots', 'seed'],
    alone: ['domain', 'slots'],
    ablate: ['off', 'slots'],
    redact: ['domain'],
    gen: ['seed'],
    demo: ['seed'],
  }[it.command] ?? [];
  return [it.command, ...flags.flatMap((flag) => [`--${flag}`, `${it[flag]}`])];
}

// The compiled module. (A host that calls it by another type than application/wasm will do.)
export async function compile(url) {
  const answer = await fetch(url);
  if (!answer.ok) throw new Error(`${url}: ${answer.status}`);
  return WebAssembly.compile(await answer.arrayBuffer());
}

// The status and the text of a call. Each has an instance of its own, since a module's memory
// never shrinks; `memory` is what it came to. `trap` is there where the module was stopped.
export function answer(compiled, call) {
  const began = performance.now();
  const it = new WebAssembly.Instance(compiled).exports;
  const told = (more) => ({ took: performance.now() - began, memory: it.memory.buffer.byteLength, ...more });
  it.limit(call.memory ?? MOST_MEMORY);
  try {
    return told(texted(it, call));
  } catch (fault) {
    const isTrap = fault instanceof WebAssembly.RuntimeError || fault instanceof RangeError;
    if (!isTrap) throw fault;
    return told({ trap: fault.message });
  }
}

function texted(it, call) {
  const bytes = bytesOf(call.image);
  const image = it.take(bytes.length + 1);
  const taken = it.take(LENGTH);
  for (let room = call.room ?? ROOM; ;) {
    const text = it.take(room);
    if (!image || !taken || !text) return { status: STATUS.memory, text: '' };
    new Uint8Array(it.memory.buffer).set(bytes, image);
    const wanted = COMMANDS[call.command](call, [image, bytes.length]);
    const status = it[call.command](...wanted, text, room, taken);
    const length = Number(new DataView(it.memory.buffer).getBigUint64(taken, true));
    if (status === TOO_SMALL) room = length;
    else return { status, text: new TextDecoder().decode(new Uint8Array(it.memory.buffer, text, length)) };
  }
}

function bytesOf(image = '') {
  return typeof image === 'string' ? new TextEncoder().encode(image) : image;
}
