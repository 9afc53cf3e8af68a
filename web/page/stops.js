// What stopped a domain, in the words of sdk/: what the exception's value says, and where its address lies.

import { fill } from './fill.js';

const ILLEGAL = 2; // the code of the exception whose value is an instruction's word
const LOADS_AND_STORES = [5, 7, 13, 15];
const WANTED = { 1: 'x', 12: 'x', 5: 'r', 13: 'r', 7: 'w', 15: 'w' }; // the right that an access wants
const STACK_POINTER = 2; // the register's number
const PAGE = 4096; // bytes
const FRAME = 0x10000; // how far from the stack pointer a function looks for its own
const LAST_ADDRESS = 0xffffffff;

// `thread` is the one that was stopped, or null; `segments` are those of its program, or null.
export function stopInWords(words, stop, thread, segments) {
  const { code, value } = stop;
  const values = { value, value_high: value >>> 20 };
  if (code === ILLEGAL) return [fill(words.words.find(({ mask, bits }) => (value & mask) >>> 0 === bits).text, values)];
  const known = code in words.names ? code : words.unknown;
  if (segments === null) return [fill(words.values[known], values)];
  const where = whereabouts(words, stop, thread, segments);
  return [fill(words.places[known], { ...values, where }), ...overflow(words, stop, thread, segments)];
}

const pointerOf = (thread) => thread?.registers.get(STACK_POINTER) ?? 0;

const segmentAt = (address, segments) => segments.find(({ start, end }) => start <= address && address < end);

const pagesOf = ({ pages }) => (pages === 1 ? 'page' : 'pages');

function whereabouts({ where, null: nullPointer }, { code, value }, thread, segments) {
  const inside = segmentAt(value, segments);
  if (inside) return fill(where[`${inside.rights.includes(WANTED[code] ?? '') ? 'has' : 'lacks'}_${code}`] ?? where.has_4, inside);
  if (value < PAGE) return nullPointer;
  if (thread && pointerOf(thread) === 0 && value > LAST_ADDRESS - FRAME) return where.no_stack;
  const sides = [
    ...segments.filter(({ start }) => start > value).map((it) => ({ ...it, far: it.start - value, side: 'below' })),
    ...segments.filter(({ end }) => end <= value).map((it) => ({ ...it, far: value - it.end, side: 'past' })),
  ];
  const nearest = sides.reduce((one, other) => (other.far < one.far ? other : one));
  const far = { 0: 'right', 1: 'one' }[nearest.far] ?? 'many';
  return fill(where[`${nearest.side}_${far}_${pagesOf(nearest)}`], {
    ...nearest, start_less_value: nearest.far, value_less_end: nearest.far,
  });
}

// The stack pointer is below a segment that may be written, in none, and the address beside it in none either.
function overflow(words, { code, value }, thread, segments) {
  if (!LOADS_AND_STORES.includes(code) || thread === null) return [];
  const pointer = pointerOf(thread);
  const above = segments.filter(({ start }) => start > pointer).reduce((one, other) => (one && one.start <= other.start ? one : other), null);
  if (!above?.rights.includes('w') || segmentAt(pointer, segments)) return [];
  const isBeside = Math.abs(value - pointer) < FRAME && pointer > PAGE;
  if (!isBeside || value >= above.start || segmentAt(value, segments)) return [];
  const { pages, start } = above;
  return [fill(words.overflow[pagesOf(above)], {
    ...above, pointer, start_less_pointer: start - pointer, pages_times_2: 2 * pages, pages_times_2_times_4096: 2 * pages * PAGE,
  })];
}
