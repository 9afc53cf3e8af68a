// What may be written at a place of an image, by the schema of sdk/.

import { readToml, valueAt } from './toml.js';

// The words that may stand at the end of `before`: how many characters of it they take the place of,
// and of each what it is.
export function completionsAt(schema, before, after) {
  const begun = /[A-Za-z0-9_-]*$/.exec(before)[0];
  const head = before.slice(0, before.length - begun.length);
  if (isInComment(head)) return { begun, items: [] };
  const header = /\n\s*(\[\[?)\s*$/.exec(`\n${head}`);
  if (header) return { begun, items: headersOf(schema, header[1], after) };
  const { where, root } = readToml(head);
  if (where.key === null) return { begun, items: keysOf(schemaAt(schema, where.path), valueAt(root, where.path)) };
  return { begun, items: valuesOf(schemaAt(schema, [...where.path, where.key]), head) };
}

function isInComment(head) {
  const line = head.slice(head.lastIndexOf('\n') + 1);
  return line.replace(/"(?:\\.|[^"\\])*"|'[^']*'/g, '').includes('#');
}

// The schema of what stands at a path: an item of an array is any.
function schemaAt(schema, path) {
  return path.reduce((it, key) => (typeof key === 'number' ? itemsOf(it) : it?.properties?.[key]), schema);
}

function itemsOf(schema) {
  return Array.isArray(schema?.items) ? schema.items[0] : schema?.items;
}

function keysOf(schema, table = {}) {
  const isNew = (key) => !(key in (table ?? {}));
  return Object.entries(schema?.properties ?? {})
    .filter(([key]) => isNew(key))
    .map(([key, it]) => ({ text: `${key} = ${beginningOf(it)}`, shown: key, told: it.description ?? kindOf(it) }));
}

function headersOf(schema, brackets, after) {
  const wanted = brackets === '[[' ? 'array' : 'object';
  const close = after.startsWith(']') ? '' : brackets === '[[' ? ']]' : ']';
  const isOne = (it) => it.type === wanted && (wanted === 'object' || itemsOf(it)?.type === 'object');
  return Object.entries(schema.properties)
    .filter(([, it]) => isOne(it))
    .map(([key, it]) => ({ text: `${key}${close}`, shown: key, told: it.description ?? wanted }));
}

function valuesOf(schema, head) {
  const isQuoted = /["']$/.test(head);
  const choices = schema?.type === 'boolean' ? [true, false] : schema?.enum ?? schema?.items?.enum ?? [];
  return choices.map((it) => {
    const word = typeof it === 'string' && !isQuoted ? `"${it}"` : `${it}`;
    return { text: word, shown: word, told: '' };
  });
}

function beginningOf({ type, enum: choices }) {
  const isText = type === 'string' || typeof choices?.[0] === 'string';
  return { array: '[', object: '{ ' }[type] ?? (isText ? '"' : '');
}

function kindOf({ type, minimum, maximum, enum: choices }) {
  if (choices) return choices.length > 6 ? `${choices[0]} to ${choices.at(-1)}` : choices.join(', ');
  return minimum !== undefined && maximum !== undefined ? `${type} ${minimum} to ${maximum}` : type ?? '';
}
