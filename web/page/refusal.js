// A refusal as a place in the image's text and a sentence, in the words of sdk/.

import { fill } from './fill.js';
import { nameOf, nearest, readToml, valueAt } from './toml.js';

const LINE = /^refused K(\d+) at (-?\d+) found (-?\d+) wanted (-?\d+)\n$/;
const STANDS = 40; // characters of what stands there that are told
const NO_LINE = 32;

// The line that the program writes of the first rule that an image breaks; null where it is none.
export function parseRefusal(line) {
  const found = LINE.exec(line);
  if (!found) return null;
  const [rule, at, found_, wanted] = found.slice(1).map(Number);
  return { rule, at, found: found_, wanted, exact: found[3] };
}

// Where the text breaks the rule, `start` to `end`, and the sentence that tells it.
export function explain(words, text, refusal) {
  const read = readToml(text);
  if (refusal.rule === 1) return ofNoToml(words, read);
  const it = new OfImage(words, read, refusal);
  const path = it.place();
  const span = it.case.is_of_key ? read.keys.get(nameOf(path)) ?? nearest(read, path) : nearest(read, path);
  return { start: span.start, end: Math.max(span.end, span.start + 1), sentence: it.sentence(path) };
}

// The line and the column of a place, from 1.
export function positionOf(text, at) {
  const before = text.slice(0, at).split('\n');
  return { line: before.length, column: [...before.at(-1)].length + 1 };
}

function ofNoToml({ refusals }, { text, fault }) {
  const at = Math.min(fault?.at ?? 0, text.length);
  const it = refusals.cases.find(({ rule }) => rule === 1);
  const sentence = fill(refusals.reason_of_key, {
    case: it.name, what: refusals.labels.text, broken: fault?.message ?? it.broken, wanted: it.wants,
  });
  return { start: at, end: at + 1, sentence };
}

// Which of a rule's cases a refusal is of: its place among them, in the order of sdk/.
const CASES = {
  3: ({ at, wanted }) => [0, at === 6 ? 2 : 1, 3, 4][wanted - 1],
  4: isHigh, 5: isHigh, 6: isHigh,
  7: ({ at, wanted }, most) => (at === most ? 0 : wanted === 0 ? 2 : 1),
  8: ({ found, wanted }) => (found >= 1 && found < wanted ? 1 : 0),
  11: ({ at }) => at - 1,
  12: ({ wanted }) => wanted - 1,
  13: ({ wanted }) => wanted - 1,
  14: ({ wanted }) => (wanted === NO_LINE ? 0 : 1),
  15: ({ wanted }) => wanted - 1,
  16: ({ wanted }) => wanted - 1,
  19: ({ wanted }) => wanted - 1,
  20: ({ wanted }) => wanted - 1,
  22: ({ at }) => at - 1,
};

function isHigh({ found, wanted }) {
  return found > wanted ? 1 : 0;
}

class OfImage {
  constructor(words, read, refusal) {
    const { refusals, keys } = words;
    Object.assign(this, { refusals, keys, read, refusal, image: read.root });
    this.version = this.image.version === undefined || this.image.version === 1 ? 1 : refusals.last_version;
    const cases = refusals.cases.filter(({ rule }) => rule === refusal.rule);
    this.case = refusal.rule === 2
      ? cases.find(({ number }) => number === refusal.at)
      : cases[CASES[refusal.rule]?.(refusal, refusals.most_domains[this.version]) ?? 0];
  }

  place() {
    const { at, found, wanted } = this.refusal;
    const part = this.refusals.parts[at - 1];
    switch (this.refusal.rule) {
      case 2: return this.#ofKeys(at, found);
      case 3: return ofPart(part)[CASES[3](this.refusal)];
      case 4: return ['frames'];
      case 5: return ['l2', 'sets'];
      case 6: return ['costs', this.refusals.costs[at - 1]];
      case 7: return this.case.number === 1 ? ['domain'] : ['domain', at, 'name'];
      case 8: return this.#item(at, 'colours', found, this.case.number === 2);
      case 9: return this.#item(at, 'colours', found);
      case 10: return ['domain', at, 'colours'];
      case 11: return ['shared'];
      case 12: return ['domain', at, ...(wanted === 6 ? ['entry'] : ['segment', found, OF_SEGMENT[wanted - 1]])];
      case 13: return wanted === 1 ? ['domain', at, 'caps'] : ['domain', at, 'caps', found];
      case 14: return this.#item(at, 'lines', found, wanted === at);
      case 15: return ['domain', at, 'moments', ...[[], [found, 0], [found, 1], [found]][wanted - 1]];
      case 16: return wanted === 1 ? ['schedule'] : ['schedule', at, ['domain', 'length', 'pad'][wanted - 2]];
      case 17: return ['schedule', at, 'pad'];
      case 18: return ['domain', at, 'calls', found];
      case 19: return this.#ofHart();
      case 20: return wanted === 1 ? ['mail'] : ['mail', at, this.#endOfBox()];
      case 22: return at === 3 ? ['targets'] : ['muldiv', this.refusals.products[at - 1]];
      default: return [];
    }
  }

  sentence(path) {
    const { refusal, refusals, case: of } = this;
    const stands = of.is_of_key ? '' : this.#stands(path);
    const values = {
      at: refusal.at, found: refusal.exact, wanted: refusal.wanted, last: refusal.wanted - 1, fewer: '',
      ...refusals.limits[this.version],
    };
    const named = (template) => template.replace(/\{other:(\w+)\}/g, (_, name) => this.#domain(refusal[name]));
    const told = (template) => fill(named(template), values);
    return fill(stands ? refusals.reason : refusals.reason_of_key, {
      case: of.name, what: this.label(path), stands, broken: told(of.broken), wanted: told(of.wants),
    });
  }

  // A place in words.
  label(path) {
    const { labels } = this.refusals;
    const [head, number, ...rest] = path;
    if (head === 'domain' && Number.isInteger(number)) {
      const of = this.#domain(number);
      if (rest[0] === 'segment' && rest.length > 2) {
        return fill(labels.key_of_segment, { key: keyOf(rest.slice(2)), segment: rest[1], of });
      }
      return rest.length ? fill(labels.key_of, { key: keyOf(rest), of }) : of;
    }
    if (head === 'schedule' && Number.isInteger(number)) {
      const of = this.#entry(number);
      return rest.length ? fill(labels.key_of, { key: keyOf(rest), of }) : of;
    }
    if (head === 'mail' && Number.isInteger(number)) {
      const of = this.#box(number);
      return rest.length ? fill(labels.key_of, { key: keyOf(rest), of }) : of;
    }
    return path.length ? fill(labels.key, { key: keyOf(path) }) : labels.text;
  }

  #domain(number) {
    const name = valueAt(this.image, ['domain', number, 'name']);
    const { labels } = this.refusals;
    return typeof name === 'string' ? fill(labels.domain_named, { number, name }) : fill(labels.domain, { number });
  }

  #entry(number) {
    const name = valueAt(this.image, ['domain', valueAt(this.image, ['schedule', number, 'domain']), 'name']);
    const { labels } = this.refusals;
    return typeof name === 'string' ? fill(labels.entry_named, { number, name }) : fill(labels.entry, { number });
  }

  // A box, and between whom it is, as far as there are such domains.
  #box(number) {
    const { labels } = this.refusals;
    const [from, to] = ENDS_OF_BOX.map((key) => this.#nameOf(valueAt(this.image, ['mail', number, key])));
    const form = ['box', 'box_from', 'box_to', 'box_named'][(from === null ? 0 : 1) + (to === null ? 0 : 2)];
    return fill(labels[form], { number, from, to });
  }

  #nameOf(domain) {
    const name = Number.isInteger(domain) && domain >= 0 ? valueAt(this.image, ['domain', domain, 'name']) : null;
    return typeof name === 'string' ? name : null;
  }

  // Of case 2 the end that is no domain, the sender first; else the receiver.
  #endOfBox() {
    const { at, found, wanted } = this.refusal;
    const isSender = valueAt(this.image, ['mail', at, 'from']) === found;
    return wanted === 2 && isSender ? 'from' : 'to';
  }

  #stands(path) {
    const span = this.read.values.get(nameOf(path));
    if (!span) return this.read.keys.has(nameOf(path)) ? '' : 'missing';
    const text = this.read.text.slice(span.start, span.end).split(/\s+/).filter(Boolean).join(' ');
    return `\`${text.length <= STANDS ? text : `${text.slice(0, STANDS - 4)} ...`}\``;
  }

  // The item of a domain's list that is the number; the second such one, where `again`.
  #item(domain, key, number, again = false) {
    const list = valueAt(this.image, ['domain', domain, key]) ?? [];
    const places = list.flatMap((it, place) => (it === number ? [place] : []));
    return ['domain', domain, key, places[again ? 1 : 0] ?? places[0] ?? 0];
  }

  #ofHart() {
    const { at, wanted } = this.refusal;
    const schedule = this.image.schedule ?? [];
    if (wanted !== 2) return ['schedule', at, wanted === 1 || 'hart' in schedule[at] ? 'hart' : 'domain'];
    const harts = schedule.map((it) => it.hart ?? 0);
    return ['schedule', harts.indexOf(Math.max(...harts)), 'hart'];
  }

  // Where a row of the table of keys is broken, in the domain or the entry of this number.
  #ofKeys(row, number) {
    if (row === this.refusals.other_keys) return this.#otherKey() ?? [];
    const { place, key, kind, needed } = this.keys.find((it) => it.number === row);
    for (const [path, table] of tablesAt(this.image, place)) {
      const isOther = place.length && isList(place) && path[1] !== number;
      if (isOther || (!(key in table) && !needed)) continue;
      const fault = key in table ? faultIn(kind, table[key], [...path, key]) : [...path, key];
      if (fault) return fault;
    }
    return [...place.slice(0, 1), key];
  }

  // The first key that no row has.
  #otherKey() {
    const rows = this.keys.filter((it) => it.since <= this.version);
    // (a key of l2 is one of the table above it)
    const places = new Map(rows.filter((it) => isList(it.place)).map((it) => [nameOf(it.place), it.place]));
    for (const [name, place] of places) {
      const known = new Map(rows.filter((it) => nameOf(it.place) === name).map((it) => [it.key, it.kind]));
      for (const [path, table] of tablesAt(this.image, place)) {
        for (const [key, value] of Object.entries(table)) {
          if (!known.has(key)) return [...path, key];
          const inner = this.#otherKeyIn(known.get(key), value, [...place, key], rows);
          if (inner) return [...path, key, inner];
        }
      }
    }
    return null;
  }

  #otherKeyIn(kind, value, names, rows) {
    if (kind.is !== 'table' || !isTable(value)) return null;
    const own = rows.filter((it) => nameOf(it.place) === nameOf(names)).map((it) => it.key);
    const known = [...Object.keys(kind.fields), ...own];
    return Object.keys(value).find((key) => !known.includes(key)) ?? null;
  }
}

const keyOf = (path) => path.map((it) => (Number.isInteger(it) ? `[${it}]` : `.${it}`)).join('').replace(/^\./, '');

// (of numbers with fractions and of times the reader makes objects of another kind)
const isTable = (value) => value !== null && typeof value === 'object' && Object.getPrototypeOf(value) === null;

// There is such a table for each item of an array, or it is the whole; l2 alone is one by itself.
const isList = (place) => place[0] !== 'l2';

const ENDS_OF_BOX = ['from', 'to'];
const OF_SEGMENT = ['pages', 'rights', 'hex', 'hex', 'page'];

const ofPart = ({ key, size }) => [size, [key, 'ways'], ['history'], [key, 'policy'], [key, 'ways']];

// The tables of a place, in the text's order, with their paths.
function tablesAt(image, place) {
  return place.reduce((tables, key) => tables.flatMap(([path, table]) => {
    const value = table[key];
    if (!isList(place)) return isTable(value) ? [[[...path, key], value]] : [];
    const items = Array.isArray(value) ? value : [];
    return items.map((it, number) => [[...path, key, number], it]).filter(([, it]) => isTable(it));
  }), [[[], image]]);
}

// The first place in a value that isn't of its kind, or null.
function faultIn(kind, value, path) {
  switch (kind.is) {
    case 'integer': {
      const isOne = typeof value === 'bigint' || Number.isInteger(value);
      const isWithin = (kind.low === null || value >= kind.low) && (kind.high === null || value <= kind.high);
      return isOne && isWithin ? null : path;
    }
    case 'array': {
      const isOne = Array.isArray(value) && value.length >= kind.least;
      if (!isOne || (kind.most !== null && value.length > kind.most)) return path;
      return first(value.map((it, number) => faultIn(kind.item, it, [...path, number])));
    }
    case 'table': {
      if (!isTable(value)) return path;
      return first(Object.entries(kind.fields).map(([key, it]) => {
        const inner = [...path, key];
        return key in value ? faultIn(it, value[key], inner) : inner;
      }));
    }
    case 'either': return kind.kinds.some((it) => faultIn(it, value, path) === null) ? null : path;
    default: return typeof value === kind.is ? null : path;
  }
}

const first = (faults) => faults.find((it) => it !== null) ?? null;
