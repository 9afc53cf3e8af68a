// A text of TOML as values, with the place of each key and value. The program says whether a text
// is TOML; this says where, goes as far as it can, and tells the first place where it can't go on.

export class TomlFault extends Error {
  constructor(at, message) {
    super(message);
    this.at = at;
  }
}

// The places of keys and values by their paths, as `name` of a path; `fault` is null or a TomlFault.
// `where` is what was being read at the end: the path of a table, and of the key whose value it was.
export function readToml(text) {
  const reader = new Reader(text);
  let fault = null;
  try {
    reader.document();
  } catch (error) {
    if (!(error instanceof TomlFault)) throw error;
    fault = error;
  }
  const { root, keys, values, where } = reader;
  return { text, root, keys, values, where, fault };
}

export const nameOf = (path) => JSON.stringify(path);

// The place of a value; of its key, or of what it should stand in, where there is none.
export function nearest({ keys, values }, path) {
  for (let length = path.length; length > 0; length--) {
    const name = nameOf(path.slice(0, length));
    const span = values.get(name) ?? keys.get(name);
    if (span) return span;
  }
  return { start: 0, end: 0 };
}

// What stands at a path, or undefined.
export const valueAt = (root, path) => path.reduce((value, key) => value?.[key], root);

const BLANK = /(?:[ \t\r\n]|#[^\n]*)*/y;
const SPACE = /[ \t]*/y;
const BARE_KEY = /[A-Za-z0-9_-]+/y;
const SCALAR = /[^\s,\]}#]+/y;
const PLAIN = /[^"\\\n]*/y;
const LITERAL = /'[^'\n]*'/y;
const LONG_LITERAL = /'''[^]*?'{3,5}/y;
const DEEP = 64; // arrays and tables in one another, and the parts of a dotted key, that are read
const ESCAPES = { b: '\b', t: '\t', n: '\n', f: '\f', r: '\r', '"': '"', '\\': '\\' };
const INTEGERS = [
  /^[+-]?(?:0|[1-9](?:_?\d)*)$/,
  /^0x[0-9a-fA-F](?:_?[0-9a-fA-F])*$/,
  /^0o[0-7](?:_?[0-7])*$/,
  /^0b[01](?:_?[01])*$/,
];
const FLOAT = /^[+-]?(?:inf|nan|(?:0|[1-9](?:_?\d)*)(?:\.\d(?:_?\d)*)?(?:[eE][+-]?\d(?:_?\d)*)?)$/;
const TIME = /^(?:\d{4}-\d\d-\d\d(?:[Tt]\d\d:\d\d:\d\d(?:\.\d+)?(?:[Zz]|[+-]\d\d:\d\d)?)?|\d\d:\d\d:\d\d(?:\.\d+)?)$/;

class Reader {
  constructor(text) {
    Object.assign(this, { text, at: 0, root: Object.create(null), keys: new Map(), values: new Map() });
    this.path = []; // of the table that the last header named
    this.arrays = new Map(); // the arrays of tables, and how many tables each has yet
    this.where = { path: [], key: null };
    this.depth = 0;
  }

  document() {
    for (this.skip(BLANK); this.at < this.text.length; this.skip(BLANK)) {
      if (this.text[this.at] === '[') this.header();
      else this.keyAndValue(this.path);
      this.skip(SPACE);
      const next = this.text[this.at];
      if (next !== undefined && !'\r\n#'.includes(next)) this.fail('the line goes on where it should end');
    }
    this.where = { path: this.path, key: null };
  }

  fail(message, at = this.at) {
    throw new TomlFault(at, at >= this.text.length ? `${message}: the text ends here` : message);
  }

  skip(pattern) {
    pattern.lastIndex = this.at;
    const found = pattern.exec(this.text);
    if (!found) return null;
    this.at = pattern.lastIndex;
    return found[0];
  }

  expect(sign) {
    if (!this.text.startsWith(sign, this.at)) this.fail(`'${sign}' is wanted`);
    this.at += sign.length;
  }

  header() {
    const start = this.at;
    const [open, close] = this.text.startsWith('[[', start) ? ['[[', ']]'] : ['[', ']'];
    this.where = { path: [], key: null };
    this.expect(open);
    const names = this.dottedKey();
    this.expect(close);
    const span = { start, end: this.at };
    const path = this.resolved(names.slice(0, -1), span).concat(names.at(-1));
    this.note(this.keys, path, span);
    if (close === ']]') this.newItem(path, span, start);
    else this.table(path, start);
    this.path = close === ']]' ? path.concat(this.arrays.get(nameOf(path)) - 1) : path;
  }

  newItem(path, span, start) {
    const number = this.arrays.get(nameOf(path)) ?? 0;
    const owner = this.table(path.slice(0, -1), start);
    if (number === 0 && path.at(-1) in owner) this.fail('the key is there already', start);
    if (number === 0) owner[path.at(-1)] = [];
    owner[path.at(-1)].push(Object.create(null));
    this.arrays.set(nameOf(path), number + 1);
    this.note(this.keys, path.concat(number), span);
  }

  // A header's path: the name of an array of tables means the last of them.
  resolved(names, span) {
    let path = [];
    for (const name of names) {
      path = path.concat(name);
      const count = this.arrays.get(nameOf(path));
      if (count) path = path.concat(count - 1);
      else this.note(this.keys, path, span);
    }
    return path;
  }

  note(places, path, span) {
    const name = nameOf(path);
    if (!places.has(name)) places.set(name, span);
  }

  // The table at a path, made where it isn't there.
  table(path, at) {
    let table = this.root;
    for (const key of path) {
      if (!(key in table)) table[key] = Object.create(null);
      table = table[key];
      if (table === null || typeof table !== 'object') this.fail('what stands there is no table', at);
    }
    return table;
  }

  dottedKey() {
    const names = [];
    do {
      if (names.length) this.at++;
      if (names.length > DEEP) this.fail('the key has too many parts');
      this.skip(SPACE);
      names.push(this.simpleKey());
      this.skip(SPACE);
    } while (this.text[this.at] === '.');
    return names;
  }

  simpleKey() {
    const quote = this.text[this.at];
    if (quote === '"' || quote === "'") return this.string();
    return this.skip(BARE_KEY) ?? this.fail('a key is wanted');
  }

  keyAndValue(tablePath) {
    this.where = { path: tablePath, key: null };
    const start = this.at;
    const names = this.dottedKey();
    const span = { start, end: this.at };
    names.forEach((_, place) => this.note(this.keys, [...tablePath, ...names.slice(0, place + 1)], span));
    const owner = this.table([...tablePath, ...names.slice(0, -1)], start);
    if (names.at(-1) in owner) this.fail('the key is there already', start);
    this.expect('=');
    this.skip(SPACE);
    this.where = { path: tablePath.concat(names.slice(0, -1)), key: names.at(-1) };
    owner[names.at(-1)] = undefined;
    owner[names.at(-1)] = this.value(tablePath.concat(names), (value) => { owner[names.at(-1)] = value; });
  }

  // `begun` is handed an array or a table before its items are read: they are found by their paths,
  // and those that were read stay where the text ends too soon.
  value(path, begun) {
    const start = this.at;
    const first = this.text[start];
    if (++this.depth > DEEP) this.fail('arrays or tables are too deep in one another');
    let value;
    if (first === '[') value = this.array(path, begun);
    else if (first === '{') value = this.inlineTable(path, begun);
    else if (first === '"' || first === "'") value = this.string();
    else value = this.scalar();
    this.depth--;
    this.values.set(nameOf(path), { start, end: this.at });
    return value;
  }

  array(path, begun) {
    const items = [];
    begun(items);
    this.expect('[');
    for (this.skip(BLANK); this.text[this.at] !== ']'; this.skip(BLANK)) {
      const number = items.length;
      items[number] = this.value(path.concat(number), (item) => { items[number] = item; });
      this.skip(BLANK);
      if (this.text[this.at] === ']') break;
      this.expect(',');
    }
    this.expect(']');
    return items;
  }

  inlineTable(path, begun) {
    const table = Object.create(null);
    begun(table);
    this.expect('{');
    this.where = { path, key: null };
    this.skip(SPACE);
    while (this.text[this.at] !== '}') {
      this.keyAndValue(path);
      this.where = { path, key: null };
      this.skip(SPACE);
      if (this.text[this.at] === '}') break;
      this.expect(',');
      this.skip(SPACE);
    }
    this.expect('}');
    return table;
  }

  scalar() {
    const start = this.at;
    const word = this.skip(SCALAR) ?? this.fail('a value is wanted');
    if (word === 'true' || word === 'false') return word === 'true';
    if (INTEGERS.some((it) => it.test(word))) return this.integer(word.replaceAll('_', ''), start);
    if (FLOAT.test(word)) return { float: word };
    if (TIME.test(word)) return { time: word };
    return this.fail(`'${word.slice(0, 40)}' is no value`, start);
  }

  integer(word, start) {
    const sign = word[0] === '-' ? -1n : 1n;
    const number = sign * BigInt(word.replace(/^[+-]/, ''));
    if (BigInt.asIntN(64, number) !== number) this.fail(`the integer ${word} does not fit in 64 bits`, start);
    return Number.isSafeInteger(Number(number)) ? Number(number) : number;
  }

  string() {
    const start = this.at;
    const isLong = (quote) => this.text.startsWith(quote.repeat(3), start);
    if (this.text[start] === "'") {
      const found = this.skip(isLong("'") ? LONG_LITERAL : LITERAL) ?? this.fail('the string does not end', start);
      return isLong("'") ? found.slice(3, -3) : found.slice(1, -1);
    }
    return this.basicString(isLong('"') ? '"""' : '"', start);
  }

  basicString(quotes, start) {
    let value = '';
    this.at += quotes.length;
    for (;;) {
      value += this.skip(PLAIN);
      if (this.text.startsWith(quotes, this.at)) break;
      const sign = this.text[this.at++];
      if (sign === '\\') value += this.escape();
      else if (sign !== undefined && quotes.length > 1) value += sign;
      else this.fail('the string does not end', start);
    }
    this.at += quotes.length;
    while (quotes.length > 1 && this.text[this.at] === '"') value += this.text[this.at++];
    return value;
  }

  escape() {
    const sign = this.text[this.at++];
    if (sign in ESCAPES) return ESCAPES[sign];
    const digits = { u: 4, U: 8 }[sign];
    if (digits) {
      const code = Number.parseInt(this.text.slice(this.at, this.at + digits), 16);
      this.at += digits;
      if (code <= 0x10ffff) return String.fromCodePoint(code);
    }
    if (sign === '\n' || sign === ' ' || sign === '\t' || sign === '\r') return (this.skip(/\s*/y), '');
    return this.fail('there is no such escape', this.at - 2);
  }
}
