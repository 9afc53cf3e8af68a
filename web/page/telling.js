// A report in sentences, in the words of sdk/.

import { fill, manyOf } from './fill.js';
import { slotsOf } from './report.js';
import { stopInWords } from './stops.js';

const SHOWN = { steps: 16, places: 8, bytes: 24 };

export class Telling {
  // `image` is what image.js knows of the image, or null.
  constructor(words, report, file, image) {
    Object.assign(this, { words: words.report, calls: words.calls, stops: words.stops, report, file, image });
  }

  // The report's own line, those of each domain, and those of switches.
  head() {
    const slots = slotsOf(this.report);
    const harts = this.image?.harts ?? 1;
    const onHarts = harts > 1 ? fill(this.words.harts, { slots_of_each: Math.floor(slots / harts), harts }) : '';
    const off = this.report.off === null ? '' : fill(this.words.off, { off: this.report.off });
    return fill(this.words[`head_${manyOf(slots)}`], { file: this.file, slots }) + onHarts + off;
  }

  switches() {
    return this.report.switches.map((it) => {
      const word = it.count === 0 ? 'none' : manyOf(it.count);
      return fill(this.words[`switch_${word}`], it).replace(`entry ${it.entry}`, `entry ${it.entry}${this.#entry(it)}`);
    });
  }

  // The first line is the domain's state.
  domain(section) {
    return [
      fill(this.words.domain, { name: section.name, number: section.number, status: this.#status(section) }),
      ...this.#stop(section),
      ...section.threads.filter((it) => isTold(section, it)).map((it) => this.#thread(it)),
      fill(this.words[`retired_${manyOf(section.retired)}`], { count: section.retired }),
      ...this.#printed(section.out),
      ...this.#replies(section),
      ...this.#boxes(section),
      ...this.#readings(section),
    ];
  }

  #entry({ entry }) {
    const it = this.image?.entries[entry];
    if (!it) return '';
    const word = this.image.harts > 1 ? 'entry_on_hart' : 'entry';
    return fill(this.words[word], { domain: this.image.names[it.domain], hart: it.hart });
  }

  #status({ exitCode, stop, threads }) {
    if (exitCode !== null) return fill(this.words.exited, { exit: exitCode });
    if (stop !== null) {
      const thread = stoppedThread(stop, threads);
      const word = thread && threads.length > 1 ? 'stopped_in_thread' : 'stopped';
      const exception = this.stops.names[stop.code] ?? this.words.unknown_exception;
      return fill(this.words[word], { exception, code: stop.code, pc: stop.pc, thread: thread?.number });
    }
    if (!threads.length) return this.words.not_begun;
    return threads.some((it) => it.state === 'ready') ? this.words.running : this.words.idle;
  }

  #stop({ stop, threads, number }) {
    if (stop === null) return [];
    return stopInWords(this.stops, stop, stoppedThread(stop, threads), this.image?.segments[number] ?? null);
  }

  #thread({ number, state, line, pc }) {
    return fill(this.words[state === 'waiting' ? 'waiting' : 'ready'], { thread: number, line, pc });
  }

  #printed(out) {
    if (!out.length) return [];
    const text = new TextDecoder().decode(out);
    const told = fill(this.words[`printed_${manyOf(out.length)}`], { count: out.length });
    if (/^(?:\P{C}|\n)*$/u.test(text) && !/[\ufffd\p{Zl}\p{Zp}]|(?! )\p{Zs}/u.test(text)) {
      return [told, ...text.replace(/\n$/, '').split('\n').map((line) => `| ${line}`.trimEnd())];
    }
    const bytes = [...out.slice(0, SHOWN.bytes)].map((it) => it.toString(16).padStart(2, '0')).join(' ');
    return [`${told} ${bytes}${out.length > SHOWN.bytes ? ' ..' : ''}`];
  }

  #replies({ repliesCount, replies, out, number }) {
    if (!repliesCount) return [];
    const refused = replies.filter((it) => it.code !== 0);
    const word = [
      'replies', replies.length < repliesCount ? 'kept' : manyOf(repliesCount),
      ...(out.length ? ['puts'] : []), ...(refused.length ? ['refused'] : []),
    ].join('_');
    const values = { count: repliesCount, puts: out.length, kept: replies.length, refused: refused.length };
    const codes = [...new Set(refused.map((it) => it.code))].sort((one, other) => one - other);
    return [fill(this.words[word], values), ...codes.map((code) => `  ${this.#refused(code, replies, number)}`)];
  }

  #refused(code, replies, domain) {
    const places = replies.flatMap((it, place) => (it.code === code ? [place] : []));
    const error = this.calls.errors.find((it) => it.code === code) ?? this.calls.unknown;
    const shown = places.slice(0, SHOWN.places).join(', ') + (places.length > SHOWN.places ? ', ..' : '');
    return fill(this.calls[`refused_${manyOf(places.length)}`], {
      count: places.length, error: error.name, code, where: error.so_where,
      callers: this.#callers(code, domain), places: shown,
    });
  }

  // The calls of a domain that can be refused with a code, of those that there are.
  #callers(code, domain) {
    const { calls, mail_calls: ofMail, bad_call: badCall } = this.calls;
    const there = this.image?.boxes.length === 0 ? calls.filter((it) => !ofMail.includes(it.number)) : calls;
    const allowed = there.filter((it) => this.image?.calls[domain]?.includes(it.number) ?? true);
    const names = (some) => some.map((it) => it.name);
    if (code === badCall && allowed.length < there.length) {
      if (!allowed.length) return this.calls.callers_all;
      return fill(this.calls.callers_all_but, { names: this.#inWords(names(allowed), 'and') });
    }
    const callers = names(allowed.filter((it) => it.refused_with.includes(code)));
    return callers.length ? fill(this.calls.callers, { names: this.#inWords(callers, 'or') }) : '';
  }

  #inWords(names, word) {
    if (names.length === 1) return names[0];
    return fill(this.calls[word], { others: names.slice(0, -1).join(', '), last: names.at(-1) });
  }

  #boxes({ number: own }) {
    const told = (this.image?.boxes ?? []).filter(({ from, to }) => from === own || to === own)
      .map(({ number, from, to }) => (from === own
        ? fill(this.words.box_to, { box: number, name: this.image.names[to] })
        : fill(this.words.box_from, { box: number, name: this.image.names[from] })));
    return told.length ? [told.join(', ')] : [];
  }

  #readings({ readingsCount, readings }) {
    if (!readings.length) return [];
    const steps = readings.slice(1).map((it, place) => it - readings[place]).map((it) => (it < 0 ? `${it}` : `+${it}`));
    const told = steps.slice(0, SHOWN.steps).join(' ') + (steps.length > SHOWN.steps ? ' ..' : '');
    const word = readings.length < readingsCount ? 'kept' : manyOf(readings.length);
    return [fill(this.words[`readings_${word}`], {
      count: readingsCount, kept: readings.length, first: readings[0], steps: told,
    })];
  }
}

// A thread that ended, and the one that was stopped, are not told.
function isTold({ stop }, thread) {
  return thread.state !== 'ended' && !(stop && thread.pc === stop.pc);
}

// The thread that was stopped, where it can be told: none but it is ready at that address.
function stoppedThread(stop, threads) {
  const there = threads.filter((it) => it.state === 'ready' && it.pc === stop.pc);
  return there.length === 1 ? there[0] : null;
}
