// A report as values.

// The sections, the switches and the guard that was off; null where the text is none.
export function parseReport(text) {
  const lines = text.split('\n');
  if (lines.at(-1) !== '' || lines.at(-2) !== 'end') return null;
  const report = { off: null, sections: [], switches: [] };
  for (const line of lines.slice(0, -2)) {
    const [head, ...words] = line.split(' ');
    if (head === 'unprotected') report.off = words[0];
    else if (head === 'switch') report.switches.push(switchOf(words));
    else if (head === 'domain') report.sections.push(newSection(words));
    else addLine(report.sections.at(-1), head, words, line);
  }
  return report;
}

// What `alone` writes: one section.
export function parseSection(text) {
  return parseReport(`${text}end\n`)?.sections[0] ?? null;
}

export const slotsOf = (report) => report.switches.reduce((sum, it) => sum + it.count, 0);

const newSection = ([number, name]) => ({
  number: Number(number), name, status: '', exitCode: null, stop: null, retired: 0, threads: [],
  readings: [], readingsCount: 0, replies: [], repliesCount: 0, out: new Uint8Array(), mem: '', text: '',
});

function addLine(section, head, words, line) {
  section.text += `${line}\n`;
  LINES[head]?.(section, words);
}

const LINES = {
  status(section, words) {
    section.status = words[0];
    if (words[0] === 'exited') section.exitCode = Number(words[1]);
    if (words[0] === 'stopped') section.stop = { code: Number(words[1]), pc: hex(words[3]), value: hex(words[5]) };
  },
  retired(section, [count]) {
    section.retired = Number(count);
  },
  thread(section, [number, state, ...words]) {
    const line = state === 'waiting' ? Number(words.shift()) : null;
    const registers = words.slice(2).map((word) => word.slice(1).split('='));
    section.threads.push({
      number: Number(number), state, line, pc: hex(words[1]),
      registers: new Map(registers.map(([register, value]) => [Number(register), hex(value)])),
    });
  },
  readings(section, words) {
    section.readingsCount = Number(words[0]);
    section.readings = kept(words).map(Number);
  },
  replies(section, words) {
    section.repliesCount = Number(words[0]);
    section.replies = kept(words).map((it) => it.split(':').map(Number)).map(([code, value]) => ({ code, value }));
  },
  out(section, words) {
    section.out = Uint8Array.from((words.slice(1).join('').match(/../g) ?? []).map(hex));
  },
  mem(section, [mem]) {
    section.mem = mem;
  },
};

function switchOf([entry, , used, , pad, , count]) {
  return { entry: Number(entry), used: Number(used), pad: Number(pad), count: Number(count) };
}

const hex = (text) => Number.parseInt(text, 16);

const kept = (words) => (words.includes('list') ? words.slice(words.indexOf('list') + 1) : []);
