// When each slot of a hart begins and ends: its entries in turn, after its boot. Slots are reckoned as they
// are asked for, so that a run of any length takes no memory.

export class Lane {
  // `entries` are those of the schedule, `slots` how many were run, one or more; `nominal` is drawn for the
  // length of a slot where none is known.
  constructor(hart, entries, slots, nominal) {
    this.hart = hart;
    this.slots = slots;
    this.entries = entries
      .map((entry, place) => ({ ...entry, place, length: entry.length ?? nominal }))
      .filter((entry) => entry.hart === hart);
    this.boot = this.entries.at(-1);
    this.turn = 0;
    this.starts = this.entries.map(({ length, pad }) => {
      const start = this.turn;
      this.turn += length + pad;
      return start;
    });
    this.domains = [...new Set(this.entries.map(({ domain }) => domain))].sort((one, other) => one - other);
    this.end = this.slot(slots - 1).end;
  }

  // A slot by its number, from 0. A run ends with its last slot, whose switch it doesn't have.
  slot(number) {
    const place = number % this.entries.length;
    const entry = this.entries[place];
    const start = this.boot.pad + Math.floor(number / this.entries.length) * this.turn + this.starts[place];
    const end = start + entry.length;
    return { number, entry, start, end, padEnd: number === this.slots - 1 ? end : end + entry.pad };
  }

  // The number of the slot at a cycle, or of the one whose pad it is; the boot counts as the first slot's.
  at(cycle) {
    const since = Math.max(0, cycle - this.boot.pad);
    const turns = Math.floor(since / this.turn);
    const place = this.starts.findLastIndex((start) => start <= since - turns * this.turn);
    return Math.max(0, Math.min(turns * this.entries.length + place, this.slots - 1));
  }

  // The slots that are there from one cycle to another, which itself is left out; at most so many.
  between(from, to, most) {
    if (from >= this.end) return [];
    const first = this.at(from);
    const count = Math.min(this.at(Math.max(from, to - 1)) - first + 1, most);
    return Array.from({ length: count }, (_, place) => this.slot(first + place));
  }
}
