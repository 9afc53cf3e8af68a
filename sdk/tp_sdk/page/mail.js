// Which words come in where: what a slot puts into a box goes off in the switch at the slot's end, and comes in in
// the next switch that begins a slot of the receiver, at the end of the slot before that.

export class Mail {
  // `lanes` are those of the harts. Where one slot ends before another by fewer cycles than its domain's longest event
  // takes, the schedule doesn't tell which switch comes first.
  constructor({ boxes, longest }, lanes) {
    const of = (domain) => lanes.find((lane) => lane.domains.includes(domain));
    this.longest = longest;
    this.boxes = boxes.map((box) => ({ ...box, from: of(box.sender), to: of(box.receiver) }))
      .filter(({ from, to }) => from && to);
  }

  // What is told by a slot of a hart, of each box into which it may put words: none where the run ends before.
  by(hart, slot) {
    return this.boxes.filter(({ sender, from }) => from.hart === hart && slot.entry.domain === sender)
      .map((box) => this.#delivery(box, slot)).filter((it) => it !== null);
  }

  // What is told to a slot of a hart, of each box: by the last slot of the sender before it.
  to(hart, slot) {
    const boxes = this.boxes.filter(({ receiver, to }) => to.hart === hart && slot.entry.domain === receiver);
    return boxes.flatMap((box) => {
      const left = slot.number > 0 ? lastBefore(box, begins(box.to, slot.number)) : null;
      const it = left && this.#delivery(box, left);
      return it?.came.number === slot.number ? [it] : [];
    });
  }

  // Those by or to slots of which `shown` has some of each hart, each once.
  among(shown) {
    const each = shown.flatMap((slots, hart) => slots.flatMap((it) => [...this.by(hart, it), ...this.to(hart, it)]));
    return [...new Map(each.map((it) => [`${it.box.number} ${it.left.number}`, it])).values()];
  }

  #isOpen(one, other) {
    const { longest } = this;
    return other.end - one.end < longest[one.entry.domain] && one.end - other.end < longest[other.entry.domain];
  }

  #delivery(box, left) {
    const { from, to } = box;
    const came = firstAfter(box, left.end);
    if (came === null) return null;
    const near = [came.number, begunBefore(box, came.number)].filter((it) => it !== null);
    const isOpen = from !== to && near.some((it) => this.#isOpen(left, to.slot(it - 1)));
    return { box, left, came, isOpen };
  }
}

// When the switch that begins a slot but the first does that.
const begins = (lane, number) => lane.slot(number - 1).end;

// Of two ends in the same cycle that of the hart of the lesser number comes first.
const isBefore = (end, lane, other, its) => end < other || (end === other && lane.hart <= its.hart);

// The first slot of the receiver that a switch after this end of a slot begins.
function firstAfter({ from, to, receiver }, end) {
  const first = Math.max(1, to.at(end));
  const past = Math.min(to.slots, first + to.entries.length + 2);
  for (let number = first; number < past; number += 1) {
    const slot = to.slot(number);
    if (slot.entry.domain === receiver && isBefore(end, from, begins(to, number), to)) return slot;
  }
  return null;
}

// The last slot of the sender that ends before a switch that begins one of the receiver.
function lastBefore({ from, to, sender }, begun) {
  const last = from.at(begun);
  for (let number = last; number >= Math.max(0, last - from.entries.length - 1); number -= 1) {
    const slot = from.slot(number);
    if (slot.entry.domain === sender && isBefore(slot.end, from, begun, to)) return slot;
  }
  return null;
}

// The slot of the receiver before this one, but the first of the run.
function begunBefore({ to, receiver }, number) {
  for (let it = number - 1; it >= Math.max(1, number - to.entries.length); it -= 1) {
    if (to.slot(it).entry.domain === receiver) return it;
  }
  return null;
}
