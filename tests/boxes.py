"""Images with mailboxes that a seed draws, on two harts, and what must come in by their schedules alone.

Each domain fills all boxes that it sends by, with the words 0, 1, 2 and so on, and takes all words that come
in: of each it prints the box's number and then the word. A slot is long enough for sixteen words a box, so
the words of the sender's slot k are 16 k to 16 k + 15.
"""

from dataclasses import dataclass
from random import Random
from typing import Any

import images
from images import Image, addi, branch, jal

HARTS = 2
SLOTS = 8  # so that no word has more than a byte
WORDS = 16  # that a slot can put into a box
SEND, RECV, PUT = 19, 20, 1
COLOURS = 8
# A register for each box's next word, from this one on.
FIRST_COUNTER = 18


@dataclass
class Drawn:
    """An image, its pads still to be given; a domain is on the hart of its number modulo two."""

    image: Image

    @property
    def boxes(self) -> list[tuple[int, int]]:
        return [(it["from"], it["to"]) for it in self.image["mail"]]

    def untold(self) -> list[int]:
        """The domains to which no box leads."""
        told = {receiver for _, receiver in self.boxes}
        return [domain for domain in range(len(self.image["domain"])) if domain not in told]


# ---- a domain's program


def with_a0(which: int) -> list[int]:
    """A call whose first argument is in x10."""
    return [*images.number(17, which), 0x73]


def take(box: int) -> list[int]:
    """Takes a word, and prints the box and the word where there was one."""
    printed = [addi(6, 11, 0), addi(10, 0, box), *with_a0(PUT), addi(10, 6, 0), *with_a0(PUT)]
    return [addi(10, 0, box), *with_a0(RECV), branch(1, 10, 0, 4 * (len(printed) + 1)), *printed]


def put(box: int, counter: int) -> list[int]:
    """Puts in the next word, and counts it where there was room."""
    return [
        *(addi(10, 0, box), addi(11, counter, 0), *with_a0(SEND)),
        *(branch(1, 10, 0, 8), addi(counter, counter, 1)),
    ]


def program(domain: int, boxes: list[tuple[int, int]]) -> list[int]:
    """All of that, over and over."""
    loop = [word for box, (_, receiver) in enumerate(boxes) if receiver == domain for word in take(box)]
    own = [box for box, (sender, _) in enumerate(boxes) if sender == domain]
    loop += [word for place, box in enumerate(own) for word in put(box, FIRST_COUNTER + place)]
    loop.append(images.read_counter(5))
    return [*loop, jal(0, -4 * len(loop))]


# ---- an image


def drawn(seed: int) -> Drawn:
    """The image of a seed: three to five domains, to the last of which no box leads."""
    draw = Random(seed)
    many = draw.randint(3, 5)
    pairs = [(one, other) for one in range(many) for other in range(many - 1) if one != other]
    boxes = draw.sample(pairs, draw.randint(1, min(4, len(pairs))))
    image = images.machine()
    image["frames"] = 16 * COLOURS
    image["l2"]["sets"] = COLOURS * 4096 // image["line"]
    image["domain"] = [images.domain(f"d{d}", [d + 1], program(d, boxes)) for d in range(many)]
    names = draw.sample([*range(many), draw.randrange(many)], many + 1)
    image["schedule"] = [
        {"domain": d, "length": draw.randint(15000, 30000), "pad": 0, "hart": d % HARTS} for d in names
    ]
    image["mail"] = [{"from": one, "to": other} for one, other in boxes]
    return Drawn(image)


def give_pads(program_path: Any, it: Drawn, seed: int) -> int:
    """Each pad at its bound, or somewhat above; answers the longest event."""
    draw = Random(seed)
    for entry, pad in zip(it.image["schedule"], images.bounds(program_path, it.image)):
        entry["pad"] = pad + draw.randint(0, 9000)
    text = images.answer(program_path, "bound", images.image_text(it.image))
    parts = dict(line.split() for line in text.splitlines())
    return int(parts["instruction"]) + int(parts["operation"])


# ---- what must come in


@dataclass
class Slot:
    """A slot of a hart: whose, when it ends, and when the one before it ended, 0 at the boot."""

    domain: int
    end: int
    before: int


def slots_on(image: Image, hart: int) -> list[Slot]:
    """A hart's slots."""
    entries = [it for it in image["schedule"] if it["hart"] == hart]
    clock, before, slots = entries[-1]["pad"], 0, []
    for number in range(SLOTS):
        entry = entries[number % len(entries)]
        end = clock + entry["length"]
        slots.append(Slot(entry["domain"], end, before))
        clock, before = end + entry["pad"], end
    return slots


def words_in(it: Drawn, box: int, longest: int) -> list[int] | None:
    """The words that come in by a box; nothing where two ends lie so close that an event may order them."""
    sender, receiver = it.boxes[box]
    one, other = sender % HARTS, receiver % HARTS
    # (no switch comes after a run's last slot, and nothing has gone off at a boot)
    goes = [(slot.end, one, 0) for slot in slots_on(it.image, one)[:-1] if slot.domain == sender]
    comes = [(slot.before, other, 1) for slot in slots_on(it.image, other)[1:] if slot.domain == receiver]
    if one != other and any(abs(sent[0] - came[0]) < longest for sent in goes for came in comes):
        return None
    words: list[int] = []
    waiting: int | None = None
    left = 0
    for _, _, is_arrival in sorted([*goes, *comes]):
        if not is_arrival:
            waiting, left = left, left + 1
        elif waiting is not None:
            words += range(WORDS * waiting, WORDS * (waiting + 1))
            waiting = None
    return words


def printed(section: str, box: int) -> list[int]:
    """The words that a domain printed as those of a box."""
    out = next(line.split() for line in section.splitlines() if line.startswith("out "))
    data = bytes.fromhex(out[2]) if len(out) > 2 else b""
    return [word for of, word in zip(data[::2], data[1::2]) if of == box]


def are_whole(words: list[int]) -> bool:
    """Each arrival is all that one slot of the sender put in, and none comes twice or before an earlier one."""
    groups = [words[at : at + WORDS] for at in range(0, len(words), WORDS)]
    firsts = [group[0] for group in groups]
    return all(
        group == list(range(group[0], group[0] + WORDS)) and group[0] % WORDS == 0 for group in groups
    ) and firsts == sorted(set(firsts))
