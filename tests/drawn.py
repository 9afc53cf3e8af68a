"""Images that a seed draws, in which any optional keys meet."""

from dataclasses import dataclass
from random import Random
from typing import Any

import images
from images import (
    Image,
    addi,
    branch,
    call,
    immediate,
    jal,
    jalr,
    load,
    number,
    read_counter,
    register,
    store,
)

# The registers that programs compute with; x8 and x9 are the data's address and a loop's count.
NUMBERS = (5, 6, 7, 12, 13, 14, 15, 18, 19, 20, 21, 22)
COUNTERS = (0xC00, 0xC01, 0xC02, 0xC80, 0xC82)
COLOURS = 8
FRAMES_OF_A_COLOUR = 16
SLOTS = 6
MAIL_CALLS = (19, 20)
MOST_BOXES = 4


@dataclass
class Drawn:
    """An image, and which optional keys and values it has."""

    image: Image
    keys: set[str]
    harts: int

    def told(self) -> set[int]:
        """The domains to which a box leads."""
        return {it["to"] for it in self.image.get("mail", [])}


# ---- a program


def plain(draw: Random) -> list[int]:
    """Computing on registers."""
    rd, rs1, rs2 = draw.choices(NUMBERS, k=3)
    if draw.random() < 0.5:
        return [immediate(0x13, draw.choice((0, 2, 3, 4, 6, 7)), rd, rs1, draw.randrange(-2048, 2048))]
    kind = draw.randrange(8)
    return [register(32 if kind in (0, 5) and draw.random() < 0.5 else 0, kind, rd, rs1, rs2)]


def access(draw: Random) -> list[int]:
    """A load or a store in one of the two pages of data."""
    at = draw.choice((8, 8, 26))
    offset = 4 * draw.randrange(512)
    if draw.random() < 0.5:
        return [load(draw.choice((0, 1, 2, 4, 5)), draw.choice(NUMBERS), at, offset)]
    return [store(draw.choice((0, 1, 2)), at, draw.choice(NUMBERS), offset)]


def jump(draw: Random) -> list[int]:
    """Past a word: by a branch, a JAL, or a JALR, whose sum may be odd."""
    past = plain(draw)
    kind = draw.randrange(4)
    if kind == 0:
        return [jal(1, 8), *past]
    if kind == 1:
        return [25 << 7 | 0x17, jalr(1, 25, draw.choice((12, 13))), *past]
    one, other = draw.choices(NUMBERS, k=2)
    return [branch(draw.choice((0, 1, 4, 5, 6, 7)), one, other, 8), *past]


def loop(draw: Random) -> list[int]:
    """Some words, again and again."""
    body = [word for _ in range(draw.randint(1, 3)) for word in draw.choice((plain, access, jump))(draw)]
    return [addi(9, 0, draw.randint(2, 6)), *body, addi(9, 9, -1), branch(1, 9, 0, -4 * (len(body) + 1))]


def kernel_call(draw: Random) -> list[int]:
    """A call, mostly one that goes on."""
    weights = [0.1, 3, 2, 1, 3, 1, 2, 1, 1, 1, 0.3, 1, 0.5, 1, 0.1, 1, 0.3, 2, 2]
    which = draw.choices([*range(17), *MAIL_CALLS], weights)[0]
    slot = draw.randrange(8)
    match which:
        case 19 | 20:
            return call(which, draw.randrange(MOST_BOXES + 1), draw.randrange(256))
        case 3:
            return call(3, slot, images.REGION)
        case 4:
            return call(4, slot, draw.choice((0x30000, 0x31000, images.REGION)), draw.choice((1, 3, 7)))
        case 12:
            return call(12, images.CODE, slot)
        case 16:
            return call(draw.choice((15, 256, 257, 65537)), slot)
    return call(which, slot, draw.randrange(8 if which == 6 else 2), draw.choice((1, 3, 7)))


def program(draw: Random, has_products: bool) -> list[int]:
    """Statements, over and over."""

    def counter(draw: Random) -> list[int]:
        return [read_counter(draw.choice(NUMBERS), draw.choice(COUNTERS))]

    def product(draw: Random) -> list[int]:
        return [register(1, draw.randrange(8), *draw.choices(NUMBERS, k=3))]

    kinds = [plain, access, jump, loop, kernel_call, counter, *([product] if has_products else [])]
    words = [*number(8, images.DATA), *number(26, images.DATA + 4096)]
    begin = len(words)
    for _ in range(draw.randint(20, 50)):
        words += draw.choice(kinds)(draw)
    return [*words, jal(0, 4 * (begin - len(words)))]


# ---- a machine, domains, a schedule


def cache(draw: Random, keys: set[str], sets: int, least_ways: int = 1) -> dict[str, Any]:
    """A cache of any policy."""
    policy = draw.choice(("lru", "fifo", "plru", "nmru"))
    keys.add(policy)
    least = [ways for ways in (1, 2, 3, 4, 5, 8) if ways >= least_ways]
    ways = draw.choice([ways for ways in least if policy != "plru" or ways in (1, 2, 4, 8)])
    return images.cache(sets, ways, policy)


def machine(draw: Random, keys: set[str]) -> Image:
    """A machine with any optional keys."""
    image: Image = {}
    if draw.random() < 0.7:
        keys.add("version")
        image["version"] = draw.choice((1, 2, 2, 2))
    line = draw.choice((16, 32, 64, 128))
    if line != 64:
        keys.add(f"line {line}")
    shared = line * draw.randint(1, 8)
    if draw.random() < 0.4:
        keys.add("large shared region")
        shared = 4096 + line * draw.randint(1, 8)
    frames = COLOURS * FRAMES_OF_A_COLOUR * draw.choice((1, 1, 2))
    if image.get("version") == 2 and draw.random() < 0.5:
        keys.add("frames above 4,096")
        frames = 4096 + COLOURS * FRAMES_OF_A_COLOUR
    image |= {"frames": frames, "shared": shared, "line": line}
    for part, most in (("l1i", 16), ("l1d", 16), ("tlb", 4)):
        image[part] = cache(draw, keys, draw.choice([sets for sets in (1, 2, 4, 8, 16) if sets <= most]))
    image["l2"] = cache(draw, keys, COLOURS * 4096 // line, -(-shared // 4096))
    image["predictor"] = draw.choice((1, 4, 16, 64))
    image["costs"] = {cost: draw.randint(1, 40) for cost in images.machine()["costs"]}
    if draw.random() < 0.5:
        keys.add("back")
        image["l2"]["back"] = True
    options: dict[str, Any] = {
        "history": draw.randint(1, 8),
        "targets": draw.choice((1, 4, 16, 256)),
        "muldiv": {"mul": draw.randint(1, 9), "div": draw.randint(1, 9)},
    }
    for key, value in options.items():
        if draw.random() < 0.5:
            keys.add(key)
            image[key] = value
    return image


def domains(draw: Random, image: Image, keys: set[str]) -> list[dict[str, Any]]:
    """Two to five domains; each has a line with moments, and in version 2 may have a list of calls."""
    made = []
    listed = image.get("version") == 2 and draw.random() < 0.7
    if listed:
        keys.add("calls")
    for d in range(draw.randint(2, 5)):
        each = images.domain(f"d{d}", [d + 1], program(draw, "muldiv" in image))
        each["lines"] = [d]
        each["caps"] = [f"page {images.DATA >> 12}", f"irq {d}", "none", f"page {(images.DATA >> 12) + 1}"]
        each["moments"] = [[cycle, d] for cycle in sorted(draw.sample(range(1, 90000), 12))]
        if listed and draw.random() < 0.7:
            each["calls"] = sorted(draw.sample([*range(15), *MAIL_CALLS], draw.randint(0, 16)))
        made.append(each)
    return made


def drawn(seed: int) -> Drawn:
    """The image of a seed; its pads are still to be given."""
    draw = Random(seed)
    keys: set[str] = set()
    image = machine(draw, keys)
    image["domain"] = domains(draw, image, keys)
    many = len(image["domain"])
    harts = min(many, draw.choice((1, 1, 2, 3, 4)))
    # Each domain has an entry or two, of one hart, in any order.
    names = draw.sample([*range(many), draw.randrange(many)], many + 1)
    image["schedule"] = [{"domain": d, "length": draw.randint(1000, 6000), "pad": 0} for d in names]
    if harts > 1:
        keys.add("hart")
        for entry in image["schedule"]:
            entry["hart"] = entry["domain"] % harts
    if draw.random() < 0.6:
        keys.add("different pads")
    if draw.random() < 0.5:
        keys.add("mail")
        pairs = [(one, other) for one in range(many) for other in range(many) if one != other]
        boxes = draw.sample(pairs, min(len(pairs), draw.randint(1, MOST_BOXES)))
        image["mail"] = [{"from": one, "to": other} for one, other in boxes]
    return Drawn(image, keys, harts)


def give_pads(program_path: Any, it: Drawn, seed: int) -> None:
    """Each pad at its bound, or somewhat above."""
    draw = Random(seed)
    for entry, pad in zip(it.image["schedule"], images.bounds(program_path, it.image)):
        entry["pad"] = pad + (draw.randint(0, 3000) if "different pads" in it.keys else 0)
