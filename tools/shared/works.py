"""Works of a code: the host's steps in order, and the bytes that each work reads and writes."""
from dataclasses import dataclass

from shared.assembler import number_of, parse
from shared.program import ask
from shared.words import FIELDS

SIZES = {"u8": 1, "i8": 1, "u16": 2, "i16": 2, "u32": 4, "i32": 4}
MOST_STEPS = 100_000
WORD = 1 << 32


@dataclass(frozen=True)
class Region:
    """Rows of bytes in `cells` or `memory`, read or written."""
    store: str
    writes: bool
    place: int
    rows: int
    step: int
    length: int

    def spans(self):
        """The bytes as spans from first to behind the last, in order, none touching the next."""
        if not self.length or not self.rows:
            return []
        starts = [self.place] if not self.step else (self.place + r * self.step for r in range(self.rows))
        spans = []
        for start in starts:
            if spans and start <= spans[-1][1]:
                spans[-1][1] = max(spans[-1][1], start + self.length)
            else:
                spans.append([start, start + self.length])
        return spans


@dataclass(frozen=True)
class Step:
    """A step of the host: the instruction's number and words; of a work its unit, regions and parameters; of a wait
    the number that it leaves; and a register that is 0, if one is."""
    pc: int
    words: tuple
    unit: str
    regions: tuple
    fields: dict
    leaves: int
    zero: int

    @property
    def text(self):
        return " ".join(self.words)


def regions_of(words, fields):
    """The bytes that a work reads and writes (docs/MACHINE.md, "Footprints")."""
    f = fields
    if words[0] == "dma":
        reads = words[1] == "read"
        cells = Region("cells", reads, f["spad"], f["mrows"], f["sstep"], f["mbytes"])
        memory = Region("memory", not reads, f["mem"], f["mrows"], f["mstep"], f["mbytes"])
        return memory, cells
    operation, size = words[1], SIZES[words[2]]
    rest = words[4:] if operation == "cast" else words[3:]
    size_a = SIZES[words[3]] if operation == "cast" else size
    mode = rest[0]
    found = []
    if mode[0] == "v":
        found.append(Region("cells", False, f["a"], f["rows"], f["astep"], f["vl"] * size_a))
    if mode[1:] == "v":
        found.append(Region("cells", False, f["b"], f["rows"], f["bstep"], f["vl"] * size))
    length = size if "acc" in rest else f["vl"] * size
    if operation == "cmov":
        found.append(Region("cells", False, f["dst"], f["rows"], f["dstep"], length))
    found.append(Region("cells", True, f["dst"], f["rows"], f["dstep"], length))
    return tuple(found)


COMPUTED = {
    "addi": lambda a, b: a + b, "add": lambda a, b: a + b, "sub": lambda a, b: a - b, "mul": lambda a, b: a * b,
    "div": lambda a, b: a // b if b else WORD - 1,
}


def host_steps(listing, most=MOST_STEPS):
    """The host's steps in the order in which it makes them, up to and with `halt`, or as many as `most`."""
    registers, fields, pc, steps = [0] * 32, dict.fromkeys([*FIELDS, "tag"], 0), 0, []
    value = lambda word: registers[int(word[1:])]
    goal = lambda word: listing.labels[word][0] if word in listing.labels else number_of(word)
    while len(steps) < most:
        words = listing.instructions[pc].words
        unit = {"vec": "lanes", "dma": words[-1]}.get(words[0], "")
        regions = regions_of(words, fields) if unit else ()
        leaves = value(words[1]) if words[0] in ("rwait", "wwait", "twait") else 0
        zero = next((k for k in range(32) if not registers[k]), None)
        steps.append(Step(pc, words, unit, regions, dict(fields) if unit else {}, leaves, zero))
        op, pc = words[0], pc + 1
        if op == "halt":
            break
        if op == "li":
            registers[int(words[1][1:])] = number_of(words[2])
        elif op in COMPUTED:
            right = number_of(words[3]) if op == "addi" else value(words[3])
            registers[int(words[1][1:])] = COMPUTED[op](value(words[2]), right) % WORD
        elif op == "set":
            fields[words[1]] = value(words[2])
        elif op == "tag":
            fields["tag"] = value(words[1])
        elif op == "jmp" or op == "bnz" and value(words[1]) or op == "blt" and value(words[1]) < value(words[2]):
            pc = goal(words[-1])
    return steps


def straight(listing, steps, extra=()):
    """A text without jumps that makes the same host steps; `extra` are lines before the last of them."""
    lines = listing.header()
    for k, step in enumerate(steps):
        if extra and k == len(steps) - 1:
            lines += extra
        if step.words[0] in ("jmp", "bnz", "blt"):
            lines.append(f"jmp {k + 1}")
        elif step.words[0] != "halt":
            lines.append(step.text)
    return "\n".join([*lines, "halt", ""])


def stopped_at(room, listing, image, words):
    """The host's steps up to the one before which the machine stops, found by a straight copy of the code; else None.

    Each instruction is one step in the copy too, so it stops in the same cycle, and its place counts the host's steps.
    """
    steps = host_steps(parse("", ask("disasm", image).output))
    copy = room.path("straight.image")
    if ask("asm", room.file("straight.asm", straight(listing, steps)), copy).status:
        return None
    one, two = ask("exec", image, *words).refusal.split(), ask("exec", copy, *words).refusal.split()
    if "pc" not in one or "pc" not in two:
        return None
    k = int(two[two.index("pc") + 1])
    same = [word for word in one if not word.isdigit()] == [word for word in two if not word.isdigit()]
    if not same or k >= len(steps) or steps[k].pc != int(one[one.index("pc") + 1]):
        return None
    return steps[:k + 1]


def shared_spans(one, other):
    """The bytes that two works share and at least one of them writes, as spans for each store."""
    found = {}
    for a in one.regions:
        for b in other.regions:
            if a.store == b.store and (a.writes or b.writes):
                found.setdefault(a.store, []).extend(common(a.spans(), b.spans()))
    return {store: joined(spans) for store, spans in found.items() if spans}


def common(one, other):
    i = j = 0
    while i < len(one) and j < len(other):
        start, end = max(one[i][0], other[j][0]), min(one[i][1], other[j][1])
        if start < end:
            yield [start, end]
        if one[i][1] < other[j][1]:
            i += 1
        else:
            j += 1


def joined(spans):
    made = []
    for start, end in sorted(spans):
        if made and start <= made[-1][1]:
            made[-1][1] = max(made[-1][1], end)
        else:
            made.append([start, end])
    return made


def spans_in_words(store, spans, most=3):
    """`cells 0 to 15 and 32 to 47`."""
    said = [f"{start} to {end - 1}" if end - start > 1 else str(start) for start, end in spans[:most]]
    more = f" and {len(spans) - most} more ranges" if len(spans) > most else ""
    thing = {"cells": "cell", "memory": "byte"}[store]
    one = len(spans) == 1 and spans[0][1] - spans[0][0] == 1
    return f"{thing}{'' if one else 's'} " + " and ".join(said) + more + (" of memory" if store == "memory" else "")
