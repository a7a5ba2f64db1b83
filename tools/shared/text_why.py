"""Why an assembler text denotes no image: which line, and for a fault of the image's table which word of an array's line."""
from shared import places
from shared.assembler import parse
from shared.usage import nearest

HEADS = {4: ("spad", "the scratchpad has 1 to 1048576 bytes"), 8: ("memory", "the memory has at most 134217728 bytes")}
RULES = {
    "name": "a name has 1 to 31 bytes, is no word of the array language and no earlier array's",
    "rows": "rows are at least 1", "columns": "columns are at least 1, and rows times columns is at most 1048576",
    "place": "the array has to end in memory, and to share no byte with an earlier one",
    "kind": "an array is `in` or `out`", "type": "the types are u8 i8 u16 i16 u32 i32",
}


def explain(path, text, fault, at, _):
    """The lines for a fault of an assembler text."""
    listing = parse(path, text)
    if fault == "too long":
        return [f"{path}: an assembler text has at most 67108864 bytes"]
    if fault == "no halt":
        if not listing.instructions:
            return [f"{path}: there is no instruction; the last one has to be `halt`"]
        return listing.shown(len(listing.instructions) - 1, "the last instruction isn't `halt`")
    if fault == "table":
        return table(listing, at)
    token = places.token_at(text, at)
    if fault == "label twice":
        return [*places.shown(path, text, at, f"`{token}` labels a second place"),
                *places.shown(path, text, listing.labels[token][1], "the first one")]
    if fault == "label unknown":
        near = nearest(token, listing.labels)
        more = f"there are the instructions 0 to {len(listing.instructions) - 1}" if token.isdigit() else (
            f"is `{near[0]}` meant?" if near else "the labels: " + (", ".join(listing.labels) or "none"))
        return [*places.shown(path, text, at, f"no instruction has the label `{token}`"), more]
    return [*places.shown(path, text, at, f"`{token}` is out of its range"), range_rule(token)]


def range_rule(token):
    if token[:1] == "r" and token[1:].isdigit():
        return "registers are r0 to r31"
    if token[:1].isdigit():
        return "a number is at most 4294967295, and `version` is 2"
    return "`cmov` takes its flags from B, a vector: its modes are `vv` and `sv`, and it has no `acc`"


def parts(listing):
    """Each part of the table as it stands in the image: its first byte, and the array and word that it comes from."""
    place = 20
    for array in listing.arrays:
        for part, length in (("name", 1), ("name", len(array.name)), ("kind", 1), ("type", 1), ("rows", 4), ("columns", 4),
                             ("place", 4)):
            yield place, array, part
            place += length


def table(listing, at):
    """The lines for a fault at a byte of the image's table."""
    if at in HEADS:
        word, rule = HEADS[at]
        return [*places.shown(listing.name, listing.text, listing.heads[word][1], f"`{word}` is out of its range"), rule]
    if at == 12:
        return [f"{listing.name}: an image has at most 256 arrays"]
    for place, array, part in parts(listing):
        if place == at:
            return [*places.shown(listing.name, listing.text, array.places[part], f"the {part} of array `{array.name}`"),
                    RULES[part], *neighbours(listing, array, part)]
    return [f"{listing.name}: byte {at} of the image's table"]


SIZES = {"u8": 1, "i8": 1, "u16": 2, "i16": 2, "u32": 4, "i32": 4}


def neighbours(listing, array, part):
    """Where an array lies, beside memory's end or the earlier array that it meets."""
    if part != "place":
        return []
    span = lambda it: (it.place, it.place + it.rows * it.columns * SIZES[it.type])
    first, last = span(array)
    said = [f"`{array.name}` takes the bytes {first} to {last - 1}; memory has {listing.heads['memory'][0]}"]
    for other in listing.arrays[:listing.arrays.index(array)]:
        begin, end = span(other)
        if begin < last and first < end:
            said.append(f"`{other.name}` takes the bytes {begin} to {end - 1}")
    return said
