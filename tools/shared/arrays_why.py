"""Why an array file is refused, or doesn't fit a program or an image."""
from shared import places
from shared.assembler import listing_of
from shared.language import program_of
from shared.program import read
from shared.words import COMMANDS, TYPES


def headers(text):
    """The arrays of a file: name, type, shape, the place of the name, and that behind the shape."""
    tokens = list(places.tokens(text))
    found = []
    for k, (at, token) in enumerate(tokens):
        nexts = [it for _, it in tokens[k + 1:k + 7]]
        if nexts[:2] and nexts[0] in TYPES and nexts[1] == "[":
            shape = "".join(nexts[1:6])
            found.append((token, nexts[0], shape, at, tokens[min(k + 6, len(tokens) - 1)][0] + 1))
    return found


def wanted(words):
    """The inputs that a program or an image wants, by name: type, shape, and the lines that show where it says so."""
    if "PROGRAM" in COMMANDS[words[0]].words:
        path, text = words[1], read(words[1])
        return {it.name: (it.type, f"[{it.shape[0]},{it.shape[1]}]", places.shown(path, text, it.at, "the program's input"))
                for it in program_of(text) or () if it.word == "input"}
    listing = listing_of(words[1])
    return {it.name: (it.type, f"[{it.rows},{it.columns}]",
                      places.shown(listing.name, listing.text, it.places["name"], "the image's input"))
            for it in listing.arrays if it.kind == "in"}


def range_of(kind):
    bits = int(kind[1:])
    return (0, 2 ** bits - 1) if kind[0] == "u" else (-2 ** (bits - 1), 2 ** (bits - 1) - 1)


def explain(path, text, fault, at, words):
    """The lines for a fault or a misfit of an array file."""
    if fault == "too long":
        return [f"{path}: an array file has at most 67108864 bytes"]
    if fault == "out of type":
        there = [it for it in headers(text) if it[3] < at][-1]
        low, high = range_of(there[1])
        return places.shown(path, text, at, f"this value isn't of `{there[0]}`'s type: {there[1]} is {low} to {high}")
    kind, name = fault.split()[:2]
    there = {it[0]: it for it in reversed(headers(text))}
    if kind == "count":
        need, have = fault.split()[3], fault.split()[5]
        more = int(have) - int(need)
        return [*places.shown(path, text, there[name][3], f"`{name}` has {have} values"),
                f"its shape {there[name][2]} wants {need}: {abs(more)} {'too many' if more > 0 else 'too few'}"]
    if kind == "twice":
        both = [it for it in headers(text) if it[0] == name]
        return [*places.shown(path, text, both[1][3], f"a second array `{name}`"),
                *places.shown(path, text, both[0][3], "the first one")]
    asked = wanted(words)
    if kind == "missing":
        has = ", ".join(it[0] for it in headers(text)) or "none"
        return [*asked[name][2], f"{path} has no array `{name}`; its arrays: {has}"]
    here = places.shown(path, text, there[name][3], f"`{name}` is {there[name][1]}{there[name][2]}")
    if kind == "extra":
        return [*here, f"it is no input; the inputs: {', '.join(asked) or 'none'}"]
    return [*here, *asked[name][2]]
