"""Hints on what stands at a place where a text can't go on: what was likely meant, and how it is said."""
import os

from shared import places
from shared.trying import kinds_of
from shared.words import FUNCTIONS, STATEMENTS, TYPES

IN_PROGRAM = [
    ("//", "a comment begins with `#`"),
    ("/*", "a comment begins with `#`, and goes up to the line's end"),
    ("/", "there is no division; `x >> k` divides by 2 to the k, rounded down"),
    ("%", "there is no remainder; `x & (m - 1)` is that by a power of two m"),
    ("**", "there is no power; write the product"),
    ("&&", "`&` joins comparisons, which are 1 or 0: `(a > 1) & (a < 9)`"),
    ("||", "`|` joins comparisons, which are 1 or 0: `(a < 1) | (a > 9)`"),
    ("!", "there is no `!`; `x == 0` is 1 where x is 0, and `~x` turns the bits"),
    ("?", "there is no `?`; `select(c, x, y)` is x where c isn't 0, else y"),
    (".", "numbers are whole; scale them, and shift the result back by `>>`"),
    ("@", "`@H`, `@W` and names behind `@` are put in by tools/filter"),
    ("{", "brackets are `(` and `)`"),
    ('"', "there are no texts in a program"),
]
IN_TEXT = [
    ("//", "a comment begins with `#`"),
    (";", "a comment begins with `#`, and a line has one instruction"),
    (",", "words are parted by blanks, with no commas"),
    (".", "a line begins with a label and `:`, or with an instruction"),
    ("-", "numbers have no sign; 4294967295 is -1 at 32 bits"),
]
IN_INPUTS = [
    ("//", "a comment begins with `#`"),
    (",", "values are parted by blanks alone"),
    (";", "values are parted by blanks alone"),
    (".", "values are whole numbers"),
    ("=", "an array is its name, its type, its shape and its values: `a u8[1,2] 1 2`"),
]
MARKS = {"program": IN_PROGRAM, "text": IN_TEXT, "inputs": IN_INPUTS}
CALLED = {"program": "an array program", "inputs": "an array file", "text": "an assembler text"}


def at_place(kind, text, at, could):
    """The hints for a place, with what could stand there."""
    said = []
    rest = text[at:at + 3]
    token = places.token_at(text, at)
    if text.startswith(b"\xef\xbb\xbf") and at == 0:
        return ["the file begins with a byte order mark; save it as plain ASCII"]
    if rest[:2] == b"\xff\xfe" or rest[:2] == b"\xfe\xff":
        return ["the file is in UTF-16; save it as plain ASCII"]
    if rest and rest[0] > 127:
        return ["only ASCII may stand in the file, in comments too"]
    for mark, hint in MARKS[kind] if "`,`" not in could else ():
        before = mark[:-1].encode()
        here = rest.startswith(mark.encode())
        behind = len(mark) == 2 and mark[0] == mark[1] and text[at - 1:at] == before and rest.startswith(before)
        if here or behind:
            said.append(hint)
            break
    if kind == "program":
        said += in_program(text, at, token, could)
    if kind == "text" and "a register, as `r1`" in could and token.isdigit():
        said.append(f"a register wants to stand here; `li r1 {token}` puts a number into one")
    return said


def in_program(text, at, token, could):
    said = []
    if "`;`" in could and not text[text.rfind(b"\n", 0, at) + 1:at].strip():
        line, _ = places.line_and_column(text, places.settled(text, len(text[:at].rstrip())))
        said.append(f"is a `;` missing at the end of line {line}?")
    if "a name" in could and token in FUNCTIONS + TYPES + STATEMENTS:
        said.append(f"`{token}` is a word of the language, so no array can have this name")
    if token in ("==", "!=", "<", "<=", ">", ">="):
        said.append("comparisons don't chain; put one into brackets")
    return said


def other_kind(kind, content, path="TEXT"):
    """What a file is that isn't of the wanted kind."""
    if content[:4] in (b"VNC1", b"VNC2"):
        return ["this file is an image" + ("; `disasm` gives its text" if kind == "text" else "")]
    if not content.strip():
        return ["this file is empty"]
    kinds = [other for other in kinds_of(content[:1 << 20]) if other != kind]
    image = os.path.splitext(path)[0] + ".image"
    makes = f"{path} {image}"
    ends = {"text": f"; `asm {makes}` makes an image of it", "program": f"; `build {makes} SPAD` makes an image of it"}
    ends = ends if kind == "image" else {}
    return [f"this file is {CALLED[other]}{ends.get(other, '')}" for other in kinds[:1]]
