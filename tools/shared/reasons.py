"""Why a call was refused, in lines: the place with the line that it stands in, what could stand there, and hints."""
import re

from shared import arrays_why, hints, image_why, places, program_why, races, text_why, trying, usage
from shared.assembler import image_and_listing
from shared.program import Room, read
from shared.words import COMMANDS

PLACED = re.compile(r"(program|inputs|text|grants|image) (.+) at (\d+)$")


def path_of(words, name):
    """The file that a command's words give for PROGRAM, INPUTS and the like."""
    at = COMMANDS[words[0]].words.index(name)
    return words[1 + at]


def explain(words, refusal):
    """The lines for a refusal, whose words behind `error: ` are given."""
    kind = refusal.split(" ")[0]
    if refusal == "usage":
        return usage.of_words(words)
    if words[0] not in COMMANDS:
        return []
    if kind == "file":
        return usage.of_files(words)
    if kind == "save":
        return usage.of_save(words)
    if kind == "scratchpad":
        return scratchpad(words, refusal)
    if kind == "machine":
        return machine(words, refusal)
    if kind not in ("program", "inputs", "text", "grants", "image"):
        return []
    path = path_of(words, kind.upper())
    return of_text(kind, path, read(path), refusal, words)


def of_text(kind, path, text, refusal, words):
    """The lines for a fault of a file."""
    found = PLACED.match(refusal)
    fault, at = (found.group(2), int(found.group(3))) if found else (refusal.split(" ", 1)[1], None)
    if kind == "image":
        return image_why.explain(path, text, fault, at)
    if fault in ("unexpected", "not ascii", "name too long", "number too large"):
        return token(kind, path, text, fault, at)
    more = {"program": program_why, "inputs": arrays_why, "text": text_why}.get(kind)
    if more:
        return more.explain(path, text, fault, at, words)
    if at is None:
        return ["a grant list has at most 1048576 grants"]
    return places.shown(path, text, at, "two hexadecimal digits make a grant, with blanks and line ends between grants alone")


def token(kind, path, text, fault, at):
    """The lines for a token that can't stand where it does."""
    here = places.token_at(text, at)
    at_end = at >= len(text.rstrip())
    what = {"unexpected": "the text ends here" if at_end else f"`{here}` can't stand here",
            "not ascii": f"{here if len(here) > 1 else f'`{here}`'} isn't ASCII", "name too long": "this name has more than 31 bytes",
            "number too large": "this number is above 4294967295"}[fault]
    if kind == "text" and text[at:at + 1] == b"\n" and not at_end:
        what = "the line ends here"
    said = places.shown(path, text, at, what)
    if fault == "unexpected" and not (text[at:at + 1] and text[at] > 127):
        could = trying.could_stand(kind, text, at)
        if could:
            said.append("here could stand: " + ", ".join(could))
    else:
        could = []
    found = hints.at_place(kind, text, at, could) if fault in ("unexpected", "not ascii") else []
    if not found and fault in ("unexpected", "not ascii"):
        found = hints.other_kind(kind, text)
    return said + [f"hint: {it}" for it in found]


def scratchpad(words, refusal):
    need = refusal.split()[2]
    if "PROGRAM" in COMMANDS[words[0]].words:
        return [f"the program's passes need a scratchpad of {need} bytes; SPAD has to be at least that"]
    return [f"the image wants a scratchpad of {need} bytes (its line `spad {need}`); SPAD has to be at least that"]


def machine(words, refusal):
    """The lines for a stop of the machine."""
    if refusal.startswith("machine budget"):
        return [f"the machine made {refusal.split()[-1]} steps, and hasn't come to `halt`: BUDGET is too small, or the code "
                "has a loop without an end"]
    with Room() as room:
        image, listing = image_and_listing(room, words[1])
        if "hazard" in refusal:
            said = races.explain(room, image, listing, words[2:])
            return [*said, "`tools/race` with the same words and `--text TEXT` says it in the lines of the text"]
        return races.stopped(room, image, listing, words[2:], refusal)
