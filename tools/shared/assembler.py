"""Reads an assembler text that the program takes: its arrays, labels and instructions, with the lines that they stand in."""
from dataclasses import dataclass, field

from shared import places
from shared.program import Room, ask, is_image, read, stop


@dataclass(frozen=True)
class Instruction:
    """An instruction's words, where its first word stands in the text, and its number in the code."""
    words: tuple
    at: int
    number: int

    @property
    def text(self):
        return " ".join(self.words)


@dataclass(frozen=True)
class Array:
    """An array line: the places of its words in the text, by their meaning."""
    name: str
    kind: str
    type: str
    rows: int
    columns: int
    place: int
    places: dict


@dataclass
class Listing:
    """A text in parts. `heads` has the places of the numbers of spad and memory."""
    name: str
    text: bytes
    version: int = 1
    heads: dict = field(default_factory=dict)
    arrays: list = field(default_factory=list)
    labels: dict = field(default_factory=dict)
    instructions: list = field(default_factory=list)

    def shown(self, number, what):
        """The line of an instruction, with a caret under it."""
        return places.shown(self.name, self.text, self.instructions[number].at, what)

    def header(self):
        """The lines of the canonical text before the code."""
        lines = ["version 2"] if self.version == 2 else []
        lines += [f"{word} {self.heads[word][0]}" for word in ("spad", "memory")]
        for it in self.arrays:
            lines.append(f"array {it.name} {it.kind} {it.type}[{it.rows},{it.columns}] {it.place}")
        return lines


def lines_of(text):
    """The lines that have tokens: each a list of tokens with their places."""
    line, end = [], 0
    for at, token in places.tokens(text):
        if b"\n" in text[end:at] and line:
            yield line
            line = []
        line.append((at, token))
        end = at
    if line:
        yield line


def number_of(token):
    return int(token, 16) if token.startswith("0x") else int(token)


def parse(name, text):
    """The parts of a text; one that has faults gives the parts that can be told."""
    listing = Listing(name, text)
    for line in lines_of(text):
        at, word = line[0]
        tokens = [token for _, token in line]
        if not listing.instructions and not listing.labels and word == "version" and len(line) > 1:
            listing.version = 2
        elif not listing.instructions and word in ("spad", "memory") and len(line) == 2 and word not in listing.heads:
            listing.heads[word] = (number_of(tokens[1]), line[1][0])
        elif word == "array" and len(line) == 10:
            add_array(listing, line, tokens)
        else:
            add_code(listing, line, tokens)
    return listing


def add_array(listing, line, tokens):
    named = dict(zip(("name", "kind", "type", "rows", "columns", "place"), (1, 2, 3, 5, 7, 9)))
    try:
        numbers = [number_of(tokens[named[part]]) for part in ("rows", "columns", "place")]
    except ValueError:
        return
    texts = [tokens[named[part]] for part in ("name", "kind", "type")]
    listing.arrays.append(Array(*texts, *numbers, {part: line[k][0] for part, k in named.items()}))


def add_code(listing, line, tokens):
    if len(tokens) > 1 and tokens[1] == ":":
        listing.labels.setdefault(tokens[0], (len(listing.instructions), line[0][0]))
        line, tokens = line[2:], tokens[2:]
    if line:
        listing.instructions.append(Instruction(tuple(tokens), line[0][0], len(listing.instructions)))


def listing_of(path, content=None):
    """The listing of an assembler text or of an image, whose canonical text it is then."""
    content = read(path) if content is None else content
    if not is_image(content):
        return parse(path, content)
    answer = ask("disasm", path)
    return None if answer.status else parse(f"disasm {path}", answer.output)


def image_and_listing(room, path, text=None):
    """The path of an image, and the listing whose lines are shown: of the text where `path` or `text` names one."""
    content = read(path)
    if is_image(content):
        image, shown = path, listing_of(path, content)
        if shown is None:
            stop(f"{path}: {ask('disasm', path).line}", 6)
        if text:
            source = read(text)
            made = room.path("made.image")
            if ask("asm", text, made).status or read(made) != content:
                stop(f"{path} isn't the image of {text}: assemble it again", 6)
            shown = parse(text, source)
        return image, shown
    image = room.path("assembled.image")
    answer = ask("asm", path, image)
    if answer.status:
        stop(f"{path}: {answer.line} (`tools/why asm {path} IMAGE` says more)", answer.status)
    return image, parse(path, content)
