"""What could stand at a place of a text: tokens are tried there, and the program is asked whether the fault moves on."""
from shared import words
from shared.program import Room, ask, ask_all

MOST = 1 << 20
ANY_PROGRAM = "input a u8[1,1]; output y = a;"


class Kind:
    """A kind of text: how the program is asked about one, and what may stand in it."""

    def __init__(self, name, call):
        self.name = name
        self.call = call

    def calls(self, room, texts):
        """The words of a call for each of the texts, which are put into files."""
        return [self.call(room, room.file(f"{self.name}{k}", text), k) for k, text in enumerate(texts)]


def of_inputs(room, path, _):
    return ["eval", room.file("any.ven", ANY_PROGRAM), path]


KINDS = {
    "program": Kind("program", lambda room, path, k: ["check", path, "1048576"]),
    "inputs": Kind("inputs", of_inputs),
    "text": Kind("text", lambda room, path, k: ["asm", path, room.path(f"image{k}")]),
}


def kinds_of(content):
    """What kinds of file a content is: the program is asked about each."""
    found = []
    with Room() as room:
        for name, kind in KINDS.items():
            call = kind.calls(room, [content])[0]
            refusal = ask(*call).refusal
            faults = ("unexpected", "not ascii", "too long", "name too long", "number too large")
            if not refusal.startswith(tuple(f"{name} {fault}" for fault in faults)):
                found.append(name)
    return found


def at_line_start(text, at):
    before = text[:at].rstrip(b" \t\r")
    return not before or before[-1:] in b"\n:"


# Words that begin a line of an assembler text are tried with what follows them, since each might be a label as well.
LINES = {
    "version": "version 2", "spad": "spad 1", "memory": "memory 1", "array": "array x_ in u8[1,1] 0",
    "halt": "halt", "li": "li r1 1", "addi": "addi r1 r1 1", "add": "add r1 r1 r1", "sub": "sub r1 r1 r1",
    "mul": "mul r1 r1 r1", "div": "div r1 r1 r1", "bnz": "bnz r1 0", "blt": "blt r1 r1 0", "jmp": "jmp 0",
    "set": "set vl r1", "vec": "vec mov u8 v", "dma": "dma read", "rwait": "rwait r1", "wwait": "wwait r1",
    "vwait": "vwait", "tag": "tag r1", "twait": "twait r1",
}


def candidates(kind, text, at):
    """The tokens that are tried, in groups: what the group is called, and its tokens."""
    name, number = ("a name", ["x_"]), ("a number", ["1"])
    if kind == "program":
        binaries = [sign for sign in words.BINARIES if sign != "-"]
        signs = [sign for sign in words.SIGNS if sign not in binaries]
        return [name, number, ("a type", words.TYPES), ("a function", words.FUNCTIONS), ("", words.STATEMENTS),
                ("a binary sign", binaries), ("", signs[:6]), ("", signs[6:])]
    if kind == "inputs":
        return [name, number, ("a number with `-`", ["-1"]), ("a type", words.TYPES), ("", ["[", "]", ","])]
    if at_line_start(text, at):
        return [("", words.HEADINGS[:4]), ("a label and `:`", ["x_:"]), ("an instruction", words.INSTRUCTIONS)]
    return [name, number, ("a register, as `r1`", ["r1"]), ("a type", words.TYPES), ("a parameter", words.FIELDS),
            ("an operation", words.OPERATIONS), ("", words.DIRECTIONS), ("a mode", words.MODES), ("", ["in", "out"]),
            ("", ["[", "]", ",", ":"]), ("the line's end", ["\n"])]


def goes_on(kind, before, token, answer, alone):
    """Whether the program's answer says that a token may stand behind a text, whose answer alone is `alone`."""
    fault, _, place = answer.rpartition(" at ")
    if fault in (f"{kind} unexpected", "inputs out of type") and place.isdigit():
        return int(place) >= len(before) + len(token)
    # A value too many is refused behind a text without a fault, and any other token where values are missing.
    return not answer.startswith("inputs count") or alone.startswith("inputs count") and answer != alone


def could_stand(kind, text, at):
    """What could stand at a place, in words; nothing where the text is too large to be tried."""
    before = text[:at] + b" "
    if len(before) > MOST:
        return []
    groups = candidates(kind, text, at)
    with Room() as room:
        calls = KINDS[kind].calls(room, [before])
        alone = ask(*calls[0]).refusal

        def fitting(tokens):
            longer = [LINES.get(it, it) if kind == "text" and at_line_start(text, at) else it for it in tokens]
            calls = KINDS[kind].calls(room, [before + it.encode() for it in longer])
            answers = [answer.refusal for answer in ask_all(calls)]
            return {it for it, long, answer in zip(tokens, longer, answers) if goes_on(kind, before, long, answer, alone)}

        # Of a large group the first and the last are tried, and the others where one of these fits.
        ends = {id(tokens): tokens if len(tokens) < 8 else [tokens[0], tokens[-1]] for _, tokens in groups}
        fits = fitting([it for _, tokens in groups for it in ends[id(tokens)]])
        rest = [it for _, tokens in groups if fits & set(ends[id(tokens)]) for it in tokens[1:-1] if len(tokens) >= 8]
        fits |= fitting(rest) if rest else set()
    if kind == "text" and "x_" in fits:
        # A name may spell anything.
        fits &= {"x_", "1", "\n"}
    said = in_words(groups, fits)
    if kind != "text" and alone != f"{kind} unexpected at {len(before)}" and not alone.startswith("inputs count"):
        said.append("the text's end")
    return said


def in_words(groups, fits):
    said = []
    for group, tokens in groups:
        there = [token for token in tokens if token in fits]
        if group and len(tokens) == 1:
            said += [group] * len(there)
        elif group and len(there) > 2:
            said.append(f"{group} ({' '.join(there)})")
        else:
            said += [f"`{token}`" for token in there]
    # Nearly each word of an assembler text might be a label.
    return [it for it in said if it != "`:`"] or said
