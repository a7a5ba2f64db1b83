"""Reads an array program that the program takes: its statements and nodes, with the places of their texts."""
from dataclasses import dataclass, field

from shared import places
from shared.assembler import number_of
from shared.words import FUNCTIONS, TYPES

LEVELS = [["==", "!=", "<", "<=", ">", ">="], ["|"], ["^"], ["&"], ["<<", ">>"], ["+", "-"], ["*"]]
MAPS = ("shift", "rotate", "section", "stretch", "transpose")
ROWS = {"rowsum": "sum", "rowmin": "min", "rowmax": "max"}
WHOLES = {"sum": "sum", "minval": "min", "maxval": "max"}


@dataclass
class Node:
    """A node: `kind` is name, literal, prefix, binary, cast or call; `word` its sign, type, function, name or number.

    It stands at `at`; its text goes from `start` to `end`, without brackets around it.
    """
    kind: str
    word: str
    at: int
    start: int
    end: int
    operands: list = field(default_factory=list)
    numbers: tuple = ()

    @property
    def is_map(self):
        return self.kind == "call" and self.word in MAPS

    @property
    def is_reduction(self):
        return self.kind == "call" and (self.word in ROWS or self.word in WHOLES)


@dataclass
class Statement:
    """A statement: `input`, `let` or `output`, its name, an input's type and shape, another's root."""
    word: str
    name: str
    at: int
    type: str = ""
    shape: tuple = ()
    shape_span: tuple = ()
    root: Node = None


class Reader:
    """Reads tokens from left to right; the text is known to be a program."""

    def __init__(self, text):
        self.text = text
        self.tokens = [*places.tokens(text), (len(text), "")]
        self.next = 0

    @property
    def token(self):
        return self.tokens[self.next][1]

    @property
    def at(self):
        return self.tokens[self.next][0]

    def take(self):
        at, token = self.tokens[self.next]
        self.next += 1
        self.end = at + len(token)
        return token

    def number(self):
        sign = -1 if self.token == "-" and self.take() else 1
        return sign * number_of(self.take())

    def program(self):
        statements = []
        while self.token:
            statements.append(self.statement())
        return statements

    def statement(self):
        word = self.take()
        at, name = self.at, self.take()
        if word == "input":
            kind, begin = self.take(), self.at
            self.take()
            rows = self.number()
            self.take()
            columns = self.number()
            self.take()
            made = Statement(word, name, at, kind, (rows, columns), (begin, self.end))
        else:
            self.take()
            made = Statement(word, name, at, root=self.expression())
        self.take()
        return made

    def expression(self, level=0):
        if level == len(LEVELS):
            return self.operand()
        begin = self.at
        left = self.expression(level + 1)
        while self.token in LEVELS[level]:
            at, sign = self.at, self.take()
            right = self.expression(level + 1)
            left = Node("binary", sign, at, begin, self.end, [left, right])
        return left

    def operand(self):
        at, token = self.at, self.take()
        if token == "(":
            inner = self.expression()
            self.take()
            return inner
        if token[0].isdigit():
            return Node("literal", str(number_of(token)), at, at, self.end)
        if token == "-" and self.token[:1].isdigit():
            return Node("literal", str(-number_of(self.take())), at, at, self.end)
        if token in ("-", "~"):
            operand = self.operand()
            return Node("prefix", token, at, at, self.end, [operand])
        if token in TYPES + FUNCTIONS:
            return self.call(at, token)
        return Node("name", token, at, at, self.end)

    def call(self, at, word):
        self.take()
        operands, numbers = [self.expression()], []
        while self.token == ",":
            self.take()
            if word in MAPS:
                numbers.append(self.number())
            else:
                operands.append(self.expression())
        self.take()
        kind = "cast" if word in TYPES else "call"
        return Node(kind, word, at, at, self.end, operands, tuple(numbers))


def program_of(text):
    """The statements of a program, or nothing where the text is none."""
    try:
        return Reader(text).program()
    except (IndexError, ValueError, RecursionError):
        return None


def nodes_of(node):
    """A node and all below it, a node before its operands."""
    yield node
    for operand in node.operands:
        yield from nodes_of(operand)


def text_of(text, node):
    """A node's own text on one line."""
    words = text[node.start:node.end].decode("latin-1").split("\n")
    return " ".join(" ".join(word.split("#")[0].split()) for word in words).strip()
