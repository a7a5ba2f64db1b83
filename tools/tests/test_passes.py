"""Where passes come from, against what the program prints, on programs made by chance; and the reader of programs."""
import random
import unittest

from support import EXAMPLES, TOP, Case
from shared import cuts, places
from shared.language import program_of, text_of
from shared.program import Room, ask

CHANCES = random.Random(11)


def expression(names, height):
    """An expression of u8[2,4] over names of that shape."""
    if height == 0 or CHANCES.random() < 0.15:
        return CHANCES.choice(names)
    below = lambda: expression(names, height - 1)
    kind = CHANCES.randrange(11)
    if kind < 4:
        return f"({below()} {CHANCES.choice('+ - * & ^ < == >='.split())} {CHANCES.choice([below(), '3'])})"
    if kind == 4:
        return f"select({below()}, {CHANCES.choice([below(), '1'])}, {CHANCES.choice([below(), '2'])})"
    if kind == 5:
        return f"-{below()}"
    if kind == 6:
        return f"u8(u16({below()}))"
    if kind == 7:
        return f"shift({below()}, {CHANCES.randrange(-1, 2)}, 1, 7)"
    if kind == 8:
        return f"rotate({below()}, 0, {CHANCES.randrange(3)})"
    if kind == 9:
        return f"stretch({CHANCES.choice(['rowsum', 'rowmin', 'rowmax'])}({below()}), 1, 4)"
    return f"stretch({CHANCES.choice(['sum', 'minval', 'maxval'])}({below()}), 2, 4)"


def program():
    names, lines = ["a", "b"], ["input a u8[2,4];", "input b u8[2,4];"]
    for k in range(CHANCES.randrange(1, 6)):
        lines.append(f"let t{k} = {expression(names, CHANCES.randrange(4))};")
        names.append(f"t{k}")
    lines += [f"output o{k} = {expression(names, CHANCES.randrange(4))};" for k in range(CHANCES.randrange(1, 3))]
    return "\n".join(lines)


class Passes(Case):
    def test_the_programs_passes_are_found(self):
        for k in range(60):
            text = program()
            status, output, errors = self.call("passes", self.file("chance.ven", text), "4096")
            self.assertEqual((status, errors), (0, ""), f"{k}\n{text}")
            self.assertIn("pass 1 ", output)

    def test_a_high_let_is_a_cut(self):
        """The tree of `u` is 64 high, or 65, with that of `t` in its place."""
        for more, passes in ((23, 1), (24, 2)):
            text = f"input a u8[1,4];\nlet t = a{' + a' * 40};\nlet u = t{' + a' * more};\noutput y = u + 1;\n"
            output = self.works("passes", self.file("high.ven", text), "4096")
            self.assertEqual(output.count("\npass "), passes)

    def test_examples_are_taken_apart(self):
        for path in sorted(EXAMPLES.glob("*.ven")):
            self.works("passes", path, "65536")

    def test_a_wrong_split_is_seen(self):
        """Without the cut at a map's operand the passes aren't the program's."""
        text = b"input a u8[2,4]; output y = shift(a + 1, 0, 1, 0);"
        found = cuts.Split(program_of(text)).passes
        self.assertEqual([text_of(text, it.node) for it in found], ["a + 1", "shift(a + 1, 0, 1, 0)"])


class Reading(unittest.TestCase):
    def test_the_text_of_a_node(self):
        text = b"input a u8[1,1];\nlet b = - 1 * (a # one\n  + a) << ~a;\noutput y = -(5) & b;"
        statements = program_of(text)
        root = statements[1].root
        self.assertEqual(text_of(text, root), "- 1 * (a + a) << ~a")
        self.assertEqual((root.word, root.operands[0].word, root.operands[1].word), ("<<", "*", "~"))
        self.assertEqual(root.operands[0].operands[0].word, "-1")
        self.assertEqual(statements[2].root.operands[0].kind, "prefix")
        self.assertEqual(statements[0].shape, (1, 1))

    def test_places(self):
        text = "a é b\n\tc".encode()
        self.assertEqual(places.line_and_column(text, text.index(b"b")), (1, 5))
        self.assertEqual(places.line_and_column(text, text.index(b"c")), (2, 2))
        wide = b"1 " * 300
        lines = places.shown("x", wide, 400, "there")
        self.assertEqual(lines[0], "x:1:401: there")
        self.assertEqual(lines[1][lines[2].index("^")], "1")
        self.assertLess(len(lines[1]), 120)


class Trying(unittest.TestCase):
    def test_what_could_stand_is_what_the_program_takes(self):
        from shared.trying import could_stand
        text = b"input a u8[2,2]; output y = select(a"
        found = could_stand("program", text, len(text))
        self.assertIn("`,`", found)
        self.assertNotIn("`;`", found)
        self.assertEqual(could_stand("program", b"input ", 6), ["a name"])
        self.assertEqual(could_stand("inputs", b"a i8[1,2] 1 2", 13), ["a name", "the text's end"])
        self.assertEqual(could_stand("inputs", b"a i8[1,2] 1", 11), ["a number", "a number with `-`"])
        self.assertEqual(could_stand("text", b"spad 1\nmemory 1\njmp ", 20), ["a name", "a number"])
        head = b"version 2\nspad 1\nmemory 1\nvec "
        self.assertIn("ssub", could_stand("text", head, len(head))[0])

    def test_the_reader_takes_what_the_program_takes(self):
        with Room() as room:
            for path in (TOP / "examples").glob("*.ven"):
                names = [it.name for it in program_of(path.read_bytes()) if it.word == "output"]
                printed = ask("check", room.file("it.ven", path.read_bytes()), "1048576").text.splitlines()
                self.assertEqual([line.split()[0] for line in printed[:len(names)]], names)


if __name__ == "__main__":
    unittest.main()
