"""Works and races: the bytes of works, host steps, and stops that are told in the words of a text."""
import unittest

from support import EXAMPLES, Case
from shared import races, works
from shared.assembler import parse
from shared.program import Room, ask
from shared.works import Region

HEAD = "spad 64\nmemory 64\n"


class Works(Case):
    def steps(self, code):
        return works.host_steps(parse("try.asm", (HEAD + code).encode()))

    def test_regions_are_rows_of_bytes(self):
        self.assertEqual(Region("cells", True, 4, 3, 0, 2).spans(), [[4, 6]])
        self.assertEqual(Region("cells", True, 4, 3, 2, 2).spans(), [[4, 10]])
        self.assertEqual(Region("cells", True, 4, 2, 8, 2).spans(), [[4, 6], [12, 14]])
        self.assertEqual(Region("cells", True, 4, 0, 8, 2).spans(), [])

    def test_a_works_bytes(self):
        setting = "li r1 3\nli r2 2\nli r3 8\nli r4 20\nset vl r1\nset rows r2\nset astep r3\nset b r4\nset bstep r3\nset dst r3\n"
        for line, wanted in (("vec add u16 vv", "reads cells 0 to 5 and 8 to 13, cells 20 to 25 and 28 to 33; writes cells 8 to 13"),
                             ("vec add u16 vs acc", "reads cells 0 to 5 and 8 to 13; writes cells 8 to 9"),
                             ("vec cast u8 u32 v", "reads cells 0 to 19; writes cells 8 to 10"),
                             ("vec cmov u8 sv", "reads cells 20 to 22 and 28 to 30, cells 8 to 10; writes cells 8 to 10"),
                             ("vec mov u8 s", "writes cells 8 to 10")):
            step = self.steps(setting + line + "\nhalt\n")[-2]
            found = "; ".join(it.strip()[3:] for it in races.uses(step))
            self.assertEqual(found, wanted, line)

    def test_host_steps_are_the_programs(self):
        """The program makes as many steps as the host's here and the beats of the works, of which there are none."""
        code = ("li r1 7\nli r2 2\nagain: add r3 r3 r1\nsub r1 r1 r2\nbnz r1 odd\njmp out\nodd: blt r1 r3 again\n"
                "out: mul r4 r3 r3\ndiv r5 r4 r6\naddi r5 r5 2\nbnz r5 more\nhalt\nmore: halt\n")
        steps = self.steps(code)
        with Room() as room:
            image = room.path("try.image")
            self.assertEqual(ask("asm", room.file("try.asm", HEAD + code), image).status, 0)
            counted = ask("exec", image, "/dev/null", "1", "64", "1000").text.split()[1]
            copy = room.path("copy.image")
            listing = parse("", ask("disasm", image).output)
            straight = works.straight(listing, works.host_steps(listing))
            self.assertEqual(ask("asm", room.file("copy.asm", straight), copy).status, 0)
            self.assertEqual(ask("exec", copy, "/dev/null", "1", "64", "1000").text.split()[1], counted)
        self.assertEqual(len(steps), int(counted))

    def test_common_bytes(self):
        self.assertEqual(list(works.common([[0, 4], [8, 12]], [[2, 9], [11, 20]])), [[2, 4], [8, 9], [11, 12]])
        self.assertEqual(works.spans_in_words("memory", [[3, 4]]), "byte 3 of memory")
        self.assertEqual(works.spans_in_words("cells", [[0, 2], [4, 6], [8, 9], [11, 12], [14, 15]]),
                         "cells 0 to 1 and 4 to 5 and 8 and 2 more ranges")


class Races(Case):
    def told(self, sed, grants, *words):
        """What race says of the double-buffered example with lines changed, under 300 grants of one kind."""
        text = (EXAMPLES / "double.asm").read_text()
        for old, new in sed:
            self.assertIn(old, text)
            text = text.replace(old, new, 1)
        grants = self.file("slow.grants", grants * 300)
        status, output, _ = self.call("race", self.file("try.asm", text), EXAMPLES / "serial.arrays", *words, grants)
        return status, output

    def test_without_a_wait_for_the_write(self):
        """The lanes' third tile takes the half that the first tile's write still reads."""
        status, output = self.told([("wwait r2 ", "#")], "07", "4", "512", "1000")
        self.assertEqual(status, 7)
        self.assertIn("work 9 (instruction 22)", output)
        self.assertIn("missing between the two: `wwait`, with 1 in its register", output)

    def test_each_missing_wait_is_named(self):
        for change, wait in (([("rwait r2", "rwait r3")], "`rwait`, with 1 in its register"), ([("vwait", "")], "`vwait`")):
            status, output = self.told(change, "01", "1", "512", "1000")
            self.assertEqual(status, 7, change)
            self.assertIn("missing between the two: " + wait, output)
            self.assertIn("tried: with that wait", output)

    def test_the_example_has_no_race(self):
        grants = self.file("host.grants", "01 " * 60)
        status, output, _ = self.call("race", EXAMPLES / "double.asm", EXAMPLES / "serial.arrays", "4", "512", "1000", grants)
        self.assertEqual((status, output), (0, "this run meets no hazard; under other grants it may\n"))


if __name__ == "__main__":
    unittest.main()
