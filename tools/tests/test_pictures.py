"""Pictures to array files and back, and pictures through programs, checked against numpy."""
import os
import subprocess
import sys
import unittest
import unittest.mock

from support import EXAMPLES, HAS_NUMBERS, TOOLS, TOP, Case, wants_numbers

if HAS_NUMBERS:
    import numpy
    from PIL import Image


def noise(rows, columns, layers=0, kind="uint8", seed=3):
    shape = (rows, columns, layers) if layers else (rows, columns)
    return numpy.random.RandomState(seed).randint(0, numpy.iinfo(kind).max, shape).astype(kind)


@wants_numbers
class Pictures(Case):
    def test_grey_there_and_back(self):
        pixels = noise(7, 5)
        for suffix in ("png", "pgm", "npy"):
            path, back = self.path(f"a.{suffix}"), self.path(f"b.{suffix}")
            numpy.save(path, pixels) if suffix == "npy" else Image.fromarray(pixels).save(path)
            self.works("pictures", path, "a.arrays")
            with open(self.path("a.arrays"), encoding="ascii") as file:
                self.assertEqual(file.readline(), "a u8[7,5]\n")
            self.works("pictures", "a.arrays", back)
            found = numpy.load(back) if suffix == "npy" else numpy.array(Image.open(back))
            self.assertTrue((found == pixels).all(), suffix)

    def test_colour_there_and_back(self):
        pixels = noise(4, 6, 3)
        Image.fromarray(pixels).save(self.path("a.png"))
        self.works("pictures", "a.png", "a.arrays")
        for suffix in ("png", "ppm", "npy"):
            self.works("pictures", "a.arrays", f"b.{suffix}")
            found = numpy.load(self.path("b.npy")) if suffix == "npy" else numpy.array(Image.open(self.path(f"b.{suffix}")))
            self.assertTrue((found == pixels).all(), suffix)
        text = self.works("pictures", "a.png", "-", "--names", "grey")
        self.assertTrue(text.startswith("grey u8[4,6]\n"))
        self.works("pictures", "a.arrays", "red.png", "--names", "r")
        self.assertTrue((numpy.array(Image.open(self.path("red.png"))) == pixels[:, :, 0]).all())

    def test_sixteen_bits(self):
        pixels = noise(3, 4, 0, "uint16")
        for suffix in ("png", "pgm"):
            numpy.save(self.path("a.npy"), pixels)
            self.works("pictures", "a.npy", "a.arrays")
            self.works("pictures", "a.arrays", f"b.{suffix}")
            text = self.works("pictures", f"b.{suffix}", "-")
            self.assertEqual(text.split("\n", 1)[0], "a u16[3,4]", suffix)
            with open(self.path("a.arrays"), encoding="ascii") as file:
                self.assertEqual(file.read(), text)

    def test_signed_numbers_are_spread(self):
        arrays = self.file("s.arrays", "# two\ny i16[1,3] - 4 0x10 6")
        self.refuses(4, "--scale spreads them", "pictures", arrays, "s.png")
        self.works("pictures", arrays, "s.png", "--scale")
        self.assertEqual(numpy.array(Image.open(self.path("s.png"))).tolist(), [[0, 255, 127]])
        self.works("pictures", arrays, "s.npy")
        self.assertEqual(numpy.load(self.path("s.npy")).tolist(), [[-4, 16, 6]])

    def test_other_kinds_of_pictures(self):
        Image.fromarray(noise(2, 2, 4)).save(self.path("a.png"))
        _, text, errors = self.call("pictures", "a.png", "-")
        self.assertEqual((text.count("u8[2,2]"), errors), (3, "the picture's transparency is left out"))
        Image.fromarray(noise(2, 2)).convert("P").save(self.path("p.png"))
        self.assertEqual(self.works("pictures", "p.png", "-").count("u8[2,2]"), 3)
        Image.new("L", (8, 8), 77).save(self.path("grey.jpg"))
        self.assertEqual(self.works("pictures", "grey.jpg", "-"), "a u8[8,8]\n" + (" ".join(["77"] * 8) + "\n") * 8)
        self.works("pictures", "grey.jpg", "a.arrays")
        self.refuses(2, "a JPEG changes the values", "pictures", "a.arrays", "b.jpg")
        Image.new("1", (2, 1), 1).save(self.path("one.png"))
        self.assertEqual(self.works("pictures", "one.png", "-"), "a u8[1,2]\n255 255\n")

    def test_what_is_refused(self):
        numpy.save(self.path("in.npy"), noise(2, 2))
        self.refuses(2, "ends in .arrays", "pictures", "in.npy", "b.ven")
        self.refuses(2, "`sum` is no name for an array", "pictures", "in.npy", "b.arrays", "--names", "sum")
        self.refuses(2, "one of the two names", "pictures", "a.arrays", "b.arrays")
        self.refuses(8, "No such file", "pictures", "no.png", "b.arrays")
        self.refuses(8, "No such file", "pictures", "no.arrays", "b.png")
        self.file("bad.png", "no picture")
        self.refuses(8, "no picture that can be read", "pictures", "bad.png", "b.arrays")
        self.file("bad.arrays", "a u8[1,2] 1 2 3")
        self.refuses(4, "is no array file", "pictures", "bad.arrays", "b.png")
        self.refuses(2, "--names chooses one", "pictures", EXAMPLES / "bins.arrays", "b.png")
        self.refuses(4, "no array `z`", "pictures", EXAMPLES / "bins.arrays", "b.png", "--names", "z")
        numpy.save(self.path("f.npy"), numpy.ones((2, 2)))
        self.refuses(4, "fractions", "pictures", "f.npy", "b.arrays")
        Image.new("L", (1025, 1024)).save(self.path("large.png"))
        self.refuses(4, "tools/filter does such a picture in strips", "pictures", "large.png", "b.arrays")
        self.refuses(14, "No such file", "pictures", "in.npy", "no/b.arrays")
        self.refuses(4, ".pgm is grey and .ppm is colour", "pictures", EXAMPLES / "blur.arrays", "b.ppm")


class Missing(Case):
    def test_what_to_install_is_said(self):
        """Without Debian's modules (-S leaves them out) a tool says in one line what to install."""
        for tool in ("pictures", "filter"):
            done = subprocess.run([sys.executable, "-S", str(TOOLS / tool), "a", "b"], env={**os.environ, "VENICE_AGAIN": "1"},
                                  capture_output=True, text=True, check=False)
            self.assertEqual((done.returncode, len(done.stderr.splitlines())), (1, 1))
            self.assertIn("`apt-get install python3-numpy python3-pil`", done.stderr)


@wants_numbers
class Filter(Case):
    def setUp(self):
        super().setUp()
        self.grey = noise(12, 9)
        Image.fromarray(self.grey).save(self.path("in.png"))

    def picture(self, name):
        return numpy.array(Image.open(self.path(name)))

    def test_a_plain_program_takes_any_size(self):
        self.works("filter", EXAMPLES / "blur.ven", "in.png", "out.png")
        wide = numpy.pad(self.grey.astype(int), 1)
        down = wide[:-2] + 2 * wide[1:-1] + wide[2:]
        self.assertTrue((self.picture("out.png") == (down[:, :-2] + 2 * down[:, 1:-1] + down[:, 2:] >> 4)).all())

    def test_another_shape_is_told(self):
        _, _, errors = self.call("filter", EXAMPLES / "blur.ven", "in.png", "out.png")
        self.assertEqual(errors, f"filter: {EXAMPLES / 'blur.ven'}: `a` of 5 by 6 is taken with the picture's 12 by 9")
        Image.fromarray(noise(5, 6)).save(self.path("five.png"))
        self.assertEqual(self.call("filter", EXAMPLES / "blur.ven", "five.png", "out.png"), (0, "", ""))

    def test_sobel_and_median(self):
        wide = numpy.pad(self.grey.astype(int), 1)
        around = numpy.stack([wide[i:i + 12, j:j + 9] for i in range(3) for j in range(3)])
        self.works("filter", EXAMPLES / "median.ven", "in.png", "out.png")
        self.assertTrue((self.picture("out.png") == numpy.sort(around, axis=0)[4]).all())
        across = abs(around[2] + 2 * around[5] + around[8] - around[0] - 2 * around[3] - around[6])
        along = abs(around[6] + 2 * around[7] + around[8] - around[0] - 2 * around[1] - around[2])
        self.works("filter", EXAMPLES / "sobel.ven", "in.png", "out.png")
        self.assertTrue((self.picture("out.png") == numpy.minimum(across + along, 255)).all())

    def test_strips_give_the_same_picture(self):
        for name, rows in (("blur", 5), ("median", 1), ("sobel", 4)):
            self.works("filter", EXAMPLES / f"{name}.ven", "in.png", "one.png")
            _, _, errors = self.call("filter", EXAMPLES / f"{name}.ven", "in.png", "two.png", "--rows", rows)
            self.assertIn(f"{-(-12 // rows)} strips of {rows} rows, with 1 above and 1 below", errors)
            self.assertTrue((self.picture("one.png") == self.picture("two.png")).all(), name)

    def test_a_picture_that_is_too_much_work_is_cut(self):
        """The program is asked how many rows it takes; here one asks that takes at most five."""
        real = os.environ.get("VENICE") or str(TOP / "venice")
        asked = self.file("venice", "\n".join([
            "#!/bin/sh", "rows=$(sed -n 's/^input a u8.\\([0-9]*\\).*/\\1/p' \"$2\")",
            "[ \"$1\" = check ] && [ $rows -gt 5 ] && { echo error: program too much work 1; exit 3; }",
            f"exec {real} \"$@\"", ""]))
        os.chmod(asked, 0o755)
        self.works("filter", EXAMPLES / "blur.ven", "in.png", "one.png")
        with unittest.mock.patch.dict(os.environ, VENICE=asked):
            _, _, errors = self.call("filter", EXAMPLES / "blur.ven", "in.png", "two.png")
        self.assertIn("4 strips of 3 rows, with 1 above and 1 below", errors)
        self.assertTrue((self.picture("one.png") == self.picture("two.png")).all())

    def test_the_rows_of_strips(self):
        from shared import strips
        self.assertEqual(strips.most_rows(1024, 2, 1, lambda count: count <= 700), 697)
        self.assertEqual(strips.most_rows(1024, 2, 1, lambda count: count <= 2), 0)
        self.assertEqual(list(strips.strips(7, 3, 1, 2)), [(0, 3, 0, 5), (3, 6, 2, 7), (6, 7, 5, 7)])

    def test_on_the_machine(self):
        self.works("filter", EXAMPLES / "blur.ven", "in.png", "one.png")
        for more in ([], ["--rows", "5"]):
            status, _, errors = self.call("filter", EXAMPLES / "blur.ven", "in.png", "two.png", "--machine", "4,4096", *more)
            self.assertEqual(status, 0, errors)
            self.assertRegex(errors, r"filter: \d+ steps and \d+ cycles, on 4 lanes with 4096 bytes of scratchpad$")
            self.assertTrue((self.picture("one.png") == self.picture("two.png")).all())
        status, _, errors = self.call("filter", EXAMPLES / "blur.ven", "in.png", "no.png", "--machine", "1,19")
        self.assertEqual(status, 5)
        self.assertIn("scratchpad need 20 have 19", errors)
        self.refuses(2, "--machine wants LANES,SPAD", "filter", EXAMPLES / "blur.ven", "in.png", "no.png", "--machine", "5,64")

    def test_names_and_numbers_are_put_in(self):
        program = self.file("limit.ven", "# @H\ninput a u8[@H,@W];\noutput y = select(a > @limit, 255, 0);\n")
        self.works("filter", program, "in.png", "out.png", "limit=100")
        self.assertTrue((self.picture("out.png") == numpy.where(self.grey > 100, 255, 0)).all())
        self.refuses(2, "`@limit` wants a number: add limit=NUMBER", "filter", program, "in.png", "out.png")
        status, _, errors = self.call("filter", program, "in.png", "out.png", "limit=256")
        self.assertEqual(status, 3)
        self.assertIn("256 isn't a number of the type", errors)

    def test_colour(self):
        pixels = noise(6, 4, 3)
        Image.fromarray(pixels).save(self.path("colour.png"))
        program = self.file("turn.ven", "input x u8[1,1];\noutput y = ~x;\n")
        self.works("filter", program, "colour.png", "out.png")
        self.assertTrue((self.picture("out.png") == 255 - pixels).all())
        program = self.file("swap.ven", "input x u8[1,1]; input y u8[1,1]; input z u8[1,1]; output p = z; output q = y; output r = x;")
        self.works("filter", program, "colour.png", "out.png")
        self.assertTrue((self.picture("out.png") == pixels[:, :, ::-1]).all())
        self.works("filter", program, "colour.png", "out.png", "--names", "p")
        self.assertTrue((self.picture("out.png") == pixels[:, :, 2]).all())

    def test_a_second_picture(self):
        other = noise(12, 9, seed=4)
        Image.fromarray(other).save(self.path("b.png"))
        for more in ([], ["--rows", "5"]):
            self.works("filter", EXAMPLES / "blend.ven", "in.png", "out.png", "b=b.png", "--names", "y", *more)
            self.assertTrue((self.picture("out.png") == numpy.minimum(self.grey + other.astype(int) * 3 // 4, 255)).all())
        weights = self.file("w.arrays", "w u8[1,1] 2")
        program = self.file("w.ven", "input a u8[@H,@W]; input w u8[1,1]; output y = (a >> 2) * stretch(w, @H, @W);")
        self.works("filter", program, "in.png", "out.png", f"w={weights}")
        self.assertTrue((self.picture("out.png") == (self.grey >> 2) * 2).all())

    def test_what_needs_the_whole_picture(self):
        self.refuses(3, "needs it whole, for `rotate`", "filter", EXAMPLES / "edges.ven", "in.png", "out.png", "--rows", "3")
        program = self.file("h.ven", "input a u8[@H,@W]; output y = a + @H;")
        self.refuses(3, "needs it whole, for `@H`", "filter", program, "in.png", "out.png", "--rows", "3")

    def test_what_is_refused(self):
        self.refuses(8, "No such file", "filter", EXAMPLES / "blur.ven", "no.png", "out.png")
        self.refuses(8, "No such file", "filter", "no.ven", "in.png", "out.png")
        self.refuses(2, "the words are PROGRAM IN OUT", "filter", EXAMPLES / "blur.ven", "in.png", "out.arrays")
        self.refuses(2, "a JPEG changes the values", "filter", EXAMPLES / "blur.ven", "in.png", "out.jpg")
        self.refuses(14, "there is no folder no", "filter", EXAMPLES / "blur.ven", "in.png", "no/out.png")
        self.refuses(2, "has the inputs a, b", "filter", EXAMPLES / "add.ven", "in.png", "out.png")
        self.refuses(3, "program unexpected", "filter", EXAMPLES / "add.asm", "in.png", "out.png")
        self.refuses(2, "blur.ven has no `@limit`", "filter", EXAMPLES / "blur.ven", "in.png", "out.png", "limit=5")
        self.refuses(2, "blur.ven has no input `b`", "filter", EXAMPLES / "blur.ven", "in.png", "out.png", "b=in.png")
        self.refuses(2, "is no NAME=NUMBER", "filter", EXAMPLES / "blur.ven", "in.png", "out.png", "5")
        self.refuses(2, "--names chooses one", "filter", EXAMPLES / "blend.ven", "in.png", "out.png", "b=in.png")


if __name__ == "__main__":
    unittest.main()
