"""What the tests of the tools share: they call the tools as a user would, with this Python."""
import os
import subprocess
import sys
import tempfile
import unittest
from pathlib import Path

TOOLS = Path(__file__).resolve().parents[1]
TOP = TOOLS.parent
EXAMPLES = TOP / "examples"
sys.path.insert(0, str(TOOLS))
sys.dont_write_bytecode = True

try:
    import numpy
    import PIL
    HAS_NUMBERS = True
except ImportError:
    HAS_NUMBERS = False

wants_numbers = unittest.skipUnless(HAS_NUMBERS, "python3-numpy and python3-pil aren't there")


class Case(unittest.TestCase):
    """A test with a folder of its own."""

    def setUp(self):
        self.folder = tempfile.TemporaryDirectory()
        self.addCleanup(self.folder.cleanup)

    def path(self, name):
        return os.path.join(self.folder.name, name)

    def file(self, name, text):
        path = self.path(name)
        with open(path, "w", encoding="utf-8") as out:
            out.write(text)
        return path

    def call(self, tool, *words, given=None):
        """Calls a tool in the test's folder: its status, output, and standard error without the launcher's lines."""
        command = [sys.executable, str(TOOLS / tool), *map(str, words)]
        done = subprocess.run(command, cwd=self.folder.name, input=given, capture_output=True, text=True, check=False)
        errors = [line for line in done.stderr.splitlines() if not line.startswith("venice: ")]
        return done.returncode, done.stdout, "\n".join(errors)

    def works(self, tool, *words, given=None):
        """The output of a call that has to go well."""
        status, output, errors = self.call(tool, *words, given=given)
        told = ("strips of", "is taken with the picture's")
        self.assertEqual((status, [line for line in errors.splitlines() if not any(it in line for it in told)]), (0, []))
        return output

    def refuses(self, status, part, tool, *words):
        """A call that has to be refused, with these words on standard error."""
        found, output, errors = self.call(tool, *words)
        self.assertEqual((found, output), (status, ""))
        self.assertIn(part, errors)
        self.assertEqual(len([line for line in errors.splitlines() if "is taken with" not in line]), 1, errors)
