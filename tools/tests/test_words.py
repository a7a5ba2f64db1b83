"""The tables of shared/words.py and the files of editor/ against docs/ and the program."""
import json
import re
import shutil
import subprocess
import unittest

from support import TOOLS, TOP, Case
from shared import words
from shared.program import Room, ask

COMMAND_WORDS = {name: [word.replace("SAVED", "IMAGE") for word in command.words] for name, command in words.COMMANDS.items()}


def section(path, head):
    """The part of a page of docs/ behind a heading."""
    text = (TOP / "docs" / path).read_text()
    return re.split(r"\n#+ ", text.split(f"# {head}\n", 1)[1])[0]


def code_words(text):
    return set(re.findall(r"`([a-z0-9]+)`", text))


class Documents(unittest.TestCase):
    def test_commands_are_those_of_the_documents(self):
        block = section("FORMATS.md", "The command line").split("```")[1]
        found = {}
        for line in filter(None, block.splitlines()):
            name, *rest = line.split()
            rest = [word.strip("[]") for word in rest]
            found[name] = rest if len(rest) > len(found.get(name, [])) else found[name]
        self.assertEqual(found, COMMAND_WORDS)

    def test_words_of_the_array_language(self):
        reserved = code_words(section("LANGUAGE.md", "Names"))
        self.assertEqual(set(words.STATEMENTS + words.TYPES + words.FUNCTIONS) - reserved, set())
        self.assertEqual(reserved - set(words.STATEMENTS + words.TYPES + words.FUNCTIONS) - {"a"}, set())
        line = next(line for line in section("LANGUAGE.md", "Tokens").splitlines() if line.startswith("| sign"))
        self.assertEqual(re.findall(r"`([^`]+)`", line.replace("\\|", "|")), words.SIGNS)

    def test_words_of_the_assembler(self):
        text = section("MACHINE.md", "Instructions")
        heads = [re.findall(r"`(\w+)", line.split("|")[2])[0] for line in text.splitlines() if re.match(r"\| \d+ ", line)]
        self.assertEqual(heads, words.INSTRUCTIONS)
        self.assertIn("are `" + " ".join(words.FIELDS) + "`", text)
        self.assertIn("are `" + " ".join(words.OPERATIONS) + "`", text)


class Numbers(unittest.TestCase):
    def test_ranges_are_those_of_the_program(self):
        with Room() as room:
            none = room.path("none")
            call = {"LANES": lambda n: ["exec", none, none, n, "1", "1"], "SPAD": lambda n: ["check", none, n],
                    "BUDGET": lambda n: ["exec", none, none, "1", "1", n]}
            for word, make in call.items():
                least, most = map(int, re.search(r"(\d+) to (\d+)", words.WORDS[word].what).groups())
                statuses = [ask(*make(str(n))).status for n in (least - 1, least, most, most + 1)]
                self.assertEqual(statuses, [2, 8, 8, 2], word)

    def test_each_command_is_the_programs(self):
        with Room() as room:
            for name, command in words.COMMANDS.items():
                call = [name, *("1" if words.WORDS[word].kind == "number" else room.path("none") for word in command.words)]
                self.assertEqual(ask(*call).status, 8, name)
                self.assertEqual(ask(*call, "1").status, 2, name)


class Editor(Case):
    folder_of = TOOLS / "editor"

    def test_vim_has_the_words(self):
        for name, lists in self.lists().items():
            text = (self.folder_of / "vim" / "syntax" / f"{name}.vim").read_text()
            found = set(re.findall(r"[a-z][a-z0-9]*", text))
            self.assertEqual(set(lists) - found, set(), name)

    def test_code_has_the_words(self):
        for name, lists in self.lists().items():
            grammar = json.loads((self.folder_of / "vscode" / "syntaxes" / f"{name}.tmLanguage.json").read_text())
            rules = [re.compile(rule["match"]) for rule in grammar["patterns"]]
            for word in lists:
                lines = [word] if name == "venice" else [word, f"set {word} r1", f"vec {word} u8"]
                found = [it.group() for line in lines for rule in rules for it in rule.finditer(line)]
                self.assertTrue(any(word in it.split() for it in found), word)
        package = json.loads((self.folder_of / "vscode" / "package.json").read_text())
        for grammar in package["contributes"]["grammars"]:
            self.assertTrue((self.folder_of / "vscode" / grammar["path"]).is_file())

    def lists(self):
        return {"venice": words.STATEMENTS + words.TYPES + words.FUNCTIONS,
                "veniceasm": words.HEADINGS + words.INSTRUCTIONS + words.FIELDS + words.OPERATIONS + words.TYPES
                             + words.DIRECTIONS + words.MODES}

    def test_vim_colours_an_example(self):
        if not shutil.which("vim"):
            self.skipTest("vim isn't there")
        asm = self.file("try.asm", "# text\nspad 16\nmemory 0\nloop: vec add u8 vs\nset spad r1\nhalt\n")
        self.file("try.vim", "set nocompatible\nset runtimepath^=" + str(self.folder_of / "vim") + "\nfiletype on\nsyntax on\n")
        places = {"add": (4, 11), "loop": (4, 1), "spad": (5, 5), "halt": (6, 1), "text": (1, 3)}
        asked = ["call add(g:found, synIDattr(synID(%d, %d, 1), 'name'))" % place for place in places.values()]
        script = self.file("ask.vim", "\n".join(["let g:found = [&filetype]", *asked,
                                                 f"call writefile(g:found, '{self.path('found')}')", "qa!"]))
        subprocess.run(["vim", "-es", "-N", "-u", self.path("try.vim"), "-S", script, asm], stdin=subprocess.DEVNULL,
                       timeout=60, check=False)
        with open(self.path("found"), encoding="utf-8") as found:
            self.assertEqual(found.read().split(), ["veniceasm", "veniceasmOperation", "veniceasmLabel", "veniceasmField",
                                                    "veniceasmInstruction", "veniceasmComment"])

    def test_shells_have_the_words(self):
        for name in ("venice.bash", "_venice"):
            text = (self.folder_of / name).read_text()
            rows = dict(re.findall(r"^ +([a-z]+)\) (?:echo |reply=\()([A-Z ]+?)\)? ;;$", text, re.M))
            self.assertEqual({command: row.split() for command, row in rows.items()}, COMMAND_WORDS)
            self.assertIn(" ".join(words.COMMANDS), text)

    def completed(self, *typed):
        """What bash offers for the last of these words."""
        script = (f"source {self.folder_of / 'venice.bash'}; COMP_WORDS=({' '.join(typed)}); COMP_CWORD={len(typed) - 1}; "
                  "_venice; printf '%s\\n' \"${COMPREPLY[@]}\"")
        done = subprocess.run(["bash", "-c", script], cwd=self.folder.name, capture_output=True, text=True, check=False)
        return done.stdout.split()

    def test_bash_completes(self):
        for name in ("one.ven", "two.ven", "one.arrays", "one.image"):
            self.file(name, "")
        self.assertEqual(self.completed("venice", "e"), ["eval", "explain", "exec"])
        self.assertEqual(self.completed("tools/ven", "h"), ["help"])
        self.assertEqual(sorted(self.completed("venice", "eval", "''")), ["one.ven", "two.ven"])
        self.assertEqual(self.completed("venice", "eval", "one.ven", "o"), ["one.arrays"])
        self.assertEqual(self.completed("venice", "exec", "one.image", "one.arrays", "''"), ["1", "2", "3", "4"])

    def test_zsh_reads_its_file(self):
        if not shutil.which("zsh"):
            self.skipTest("zsh isn't there")
        subprocess.run(["zsh", "-n", self.folder_of / "_venice"], check=True)

    def test_the_manual_page_has_all(self):
        page = (self.folder_of / "venice.1").read_text()
        for name, command in words.COMMANDS.items():
            self.assertIn(f"\\fBvenice {name}\\fR " + command.usage(name).split(" ", 1)[1] + "\n", page)
            self.assertIn(f".B {name}\n{command.does}\n", page)
        for status, what in words.STATUSES.items():
            self.assertIn(f".B {status}\n{what.replace('`halt`', chr(92) + 'fBhalt' + chr(92) + 'fR')}\n", page)
        if shutil.which("groff"):
            made = subprocess.run(["groff", "-man", "-ww", "-Tutf8", self.folder_of / "venice.1"], capture_output=True, text=True,
                                  check=False)
            self.assertEqual((made.returncode, made.stderr), (0, ""))


if __name__ == "__main__":
    unittest.main()
