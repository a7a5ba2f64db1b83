"""The words of the command line and of the two languages. A test compares them with docs/ and with the program's answers."""
from dataclasses import dataclass


@dataclass(frozen=True)
class Word:
    """A word of a command: `load` a file that is read, `save` one that is saved, or `number`."""
    kind: str
    what: str
    suffix: str = ""


WORDS = {
    "PROGRAM": Word("load", "the array program", ".ven"),
    "INPUTS": Word("load", "the array file with the inputs", ".arrays"),
    "TEXT": Word("load", "the assembler text", ".asm"),
    "IMAGE": Word("load", "the image, which `build` makes of a program and `asm` of an assembler text", ".image"),
    "SAVED": Word("save", "the file under which the image is saved", ".image"),
    "GRANTS": Word("load", "who may step in each cycle; without it all may (tools/grants writes such files)", ".grants"),
    "LANES": Word("number", "the number of lanes, 1 to 4"),
    "SPAD": Word("number", "the bytes of the scratchpad, 1 to 1048576"),
    "BUDGET": Word("number", "the most steps that the machine may make, 1 to 1099511627776"),
}


@dataclass(frozen=True)
class Command:
    """A command's words, of which the last `may_lack` may be left out; SAVED is printed IMAGE."""
    words: tuple
    does: str
    example: str
    may_lack: int = 0

    def usage(self, name):
        shown = ["IMAGE" if word == "SAVED" else word for word in self.words]
        cut = len(shown) - self.may_lack
        return " ".join([name, *shown[:cut], *(f"[{word}]" for word in shown[cut:])])

    def fits(self, count):
        return len(self.words) - self.may_lack <= count <= len(self.words)


COMMANDS = {
    "eval": Command(("PROGRAM", "INPUTS"), "prints the outputs of the program, by the plain evaluator",
                    "eval examples/blur.ven examples/blur.arrays"),
    "check": Command(("PROGRAM", "SPAD"), "prints the outputs' shapes, the need, the passes with their tiles, and the bound",
                     "check examples/blur.ven 64"),
    "explain": Command(("PROGRAM",), "prints for each pass an order of evaluation, and how many results it holds",
                       "explain examples/blur.ven"),
    "run": Command(("PROGRAM", "INPUTS", "SAVED", "LANES", "SPAD", "GRANTS"),
                   "compiles a program, saves its image, runs it, and prints the outputs, the steps and the cycles",
                   "run examples/blur.ven examples/blur.arrays blur.image 4 64", 1),
    "build": Command(("PROGRAM", "SAVED", "SPAD"), "compiles a program and saves its image; it prints nothing",
                     "build examples/blur.ven blur.image 64"),
    "asm": Command(("TEXT", "SAVED"), "assembles a text and saves the image; it prints nothing",
                   "asm examples/add.asm add.image"),
    "disasm": Command(("IMAGE",), "prints the canonical assembler text of an image", "disasm add.image"),
    "exec": Command(("IMAGE", "INPUTS", "LANES", "SPAD", "BUDGET", "GRANTS"),
                    "runs an image, and prints its outputs, the steps and the cycles",
                    "exec add.image examples/add.arrays 4 12 100", 1),
}

STATUSES = {
    2: "the words aren't a command's", 3: "the program is refused", 4: "the inputs or the grants are refused",
    5: "the scratchpad is too small", 6: "the image or the assembler text is refused",
    7: "the machine stopped before `halt`", 8: "a file can't be read", 9: "the output wasn't taken",
    10: "memory ran out", 14: "the image can't be saved", 15: "a word isn't UTF-8",
}

TYPES = "u8 i8 u16 i16 u32 i32".split()
STATEMENTS = "input let output".split()
FUNCTIONS = ("abs rowsum rowmin rowmax sum minval maxval min max select shift rotate section stretch "
             "transpose sadd ssub").split()
PREFIXES = "- ~".split()
BINARIES = "* + - << >> & ^ | == != < <= > >=".split()
SIGNS = "<< >> == != <= >= + - * & | ^ ~ ( ) [ ] , ; = < > :".split()

HEADINGS = "version spad memory array in out".split()
INSTRUCTIONS = ("halt li addi add sub mul div bnz blt jmp set vec dma rwait wwait vwait tag twait").split()
FIELDS = "vl rows dst a b dstep astep bstep mem spad mrows mbytes mstep sstep".split()
OPERATIONS = "mov cast add sub mul and or xor shl shr min max abs eq ne lt le cmov sadd ssub".split()
DIRECTIONS = "read write".split()
MODES = "v s vv vs sv ss acc".split()
