"""What is wrong with words that aren't a command's, with files that can't be read, and with a save that can't go well."""
import difflib
import os

from shared.program import Room, ask, is_image
from shared.words import COMMANDS, WORDS


def nearest(word, known, count=1):
    return difflib.get_close_matches(word, known, count, 0.5)


def commands_in_words():
    return "the commands are " + " ".join(COMMANDS)


def of_words(words):
    """The lines that say which word is wrong, and what it may be."""
    if not words:
        return ["a command is missing; " + commands_in_words()]
    name, rest = words[0], words[1:]
    if name not in COMMANDS:
        near = nearest(name.lower().lstrip("-"), COMMANDS)
        return [f"`{name}` is no command" + (f"; is `{near[0]}` meant?" if near else ""), commands_in_words()]
    command = COMMANDS[name]
    said = []
    if not command.fits(len(rest)):
        few = len(rest) < len(command.words)
        first = command.words[len(rest)] if few else f"`{rest[len(command.words)]}`"
        said.append(f"{first.replace('SAVED', 'IMAGE')} is {'missing' if few else 'a word too many'}")
    wrong = [k for k in range(min(len(rest), len(command.words))) if is_wrong(name, rest, k)]
    for k in wrong:
        said.append(f"{command.words[k]} is `{rest[k]}`: it has to be {WORDS[command.words[k]].what}, in plain decimals")
    if not said:
        said.append(f"this program doesn't take `{name}` with such words")
    return [*said, f"usage: {command.usage(name)}"]


def is_wrong(name, rest, k):
    """Whether the program refuses the word k, a number: it is asked with numbers and files beside it that can't be at fault."""
    command = COMMANDS[name]
    if WORDS[command.words[k]].kind != "number":
        return False
    with Room() as room:
        fine = [room.path("none") if WORDS[word].kind != "number" else "1" for word in command.words]
        fine = fine[:len(fine) - command.may_lack]
        return ask(name, *fine).status != 2 and ask(name, *fine[:k], rest[k], *fine[k + 1:]).status == 2


def of_files(words):
    """Which of the files that a command loads can't be read, and why."""
    command = COMMANDS.get(words[0])
    said = []
    for word, path in zip(command.words if command else (), words[1:]):
        if WORDS[word].kind != "load":
            continue
        if not os.path.exists(path):
            said.append(f"{word}: there is no file `{path}`" + like_it(path))
        elif os.path.isdir(path):
            said.append(f"{word}: `{path}` is a folder")
        elif not os.access(path, os.R_OK):
            said.append(f"{word}: `{path}` mustn't be read")
    return said or ["each of its files is there; reading one of them failed"]


def like_it(path):
    """Files beside a missing one whose name is near to its name."""
    folder = os.path.dirname(path) or "."
    if not os.path.isdir(folder):
        return f"; there is no folder `{folder}`"
    near = nearest(os.path.basename(path), os.listdir(folder), 2)
    return "; is " + " or ".join(f"`{os.path.join(os.path.dirname(path), it)}`" for it in near) + " meant?" if near else ""


def of_save(words):
    """Why a save may have failed."""
    command = COMMANDS[words[0]]
    path = words[1 + command.words.index("SAVED")]
    folder = os.path.dirname(path) or "."
    if os.path.isdir(path):
        return [f"IMAGE: `{path}` is a folder"]
    if not os.path.isdir(folder):
        return [f"IMAGE: there is no folder `{folder}`"]
    if not os.access(folder if not os.path.exists(path) else path, os.W_OK):
        return [f"IMAGE: `{path}` mustn't be written"]
    return [f"IMAGE: `{path}` couldn't be written whole; is the disk full?"]


def overwritten(words):
    """The lines that refuse a save over a file that is no image, or that the command loads itself."""
    command = COMMANDS.get(words[0]) if words else None
    if not command or "SAVED" not in command.words or not command.fits(len(words) - 1):
        return []
    path = words[1 + command.words.index("SAVED")]
    if not os.path.isfile(path):
        return []
    for word, other in zip(command.words, words[1:]):
        if WORDS[word].kind == "load" and os.path.exists(other) and os.path.samefile(path, other):
            return [f"IMAGE is `{path}`, which is {word} too, and would be lost"]
    with open(path, "rb") as file:
        start = file.read(4)
    return [f"IMAGE is `{path}`, which is there and is no image; remove it first"] if start and not is_image(start) else []
