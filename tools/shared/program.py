"""Asks the program `venice`, by the launcher at the top of the repository, or by the program that VENICE names."""
import errno
import os
import subprocess
import sys
import tempfile
from concurrent.futures import ThreadPoolExecutor
from dataclasses import dataclass
from pathlib import Path
from threading import Thread

TOP = Path(__file__).resolve().parents[2]


@dataclass(frozen=True)
class Answer:
    """What a call of the program came to: its status, and what it printed."""
    status: int
    output: bytes

    @property
    def text(self):
        return self.output.decode("utf-8", "replace")

    @property
    def line(self):
        """The last line: of a refusal, its words."""
        lines = self.text.splitlines()
        return lines[-1] if lines else ""

    @property
    def refusal(self):
        """The words behind `error: `, or nothing where the call isn't refused."""
        return self.line[7:] if self.status and self.line.startswith("error: ") else ""


def launcher():
    """The path of what is called: VENICE where it is set, which saves the launcher's look at the sources."""
    return os.environ.get("VENICE") or str(TOP / "venice")


SAID = set()


def say_once(lines):
    """Passes lines of standard error on, each once: the launcher says at each call which build it runs."""
    for line in lines:
        if line not in SAID:
            SAID.add(line)
            sys.stderr.write(line.decode("utf-8", "replace"))
            sys.stderr.flush()


def ask(*words):
    """Calls the program with these words in the caller's folder."""
    command = [launcher(), *map(os.fspath, words)]
    try:
        with subprocess.Popen(command, stdin=subprocess.DEVNULL, stdout=subprocess.PIPE, stderr=subprocess.PIPE) as made:
            teller = Thread(target=say_once, args=(made.stderr,))
            teller.start()
            output = made.stdout.read()
            teller.join()
    except OSError as error:
        stop(f"the program {command[0]} can't be called: {error.strerror}", 127)
    if made.returncode in (126, 127):
        sys.exit(made.returncode)
    return Answer(made.returncode if made.returncode >= 0 else 128 - made.returncode, output)


def processors():
    return len(os.sched_getaffinity(0))


def ask_all(calls, at_once=None):
    """The answers of many calls, each a list of words, side by side on all processors, in the order of the calls."""
    with ThreadPoolExecutor(at_once or processors()) as pool:
        return list(pool.map(lambda words: ask(*words), calls))


class Room:
    """A folder for files of a moment, removed at the end of a `with`."""

    def __enter__(self):
        self.folder = tempfile.TemporaryDirectory(prefix="venice-tool-")
        return self

    def __exit__(self, *_):
        self.folder.cleanup()

    def path(self, name):
        return os.path.join(self.folder.name, name)

    def file(self, name, content):
        """Writes a file of this name, and gives its path."""
        path = self.path(name)
        with open(path, "wb") as out:
            out.write(content if isinstance(content, bytes) else content.encode())
        return path


def stop(why, status=1):
    """Ends the tool with one line on standard error."""
    print(f"{os.path.basename(sys.argv[0])}: {why}", file=sys.stderr)
    sys.exit(status)


def put(output):
    """Writes all of these bytes to standard output, which may be unbuffered, and so take a part of them at a time."""
    if not sys.stdout:
        raise OSError(errno.EPIPE, "standard output is closed")
    rest = memoryview(output)
    while rest:
        rest = rest[sys.stdout.buffer.write(rest):]
    sys.stdout.flush()


def end_with(main):
    """Ends the tool with the status that `main` gives for its words. Where the output isn't taken, as by `| head`, that is 9."""
    try:
        status = main(sys.argv[1:])
        if sys.stdout:
            sys.stdout.flush()
    except OSError as error:
        if error.errno not in (errno.EPIPE, errno.ENOSPC):
            raise
        if sys.stdout:
            os.dup2(os.open(os.devnull, os.O_WRONLY), 1)
        status = 9
    sys.exit(status)


def read(path):
    """The bytes of a file, or the end of the tool with the reason."""
    try:
        with open(path, "rb") as file:
            return file.read()
    except OSError as error:
        stop(f"{path}: {error.strerror}", 8)


def is_image(content):
    """Whether bytes begin as an image of either version does."""
    return content[:4] in (b"VNC1", b"VNC2")
