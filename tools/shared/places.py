"""Places in texts: from a byte to file, line and column, and the line with a caret under it."""
import re

WIDTH = 100


def line_and_column(text, at):
    """Line and column of a byte's place, both from 1; columns count characters."""
    before = text[:at]
    start = before.rfind(b"\n") + 1
    return before.count(b"\n") + 1, len(before[start:].decode("utf-8", "replace")) + 1


def settled(text, at):
    """The place that is shown for `at`: at the text's end, behind the last word rather than on a line of its own."""
    return len(text.rstrip()) if at >= len(text.rstrip()) else at


def shown(name, text, at, what):
    """Lines that show a place: file, line, column and what is there, the line itself, and a caret."""
    at = settled(text, at)
    row, column = line_and_column(text, at)
    start = text.rfind(b"\n", 0, at) + 1
    end = text.find(b"\n", at)
    line = text[start:len(text) if end < 0 else end].decode("utf-8", "replace").rstrip("\r")
    line = "".join(c if c.isprintable() else " " for c in line)
    caret = column - 1
    if len(line) > WIDTH:
        cut = max(0, min(caret - WIDTH // 2, len(line) - WIDTH))
        behind = " ..." if cut + WIDTH < len(line) else ""
        before = "... " if cut else ""
        line = before + line[cut:cut + WIDTH] + behind
        caret += len(before) - cut
    said = f"{name}:{row}:{column}: {what}"
    return [said, f"    {line}".rstrip(), "    " + " " * caret + "^"] if line.strip() else [said]


def where(name, text, at):
    """File, line and column of a place in one word."""
    row, column = line_and_column(text, at)
    return f"{name}:{row}:{column}"


TOKEN = re.compile(rb"[A-Za-z_][A-Za-z0-9_]*|0x[0-9a-fA-F]+|[0-9]+|<<|>>|==|!=|<=|>=|[^ \t\r\n]")


def token_at(text, at):
    """The token that begins at a place, or one character; nothing at the text's end."""
    found = TOKEN.match(text, at)
    if not found:
        return ""
    token = found.group()
    if token[0] > 127:
        character = text[at:at + 4].decode("utf-8", "replace")[:1]
        return character if character.isprintable() and character != "\ufffd" else f"byte {token[0]:02x}"
    return token.decode()


def tokens(text):
    """The tokens of a text with their places, comments left out."""
    at = 0
    while at < len(text):
        if text[at:at + 1] == b"#":
            end = text.find(b"\n", at)
            at = len(text) if end < 0 else end
        elif text[at:at + 1].isspace():
            at += 1
        else:
            token = TOKEN.match(text, at).group()
            yield at, token.decode("latin-1")
            at += len(token)
