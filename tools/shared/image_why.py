"""Why bytes are no image: which field, which entry of the table, or which instruction the place is in."""
from shared import hints

FIELDS = {4: "the bytes of scratchpad", 8: "the bytes of memory", 12: "the number of arrays", 16: "the number of instructions"}


def code_place(content):
    """The place of the first instruction, behind the table's entries."""
    place = 20
    for _ in range(int.from_bytes(content[12:16], "little")):
        if place >= len(content):
            break
        place += 1 + content[place] + 14
    return place


def explain(path, content, fault, at):
    """The lines for a fault of an image."""
    if fault == "too long":
        return [f"{path}: an image has at most 67108864 bytes"]
    if fault == "magic":
        found = hints.other_kind("image", content, path)
        return [f"{path}: an image begins with `VNC1` or `VNC2`, and this file doesn't", *found]
    if fault == "no halt":
        return [f"{path}: the last instruction isn't `halt`, or there is none"]
    code = code_place(content)
    if fault in ("instruction", "target") or at >= code and fault == "truncated":
        number = (at - code) // 8
        spelled = content[at:at + 8].hex(" ")
        rest = {"instruction": "spells no instruction of the image's version", "truncated": "isn't whole"}
        return [f"{path}: instruction {number}, the bytes {spelled or '(none)'} at {at}, "
                + rest.get(fault, "goes to a place outside the code")]
    if fault == "trailing":
        return [f"{path}: {len(content) - at} bytes stand behind the last instruction"]
    where = FIELDS.get(at, f"the table of arrays, at byte {at}" if at >= 20 else f"the header, at byte {at}")
    return [f"{path}: the file ends in {where}" if fault == "truncated" else f"{path}: {where} breaks its rule"]
