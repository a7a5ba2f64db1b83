"""Array files as numpy's arrays, and pictures as array files. numpy and PIL are Debian's python3-numpy and python3-pil."""
import os
import re
import sys

from shared.program import Room, ask, stop

DEBIAN = "/usr/bin/python3"
try:
    import numpy
    from PIL import Image, ImageOps
except ImportError as error:
    # Another Python may stand first on the path; Debian's modules are Debian's Python's.
    if os.path.exists(DEBIAN) and os.path.realpath(sys.executable) != os.path.realpath(DEBIAN) and "VENICE_AGAIN" not in os.environ:
        os.environ["VENICE_AGAIN"] = "1"
        os.execv(DEBIAN, [DEBIAN, *sys.argv])
    stop(f"{error}: `apt-get install python3-numpy python3-pil` gives it to {DEBIAN}")

TYPES = {"u8": "uint8", "i8": "int8", "u16": "uint16", "i16": "int16", "u32": "uint32", "i32": "int32"}
NAMES = {numpy.dtype(kind): name for name, kind in TYPES.items()}
HEADER = re.compile(r"([A-Za-z_]\w*)\s+([ui](?:8|16|32))\s*\[\s*(\w+)\s*,\s*(\w+)\s*\]")
SUFFIXES = (".png", ".pgm", ".ppm", ".npy")
LOSSY = (".jpg", ".jpeg")


def is_picture(path):
    return path.lower().endswith(SUFFIXES + LOSSY)


def number(word):
    return int(word, 16) if word.lstrip("-").startswith("0x") else int(word)


def arrays_of(text, name):
    """The arrays of an array file's text, by name: numpy arrays of their types."""
    text = re.sub(r"#[^\n]*", " ", text)
    heads = list(HEADER.finditer(text))
    found = {}
    try:
        for k, head in enumerate(heads):
            end = heads[k + 1].start() if k + 1 < len(heads) else len(text)
            shape = number(head.group(3)), number(head.group(4))
            words = re.sub(r"-\s+", "-", text[head.end():end]).split()
            values = numpy.array([number(word) for word in words], dtype="int64").reshape(shape)
            found[head.group(1)] = values.astype(TYPES[head.group(2)])
            if (found[head.group(1)] != values).any():
                raise ValueError
    except (ValueError, OverflowError):
        found = {}
    if not found:
        stop(f"{name} is no array file; `tools/why eval PROGRAM {name}` says where", 4)
    return found


def text_of(arrays):
    """The text of an array file with these arrays, as the program prints one."""
    lines = []
    for name, values in arrays.items():
        lines.append(f"{name} {NAMES[values.dtype]}[{values.shape[0]},{values.shape[1]}]")
        lines += [" ".join(map(str, row)) for row in values.tolist()]
    return "\n".join([*lines, ""])


def refusal_of(name, kind, shape):
    """What the program says of an input of this name, type and shape; nothing where it takes one."""
    with Room() as room:
        program = f"input {name} {kind}[{shape[0]},{shape[1]}]; output {'z' if name == 'y' else 'y'} = {name};"
        return ask("check", room.file("input.ven", program), "1048576").refusal.removeprefix("program ")


def loaded(path):
    """A picture's pixels: numbers of one type, in rows and columns, and for colour in three layers."""
    try:
        if path.lower().endswith(".npy"):
            pixels = numpy.load(path, allow_pickle=False)
        else:
            with Image.open(path) as picture:
                pixels = numpy.array(plain(ImageOps.exif_transpose(picture)))
    except OSError as error:
        stop(f"{path}: {error.strerror or 'no picture that can be read'}", 8)
    except ValueError:
        stop(f"{path} is no .npy file", 8)
    return settled(path, pixels)


def plain(picture):
    """A picture as grey or colour, without transparency, palettes and the like."""
    if picture.mode.startswith("I") or picture.mode in ("L", "RGB"):
        return picture
    if picture.mode in ("RGBA", "LA", "PA") or "transparency" in picture.info:
        print("the picture's transparency is left out", file=sys.stderr)
    grey = picture.mode in ("1", "LA", "L")
    return picture.convert("RGBA").convert("RGB") if not grey else picture.convert("L")


def settled(path, pixels):
    """Pixels of one of the six types, where their values have one."""
    if pixels.ndim not in (2, 3) or pixels.ndim == 3 and pixels.shape[2] != 3 or not pixels.size:
        stop(f"{path} has the shape {list(pixels.shape)}; rows and columns are wanted, and for colour three layers", 4)
    if pixels.dtype.kind == "f":
        stop(f"{path} has numbers with fractions; scale and round them first", 4)
    least, most = int(pixels.min()), int(pixels.max())
    # PIL gives the 16 bits of a grey picture as 32.
    deep = pixels.dtype == "int32" and not path.lower().endswith(".npy")
    if pixels.dtype in NAMES and not deep:
        return pixels
    for kind in ["u16"] if deep else ["i32", "u32"]:
        span = numpy.iinfo(TYPES[kind])
        if span.min <= least and most <= span.max:
            return pixels.astype(TYPES[kind])
    return stop(f"{path} has values from {least} to {most}, more than u32 or i32 holds", 4)


def grey_of(pixels):
    """Colour as grey, with the eye's weights in 256ths."""
    if pixels.ndim == 2:
        return pixels
    weighted = (pixels.astype("int64") * numpy.array([77, 150, 29])).sum(axis=2) >> 8
    return weighted.astype(pixels.dtype)


def may_save(path):
    """Ends the tool where a picture of this name can't be saved, before there is one."""
    if not path.lower().endswith(SUFFIXES):
        stop(f"{path}: a JPEG changes the values; the result ends in {' '.join(SUFFIXES)}", 2)
    if not os.path.isdir(os.path.dirname(path) or "."):
        stop(f"{path}: there is no folder {os.path.dirname(path)}", 14)


def saved(path, pixels, scale=False):
    """Saves pixels as a picture; `scale` spreads the values from black to white."""
    if path.lower().endswith(".npy"):
        numpy.save(path, pixels)
        return
    wide = pixels.astype("int64")
    if scale:
        least, most = wide.min(), wide.max()
        wide = (wide - least) * 255 // max(most - least, 1)
    if wide.min() < 0 or wide.max() > (65535 if pixels.ndim == 2 else 255):
        stop(f"the values go from {wide.min()} to {wide.max()}, which no pixel holds; --scale spreads them from black to white", 4)
    if path.lower().endswith(".pgm") and pixels.ndim == 3 or path.lower().endswith(".ppm") and pixels.ndim == 2:
        stop(f"{path}: .pgm is grey and .ppm is colour, and this picture isn't", 4)
    try:
        if wide.max() > 255:
            Image.fromarray(wide.astype("int32" if path.lower().endswith(".pgm") else "uint16")).save(path)
        else:
            Image.fromarray(wide.astype("uint8")).save(path)
    except OSError as error:
        stop(f"{path}: {error.strerror}", 14)
