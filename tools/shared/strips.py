"""How far a program looks up and down in a picture, so that a large picture can be done in overlapping strips of rows."""
from shared.language import nodes_of


def reach(statements):
    """The rows above and below that a row of an output depends on; nothing where that isn't a few rows.

    A program that looks at all rows, or makes other shapes, has no such number: it reduces, turns rows, stretches, cuts or
    transposes. Shifts and operations at each index have one, and so have rotations of columns alone.
    """
    found = {}
    for statement in statements:
        found[statement.name] = of_node(statement.root, found) if statement.root else (0, 0)
    outputs = [found[it.name] for it in statements if it.word == "output"]
    return None if None in outputs else (max(up for up, _ in outputs), max(down for _, down in outputs))


def of_node(node, found):
    if node.kind == "name":
        return found[node.word]
    below = [of_node(operand, found) for operand in node.operands]
    if None in below:
        return None
    up, down = max((it[0] for it in below), default=0), max((it[1] for it in below), default=0)
    if node.is_reduction or node.is_map and node.word not in ("shift", "rotate"):
        return None
    if node.is_map and node.word == "rotate" and node.numbers[0]:
        return None
    if node.word == "shift" and node.kind == "call":
        return up + max(0, -node.numbers[0]), down + max(0, node.numbers[0])
    return up, down


def whole(statements):
    """The first node for which a picture isn't done in strips, for a message."""
    for statement in statements:
        for node in nodes_of(statement.root) if statement.root else ():
            if node.is_reduction or node.is_map and (node.word not in ("shift", "rotate") or node.word == "rotate" and node.numbers[0]):
                return node.word
    return "@H"


def strips(height, rows, up, down):
    """Strips of `rows` rows: where each begins and ends, and with the rows that it looks at around it."""
    for begin in range(0, height, rows):
        end = min(begin + rows, height)
        yield begin, end, max(0, begin - up), min(height, end + down)


def most_rows(height, up, down, is_taken):
    """The most rows of a strip whose rows with those around it are taken; 0 where none is."""
    low, high = 0, height
    while low < high:
        middle = (low + high + 1) // 2
        low, high = (middle, high) if is_taken(middle + up + down) else (low, middle - 1)
    return low
