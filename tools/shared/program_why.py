"""Why a program breaks a rule: what its operands are, which names there are; the program is asked for types and shapes."""
from shared import places
from shared.language import nodes_of, program_of, text_of
from shared.program import Room, ask
from shared.usage import nearest

LIMITS = {
    "too deep": "an expression is at most 64 nodes high, and at most 64 brackets and prefix signs are open at once; "
                "a `let` for a part of it helps",
    "too many statements": "a program has at most 256 statements",
    "too many nodes": "a program has at most 4096 nodes",
    "bad shape": "both numbers are at least 1, and rows times columns is at most 1048576",
    "bad section": "section(x, r0, nr, sr, c0, nc, sc) takes nr rows from r0 on in steps of sr, and columns so too: no count and "
                   "no step is 0, and the last row and column have to be in x",
    "bad stretch": "stretch(x, kr, kc) gives each row kr times and each column kc times: neither is 0, and the result has at "
                   "most 1048576 elements",
}
WHOLE = {
    "too long": "a program has at most 65536 bytes",
    "no output": "no statement is an `output`, so the program means nothing",
}


def explain(path, text, fault, at, _):
    """The lines for a rule or a limit that a program breaks."""
    if at is None:
        if fault.startswith("too much work"):
            return [f"{path}: the elements of all inputs and nodes are {fault.split()[-1]} together, and at most 16777216: "
                    "smaller arrays, or fewer nodes"]
        return [f"{path}: {WHOLE[fault]}"] if fault in WHOLE else []
    if fault in LIMITS:
        said = places.shown(path, text, at, fault)
        return said + [LIMITS[fault]] + operands(text, at, ("bad section", "bad stretch"), fault)
    statements = program_of(text)
    token = places.token_at(text, at)
    if fault == "unknown":
        return unknown(path, text, at, token, statements)
    if fault == "twice":
        first = next(it for it in statements if it.name == token)
        return [*places.shown(path, text, at, f"`{token}` is declared a second time"),
                *places.shown(path, text, first.at, "it is declared here first")]
    if fault == "literal alone":
        return [*places.shown(path, text, at, "this number stands with no array beside it, which would give it a type"),
                "a number takes the type and shape of the operands beside it, as in `a + 1`"]
    if fault == "literal range":
        return [*places.shown(path, text, at, f"{token} isn't a number of the type of what stands beside it"),
                *operands(text, at, ("literal range",), fault)]
    what = {"type mismatch": "these operands have two types", "shape mismatch": "these operands have two shapes"}.get(fault)
    if not what:
        return places.shown(path, text, at, fault)
    said = places.shown(path, text, at, what) + operands(text, at, (fault,), fault)
    if fault == "type mismatch":
        return said + ["a cast, as `u16(a)`, gives an operand another type"]
    return said + ["`stretch` repeats rows or columns, and `section` takes a part"]


def unknown(path, text, at, token, statements):
    names = [it.name for it in statements if it.at < at]
    later = [it for it in statements if it.name == token and it.at > at]
    said = places.shown(path, text, at, f"no statement before this one declares `{token}`")
    if later:
        line, _ = places.line_and_column(text, later[0].at)
        return said + [f"line {line} declares it, but a name has to be declared before it is used"]
    near = nearest(token, names)
    return said + [f"is `{near[0]}` meant?" if near else "declared before it: " + (", ".join(names) or "nothing")]


def node_at(statements, at, fault):
    """The node at a place; for a literal the one whose operand it is."""
    for statement in statements:
        for node in nodes_of(statement.root) if statement.root else ():
            if node.at == at and fault != "literal range":
                return statement, node
            inside = [it for it in node.operands if it.kind == "literal" and it.at == at]
            if fault == "literal range" and (inside or node.word == "shift" and node.operands[0].end < at < node.end):
                return statement, node
    return None, None


def operands(text, at, faults, fault):
    """What the program says of the operands of the node at a place, a line each."""
    statements = program_of(text)
    if fault not in faults or not statements:
        return []
    statement, node = node_at(statements, at, fault)
    if not node:
        return []
    said = []
    for operand in node.operands:
        if operand.kind != "literal":
            said.append(f"    `{text_of(text, operand)}` is {type_and_shape(text, statement, operand)}")
    return said


def type_and_shape(text, statement, node):
    """The type and shape of a node, as `u8[5,6]`: the program is asked for an output of it behind the statements before."""
    head = text[:text.rfind(statement.word.encode(), 0, statement.at)]
    name = next(f"x{k}" for k in range(1000) if f"x{k}".encode() not in text)
    asked = head + f"output {name} = ".encode() + text[node.start:node.end] + b"\n;"
    with Room() as room:
        answer = ask("check", room.file("part.ven", asked), "1048576")
    found = [line.split()[1] for line in answer.text.splitlines() if line.startswith(f"{name} ")]
    return found[0] if found else "unknown"
