"""Which statement and expression each pass of a program comes from: the rules of docs/COMPILER.md, "Cuts" and "Trees".

The program prints its passes without saying where they come from, so this is worked out here, and compared with what it prints.
"""
from collections import Counter
from dataclasses import dataclass, field

from shared.language import ROWS, WHOLES, Node, nodes_of

COMPARISONS = ("==", "!=", "<", "<=", ">", ">=")
MOST_HEIGHT = 64


@dataclass
class Tree:
    """A tree of a pass: a leaf has the array that it reads and its map, an inner node what was added to the text, if anything."""
    kind: str
    node: Node
    operands: list = field(default_factory=list)
    array: str = ""
    added: str = ""

    def inner(self):
        """The inner nodes, a node before its operands."""
        if self.kind == "inner":
            yield self
        for operand in self.operands:
            yield from operand.inner()

    def leaves(self):
        if self.kind == "leaf":
            yield self
        for operand in self.operands:
            yield from operand.leaves()

    @property
    def height(self):
        return 1 + max((operand.height for operand in self.operands), default=0)


@dataclass
class Pass:
    """A pass: its kind, its tree, the node that it makes, and for a whole reduction's second pass the first one's number."""
    kind: str
    statement: object
    node: Node
    tree: Tree
    first: int = 0


class Split:
    """The passes of a program, in order."""

    def __init__(self, statements):
        self.statements = {it.name: it for it in statements}
        self.passes = []
        self.made = {}
        names = Counter(node.word for it in statements if it.root for node in nodes_of(it.root) if node.kind == "name")
        mapped = {node.operands[0].word for it in statements if it.root for node in nodes_of(it.root)
                  if node.is_map and node.operands[0].kind == "name"}
        self.cuts = set()
        for statement in statements:
            if statement.root:
                self.cut(statement, names, mapped)
                self.walk(statement, statement.root)

    def cut(self, statement, names, mapped):
        """Marks the cuts of a statement."""
        for node in nodes_of(statement.root):
            if node.is_reduction:
                self.cuts.add(id(node))
            if node.is_map and node.operands[0].kind != "name":
                self.cuts.add(id(node.operands[0]))
        name = statement.name
        if statement.word == "output" or names[name] > 1 or name in mapped:
            self.cuts.add(id(statement.root))
        elif self.tree(statement.root, True).height > MOST_HEIGHT:
            self.cuts.add(id(statement.root))

    def walk(self, statement, node):
        """Makes the passes of a node's cuts, operands first."""
        for operand in node.operands:
            self.walk(statement, operand)
        if id(node) in self.cuts:
            self.make(statement, node)

    def make(self, statement, node):
        if not node.is_reduction:
            self.passes.append(Pass("map", statement, node, normal(self.tree(node, True))))
        else:
            kind = {**ROWS, **WHOLES}[node.word]
            self.passes.append(Pass(kind, statement, node, normal(self.tree(node.operands[0], False))))
            if node.word in WHOLES:
                first = len(self.passes)
                rows = Tree("leaf", node, [], f"pass {first}")
                self.passes.append(Pass(kind, statement, node, normal(rows), first))
        self.made[id(node)] = f"pass {len(self.passes)}"

    def array_of(self, node):
        """The array that a map reads from: an input, or what a pass makes."""
        if node.kind == "name" and id(node) not in self.cuts:
            statement = self.statements[node.word]
            return "an input" if statement.word == "input" else self.made.get(id(statement.root), "")
        return self.made.get(id(node), "")

    def tree(self, node, own):
        """The tree of a node, before it is normalised; `own` says that it is the pass's own root."""
        if id(node) in self.cuts and not own:
            return Tree("leaf", node, [], self.made.get(id(node), ""))
        if node.kind == "literal":
            return Tree("literal", node)
        if node.kind == "name":
            statement = self.statements[node.word]
            if statement.word == "input":
                return Tree("leaf", node, [], "an input")
            if id(statement.root) in self.cuts:
                return Tree("leaf", node, [], self.made.get(id(statement.root), ""))
            return self.tree(statement.root, False)
        if node.is_map:
            return Tree("leaf", node, [], self.array_of(node.operands[0]))
        return Tree("inner", node, [self.tree(operand, False) for operand in node.operands])


def normal(tree, at_root=True):
    """A tree in its normal form: conditions compared, and what a select or a pass writes copied where it is only read."""
    if tree.kind == "inner":
        operands = [normal(operand, False) for operand in tree.operands]
        if tree.node.word == "select":
            condition, _, third = operands
            if condition.kind != "inner" or condition.added or condition.node.word not in COMPARISONS:
                operands[0] = Tree("inner", condition.node, [condition, Tree("literal", condition.node)], "", "compared with 0")
            if third.kind != "inner":
                operands[2] = Tree("inner", third.node, [third], "", "copied")
        tree = Tree("inner", tree.node, operands, "", tree.added)
    if at_root and (tree.kind != "inner" or tree.node.word == "select" and not tree.added):
        return Tree("inner", tree.node, [tree], "", "copied")
    return tree
