"""Mistakes that can be planted in a text of python, by what stands there: `plant-desk` says what each kind is."""
import ast
import itertools
from collections.abc import Iterator
from typing import NamedTuple

OTHER = {ast.Lt: ("<", "<="), ast.LtE: ("<=", "<"), ast.Gt: (">", ">="), ast.GtE: (">=", ">"), ast.Eq: ("==", "!="),
         ast.NotEq: ("!=", "=="), ast.In: ("in", "not in"), ast.NotIn: ("not in", "in"), ast.Is: ("is", "is not"),
         ast.IsNot: ("is not", "is")}


class Mistake(NamedTuple):
    """A part of a file in other words."""
    file: str  # its name
    line: int
    kind: str
    start: int  # in bytes
    end: int
    new: str

    def planted(self, text: bytes) -> bytes:
        return text[:self.start] + self.new.encode() + text[self.end:]

    def shown(self, text: bytes) -> str:
        """The lines that change, as they are and as they would be."""
        begin = text.rfind(b"\n", 0, self.start) + 1
        end = text.find(b"\n", self.end)
        other = text[begin:self.start] + self.new.encode() + text[self.end:end]
        return (f"{self.file}:{self.line}: {self.kind}\n"
                f"  - {' '.join(text[begin:end].decode().split())}\n  + {' '.join(other.decode().split())}\n")


class Text:
    """A file, and the mistakes that can be planted there."""

    def __init__(self, file: str, text: bytes) -> None:
        self.file, self.text = file, text
        self.lines = [0, *itertools.accumulate(len(line) + 1 for line in self.text.split(b"\n"))]

    def place(self, line: int, column: int) -> int:
        return self.lines[line - 1] + column

    def span(self, node: ast.AST) -> tuple[int, int]:
        return self.place(node.lineno, node.col_offset), self.place(node.end_lineno, node.end_col_offset)

    def mistake(self, kind: str, node: ast.AST, start: int, end: int, new: str) -> Mistake:
        return Mistake(self.file, node.lineno, kind, start, end, new)

    def between(self, kind: str, left: ast.AST, right: ast.AST, old: str, new: str) -> Mistake:
        """Another sign or word between two values."""
        start = self.text.index(old.encode(), self.span(left)[1], self.span(right)[0])
        return self.mistake(kind, left, start, start + len(old), new)

    def mistakes(self) -> Iterator[Mistake]:
        """All mistakes of the file, but for those in types."""
        kinds = [self.gone, self.other, self.either, self.turned, self.all, self.more, self.without, self.unsorted]
        for node in nodes(ast.parse(self.text)):
            for kind in kinds:
                yield from kind(node)

    def gone(self, node: ast.AST) -> Iterator[Mistake]:
        sets = isinstance(node, ast.Assign) and isinstance(node.targets[0], (ast.Attribute, ast.Subscript))
        calls = isinstance(node, ast.Expr) and not isinstance(node.value, ast.Constant)
        if sets or calls or isinstance(node, (ast.Raise, ast.AugAssign, ast.Continue, ast.Break, ast.Delete)):
            yield self.mistake("gone", node, *self.span(node), "pass")

    def other(self, node: ast.AST) -> Iterator[Mistake]:
        if isinstance(node, ast.Compare):
            for left, sign, right in zip([node.left, *node.comparators], node.ops, node.comparators):
                yield self.between("other", left, right, *OTHER[type(sign)])

    def either(self, node: ast.AST) -> Iterator[Mistake]:
        if isinstance(node, ast.BoolOp):
            words = ("and", "or") if isinstance(node.op, ast.And) else ("or", "and")
            for left, right in zip(node.values, node.values[1:]):
                yield self.between("either", left, right, *words)

    def turned(self, node: ast.AST) -> Iterator[Mistake]:
        if isinstance(node, (ast.If, ast.IfExp, ast.While)) and not isinstance(node.test, (ast.Compare, ast.Constant)):
            start, end = self.span(node.test)
            yield self.mistake("turned", node.test, start, end, f"(not ({self.text[start:end].decode()}))")

    def all(self, node: ast.AST) -> Iterator[Mistake]:
        if isinstance(node, ast.comprehension):
            for condition in node.ifs:
                yield self.mistake("all", condition, *self.span(condition), "True")

    def more(self, node: ast.AST) -> Iterator[Mistake]:
        if isinstance(node, ast.Constant) and type(node.value) in (int, float):
            yield self.mistake("more", node, *self.span(node), repr(node.value + 1))

    def without(self, node: ast.AST) -> Iterator[Mistake]:
        """A keyword argument that follows another argument."""
        if isinstance(node, ast.Call):
            before = [*node.args, *(each.value for each in node.keywords)]
            for place, keyword in enumerate(node.keywords, len(node.args)):
                if place and keyword.arg:
                    yield self.mistake("without", keyword, self.span(before[place - 1])[1], self.span(keyword)[1], "")

    def unsorted(self, node: ast.AST) -> Iterator[Mistake]:
        if isinstance(node, ast.Call) and isinstance(node.func, ast.Name) and node.func.id == "sorted":
            new = "(lambda them, **_: list(them))"
            yield self.mistake("unsorted", node, *self.span(node.func), new)


def nodes(node: ast.AST) -> Iterator[ast.AST]:
    """What stands in a tree, without types, and without what stands in texts: python 3.11 does not say where."""
    yield node
    for name, value in ast.iter_fields(node):
        if name not in ("annotation", "returns") and not isinstance(node, ast.JoinedStr):
            for child in value if isinstance(value, list) else [value]:
                if isinstance(child, ast.AST):
                    yield from nodes(child)
