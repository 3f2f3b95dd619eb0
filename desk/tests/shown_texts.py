"""Finds every text that a page of the desk can show, for the test of the languages: prints them, and what it cannot
find, as JSON. It needs Jinja, which Debian's own python has.

A text stands as a literal in a call of `text`, `many` or `_`, or in one of the tables of `TABLES`. A call whose text is
neither, words in a template outside a call, and a sentence in a module outside a call are what it cannot find.
"""
import ast
import datetime
import html.parser
import itertools
import json
import pathlib
import re
import sys

import jinja2
from jinja2 import nodes

DESK = pathlib.Path(__file__).resolve().parent.parent
sys.path.insert(0, str(DESK))
from exam_desk import (appeals, backups, copies, files, keeping, lodging, mistakes, notebook, reasons,  # noqa: E402
                       refusals, second_sitting, snapshot, turns, typed, words)
from exam_desk.workbook import cells, child, ods, opening, values, xlsx  # noqa: E402
from exam_web import proposals, wording  # noqa: E402

DAYS = [datetime.date(2027, 3, day) for day in range(1, 8)]
MONTHS = [datetime.date(2027, month, 1) for month in range(1, 13)]
CHAPTERS = set(re.findall("^## (.+)", (DESK.parent / "docs/HANDBOOK.md").read_text("utf-8"), re.M))
RAISED = [call.args[0].value for path in (DESK / "exam_desk").glob("*.py")  # sentences without a value
          for call in ast.walk(ast.parse(path.read_text("utf-8"))) if isinstance(call, ast.Call)
          and ast.unparse(call.func) == "Trouble" and isinstance(call.args[0], ast.Constant)]
OTHERWISE = wording.LANGUAGES["en"].keys() & {*RAISED, keeping.RUNS}  # said as no command says them
SAID = [*refusals.SENTENCES.values(), *refusals.OTHER.values(), *OTHERWISE]
CURES = [cure.removesuffix(typed.OF_A_SHEET) for cure in mistakes.CURES.values()]
OPENED = [cells.PASSWORD, opening.NO_UTF_8, opening.NO_WORKBOOK, opening.OLD_FORM,  # why a file is not read
          backups.NO_OFFICE, backups.SEVERAL, backups.ALONE, backups.BROKEN, backups.TOO_LARGE]
OF_COMMANDS = re.compile("header|column|first line|UTF-16|split it|^these are|file is empty|access code;|SELECT|NOTE|"
                         "office (take|withdraw|read)|--codes|looked for|file fault|refused|chmod|seven names|"
                         r"^\{0\}(:| line)")  # no page shows these


def sentences(module):
    """The texts in the functions of a module: where values are put in, {0} and so on stand in their places."""
    for function in ast.walk(ast.parse(pathlib.Path(module.__file__).read_text("utf-8"))):
        if isinstance(function, ast.FunctionDef):
            described = function.body[bool(ast.get_docstring(function)):]
            parts = [part for each in described for part in ast.walk(each)]
            within = {id(value) for part in parts if isinstance(part, ast.JoinedStr) for value in ast.walk(part)}
            for part in parts:
                if isinstance(part, ast.Constant) and isinstance(part.value, str) and id(part) not in within:
                    yield part.value
                elif isinstance(part, ast.JoinedStr):
                    places = itertools.count()
                    yield "".join(value.value if isinstance(value, ast.Constant) else "{%d}" % next(places)
                                  for value in part.values)


OF_KEEP = re.compile("^serving {|^process {|^no answer within|^`keep` (runs|does)|^the last line|"
                     r"cannot be had: \{1")
OF_FILES = re.compile(r"^it (has|is|takes|asks|holds) .* |^its (XML|part)|MB come out|^a (part|quote|piece|cell) |^one of its rows|"
                      r"^the sheet \{0} holds|^\{0} holds no office|made \{0};|seconds are over|with the day")
FORMED = [*filter(OF_FILES.search, itertools.chain(*map(sentences, [
    cells, child, ods, opening, xlsx, snapshot, turns, lodging]))), cells.OPEN_AND_SAVE,
          *mistakes.CURES.values(), *mistakes.SELDOM.values(), mistakes.EMPTY_ROW, files.NO_UTF_8, *(
    each for module in (mistakes, refusals) for each in sentences(module)
          if re.search(r"[a-z]{2,}\b.* |.* .*\b[a-z]{2,}", each) and not OF_COMMANDS.search(each)),
          *filter(OF_KEEP.search, sentences(keeping)), "Address already in use",
          *filter(re.compile(r"^line |^a (row|\{0}) has|digits$|above$").search, sentences(files)),
          *filter(re.compile(r"^session \{|^[^;]+ [^;]+; nothing is changed$").search, sentences(second_sitting)),
          *filter(re.compile("^nothing is noted|nobody can have been").search, sentences(notebook)),
          *filter(re.compile("is no candidate number").search, sentences(typed)),
          *filter(re.compile(r"is meant$|is meant \(|\d} digits;|none of the|two digits|too, |^there is no"
                             r"|Write |not a time").search, sentences(values)), "has seconds: {0}",
          "NOTE: who only did not come stays entered, or is reinstated first: `office absent {0} {1}` notes it",
          "NOTE: absences of {0} are noted from {1}: `office absent {2} --there NUMBER` takes one back",
          *(f"{{0}} {word}" for word in ("number", "numbers", "candidate", "candidates", "desk", "desks", "(new)")),
          "{0} and {1} more", "line {0}"]
REASONS = [*(f"no {name}" for name in words.FEATURES), reasons.CLOSES + "{0}", "barred by a granted appeal", "suits",
           "but {0} of {1} desks are taken"]  # why a hall does not suit, parted at commas
OWN = [*REASONS, proposals.OTHER_OFFICE, proposals.WRONG_DESK, proposals.COMPARING, proposals.LODGING]
TABLES = {  # by what stands in the call
    "appeals.KINDS[row.kind]": appeals.KINDS.values(), "appeals.STATES[row.state]": appeals.STATES.values(),
    "kind": appeals.KINDS.values(),
    "mistakes.CURES[column].removesuffix(typed.OF_A_SHEET)": CURES,
    "v.kind": appeals.KINDS.values(),
    "f'{date:%a}'": [f"{date:%a}" for date in DAYS], "f'{date:%b}'": [f"{date:%b}" for date in MONTHS],
}
SENTENCE = re.compile(r"[a-z]{2,} [a-z]{2,}.* [a-z]{2,}")
SQL = re.compile(r"\s*(SELECT|FROM|WHERE|ORDER|JOIN|AND|GROUP|HAVING)\b|.*\b(SELECT|FROM entry|JOIN)\b")
OF_STRANGERS = {"guard.py"}  # it speaks to who is not in
PLAIN = {"examoffice", "csv", "aria", "invalid", "true", "describedby", "fault", "id"}  # no words of a language
NO_TEXTS = {"the form has all values"}  # of an assertion
ATTRIBUTES = {"title", "placeholder", "aria-label", "alt", "data-busy", "data-working", "data-nothing"}
found, lost = set(), []


def take(place, call, literal, texts):
    """Takes the texts of a call: a literal, or what a table has under the words that stand there."""
    if literal is not None:
        found.add(literal)
    elif texts in TABLES:
        found.update(TABLES[texts])
    else:
        lost.append(f"{place}: {call}({texts})")


class Modules(ast.NodeVisitor):
    """The calls in a module, and the sentences outside them."""

    def __init__(self, path):
        self.path, self.inside = path, 0

    def visit_Call(self, call):
        name = call.func.id if isinstance(call.func, ast.Name) else ""
        if name == "Trouble" and self.path.name == "application.py":  # the terminal says it
            return
        if name not in ("text", "many", "said"):
            self.generic_visit(call)
            return
        if name != "said" and self.path.name != "wording.py":
            for value in call.args[:1] if name == "text" else call.args[1:3]:
                self.take(name, value)
        self.inside += 1
        self.generic_visit(call)
        self.inside -= 1

    def take(self, name, value):
        if isinstance(value, ast.IfExp):
            self.take(name, value.body)
            self.take(name, value.orelse)
            return
        literal = value.value if isinstance(value, ast.Constant) else None
        take(self.path.name, name, literal, ast.unparse(value))

    def visit_Constant(self, constant):
        known = {*OWN, proposals.COMPARING, proposals.LODGING, *(each for table in TABLES.values() for each in table)}
        if (isinstance(constant.value, str) and not self.inside and constant.value not in known
                and SENTENCE.search(constant.value) and not SQL.match(constant.value)
                and constant.value not in NO_TEXTS):
            lost.append(f"{self.path.name}:{constant.lineno}: {constant.value!r}")

    def visit_Expr(self, expression):
        if not isinstance(expression.value, ast.Constant):  # else it is what describes a function
            self.generic_visit(expression)


class Words(html.parser.HTMLParser):
    """What a template says outside its calls."""

    def __init__(self, path):
        super().__init__()
        self.path = path

    def handle_data(self, data):
        self.look(data)

    def handle_starttag(self, tag, attrs):
        for name, value in attrs:
            if name in ATTRIBUTES:
                self.look(value or "")

    def look(self, data):
        for word in re.findall(r"[^\W\d_]{2,}", data):
            if word not in PLAIN:
                lost.append(f"{self.path.name}: {data.strip()!r} stands outside a call")


def spelled(node):
    """An expression of a template, as it stands there."""
    if isinstance(node, nodes.Name):
        return node.name
    if isinstance(node, nodes.Getattr):
        return f"{spelled(node.node)}.{node.attr}"
    if isinstance(node, nodes.Getitem):
        return f"{spelled(node.node)}[{spelled(node.arg)}]"
    return repr(node)


def of_template(path):
    source = path.read_text("utf-8")
    for call in jinja2.Environment().parse(source).find_all(nodes.Call):
        name = call.node.name if isinstance(call.node, nodes.Name) else ""
        for value in call.args[:1] if name == "_" else call.args[1:3] if name == "many" else ():
            parts = [value.expr1, value.expr2] if isinstance(value, nodes.CondExpr) else [value]
            for part in parts:
                take(path.name, name, part.value if isinstance(part, nodes.Const) else None, spelled(part))
        if isinstance(call.node, nodes.Getattr) and call.node.attr == "help" and call.args[1].value not in CHAPTERS:
            lost.append(f"{path.name}: the handbook has no chapter {call.args[1].value}")
    words = Words(path)
    words.feed(re.sub(r"{%.*?%}|{{.*?}}|{#.*?#}", " ", source, flags=re.S))


def main():
    for path in sorted((DESK / "exam_web").glob("*.py")):
        if path.name not in OF_STRANGERS:
            Modules(path).visit(ast.parse(path.read_text("utf-8")))
    for path in sorted((DESK / "exam_web/templates").glob("*.html")):
        of_template(path)
    found.update(re.findall(r'\btext\("((?:[^"\\]|\\.)*)"', (DESK / "exam_web/wording.py").read_text("utf-8")))
    for table in TABLES.values():
        found.update(table)
    found.update(SAID, OPENED, FORMED, OWN, second_sitting.TEXTS, [copies.OTHERS, copies.UNKNOWN],
                 [appeals.LOST, appeals.OTHERWISE, appeals.STANDING, appeals.GONE])
    print(json.dumps({"found": sorted(found), "lost": lost}))


main()
