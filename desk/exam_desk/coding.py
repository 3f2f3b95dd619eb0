"""Access codes at random for candidates who have none, or whose code is lost; and other names for candidates."""
import secrets
from collections.abc import Mapping

from exam_desk import files, mistakes, snapshot
from exam_desk.changing import Step
from exam_desk.office import Office, NoCandidate, Trouble

LETTERS, DIGITS, LENGTH = "BCDFGHJKMNPQRSTVWXYZ", "23456789", 10


def read(text: bytes, path: str) -> list[list[str]]:
    """The rows of a file after the header. Raises `Trouble` where an import would not take them, empty codes apart."""
    found, forms = [], files.FORMS["candidates"]
    for row in files.below_header(text, path, files.HEADERS["candidates"]):
        coded = [*row.fields[:2], *(code or b"AAAAAAAA" for code in row.fields[2:])]
        if len(coded) != len(forms) or not all(right(value) for right, value in zip(forms, coded)):
            wrong, _ = mistakes.looked_through("candidates", text, mistakes.Known())
            why = "; ".join(f"{each.what}: {each.text}" for each in wrong if each.line == row.line)
            raise Trouble(f"line {row.line}: {why}", path)
        found.append([value.decode() for value in row.fields])
    return found


def new_code(taken: set[str]) -> str:
    """A code that is not taken; it is then."""
    while True:
        code = secrets.choice(LETTERS) + "".join(secrets.choice(LETTERS + DIGITS) for _ in range(LENGTH - 1))
        if code not in taken:
            taken.add(code)
            return code


def filled(rows: list[list[str]], known: Mapping[str, str]) -> tuple[list[list[str]], int]:
    """The rows, where each without a code has that of its number, or a new one; and how many are new."""
    codes = {**known, **{number: code for number, _, code in rows if code}}
    taken, had = set(codes.values()), len(codes)
    for number, _, code in rows:
        if number not in codes:
            codes[number] = new_code(taken)
    return [[number, name, code or codes[number]] for number, name, code in rows], len(codes) - had


def coded(office: Office, path: str, new: list[str]) -> tuple[list[list[str]], int, int]:
    """The rows of a file, each with a code: its own, else that of the office, else a new one, as those get who are to
    have a new one; how many are new, and how many are the office's. Raises `Trouble` as `read`."""
    rows = read(files.read(path, office.warn), path)
    if missing := [number for number in new if number not in {row[0] for row in rows}]:
        raise Trouble(f"{missing[0]} is not in {path}")
    empty = [[number, name, "" if number in new else code] for number, name, code in rows]
    known = {number.decode(): code.decode() for number, code in mistakes.office_knows(office).codes.items()
             if number.decode() not in new}
    found, made = filled(empty, known)
    return found, made, sum(not code and number in known for number, _, code in empty)


def other_rows(office: Office, numbers: list[str], name: str | None = None) -> tuple[Step, str]:
    """The import of candidates with another name and the same code, or without a name with another code; and the name
    of the state that it is for. Raises `Trouble` where nobody has a number, or it is no name."""
    with snapshot.rows(office) as connection:
        rows = {row[0]: row for row in files.rows_of(connection, "candidates")}
        state = snapshot.name_of(connection)
    if missing := [number for number in numbers if number not in rows]:
        raise NoCandidate(missing[0])
    if name is not None and not files.is_name(name.encode("utf-8", "surrogateescape")):
        raise Trouble("a name has 1 to 80 bytes and no control characters")
    taken = {code for _, _, code in rows.values()}
    changed = [[number, rows[number][1], new_code(taken)] if name is None else [number, name, rows[number][2]]
               for number in dict.fromkeys(numbers)]
    title = f"{'name' if name is not None else 'code'} of {', '.join(numbers)}"
    return Step(("import", "candidates", title), files.file_of("candidates", changed)), state
