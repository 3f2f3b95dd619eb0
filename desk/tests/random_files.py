"""Import files at random, most of them wrong somewhere, and what the program must say of each.

`Schools` puts the desk's verdict beside the program's: over offices that know nothing, or some kinds of rows, or all.
"""
import collections
import contextlib
import datetime
import pathlib
import random
import shutil
import subprocess

import sample
from exam_desk import files, mistakes, snapshot
from exam_desk.office import Office

UNKNOWN = {"sessions": 4, "papers": 5, "candidates": 6, "halls": 7}  # the refusals of what the office does not have
VALUES = [
    b"", b" ", b"-", b"0", b"00", b"01", b"1", b"2001", b"2000", b"600", b"601", b"100", b"101", b"+1", b"1.0", b"0001000",
    b"1000", b"00010000", b"0000000", b"9999999", b"2027-02-29", b"2028-02-29", b"2000-01-10", b"2000-01-11",
    b"2199-12-31", b"2200-01-01", b"0000-00-00", b"2027-6-7", b"24:00", b"24:01", b"23:59", b"9:00", b"09:60", b"yes",
    b"no", b"YES", b"step-free", b"screen+reader", b"reader+screen", b"quiet+quiet", b"-+quiet", b"quiet+", b"MON-AM",
    b"mon-am", b"PC1", b"AULA", b"A" * 12, b"A" * 13, b"A" * 8, b"A" * 9, b"x" * 80, b"x" * 81, "é".encode() * 40,
    "é".encode() * 41, b"\xff", b"\xc3", b"\xed\xa0\x80", b"\xf4\x90\x80\x80", b"\xc0\x80", b"\xf0\x9f\x92\xa9", b"a\0b",
    b"a\x7fb", b"a\x80b", b"\xc2\x85", b"\xe2\x80\xa8", files.BOM, b"ABCDEFGH", b"ABCDEFG", b"A" * 16, b"A" * 17,
    "١٢٣٤٥٦٧".encode(), "０００１０００".encode(), b"1e5", b"\t1", b"1\n", b"MA-1", b"=1+1", b'"', b'""', b'a"b', b"'", b"\\",
    b'\\"', b"a,b", b"a\nb", b"a\rb", b"a\r\nb", b"100\xe9",
    "Åsa".encode(), b"a\x0bb"]
SIGNS = [b'"', b",", b"\n", b"\r", b"\0", b"\xff", b"-", b" ", b"0"]
KNOWN = [7, 7, 7, 5, 3, 1, 0]  # how many kinds of rows an office has


def bad_column(kind: str, record: files.Record) -> int | None:
    """The first bad column of a record, from 1; 0 for a wrong count of fields, None where all is right."""
    if len(record.fields) != len(files.HEADERS[kind]):
        return 0
    rights = (right(field) for field, right in zip(record.fields, files.FORMS[kind]))
    return next((place for place, is_right in enumerate(rights, 1) if not is_right), None)


def first_refusal(kind: str, text: bytes, known: mistakes.Known) -> str | None:
    """What the program says of a file, over an office that knows this: its line, or None where it takes the file."""
    if len(text) > files.MOST_BYTES:
        return "refused 20"
    header, *found = [*files.records(text)] or [None]
    if not files.is_header(kind, header):
        return "refused 2"
    seen: dict = {}
    for place, record in enumerate(found, 1):
        column = bad_column(kind, record)
        if column is not None:
            return f"refused 1 record {place} column {column}"
        if seen.setdefault(files.key_of(kind, record.fields), record.fields) != record.fields:
            return f"refused 3 record {place}"
    for record in found:
        for column, table in files.REFERENCES[kind].items():
            if record.fields[files.HEADERS[kind].index(column)] not in known.keys[table]:
                return f"refused {UNKNOWN[table]}"
    known.take(kind, [record.fields for record in found])
    return None


class RandomFile:
    """The bytes of a file: some rows of the sample school, spoiled here and there."""

    def __init__(self, rows: list[tuple[bytes, ...]], chance: random.Random) -> None:
        self.chance = chance
        head, *body = rows
        self.head = list(head)
        self.rows = [list(row) for row in chance.sample(body, min(len(body), chance.randint(0, 4)))]
        for _ in range(chance.choice([0, 1, 1, 1, 2])):
            self.spoil_values()
            self.spoil_header()
        self.end = chance.choice([b"\n", b"\n", b"\r\n", b"\r"])

    def happens(self, share: float) -> bool:
        return self.chance.random() < share

    def spoil_values(self) -> None:
        if not self.rows:
            return
        row = self.chance.choice(self.rows)
        if row and self.happens(.8):
            place = self.chance.randrange(len(row))
            before = self.chance.randbytes(self.chance.randint(0, 3))
            row[place] = self.chance.choice(VALUES) if self.happens(.7) else before + row[place]
        if self.happens(.1):
            self.rows.append(list(self.chance.choice(self.rows)))
        if self.happens(.05):
            row.append(self.chance.choice([b"", b"x"]))
        if row and self.happens(.05):
            row.pop()

    def spoil_header(self) -> None:
        if self.happens(.04):
            spelt = [*VALUES, self.head[0].upper(), self.head[0] + b" "]
            self.head[self.chance.randrange(len(self.head))] = self.chance.choice(spelt)
        if self.happens(.02):
            self.head.append(b"")
        if len(self.head) > 1 and self.happens(.02):
            self.head.pop()

    def written(self, value: bytes) -> bytes:
        """A value as it stands in the file: in quotes, in some that are wrong, or bare."""
        quoted = b'"' + value.replace(b'"', b'""') + b'"'
        dice = self.chance.random()
        for share, text in [(.12, quoted), (.14, b'"' + value), (.15, value + b'"'),
                            (.16, quoted + self.chance.choice([b"x", b" ", b'"', b'""', b'"x"'])), (.17, b" " + quoted)]:
            if dice < share:
                return text
        return value if self.happens(.1) or not any(sign in value for sign in b',"\r\n') else quoted

    def text(self) -> bytes:
        head = b",".join(value if self.happens(.97) else self.written(value) for value in self.head)
        lines = [head, *(b",".join(map(self.written, row)) for row in self.rows)]
        text = self.end.join(lines) + self.end * self.happens(.8)
        return self.spoiled(text)

    def spoiled(self, text: bytes) -> bytes:
        """A file as a whole: a byte order mark, blank lines, other commas, an open quote, other bytes."""
        end = self.end
        spoils = [(.06, lambda: files.BOM + text), (.07, lambda: files.BOM * 2 + text),
                  (.10, lambda: text.replace(end, end * 2)), (.12, lambda: end + text),
                  (.13, lambda: text.replace(end, b" " + end, 1)),
                  (.14, lambda: text.replace(b",", self.chance.choice([b";", b"\t"]))), (.15, lambda: b""),
                  (.19, lambda: b',"'.join(text.rstrip(b"\r\n").rsplit(b",", 1))), (.26, lambda: self.with_signs(text))]
        dice = self.chance.random()
        return next((spoil() for share, spoil in spoils if dice < share), text)

    def with_signs(self, text: bytes) -> bytes:
        changed = bytearray(text)
        for _ in range(self.chance.randint(1, 3) if text else 0):
            place = self.chance.randrange(len(changed) + 1)
            changed[place:place + self.chance.randint(0, 1)] = self.chance.choice(SIGNS)
        return bytes(changed)


class Schools:
    """Offices with the first kinds of rows of the sample school, in a folder."""

    def __init__(self, folder: str, seed: int) -> None:
        self.folder, self.chance = pathlib.Path(folder), random.Random(seed)
        self.rows = {kind: [record.fields for record in files.records(self.example(kind))] for kind in files.HEADERS}
        self.known = {count: self.made(count) for count in sorted(set(KNOWN))}
        self.counts: collections.Counter[str] = collections.Counter()

    def example(self, kind: str) -> bytes:
        return (sample.TOP / "examples" / f"{kind}.csv").read_bytes()

    def made(self, count: int):
        """The rows of an office with so many kinds."""
        path = self.folder / str(count) / "office.db"
        path.parent.mkdir()
        self.said(path, "init")
        for kind in list(files.HEADERS)[:count]:
            self.said(path, "import", kind, str(sample.TOP / "examples" / f"{kind}.csv"))
        return snapshot.rows(Office(str(path), "", datetime.date.today, ""))

    def close(self) -> None:
        for connection in self.known.values():
            connection.close()

    def said(self, path: pathlib.Path, *words: str) -> str | None:
        """The program's complaint, or None."""
        line = [sample.built_program(), "--db", str(path), "--today", sample.TODAY, *words]
        return subprocess.run(line, capture_output=True, encoding="utf-8", check=False).stderr.strip() or None

    def verdict(self, count: int, kind: str, text: bytes) -> str | None:
        """The program's complaint of a file, over a copy of an office."""
        work = self.folder / "work"
        shutil.rmtree(work, ignore_errors=True)
        shutil.copytree(self.folder / str(count), work)
        (work / "file.csv").write_bytes(text)
        return self.said(work / "office.db", "import", kind, str(work / "file.csv"))

    def try_one(self) -> str | None:
        """Tries a file; what is wrong with the desk's words, or None."""
        kind, count = self.chance.choice(list(files.HEADERS)), self.chance.choice(KNOWN)
        text = RandomFile(self.rows[kind], self.chance).text()
        said = self.verdict(count, kind, text)
        self.counts.update(files=1, taken=said is None)
        fault = self.fault(kind, count, text, said) or self.wrong_place(kind, count, text, said)
        return f"{kind}, {count} kinds known, {text[:300]!r}, {said}: {fault}" if fault else None

    def fault(self, kind: str, count: int, text: bytes, said: str | None) -> str | None:
        """Where the desk's verdict is not the program's. Of references that it cannot compare it says so."""
        wrong, notes = mistakes.looked_through(kind, text, mistakes.Known(self.known[count]))
        uncompared = any(note.text.endswith("so these are not compared") for note in notes)
        if bool(wrong) != (said is not None) and not (uncompared and said in ("refused 4", "refused 6", "refused 7")):
            return f"check-files finds {[*wrong]}"
        first = first_refusal(kind, text, mistakes.Known(self.known[count]))
        return None if first == said else f"the desk's reader says {first}"

    def wrong_place(self, kind: str, count: int, text: bytes, said: str | None) -> str | None:
        """Where a record of the desk begins at another line than the program's, or has another quote left open: the
        program counts the records of the lines before it, and finds one more behind a file that it takes."""
        found = list(files.records(text))
        if said is None and found:
            behind = self.verdict(count, kind, text + b"\n?\n") == f"refused 1 record {len(found)} column 0"
            self.counts.update(ends=1)
            return None if behind == found[-1].closed else f"the last record {found[-1]}"
        if said and said.startswith(("refused 1 ", "refused 3 ")):
            place = int(said.split(" ")[3])
            lines = b"".join(text.splitlines(keepends=True)[:found[place].line - 1])
            self.counts.update(lines=1)
            if self.verdict(count, kind, lines + b"?\n") != f"refused 1 record {place} column 0":
                return f"record {place} in line {found[place].line}"
        return None


@contextlib.contextmanager
def schools(folder: str, seed: int):
    made = Schools(folder, seed)
    try:
        yield made
    finally:
        made.close()
