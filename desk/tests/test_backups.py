"""Backups that somebody brings: what becomes of their bytes, whoever made them."""
import contextlib
import errno
import io
import os
import pathlib
import sqlite3
import stat
import unittest
import zipfile
from unittest import mock

import sample
from exam_desk import backups, changing, copies, files, notebook, private, snapshot
from exam_desk.office import Stale, Trouble

APPEAL = "INSERT INTO appeal VALUES (1051, 'HA1', 'MON-AM', 1, 'PC1', 0, 0, 'x', 1, NULL, '2027-05-01')"


def zipped(parts, form=zipfile.ZIP_DEFLATED):
    """A zip of these parts, by name."""
    out = io.BytesIO()
    with zipfile.ZipFile(out, "w", form) as archive:
        for name, content in parts.items():
            archive.writestr(name, content)
    return out.getvalue()


def misleading(parts):
    """Two zips that `zipfile` does not read: the parts of one lie beyond all files, in the other they are no LZMA."""
    far, packed = io.BytesIO(), io.BytesIO()
    with zipfile.ZipFile(far, "w") as archive:
        for name, content in parts.items():
            archive.writestr(name, content)
            archive.infolist()[-1].header_offset = 1 << 63
    with zipfile.ZipFile(packed, "w", zipfile.ZIP_LZMA) as archive:
        for name, content in parts.items():
            archive.writestr(name, content)
    return [far.getvalue(), packed.getvalue().replace(b"\5\0\x5d", b"\5\0\xff")]  # how the data begin


class Backups(sample.SampleSchool):
    def setUp(self):
        super().setUp()
        os.makedirs(self.tmp)  # where the copy of what is brought lies
        os.chmod(self.desk, 0o700)
        self.first, self.second = (self.bytes_of(f"office.db{ending}") for ending in ("", "-wal"))

    @property
    def tmp(self):
        return os.path.join(self.desk, "tmp")

    def bytes_of(self, name):
        return pathlib.Path(self.folder, name).read_bytes()

    @contextlib.contextmanager
    def brought(self, content):
        """The files of the copy of a backup, by their paths in it; and the copy."""
        with backups.brought(self.value, "b.zip", io.BytesIO(content)) as (copy, _):
            yield copy, {os.path.relpath(os.path.join(place, name), copy): os.path.join(place, name)
                         for place, _, names in os.walk(copy) for name in names}

    def zip(self, **more):
        """A zip of the office, with more parts or others."""
        return zipped({"office.db": self.first, "office.db-wal": self.second, **more})

    def refuses(self, said, content):
        with self.assertRaisesRegex(Trouble, said):
            with self.brought(content):
                pass
        self.assertEqual(os.listdir(self.tmp), [], "something is left")


class TestTaken(Backups):
    def test_the_two_files_and_the_notebook_of_a_zip(self):
        """Wherever they lie in it, and whatever the office is called there."""
        for place, slash in ("", "/"), ("office-2027-05-01/", "/"), ("C:\\x\\", "\\"):
            parts = {f"{place}exams.db": self.first, f"{place}exams.db-wal": self.second,
                     f"{place}desk-exams.db{slash}notebook{slash}school.json": '"Hill"',
                     f"{place}desk-exams.db{slash}notebook{slash}printed.MON-AM.json": "{}", f"{place}README": "x"}
            with self.brought(zipped(parts)) as (copy, found):
                self.assertEqual({*found} - {"office.db-wal"}, {"office.db", "notebook/school.json",
                                                                "notebook/printed.MON-AM.json"})
                self.assertEqual(snapshot.name_now(self.value, found["office.db"]), snapshot.name_now(self.value))
                self.assertEqual(copies.when_and_what(copy)[1], "b.zip")
                for path in found.values():
                    self.assertEqual(stat.S_IMODE(os.stat(path).st_mode) & 0o077, 0, path)
            self.assertEqual(os.listdir(self.tmp), [])

    def test_what_the_command_hands_out(self):
        """A file for its owner alone, never in the place of another: the office of then, its notebook and its log."""
        self.office("school", "Hill")
        self.assertRegex(self.office("backup", "b.zip"), r"^b\.zip: [0-9]+ bytes\n$")
        self.assertEqual(stat.S_IMODE(os.stat(os.path.join(self.folder, "b.zip")).st_mode), 0o600)
        before, content, log = snapshot.name_now(self.value), self.bytes_of("b.zip"), self.bytes_of("desk-office.db/log")
        self.office("withdraw", "0001051", "PH-1")
        self.assertEqual(self.refused("backup", "b.zip"), "office: b.zip is there already; name another\n")
        self.assertEqual(self.bytes_of("b.zip"), content)
        with zipfile.ZipFile(io.BytesIO(content)) as archive:
            self.assertEqual(archive.read(f"office-{sample.TODAY}/desk-office.db/log"), log)
        with self.brought(content) as (_, found):
            self.assertEqual({*found}, {"office.db", "office.db-wal", "notebook/school.json"})
            self.assertEqual(snapshot.name_now(self.value, found["office.db"]), before)

    def test_what_is_said_to_be_there_is_on_the_disk(self):
        """Whoever takes the stick out as soon as the command has ended has all of it."""
        synced = []
        with mock.patch("os.fsync", lambda file: synced.append((os.readlink(f"/proc/self/fd/{file}"), os.fstat(file).st_size))):
            files.put(path := os.path.join(self.folder, "b.zip"), b"1234")
        self.assertEqual(synced, [(path, 4)])

    def test_a_full_disk_keeps_none_back(self):
        """It is packed in TMPDIR then; where the new file has no room, nothing of it is left."""
        full = OSError(errno.ENOSPC, "No space left on device")
        with mock.patch("exam_desk.beside.make_folder", side_effect=full):
            content = private.zipped(self.path, "x", lambda folder: backups.fill(self.value, folder))
        with zipfile.ZipFile(io.BytesIO(content)) as archive:
            self.assertEqual(archive.read("x/office.db"), self.first)
        with self.assertRaises(OSError) as raised, mock.patch("builtins.open", side_effect=full):
            files.put(os.path.join(self.folder, "b.zip"), content)
        self.assertEqual(raised.exception.filename, os.path.join(self.folder, "b.zip"))
        self.assertFalse(os.path.exists(raised.exception.filename))

    def test_the_second_file_counts(self):
        """What a stopped program left there, such as the last appeals."""
        with contextlib.closing(sqlite3.connect(self.path)) as file:
            file.execute("PRAGMA journal_mode = WAL")
            file.execute("PRAGMA wal_autocheckpoint = 0")
            file.execute(APPEAL)
            file.commit()
            first, second = self.bytes_of("office.db"), self.bytes_of("office.db-wal")
        with self.brought(zipped({"office.db": first, "office.db-wal": second})) as (copy, found), contextlib.closing(
                snapshot.rows(self.value, found["office.db"])) as rows:
            self.assertEqual([*map(tuple, rows.execute("SELECT count(*) FROM appeal"))], [(1,)])
        self.refuses(backups.ALONE, zipped({"office.db": first}))
        self.assertFalse(os.path.exists(self.path + "-wal"))  # of such an office a backup is whole all the same
        with self.brought(private.zipped(self.path, "x", lambda folder: backups.fill(self.value, folder))) as (_, found):
            self.assertIn("office.db", found)

    def test_an_office_of_an_earlier_version_is_carried_over(self):
        with contextlib.closing(sqlite3.connect(self.path)) as file:
            file.execute("UPDATE office SET version = 2")
            file.commit()
        with self.brought(zipped({"office.db": self.bytes_of("office.db"), "office.db-wal": b""})) as (_, found):
            self.assertNotEqual(snapshot.name_now(self.value, found["office.db"]), "")  # it can be read
        self.assertTrue(self.refused("check").startswith("refused 27"))


class TestRefused(Backups):
    def test_what_is_no_office(self):
        with contextlib.closing(sqlite3.connect(os.path.join(self.folder, "other.db"))) as file:
            file.execute("CREATE TABLE office (version)")
        with contextlib.closing(sqlite3.connect(self.write("bad.db", self.first))) as file:
            file.execute("DELETE FROM seat WHERE number = 1017")
            file.commit()
        whole = self.zip()
        locked = bytearray(whole)
        locked[locked.find(b"PK\1\2") + 8] |= 1  # says that the part is encrypted
        lying = bytearray(whole)
        length = lying.find(b"PK\1\2") + 24
        lying[length:length + 4] = (100).to_bytes(4, "little")  # says that the part is small
        longer = bytearray(zipped({"office.db": self.first, "office.db-wal": b""}, zipfile.ZIP_STORED))
        sizes = longer.find(b"PK\1\2") + 20
        longer[sizes:sizes + 8] = 2 * (2 * len(longer)).to_bytes(4, "little")  # says that the part ends behind the zip
        for said, content in (*((backups.BROKEN, each) for each in (b"", b"%PDF-1.4", self.first, bytes(longer))),
                              (backups.NO_OFFICE, zipped({"a.csv": b"number,paper\n"})),
                              (backups.SEVERAL, self.zip(**{"b.db": self.first})),
                              (backups.BROKEN, whole[:-40]), ("it has a password", bytes(locked)),
                              (backups.BROKEN, bytes(lying)),
                              *((backups.BROKEN, each) for each in misleading({"office.db": self.first})),
                              (backups.BROKEN, zipped({"a": bytes(99)}, zipfile.ZIP_LZMA).replace(b"\xdf\xff\xff", b"xxx")),
                              (backups.BROKEN, whole[:len(whole) // 2] + b"x" * 9 + whole[len(whole) // 2 + 9:]),
                              (backups.BROKEN, whole[:39] + b"\xff" * 9 + whole[48:]),  # where the data of office.db begin
                              (r"this copy is no good office \(bad office", self.zip(**{"office.db": self.bytes_of("other.db")})),
                              (r"this copy is no good office \(bad seat", zipped({
                                  "office.db": self.bytes_of("bad.db"), "office.db-wal": b""}))):
            self.refuses(said, content)

    def test_a_notebook_that_the_desk_could_not_read(self):
        for text in b"{", b"[" * 100_000, b"\xff", b'"' + b"x" * backups.MOST_NOTES + b'"':
            self.refuses(f"{backups.BROKEN}|{backups.TOO_LARGE}", self.zip(**{"notebook/notes.json": text}))

    def test_more_comes_out_of_it_than_an_office_can_have(self):
        more = len(self.first) + 1
        for parts in ({"office.db": self.first + bytes(more)}, {"o.db": self.first, "o.db-wal": bytes(more)},
                      {"o.db": self.first, "notebook/notes.json": b'"' + b"x" * more + b'"'},
                      {"o.db": self.first} | dict.fromkeys(map(str, range(backups.MOST_PARTS)), b"")):
            with mock.patch("exam_desk.copies.MOST_BYTES", 2 * len(self.first)):
                self.refuses(backups.TOO_LARGE, zipped(parts))

    def test_a_disk_without_room_is_no_broken_backup(self):
        for number, raised in ((errno.ENOSPC, OSError), (errno.EIO, Trouble)):
            with mock.patch("shutil.copyfileobj", side_effect=OSError(number, "said")), self.assertRaises(raised) as fault:
                with self.brought(self.zip()):
                    self.fail("it is there")
            self.assertEqual(str(fault.exception), "[Errno 28] said" if raised is OSError else backups.BROKEN)

    def test_more_memory_than_there_is(self):
        """A zip can ask for a dictionary of 4 GB."""
        with mock.patch("shutil.copyfileobj", side_effect=MemoryError):
            self.refuses(backups.BROKEN, self.zip())

    def test_no_name_becomes_a_path(self):
        """Paths that lead out of it, links, names of a notebook's form and none."""
        link = zipfile.ZipInfo("notebook/rows.json")
        link.external_attr = (stat.S_IFLNK | 0o777) << 16
        out = io.BytesIO(zipped({"../../office.db": self.first, "../../office.db-wal": self.second, "/etc/notebook/../../school.json": '"x"',
                                 "notebook/../notes.json": "{}", "notebook/printed.../../x.json": "{}",
                                 "notebook/absent.MON AM.json": "{}", "notebook/other.json": "{}",
                                 "notebook/absent.\nX.json": "{}"}))
        with zipfile.ZipFile(out, "a") as archive:
            archive.writestr(link, '"/etc/passwd"')
        before = sorted(os.listdir(self.folder))
        with self.brought(out.getvalue()) as (_, found):
            self.assertEqual({*found} - {"office.db-wal"}, {"office.db", "notebook/rows.json"})
            self.assertFalse(os.path.islink(found["notebook/rows.json"]))
        self.assertEqual(sorted(os.listdir(self.folder)), before)


class TestPutBack(Backups):
    def put_back(self, state, content):
        with self.brought(content) as (copy, _):
            return changing.go_back(self.value, ["back"], copy, lambda lost: True, state)

    def test_into_an_empty_folder_with_its_notebook(self):
        before, synced = snapshot.name_now(self.value), []
        for ending in ("", "-wal"):
            os.remove(self.path + ending)
        with open(self.path + "-wal", "wb") as old:  # of another office
            old.write(self.second or b"x" * 4000)
        self.write("office.db-shm", b"of whoever has it open")
        self.write("office.db-journal", b"what would be written over the new one")
        with mock.patch("os.fsync", lambda file: synced.append(os.readlink(f"/proc/self/fd/{file}"))):
            self.assertEqual(self.put_back("", self.zip(**{"notebook/school.json": '"Hill"'})), (True, [], None))
        self.assertEqual([name for name in os.listdir(self.folder) if name.startswith("office.db-")], [])
        for place in "/notebook/school.json", "/notebook", self.desk:
            self.assertTrue(any(path.endswith(place) for path in synced), place)
        self.assertEqual((snapshot.name_now(self.value), self.office("check")), (before, "good\n"))
        self.assertEqual((self.office("school"), notebook.school_name(self.value)), ("Hill\n", "Hill"))
        self.assertEqual(stat.S_IMODE(os.stat(self.path).st_mode), 0o600)

    def test_a_notebook_that_is_there_stays(self):
        self.office("school", "Dale")
        os.remove(self.path)
        self.put_back("", self.zip(**{"notebook/school.json": '"Hill"'}))
        self.assertEqual(notebook.school_name(self.value), "Dale")

    def test_an_office_that_came_meanwhile_stays(self):
        os.remove(self.path)
        with self.brought(self.zip()) as (copy, _):
            self.office("init")
            with self.assertRaises(Stale):
                changing.go_back(self.value, ["back"], copy, lambda lost: True, "")
        self.assertEqual(self.office("summary").count("MON-AM"), 0)

    def test_the_log_and_the_copy_say_what_it_was(self):
        before = snapshot.name_now(self.value)
        self.office("withdraw", "0001051", "PH-1")
        done = self.put_back(snapshot.name_now(self.value), self.zip())
        self.assertEqual(snapshot.name_now(self.value), before)
        self.assertEqual(copies.when_and_what(done.copy)[1], "back to b.zip")
        self.assertRegex(pathlib.Path(self.desk, "log").read_text("utf-8"),
                         r"\ttester\tback\t0\tas in b\.zip, brought on \d{4}-\d\d-\d\d [0-9:]{8}\n$")


if __name__ == "__main__":
    unittest.main()
