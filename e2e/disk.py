"""A disk that has lost some of the writes that it was given last, for lose-power."""
import os
import struct
from typing import NamedTuple

# What the entries of the recorder's list tell.
BEGUN, SENT, MADE, WRITTEN, RESIZED, FLUSHED, REMOVED, RENAMED = range(8)
SECTOR = 512


class Event(NamedTuple):
    """One entry of the list: a write of bytes at an offset, a new length (the offset), or what else the program did."""
    kind: int
    name: str
    offset: int
    data: bytes


def read_list(name):
    with open(name, "rb") as file:
        while head := file.read(56):
            kind, offset, length, name = struct.unpack("qqq32s", head)
            yield Event(kind, name.rstrip(b"\0").decode(), offset, file.read(length))


def written(files, events):
    """The files with the writes done to them."""
    files = {name: bytearray(content) for name, content in files.items()}
    for event in events:
        content, end = files[event.name], event.offset + len(event.data)
        content.extend(bytes(max(end - len(content), 0)))
        if event.kind == RESIZED:
            del content[event.offset:]
        else:
            content[event.offset:end] = event.data
    return files


def sectors(event):
    """A write in parts, each within a sector."""
    if event.kind == RESIZED or not event.data:
        return [event]
    first, last = event.offset // SECTOR, (event.offset + len(event.data) - 1) // SECTOR
    bounds = [event.offset, *(n * SECTOR for n in range(first + 1, last + 1)), event.offset + len(event.data)]
    return [event._replace(offset=a, data=event.data[a - event.offset:b - event.offset]) for a, b in zip(bounds, bounds[1:])]


def kept(late, lot):
    """Lists of the late writes that a disk may have, one for each kind of loss."""
    some = [event for event in late if lot.random() < 0.5]
    yield from (late, [], late[-1:], late[::2], late[1::2], some)
    if late:
        torn = late[lot.randrange(len(late))]
        parts = sectors(torn)
        middle = lot.randint(1, max(len(parts) - 1, 1))
        yield [part for event in late for part in (parts[:middle] if event is torn else [event] if lot.random() < 0.5 else [])]
        yield [part for event in late for part in (parts[middle:] if event is torn else [event] if lot.random() < 0.5 else [])]
        # The length of a file may be on the disk before its bytes.
        lengths = [Event(WRITTEN, event.name, event.offset + len(event.data), b"") for event in late if event.kind == WRITTEN]
        yield lengths + [part for event in late for part in sectors(event) if lot.random() < 0.5]


def put(files, folder):
    """Writes the files into a folder, and answers its name."""
    for name, content in files.items():
        with open(os.path.join(folder, name), "wb") as file:
            file.write(content)
    return folder


class Disk:
    """The files of an office on a disk: what it has for sure, and the writes that it has been given since."""

    def __init__(self, folder):
        self.sure, self.late = {}, []
        for name in os.listdir(folder):
            with open(os.path.join(folder, name), "rb") as file:
                self.sure[name] = file.read()

    def take(self, event):
        if event.kind == MADE:
            self.sure.setdefault(event.name, b"")
        elif event.kind in (WRITTEN, RESIZED):
            self.late.append(event)
        elif event.kind == FLUSHED:
            self.sure = written(self.sure, [late for late in self.late if late.name == event.name])
            self.late = [late for late in self.late if late.name != event.name]
        elif event.kind == REMOVED:
            del self.sure[event.name]
            self.late = [late for late in self.late if late.name != event.name]
        elif event.kind == RENAMED:
            name = event.data.decode()
            self.sure[name] = self.sure.pop(event.name)
            self.late = [late._replace(name=name) if late.name == event.name else late for late in self.late if late.name != name]
