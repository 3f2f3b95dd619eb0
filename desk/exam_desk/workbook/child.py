"""A process of its own, with limits of memory and time, that reads or makes one workbook: child.py WHAT < BYTES

`read` answers as `cells.packed`, `write` with the bytes of an .xlsx. A bomb ends this process alone.
"""
import io
import json
import pathlib
import resource
import sys
import zipfile
import zlib
from xml.parsers.expat import ExpatError

MOST_MEMORY = 1 << 30  # bytes
MOST_SECONDS = 60  # of the processor


def limit(most_written: int) -> None:
    """Sets the limits; files that it writes have at most so many bytes."""
    for what, most in ((resource.RLIMIT_AS, MOST_MEMORY), (resource.RLIMIT_CPU, MOST_SECONDS),
                       (resource.RLIMIT_CORE, 0), (resource.RLIMIT_FSIZE, most_written)):
        _, hard = resource.getrlimit(what)
        least = most if hard == resource.RLIM_INFINITY else min(most, hard)
        resource.setrlimit(what, (least, least))


def read(data: bytes) -> bytes:
    from exam_desk.office import Trouble
    from exam_desk.workbook.cells import OPEN_AND_SAVE, PASSWORD, packed
    try:
        with zipfile.ZipFile(io.BytesIO(data)) as archive:
            names = archive.namelist()
            if "encrypted-package" in names:
                raise Trouble(PASSWORD)
            if "content.xml" in names:
                from exam_desk.workbook.ods import read_ods as reader
            elif "xl/workbook.bin" in names:
                raise Trouble("it is of the form .xlsb: save it as .xlsx")
            else:
                from exam_desk.workbook.xlsx import read_xlsx as reader
            return packed(reader(archive)).encode()
    except Trouble as trouble:
        return json.dumps(trouble.sentence).encode()
    except MemoryError:
        return json.dumps(f"it asks for more than {MOST_MEMORY >> 30} GB: it is no school's workbook").encode()
    except (zipfile.BadZipFile, zlib.error, OSError, EOFError, NotImplementedError, ExpatError, ValueError, LookupError,
            ArithmeticError) as fault:
        return json.dumps(f"it is broken or cut short ({type(fault).__name__}: {fault}): {OPEN_AND_SAVE}").encode()


def write(data: bytes) -> bytes:
    from exam_desk.workbook.making import made
    return made(json.loads(data))


if __name__ == "__main__":
    sys.path[0] = str(pathlib.Path(__file__).resolve().parents[2])
    limit(0 if sys.argv[1] == "read" else MOST_MEMORY)  # openpyxl writes sheets to temporary files of the owner
    given = sys.stdin.buffer.read()
    sys.stdout.buffer.write({"read": read, "write": write}[sys.argv[1]](given))
