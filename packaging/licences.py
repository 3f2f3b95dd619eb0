"""Collects the licences of the libraries that are compiled into the program.

The libraries come with the toolchain. `crates.txt` names those that the repository uses; their sources name the ones
below.
"""
import pathlib
import re
import shutil

NOT_BUILT_IN = ("_tests", "exam_tour", "exam_scripts", "exam_school", "exam_theorem")
TEXTS = ("LICENSE", "NOTICE", "COPYING")


def library_folder():
    """The folder of the toolchain's libraries, or None where there is no toolchain."""
    command = shutil.which("rt")
    folder = command and pathlib.Path(command).resolve().parent.parent / "rattle"
    return folder if folder and (folder / "std").is_dir() else None


def used_libraries(crates_file, folder):
    """The names of the libraries in the program, those below them too."""
    known = {path.name for path in folder.iterdir() if (path / "src").is_dir()}
    new = set()
    for line in crates_file.read_text("utf-8").splitlines():
        crate, _, uses = line.partition(":")
        if not line.startswith("#") and not crate.endswith(NOT_BUILT_IN):
            new |= known.intersection(uses.split())
    found = set()
    while new:
        found |= new
        new = set().union(*(named_in(folder / name, known) for name in new)) - found
    return sorted(found | {"std"})


def named_in(library, known):
    """The libraries that the sources of one name; a module of such a name counts too."""
    sources = [path.read_text("utf-8") for path in (library / "src").rglob("*.rt") if not path.name.startswith("tests")]
    return known.intersection(re.findall(r"\b([a-z_0-9]+)::", "\n".join(sources)))


def collect(crates_file, target):
    """Copies the licence texts into a folder for each library; gives the libraries with a text and those without."""
    folder = library_folder()
    if folder is None:
        return None
    with_text, without = [], []
    for name in used_libraries(crates_file, folder):
        texts = sorted(path for path in (folder / name).iterdir() if path.name.startswith(TEXTS))
        (with_text if texts else without).append(name)
        for text in texts:
            (target / name).mkdir(parents=True, exist_ok=True)
            shutil.copyfile(text, target / name / text.name)
    return with_text, without
