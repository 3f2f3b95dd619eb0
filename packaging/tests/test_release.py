"""What a release says of itself."""
import importlib.machinery
import importlib.util
import pathlib
import re
import shutil
import subprocess
import sys
import tempfile
import unittest

TOP = pathlib.Path(__file__).resolve().parent.parent.parent
CHANGES = """# Changes

A release a paragraph.

## Not released yet

- what comes next

## 1.0.1 (2026-11-28)

The first
paragraph.

- one
  item
- another one

## 1.0.0 (2026-11-27)

The first release.
"""
MEANT = """examoffice (1.0.1) unstable; urgency=medium

  * The first paragraph.
  * one item
  * another one

 -- NAME  Sat, 28 Nov 2026 00:00:00 +0000

examoffice (1.0.0) unstable; urgency=medium

  * The first release.

 -- NAME  Fri, 27 Nov 2026 00:00:00 +0000
"""


def release():
    """The script `release` as a module."""
    sys.dont_write_bytecode = True
    loader = importlib.machinery.SourceFileLoader("release", str(TOP / "release"))
    module = importlib.util.module_from_spec(importlib.util.spec_from_loader("release", loader))
    loader.exec_module(module)
    return module


class Release(unittest.TestCase):
    def setUp(self):
        self.release = release()

    def test_links_lead_to_files_of_the_package(self):
        there = {pathlib.Path(name).name for name in self.release.PAGES + self.release.PICTURES}
        for page in [name for name in self.release.PAGES if name.endswith(".md")]:
            targets = re.findall(r"\]\(([^()#]+)", self.release.packaged(page))
            self.assertEqual([name for name in targets if not name.startswith("../../examoffice/")
                              and "://" not in name and name not in there], [], page)
        found = self.release.packaged("README.md")
        self.assertIn("](HANDBOOK.md#refusals)", found)
        self.assertIn("](desk.png)", found)
        self.assertNotIn("auditor", found)

    def test_the_service_of_the_desk_may_write_titles_where_nginx_has_them(self):
        nginx, unit = ((TOP / "web" / name).read_text("utf-8") for name in ("nginx.conf", "examoffice-desk.service"))
        [place] = re.findall("location = /titles.json { root (.*?);", nginx)
        [paths] = re.findall("^ReadWritePaths=(.*)$", unit, re.M)
        self.assertIn(f"-{place}", paths.split())  # it need not be there

    def test_changelog_of_debian(self):
        found = self.release.debian_changelog(CHANGES)
        self.assertEqual(found, MEANT.replace("NAME", self.release.MAINTAINER))

    @unittest.skipUnless(shutil.which("dpkg-parsechangelog"), "dpkg-dev is not installed")
    def test_debian_reads_it(self):
        with tempfile.NamedTemporaryFile("w", encoding="utf-8") as file:
            file.write(self.release.debian_changelog((TOP / "CHANGELOG.md").read_text("utf-8")))
            file.flush()
            done = subprocess.run(["dpkg-parsechangelog", "-l", file.name], capture_output=True, text=True, check=True)
        newest = re.search(r"^## ([0-9]\S+)", (TOP / "CHANGELOG.md").read_text("utf-8"), re.M)[1]
        self.assertEqual(done.stderr, "")
        self.assertIn(f"\nVersion: {newest}\n", done.stdout)

    def test_notice_names_who_holds_the_rights(self):
        self.assertTrue(self.release.notice(([], [])).startswith("Copyright (c) "))


if __name__ == "__main__":
    unittest.main()
