"""The packages: the program packed by tools/release/package.sh as a tarball and, where dpkg-deb is on the machine, as a
Debian package.

Each is packed twice, in other folders and with other habits of the shell, which has to give the same bytes. Then it is
unpacked, and its owners, times, order, checksums, all links of its pages, the fields of the Debian package and the program
on the example night are looked at. tools/release/clean_root.sh installs them. Where debhelper is on the machine, the Debian
package is packed by it and without it, and both are compared; where lintian is, it has to find no error.
"""

import datetime
import gzip
import os
import pathlib
import re
import shutil
import subprocess
import sys
import unittest

from tests.harness import NIGHT, TOP, ProgramCase, each, run

PACKAGE = TOP / "tools" / "release" / "package.sh"
LINKS = TOP / "tools" / "gate" / "links.py"


def said(*words, **how):
    """What a command prints; it has to succeed."""
    ran = run(*words, **{"cwd": TOP, **how})
    assert ran.status == 0, str(ran)
    return ran.out.decode()


def known(*names):
    """The files of these names that git knows."""
    return said("git", "ls-files", "--", *names).splitlines()


def without_links(text):
    """A text without its links, which are mended in packed pages."""
    return re.sub(r"\[([^][]*)\]\([^)]*\)", r"\1", text).replace(" (in the sources)", "")


def files_below(folder):
    return [path for path in pathlib.Path(folder).rglob("*") if path.is_file()]


class Package:
    """What each kind of package has. The cases say how it is packed and unpacked, and where its parts are."""

    @classmethod
    def setUpClass(cls):
        if run("git", "rev-parse", "--verify", "--quiet", "HEAD", cwd=TOP).status:
            raise unittest.SkipTest("no commits here: nothing is packed")
        cls.require()
        super().setUpClass()
        cls.version = said(cls.program, "--version").removeprefix("edfclaim ").rstrip("\n")
        cls.name = cls.name_of(cls.version)
        here = {**os.environ, "TZ": "UTC0"}
        cls.printed = said(PACKAGE, cls.KIND, cls.program, cls.room / "one", env=here)
        habits = {**os.environ, "TZ": "Asia/Tokyo", "LC_ALL": "C.UTF-8", "LC_COLLATE": "C.UTF-8"}
        front = ["sh", "-c", 'umask 077 && exec "$@"', "sh"]
        cls.printed_again = said(*front, PACKAGE, cls.KIND, cls.program, cls.room / "two", env=habits)
        cls.package = cls.room / "one" / cls.name
        cls.unpack()
        cls.pages = cls.root / "share" / "doc" / "edfclaim"

    @classmethod
    def require(cls):
        """Skips the tests of a kind that this machine can't pack."""

    def test_packed(self):
        self.assertEqual(self.printed, f"{self.package}\n")

    def test_packed_again(self):
        self.assertEqual(self.printed_again, f"{self.room / 'two' / self.name}\n")

    def test_same_bytes(self):
        self.assertEqual(self.package.read_bytes(), (self.room / "two" / self.name).read_bytes())

    def column(self, *places):
        """What stands in these places of the lines of the list of files, each once."""
        return sorted({" ".join(line.split()[place] for place in places) for line in self.list.splitlines()})

    def test_owners(self):
        self.assertEqual(self.column(1), [self.OWNER])

    def test_times(self):
        time = int(os.environ.get("SOURCE_DATE_EPOCH") or said("git", "log", "-1", "--format=%ct"))
        when = datetime.datetime.fromtimestamp(time, datetime.timezone.utc)
        self.assertEqual(self.column(3, 4), [when.strftime("%Y-%m-%d %H:%M")])

    def test_order(self):
        """A folder stands before what is in it, and that before what has a longer name."""
        names = [line.split()[5].rstrip("/").replace("/", "\1").encode() for line in self.list.splitlines()]
        self.assertEqual(names, sorted(names))

    def test_modes(self):
        self.assertEqual(self.column(0), ["-rw-r--r--", "-rwxr-xr-x", "drwxr-xr-x"])

    def test_checksums(self):
        said("sha256sum", "--check", "--strict", "--quiet", self.sums, cwd=self.top)

    def test_files_and_checksums(self):
        files = [path for path in files_below(self.top) if path.name != "SHA256SUMS"]
        self.assertEqual(len(self.sums.read_text(encoding="utf-8").splitlines()), len(files))

    def test_program(self):
        self.assertEqual((self.root / "bin" / "edfclaim").read_bytes(), pathlib.Path(self.program).read_bytes())

    @each([("of_edfclaim", "edfclaim"), ("of_edfclaim_look", "edfclaim-look")])
    def manual_page(self, name):
        packed = gzip.decompress((self.root / "share" / "man" / "man1" / f"{name}.1.gz").read_bytes())
        self.assertEqual(packed, (TOP / "docs" / f"{name}.1").read_bytes())

    def test_pages_and_examples(self):
        folders = [self.pages / name for name in ("docs", "examples")]
        there = sorted(str(path.relative_to(self.pages)) for folder in folders for path in files_below(folder))
        self.assertEqual(there, sorted(known("docs", "examples", ":!docs/*.1")))

    def test_pages_say_the_same(self):
        names = known("README.md", "CHANGELOG.md", "THIRD-PARTY.md", "docs/*.md", "examples/*.md")
        other = [name for name in names if without_links((TOP / name).read_text(encoding="utf-8"))
                 != without_links((self.pages / name).read_text(encoding="utf-8"))]
        self.assertEqual(other, [], "pages that say something else, links left aside")

    def test_links(self):
        ran = run(LINKS, self.top)
        self.assertEqual(ran.status, 0, str(ran))

    def test_examples(self):
        names = known("examples", ":!*.md")
        other = [name for name in names if (TOP / name).read_bytes() != (self.pages / name).read_bytes()]
        self.assertEqual(other, [], "examples that are others")

    @each([("mit", "LICENSE-MIT"), ("apache", "LICENSE-APACHE")])
    def licence(self, name):
        self.assertEqual((self.pages / name).read_bytes(), (TOP / name).read_bytes())

    def test_receipt_of_the_night(self):
        words = ["receipt", "original.edf", "cut.edf", "cut.toml"]
        ran = run(self.root / "bin" / "edfclaim", *words, cwd=self.pages / "examples" / "night")
        self.assert_ran(ran, 0, (NIGHT / "receipt.txt").read_bytes())


class Tarball(Package, ProgramCase):
    """The tarball."""

    KIND, OWNER = "dist", "0/0"

    @classmethod
    def name_of(cls, version):
        return f"edfclaim-{version}-linux-x86-64.tar.gz"

    @classmethod
    def unpack(cls):
        here = {**os.environ, "TZ": "UTC0"}
        cls.list = said("tar", "-tvzf", cls.package, env=here)
        (cls.room / "dist").mkdir()
        said("tar", "-xzf", cls.package, "-C", cls.room / "dist")
        cls.top = cls.root = cls.room / "dist" / cls.name.removesuffix(".tar.gz")
        cls.sums = cls.top / "SHA256SUMS"

    def test_digest(self):
        said("sha256sum", "--check", "--strict", "--quiet", "SHA256SUMS", cwd=self.room / "one")

    def test_look(self):
        self.assertEqual((self.root / "bin" / "edfclaim-look").read_bytes(), (TOP / "extras" / "edfclaim-look").read_bytes())

    def test_look_without_libraries(self):
        """By a Python that has no libraries: the module of the package is found."""
        words = [sys.executable, "-I", "-S", self.root / "bin" / "edfclaim-look", "original", "export", "claim"]
        ran = run(*words)
        missing = b"edfclaim-look: matplotlib is missing; on Debian: python3-numpy, python3-matplotlib\n"
        self.assertEqual(ran.out + ran.err, missing)


class DebianPackage(Package, ProgramCase):
    """The Debian package, by debhelper where that is on the machine."""

    KIND, OWNER = "deb", "root/root"

    @classmethod
    def require(cls):
        if not shutil.which("dpkg-deb"):
            raise unittest.SkipTest("no dpkg-deb")

    @classmethod
    def name_of(cls, version):
        return f"edfclaim_{version}_amd64.deb"

    @classmethod
    def unpack(cls):
        cls.top = cls.room / "root"
        cls.root, cls.control = cls.top / "usr", cls.room / "control"
        cls.list = said("dpkg-deb", "--contents", cls.package, env={**os.environ, "TZ": "UTC0"})
        said("dpkg-deb", "--extract", cls.package, cls.top)
        said("dpkg-deb", "--control", cls.package, cls.control)
        cls.doc = cls.root / "share" / "doc" / "edfclaim"
        cls.sums = cls.doc / "SHA256SUMS"

    def fields(self, *names):
        return said("dpkg-deb", "--field", self.package, *names)

    def test_md5sums(self):
        said("md5sum", "--check", "--strict", "--quiet", self.control / "md5sums", cwd=self.top)

    def test_files_and_md5sums(self):
        sums = (self.control / "md5sums").read_text(encoding="utf-8").splitlines()
        self.assertEqual(len(sums), len(files_below(self.top)))

    def test_fields(self):
        wanted = f"Package: edfclaim\nVersion: {self.version}\nArchitecture: amd64\nDepends: libc6 (>= 2.34), libgcc-s1\n"
        self.assertEqual(self.fields("Package", "Version", "Architecture", "Depends"), wanted)

    def test_maintainer(self):
        control = (TOP / "debian" / "control").read_text(encoding="utf-8")
        self.assertEqual(self.fields("Maintainer"), re.search("^Maintainer: (.*\n)", control, re.M)[1])

    def test_licences(self):
        self.assertEqual((self.doc / "copyright").read_bytes(), (TOP / "debian" / "copyright").read_bytes())

    def test_changelog(self):
        packed = gzip.decompress((self.doc / "changelog.gz").read_bytes())
        self.assertEqual(packed, (TOP / "debian" / "changelog").read_bytes())

    def look(self):
        """The lines of edfclaim-look, packed and in the sources."""
        packed, source = self.root / "bin" / "edfclaim-look", TOP / "extras" / "edfclaim-look"
        return packed.read_bytes().splitlines(), source.read_bytes().splitlines()

    def test_first_line_of_look(self):
        self.assertEqual(self.look()[0][0], b"#!/usr/bin/python3")

    def test_look(self):
        packed, source = self.look()
        self.assertEqual(packed[1:], source[1:])

    def test_lintian(self):
        if not shutil.which("lintian"):
            raise unittest.SkipTest("no lintian")
        ran = run("lintian", "--fail-on", "error", self.package)
        self.assertEqual(ran.status, 0, str(ran))


class PlainPackage(DebianPackage):
    """The Debian package without debhelper, where the other one is packed by it: both have the same files."""

    KIND = "plain"

    @classmethod
    def require(cls):
        super().require()
        if not shutil.which("dh"):
            raise unittest.SkipTest("no debhelper: the Debian package is packed without it")

    def test_same_files(self):
        by_debhelper = said(PACKAGE, "deb", self.program, self.room / "three").rstrip("\n")
        said("dpkg-deb", "--extract", by_debhelper, self.room / "by-debhelper")
        said("diff", "-r", self.room / "by-debhelper", self.top)


# A page with two links that lead to a file, one to what is packed elsewhere, two that lead to no file and one to no heading,
# and what is no link; and the same where its links are mended.
PAGE = """[one](docs/there.md#part) and [**two**](docs) but [gone](docs/gone.md), [`module`](extras/module.py),
![no picture](no.png)
`[code](gone.md)` [far](https://example.org/gone.md) [part](#here)
"""
MENDED = """[one](docs/there.md#part) and [**two**](docs) but gone (in the sources), [`module`](../module.py),
no picture
`[code](gone.md)` [far](https://example.org/gone.md) [part](#here)
"""


class Tools(ProgramCase):
    """The script that looks at links and mends them, and what package.sh doesn't take."""

    def setUp(self):
        self.folder = self.room / "pages"
        (self.folder / "docs").mkdir(parents=True, exist_ok=True)
        (self.folder / "docs" / "there.md").write_text("# Part\n", encoding="utf-8")
        (self.folder / "README.md").write_text(PAGE, encoding="utf-8")
        self.module = self.file("module.py", "")

    def test_links_of_a_page(self):
        ran = run(LINKS, self.folder)
        self.assertEqual((ran.status, ran.out.splitlines()[-1]), (1, b"2 passed, 4 failed"), str(ran))

    def test_links_that_are_mended(self):
        said(LINKS, "--pack", self.folder, f"extras/module.py={self.module}")
        self.assertEqual((self.folder / "README.md").read_text(encoding="utf-8"), MENDED)

    # Words that package.sh doesn't take.
    REFUSED = [
        ("no_program", ["deb"]), ("no_such_kind", ["other", "PROGRAM", "TO"]), (
            "another_program",
            ["dist", "/bin/true", "TO"],
        ),
    ]

    @each(REFUSED)
    def refused(self, words):
        given = {"PROGRAM": self.program, "TO": self.room / "to"}
        ended = subprocess.run([PACKAGE, *(given.get(word, word) for word in words)], capture_output=True, check=False)
        self.assertEqual(ended.returncode, 2, ended)
