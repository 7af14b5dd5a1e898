"""Tests of gate/packages.py, on a release of small files."""

import gzip
import re
import shutil
import tarfile
import unittest
from dataclasses import replace
from datetime import datetime, timezone
from pathlib import Path

from gate import packages
from gate.packages import Release
from gate.process import Failed, must_run
from gate.temporary import temporary_folder

DAY = datetime(2001, 2, 3, tzinfo=timezone.utc)
FILES = {
    "bin/memrun": "program",
    "include/bb_memory.h": "header",
    "lib/libbb_memory.a": "archive",
    "lib/libbb_memory.so.1.2.3": "GLIBC_2.9\0 GLIBC_2.34\0 GLIBC_2.4\0",
    "lib/bb_memory/memrun.o": "object",
    "lib/pkgconfig/bb_memory.pc": (
        "prefix=${pcfiledir}/../..\nlibdir=${prefix}/lib\nincludedir=${prefix}/include\n"
    ),
    "lib/cmake/bb_memory/bb_memoryConfig.cmake": 'set(_bb_memory_include "../include")\n',
    "share/man/man1/memrun.1": "page",
    "share/man/man3/bb_pool.3": "page 3",
    "share/doc/bb_memory/README.md": "read",
    "share/doc/bb_memory/script-format.md": "scripts",
    "share/doc/bb_memory/NOTICE": "Copyright 2026 Somebody\n",
    "share/doc/bb_memory/LICENSE-MIT": "MIT\n",
    "share/doc/bb_memory/LICENSE-APACHE": "all of the Apache License\n",
    "share/doc/bb_memory/examples/hello.c": "example",
}
LINKS = {
    "lib/libbb_memory.so": "libbb_memory.so.7",
    "lib/libbb_memory.so.7": "libbb_memory.so.1.2.3",
    "share/man/man3/bb_pool_get.3": "bb_pool.3",
}
LIBRARY = "libbb-memory7"
DEVELOPMENT = "libbb-memory-dev"
TOOLS = "bb-memory-tools"
FOLDER = "usr/lib/aarch64-linux-gnu"


def write(folder: Path) -> Release:
    """Writes the release into a folder."""
    for name, text in FILES.items():
        (folder / name).parent.mkdir(parents=True, exist_ok=True)
        (folder / name).write_text(text, encoding="utf-8")
    for name, target in LINKS.items():
        (folder / name).symlink_to(target)
    return Release(folder, "aarch64", "1.2.3", DAY, "7")


def text_of(file: Path) -> str:
    """Returns the text of a file, or the target of a link."""
    if file.is_symlink():
        return f"-> {file.readlink()}"
    content = file.read_bytes()
    return (gzip.decompress(content) if file.suffix == ".gz" else content).decode()


class LaidOut(unittest.TestCase):
    """The files of packages, before they are built."""

    def laid_out(self, work: Path) -> dict[str, str]:
        """Lays out the release, and returns the texts of all files."""
        packages.lay_out(write(work / "release"), work / "roots")
        files = sorted(each for each in work.glob("roots/**/*") if not each.is_dir())
        return {file.relative_to(work / "roots").as_posix(): text_of(file) for file in files}

    def test_each_file_has_its_place(self) -> None:
        with temporary_folder() as work:
            found = self.laid_out(work)
        folder = f"{DEVELOPMENT}/{FOLDER}"
        pc = "prefix=/usr\nlibdir=${prefix}/lib/aarch64-linux-gnu\nincludedir=${prefix}/include\n"
        cmake = 'set(_bb_memory_include "/usr/include")\n'
        documents = f"{DEVELOPMENT}/usr/share/doc/{DEVELOPMENT}"
        expected = {
            f"{TOOLS}/usr/bin/memrun": "program",
            f"{TOOLS}/{FOLDER}/bb_memory/memrun.o": "object",
            f"{TOOLS}/usr/share/man/man1/memrun.1.gz": "page",
            f"{TOOLS}/usr/share/doc/{TOOLS}/script-format.md": "scripts",
            f"{LIBRARY}/{FOLDER}/libbb_memory.so.1.2.3": FILES["lib/libbb_memory.so.1.2.3"],
            f"{LIBRARY}/{FOLDER}/libbb_memory.so.7": "-> libbb_memory.so.1.2.3",
            f"{DEVELOPMENT}/usr/include/bb_memory.h": "header",
            f"{folder}/libbb_memory.a": "archive",
            f"{folder}/libbb_memory.so": "-> libbb_memory.so.7",
            f"{folder}/pkgconfig/bb_memory.pc": pc,
            f"{folder}/cmake/bb_memory/bb_memoryConfig.cmake": cmake,
            f"{DEVELOPMENT}/usr/share/man/man3/bb_pool.3.gz": "page 3",
            f"{DEVELOPMENT}/usr/share/man/man3/bb_pool_get.3.gz": "-> bb_pool.3.gz",
            f"{documents}/README.md": "read",
            f"{documents}/examples/hello.c": "example",
        }
        self.assertEqual(found, expected)

    def test_a_file_without_a_place(self) -> None:
        with temporary_folder() as work:
            release = write(work / "release")
            (work / "release/share/new").write_text("new", encoding="utf-8")
            with self.assertRaisesRegex(Failed, "no package has share/new"):
                packages.lay_out(release, work / "roots")

    def test_a_folder_that_is_not_where_it_was(self) -> None:
        for name in ("lib/pkgconfig/bb_memory.pc", "lib/cmake/bb_memory/bb_memoryConfig.cmake"):
            with temporary_folder() as work, self.subTest(name):
                release = write(work / "release")
                (work / "release" / name).write_text("other\n", encoding="utf-8")
                with self.assertRaisesRegex(Failed, f"{Path(name).name} of the release"):
                    packages.lay_out(release, work / "roots")

    def test_the_newest_symbol_of_the_c_library_counts(self) -> None:
        with temporary_folder() as work:
            self.assertEqual(write(work / "release").libc, "2.34")


@unittest.skipUnless(shutil.which("dpkg-deb"), "dpkg-deb is not installed")
class Built(unittest.TestCase):
    """Packages that dpkg-deb has built."""

    def build(self, work: Path, name: str, day: datetime = DAY) -> dict[str, Path]:
        """Builds the packages in a folder of this name. Returns their files by their names."""
        release = replace(write(work / name / "release"), day=day)
        made = work / name / "made"
        made.mkdir()
        packages.lay_out(release, work / name / "roots")
        packages.build(release, work / name / "roots", made)
        return {file.name: file for file in made.iterdir()}

    def test_names_and_bytes(self) -> None:
        with temporary_folder() as work:
            first = self.build(work, "first")
            second = self.build(work, "second")
            names = [f"{name}_1.2.3_arm64.deb" for name in (TOOLS, DEVELOPMENT, LIBRARY)]
            self.assertEqual(sorted(first), names)
            for name in names:
                self.assertEqual(first[name].read_bytes(), second[name].read_bytes())

    def test_the_fields_and_files_of_the_library(self) -> None:
        with temporary_folder() as work:
            file = self.build(work, "built")[f"{LIBRARY}_1.2.3_arm64.deb"]
            must_run(["dpkg-deb", "--raw-extract", file, "raw"], work)
            control = (work / "raw/DEBIAN/control").read_text(encoding="utf-8")
            fields = dict(re.findall(r"^([\w-]+): (.*)$", control, re.M))
            texts = {each.name: text_of(each) for each in (work / "raw/DEBIAN").iterdir()}
            licenses = text_of(work / f"raw/usr/share/doc/{LIBRARY}/copyright")
            compressed = work / f"raw/usr/share/doc/{LIBRARY}/changelog.gz"
            changes = text_of(compressed)
            time = compressed.read_bytes()[4:8]
            with tarfile.open(self.data_of(file, work)) as data:
                entries = {each.name: each for each in data.getmembers()}
        self.assertEqual(fields["Package"], LIBRARY)
        self.assertEqual(fields["Version"], "1.2.3")
        self.assertEqual(fields["Architecture"], "arm64")
        self.assertEqual(fields["Depends"], "libc6 (>= 2.34)")
        self.assertNotIn("@", control.replace("@users", ""))
        # Three files of less than 1 KiB, a link, and the folders.
        self.assertEqual(fields["Installed-Size"], str(3 + 1 + 6))
        self.assertEqual(texts["shlibs"], f"libbb_memory 7 {LIBRARY} (>= 1.2.3)\n")
        self.assertEqual(texts["triggers"], "activate-noawait ldconfig\n")
        self.assertEqual(len(texts["md5sums"].splitlines()), 3)
        for part in ("Copyright 2026 Somebody", "MIT", "common-licenses/Apache-2.0"):
            self.assertIn(part, licenses)
        self.assertEqual(time, bytes(4))
        self.assertIn("bb-memory (1.2.3) ", changes)
        self.assertIn("  Sat, 03 Feb 2001 00:00:00 +0000\n", changes)
        library = entries[f"./{FOLDER}/libbb_memory.so.1.2.3"]
        self.assertEqual((library.mode, library.uid, library.mtime), (0o644, 0, DAY.timestamp()))

    def data_of(self, file: Path, work: Path) -> Path:
        """Returns the archive of the files of a package."""
        must_run(["sh", "-c", f"dpkg-deb --fsys-tarfile '{file}' > data.tar"], work)
        return work / "data.tar"

    def test_commands_can_be_run_and_all_files_are_of_one_day(self) -> None:
        tomorrow = datetime(2199, 1, 1, tzinfo=timezone.utc)
        with temporary_folder() as work:
            file = self.build(work, "built", tomorrow)[f"{TOOLS}_1.2.3_arm64.deb"]
            with tarfile.open(self.data_of(file, work)) as data:
                times = {each.mtime for each in data.getmembers()}
                self.assertEqual(times, {tomorrow.timestamp()})
                self.assertEqual(data.getmember("./usr/bin/memrun").mode, 0o755)
                data.getmember(f"./usr/share/lintian/overrides/{TOOLS}")


class Unpacked(unittest.TestCase):
    """Archives that are no release of this version."""

    def test_another_name_or_version(self) -> None:
        for name in ("bb_memory-0.0.1-x86_64-linux.tar.gz", "SHA256SUMS"):
            with temporary_folder() as work, self.assertRaisesRegex(
                Failed, "no release of version"
            ):
                packages.unpacked(work / name, work)


if __name__ == "__main__":
    unittest.main()
