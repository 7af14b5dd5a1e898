"""Makes Debian packages from a release: `tools/packages ARCHIVE FOLDER`.

ARCHIVE is the release for a processor, as `make dist` makes it. The packages have its files, as
they are, except that pages are compressed, and that `pkg-config` and CMake are told the folders of
a Debian system. What else a package says is in `debian`, beside the library's Makefile. From the
same release the packages have the same bytes each time.
"""

import gzip
import hashlib
import os
import re
import shutil
from collections.abc import Iterator, Mapping
from dataclasses import dataclass
from datetime import datetime, timezone
from email.utils import format_datetime
from fnmatch import fnmatch
from pathlib import Path

from gate import versions
from gate.crates import TOP
from gate.process import Failed, must_run
from gate.temporary import temporary_folder

CRATE = "crates/bb_memory_c"
ARCHIVE = re.compile(r"bb_memory-(?P<version>[\d.]+)-(?P<processor>\w+)-linux\.tar\.gz")
DEVELOPMENT = "libbb-memory-dev"
TOOLS = "bb-memory-tools"
# Debian's names of a processor, and of its folder of libraries.
ARCHITECTURES = {"x86_64": "amd64", "aarch64": "arm64"}
# The packages and folders of a release's files. The first pattern that fits a file counts. `ABI`
# and `PROCESSOR` stand for a release's own.
PLACES = (
    ("bin/*", TOOLS, "usr/bin"),
    ("include/*", DEVELOPMENT, "usr/include"),
    ("lib/libbb_memory.so.*", "libbb-memoryABI", "usr/lib/PROCESSOR-linux-gnu"),
    ("lib/libbb_memory.*", DEVELOPMENT, "usr/lib/PROCESSOR-linux-gnu"),
    ("lib/pkgconfig/*", DEVELOPMENT, "usr/lib/PROCESSOR-linux-gnu/pkgconfig"),
    ("lib/cmake/bb_memory/*", DEVELOPMENT, "usr/lib/PROCESSOR-linux-gnu/cmake/bb_memory"),
    ("lib/bb_memory/*", TOOLS, "usr/lib/PROCESSOR-linux-gnu/bb_memory"),
    ("share/man/man1/*", TOOLS, "usr/share/man/man1"),
    ("share/man/man3/*", DEVELOPMENT, "usr/share/man/man3"),
    ("share/doc/bb_memory/examples/*", DEVELOPMENT, f"usr/share/doc/{DEVELOPMENT}/examples"),
    ("share/doc/bb_memory/README.md", DEVELOPMENT, f"usr/share/doc/{DEVELOPMENT}"),
    ("share/doc/bb_memory/script-format.md", TOOLS, f"usr/share/doc/{TOOLS}"),
)
# A field of `debian/control`, with its further lines.
FIELD = re.compile(r"^([\w-]+): (.*(?:\n .*)*)$", re.M)
# Files of the release from which the packages' copyright files are made.
LICENSES = ("NOTICE", "LICENSE-MIT", "LICENSE-APACHE")
# What files of the release have, and what replaces it: the folders of a Debian system.
FOLDERS = {
    "bb_memory.pc": {
        "prefix=${pcfiledir}/../..": "prefix=/usr",
        "libdir=${prefix}/lib": "libdir=${prefix}/lib/PROCESSOR-linux-gnu",
    },
    "bb_memoryConfig.cmake": {'"../include"': '"/usr/include"'},
}
COPYRIGHT = """
The text of the Apache License, Version 2.0, is in
/usr/share/common-licenses/Apache-2.0, and that of the GNU Lesser General
Public License, Version 2.1, in /usr/share/common-licenses/LGPL-2.1.

The MIT license:

"""


@dataclass(frozen=True)
class Release:
    """A release of a processor, unpacked into a folder: its version, its day, and its ABI."""

    folder: Path
    processor: str
    version: str
    day: datetime
    abi: str

    def filled_in(self, text: str) -> str:
        """Returns a text with the release's ABI and processor."""
        return text.replace("ABI", self.abi).replace("PROCESSOR", self.processor)

    def text_of(self, name: str) -> str:
        """Returns the text of one of the release's documents."""
        return (self.folder / "share/doc/bb_memory" / name).read_text(encoding="utf-8")

    @property
    def libc(self) -> str:
        """Returns the version of the C library that the shared library needs."""
        library = self.folder / "lib/libbb_memory.so"
        found = re.findall(rb"GLIBC_(\d+)\.(\d+)\0", library.read_bytes())
        major, minor = max((int(major), int(minor)) for major, minor in found)
        return f"{major}.{minor}"


def place_of(release: Release, path: str) -> tuple[str, str] | None:
    """Returns the package and the folder of a file of a release, or None if it is in no package.

    Raises Failed if no place is known.
    """
    for pattern, package, folder in PLACES:
        if fnmatch(path, pattern):
            return release.filled_in(package), release.filled_in(folder)
    if Path(path).name in LICENSES:
        return None
    raise Failed(f"packages: no package has {path}: name it in PLACES of gate/packages.py")


def content_of(release: Release, file: Path) -> bytes:
    """Returns what a package has of a file. Raises Failed if a folder in it isn't where it was."""
    if file.name not in FOLDERS:
        return file.read_bytes()
    text = file.read_text(encoding="utf-8")
    for old, new in FOLDERS[file.name].items():
        if text.count(f"{old}\n") + text.count(f"{old})\n") != 1:
            raise Failed(f"packages: {file.name} of the release doesn't have {old}")
        text = text.replace(old, release.filled_in(new), 1)
    return text.encode()


def lay_out(release: Release, roots: Path) -> None:
    """Puts the files of a release into a folder for each package, below `roots`."""
    for file in sorted(release.folder.rglob("*")):
        place = None
        if file.is_symlink() or file.is_file():
            place = place_of(release, file.relative_to(release.folder).as_posix())
        if place is None:
            continue
        package, folder = place
        ending = ".gz" if "/man/" in folder else ""
        made = roots / package / folder / f"{file.name}{ending}"
        made.parent.mkdir(parents=True, exist_ok=True)
        if file.is_symlink():
            made.symlink_to(f"{os.readlink(file)}{ending}")
            continue
        content = content_of(release, file)
        made.write_bytes(compressed(content) if ending else content)


def compressed(content: bytes) -> bytes:
    """Returns a file's content, compressed, without the time."""
    return gzip.compress(content, 9, mtime=0)


def stanzas(release: Release) -> list[dict[str, str]]:
    """Returns the fields of each package, with those of the source, from `debian/control`."""
    text = (TOP / CRATE / "debian/control").read_text(encoding="utf-8")
    values = {"@ABI@": release.abi, "@LIBC@": release.libc, "@VERSION@": release.version}
    for name, value in values.items():
        text = text.replace(name, value)
    source, *packages = (dict(FIELD.findall(each)) for each in text.split("\n\n"))
    source["Version"] = release.version
    source["Architecture"] = ARCHITECTURES[release.processor]
    return [{**source, **fields} for fields in packages]


def add_documents(release: Release, fields: Mapping[str, str], root: Path) -> None:
    """Adds to a package what each one has: its licenses, and a list of changes in Debian's form."""
    package = fields["Package"]
    folder = root / "usr/share/doc" / package
    folder.mkdir(parents=True, exist_ok=True)
    text = release.text_of("NOTICE") + COPYRIGHT + release.text_of("LICENSE-MIT")
    (folder / "copyright").write_text(text, encoding="utf-8")
    changes = (
        f"{fields['Source']} ({release.version}) unstable; urgency=medium\n\n"
        f"  * Release {release.version}: CHANGELOG.md of the sources says what changed.\n\n"
        f" -- {fields['Maintainer']}  {format_datetime(release.day)}\n"
    )
    (folder / "changelog.gz").write_bytes(compressed(changes.encode()))
    overrides = TOP / CRATE / f"debian/{package}.lintian-overrides"
    if overrides.exists():
        made = root / "usr/share/lintian/overrides" / package
        made.parent.mkdir(parents=True)
        shutil.copyfile(overrides, made)


def files_of(root: Path) -> list[Path]:
    """Returns the files of a package that are no links, in order."""
    return sorted(file for file in root.rglob("*") if file.is_file() and not file.is_symlink())


def control_files(
    release: Release, fields: Mapping[str, str], root: Path
) -> Iterator[tuple[str, str]]:
    """Yields the names and the texts of what `dpkg` reads of a package."""
    sizes = [-(-file.stat().st_size // 1024) for file in files_of(root)]
    others = len(list(root.rglob("*"))) - len(sizes)
    sized = {"Installed-Size": str(sum(sizes) + others), **fields}
    yield "control", "".join(f"{name}: {value}\n" for name, value in sized.items())
    sums = ((file, hashlib.md5(file.read_bytes()).hexdigest()) for file in files_of(root))
    yield "md5sums", "".join(f"{each}  {file.relative_to(root)}\n" for file, each in sums)
    if fields["Package"] == f"libbb-memory{release.abi}":
        needed = f"{fields['Package']} (>= {release.version})"
        yield "shlibs", f"libbb_memory {release.abi} {needed}\n"
        yield "triggers", "activate-noawait ldconfig\n"


def settle(release: Release, root: Path) -> None:
    """Gives all files of a package the modes that Debian wants, and the day of the release."""
    for file in [*sorted(root.rglob("*"), reverse=True), root]:
        if not file.is_symlink():
            is_executable = file.is_dir() or file.parent.name == "bin"
            file.chmod(0o755 if is_executable else 0o644)
        seconds = release.day.timestamp()
        os.utime(file, (seconds, seconds), follow_symlinks=False)


def build(release: Release, roots: Path, folder: Path) -> None:
    """Builds all packages of a release, whose files are laid out, into a folder."""
    for fields in stanzas(release):
        root = roots / fields["Package"]
        add_documents(release, fields, root)
        made = dict(control_files(release, fields, root))
        (root / "DEBIAN").mkdir()
        for name, text in made.items():
            (root / "DEBIAN" / name).write_text(text, encoding="utf-8")
        settle(release, root)
        words = ["dpkg-deb", "--root-owner-group", "-Zxz", "--build", str(root), str(folder)]
        epoch = str(int(release.day.timestamp()))
        must_run(words, folder, {**os.environ, "SOURCE_DATE_EPOCH": epoch})


def unpacked(archive: Path, work: Path) -> Release:
    """Unpacks a release into a folder. Raises Failed if it isn't one of this version."""
    match = ARCHIVE.fullmatch(archive.name)
    files = (versions.HEADER, versions.CHANGES)
    texts = {file: (TOP / file).read_text(encoding="utf-8") for file in files}
    version = versions.version_of(texts)
    if match is None or match["version"] != version:
        raise Failed(f"packages: {archive} is no release of version {version}")
    must_run(["tar", "-xzf", archive.resolve(), "-C", work], work)
    folder = work / archive.name.removesuffix(".tar.gz")
    day = datetime.combine(versions.date_of(texts), datetime.min.time(), timezone.utc)
    soname = os.readlink(folder / "lib/libbb_memory.so")
    return Release(folder, match["processor"], version, day, soname.rpartition(".")[2])


def main(words: list[str]) -> None:
    """Runs `tools/packages ARCHIVE FOLDER`."""
    if len(words) != 2:
        raise Failed("usage: tools/packages ARCHIVE FOLDER")
    with temporary_folder() as work:
        release = unpacked(Path(words[0]), work)
        lay_out(release, work / "roots")
        build(release, work / "roots", Path(words[1]).resolve())
