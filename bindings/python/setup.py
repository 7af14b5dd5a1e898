"""Builds the extension over the library for C.

Finds the library by the first `bb_memory.pc` in the folders of PKG_CONFIG_PATH, in the release in
the repository's `dist`, and in the folders where systems keep such files. Links the archive if
there is one, so that the package needs no file of the library when it runs.
"""

import os
import platform
import subprocess
import sys
import tempfile
from pathlib import Path

from setuptools import Extension, setup

TOP = Path(__file__).resolve().parent
MISSING = (
    "the C library bb_memory isn't found. Unpack or install its release below DIR, and set "
    "PKG_CONFIG_PATH=DIR/lib/pkgconfig."
)


def unpacked_release(folder: Path) -> "Path | None":
    """Unpacks the release for this processor, if the repository around the package has it.

    Returns its folder.
    """
    files = list((TOP / "../../dist").glob(f"bb_memory-*-{platform.machine()}-linux.tar.gz"))
    if len(files) != 1:
        return None
    subprocess.run(["tar", "-xzf", files[0], "-C", folder], check=True)
    return folder / files[0].name[: -len(".tar.gz")]


def folder_by_pkg_config(name: str, release: "Path | None") -> Path:
    """Returns a folder that the first `bb_memory.pc` names."""
    folders = os.environ.get("PKG_CONFIG_PATH", "").split(":")
    if release is not None:
        folders.append(str(release / "lib/pkgconfig"))
    environment = {**os.environ, "PKG_CONFIG_PATH": ":".join(filter(None, folders))}
    words = ["pkg-config", f"--variable={name}", "bb_memory"]
    try:
        ran = subprocess.run(words, env=environment, check=True, stdout=subprocess.PIPE)
    except (OSError, subprocess.CalledProcessError):
        sys.exit(MISSING)
    return Path(ran.stdout.decode().strip())


def folders(work: Path) -> "tuple[Path, Path]":
    """Returns the folders of the headers and of the libraries."""
    release = unpacked_release(work)
    if release is not None and not os.environ.get("PKG_CONFIG_PATH"):
        return release / "include", release / "lib"
    return folder_by_pkg_config("includedir", release), folder_by_pkg_config("libdir", release)


def extension(work: Path) -> Extension:
    """Returns the extension, which links the archive, or the shared library if there is none."""
    include, lib = folders(work)
    archive = lib / "libbb_memory.a"
    found = Extension("bb_memory._native", ["src/native.c"])
    found.include_dirs.append(str(include))
    found.extra_compile_args += ["-std=c11", "-D_POSIX_C_SOURCE=200809L"]
    if archive.exists():
        found.extra_objects.append(str(archive))
        found.extra_link_args += ["-Wl,--exclude-libs,ALL", "-pthread"]
    else:
        found.libraries.append("bb_memory")
        found.library_dirs.append(str(lib))
    return found


with tempfile.TemporaryDirectory() as work_folder:
    setup(ext_modules=[extension(Path(work_folder))])
