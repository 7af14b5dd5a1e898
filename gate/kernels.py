"""Tests pools in files on ARM64 kernels in virtual machines: `.ci/run-kernels RELEASE KERNEL..`.

RELEASE is the release for ARM64, such as dist/bb_memory-*-aarch64-linux.tar.gz, and each KERNEL an
image of Linux for ARM64, such as `vmlinuz-*` of Debian's packages linux-image-*-arm64 (with pages of
4 KiB) and linux-image-*-arm64-16k. It needs `qemu-system-aarch64`, `aarch64-linux-gnu-gcc` and
`cpio`: the Debian packages qemu-system-arm, gcc-aarch64-linux-gnu, libc6-dev-arm64-cross and cpio.
The merge gate doesn't run it, since it takes minutes for each kernel. It is for a release.

A machine runs static programs: `cases`, and `kills`, which kills processes at random and while they
make a file. Stepping through single instructions isn't tried, as the library's page says. qemu runs
ARM64 code in the order of memory of this machine's processor.
"""

import re
import shutil
import subprocess
from pathlib import Path

from gate.crates import TOP
from gate.pool_file import CRATE
from gate.process import Failed, must_run, say
from gate.temporary import temporary_folder

COMPILER = "aarch64-linux-gnu-gcc"
# The commands in a machine.
COMMANDS = (
    "/tests/cases /dev/shm",
    "/tests/kills run /dev/shm 200 0 1 2",
    "/tests/kills run /dev/shm 200 8 2 8",
    "/tests/kills make /dev/shm 100",
)
# The programs: the source among the tests of pools in files, and flags.
PROGRAMS = {
    "cases": ("cases.c", "-DWRAPS_ATFORK", "-Wl,--wrap=pthread_atfork"),
    "kills": ("kills.c",),
}
# With the architecture's own algorithm of pointer authentication, an emulation takes many times longer.
MACHINE = ("-M", "virt", "-cpu", "max,pauth-impdef=on", "-smp", "2", "-m", "1536")
QUIET = ("-nographic", "-no-reboot", "-net", "none")
# The seconds after which a machine is taken to hang.
LONGEST = 1800


def missing(text: str) -> list[str]:
    """Returns the commands that didn't end with status 0, by what the machine printed."""
    said = set(re.findall(r"^init: status 0: (.*?)\r?$", text, re.MULTILINE))
    return [command for command in COMMANDS if command not in said]


def page_of(text: str) -> str | None:
    """Returns the size of the kernel's page, if the machine printed it."""
    match = re.search(r"^init: pages of (\d+) bytes", text, re.MULTILINE)
    return None if match is None else match[1]


def make_image(top: Path, release: Path, work: Path) -> Path:
    """Makes the first file system of a machine, with the programs of the tests."""
    crate = top / CRATE
    must_run(["tar", "-xzf", release, "-C", work, "--strip-components=1"], work)
    root = work / "root"
    (root / "tests").mkdir(parents=True)
    compile_static: list[str | Path] = [
        COMPILER,
        "-std=gnu11",
        "-O2",
        "-static",
        f"-I{work / 'include'}",
    ]
    compile_static += [f"-I{crate}"]
    tests = crate / "tests/pool_file"
    must_run([*compile_static, "-o", root / "init", tests / "kernels/init.c"], work)
    for name, (source, *flags) in PROGRAMS.items():
        output = root / "tests" / name
        words = [*compile_static, "-o", output, tests / source, *flags]
        must_run([*words, work / "lib/libbb_memory.a", "-pthread"], work)
    (root / "bin").mkdir()
    shutil.copy2(root / "init", root / "bin/sleep")
    (root / "commands").write_text("".join(f"{each}\n" for each in COMMANDS), encoding="utf-8")
    names = b"".join(
        bytes(file.relative_to(root)) + b"\n" for file in sorted([root, *root.rglob("*")])
    )
    image = work / "image"
    with image.open("wb") as output_file:
        subprocess.run(
            ["cpio", "-o", "-H", "newc", "--quiet"],
            cwd=root,
            input=names,
            stdout=output_file,
            check=True,
        )
    return image


def boot(kernel: Path, image: Path) -> str:
    """Boots a kernel with a file system, and returns what the machine prints until its end."""
    words = ["qemu-system-aarch64", *MACHINE, *QUIET, "-kernel", str(kernel)]
    words += ["-initrd", str(image), "-append", "console=ttyAMA0 quiet panic=-1"]
    try:
        ran = subprocess.run(
            words,
            stdin=subprocess.DEVNULL,
            stdout=subprocess.PIPE,
            stderr=subprocess.STDOUT,
            timeout=LONGEST,
            check=False,
        )
    except subprocess.TimeoutExpired as error:
        said = (error.stdout or b"").decode(errors="replace")
        raise Failed(f"{said}\n{kernel.name}: the machine hangs") from error
    return ran.stdout.decode(errors="replace")


def run(top: Path, release: Path, kernels: list[Path]) -> None:
    """Runs the tests on each kernel. Raises Failed if one fails."""
    with temporary_folder() as work:
        image = make_image(top, release, work)
        for kernel in kernels:
            printed = boot(kernel, image)
            failed = missing(printed)
            if failed:
                raise Failed(f"{printed}\n{kernel.name}: failed: {', '.join(failed)}")
            for line in printed.splitlines():
                if line.startswith(("cases:", "kills:")):
                    say(f"{kernel.name}: {line.rstrip()}")
            page = page_of(printed)
            if page is None:
                raise Failed(f"{printed}\n{kernel.name}: doesn't say what pages it has")
            say(f"{kernel.name}: passed, with pages of {page} bytes")


def main(words: list[str]) -> None:
    """Runs `.ci/run-kernels RELEASE KERNEL..`."""
    if len(words) < 2:
        raise Failed("usage: .ci/run-kernels RELEASE KERNEL..")
    release, *kernels = (Path(word).resolve() for word in words)
    run(TOP, release, kernels)
