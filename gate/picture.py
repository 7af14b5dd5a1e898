"""Draws a region after each command of a script that memrun has run.

    tools/picture [SCRIPT]              prints the script with its replies and pictures
    tools/picture --svg FILE [SCRIPT]   also writes the pictures to an SVG file

SCRIPT is a file; without it, the script is read from standard input. docs/script-format.md
describes scripts. There is a region to draw if the first word is `bump`, `one`, `pool` or `fixed`.

memrun is the program that --memrun names, otherwise the one that was built in this checkout,
otherwise the one on the path. Nothing here is proved: a picture shows what memrun has replied.
"""

import argparse
import re
import shutil
import subprocess
import sys
from collections.abc import Iterator, Sequence
from dataclasses import dataclass, field
from html import escape
from pathlib import Path
from textwrap import dedent

from gate import libraries
from gate.crates import TOP
from gate.process import Failed, say

# The part of docs/script-format.md with a script and its pictures, and the SVG file of these.
PAGE = TOP / "docs/script-format.md"
PART = "## Pictures\n"
SVG = TOP / "docs/picture.svg"
# The most buckets that a picture has room for.
MOST_BUCKETS = 1024
# The most buckets of a fixed pool.
FIXED_BUCKETS = 512
# The columns of a region in a text. Each stands for the same number of bytes.
COLUMNS = 64
# The signs of chunks in a text, by position in the live list. The last sign is for all later ones.
SIGNS = "0123456789abcdefghijklmnopqrstuvwxyz#"
FREE = "."
KEPT = "-"
# The sizes of a picture, in pixels.
LEFT = 20
REGION = 640
ROW = 74
BAR = 30
# The least width of a chunk with room for the number of its position.
LABEL = 14
FILLS = {FREE: "#ffffff", KEPT: "url(#kept)"}
LIVE_FILL = "#b0b0b0"
# The pattern of bytes that no request can get: slanted lines, which differ from white in any print.
PATTERN = (
    '<defs><pattern id="kept" width="6" height="6" patternUnits="userSpaceOnUse">'
    '<path d="M0 6 L6 0" stroke="#606060"/></pattern></defs>'
)
# What the fills mean, and the height of the line that says so.
MEANINGS = {LIVE_FILL: "a chunk", FILLS[KEPT]: "unusable", FILLS[FREE]: "free"}
LEGEND = 34


@dataclass(frozen=True)
class Chunk:
    """A chunk in the live list."""

    place: int
    size: int

    @property
    def end(self) -> int:
        """Returns the address after its last byte."""
        return self.place + self.size


@dataclass(frozen=True)
class Region:
    """The region of a script: its kind, its bytes, and for a pool its buckets."""

    kind: str
    start: int
    size: int
    buckets: Sequence[Chunk] = ()

    @property
    def end(self) -> int:
        """Returns the address after its last byte."""
        return self.start + self.size


@dataclass(frozen=True)
class Part:
    """Adjacent bytes of a region that are all in one live chunk, all unusable, or all free."""

    start: int
    end: int
    sign: str


@dataclass(frozen=True)
class Step:
    """A command with its reply, and the live list after it."""

    command: str
    reply: str
    live: Sequence[Chunk] = field(default_factory=list)


def region_of(line: str) -> Region:
    """Reads the first line of a script. Raises Failed if its kind has no region."""
    kind, *words = line.split(" ")
    if kind not in ("bump", "one", "pool", "fixed"):
        raise Failed(f"picture: `{kind}` has no region to draw")
    start, size, *bucket = map(int, words)
    if not bucket:
        return Region(kind, start, size)
    length, align = bucket
    stride = -(-length // align) * align
    first = -(-start // align) * align
    places = range(first, start + size - stride + 1, stride)
    if kind == "fixed":
        places = places[:FIXED_BUCKETS]
    if len(places) > MOST_BUCKETS:
        raise Failed(f"picture: a picture has room for {MOST_BUCKETS} buckets, not {len(places)}")
    return Region(kind, start, size, [Chunk(place, length) for place in places])


def after(live: Sequence[Chunk], kind: str, command: str, reply: str) -> list[Chunk]:
    """Returns the live list after a command with this reply."""
    word, *numbers = command.split(" ")
    answer, *values = reply.split(" ")
    changed = list(live)
    if answer == "released":
        if kind == "bump":
            changed.clear()
        else:
            del changed[int(numbers[0])]
    elif answer == "chunk":
        chunk = Chunk(*map(int, values))
        if word == "alloc":
            changed.append(chunk)
        else:
            changed[int(numbers[0])] = chunk
    return changed


def steps_of(region: Region, commands: Sequence[str], output: str) -> Iterator[Step]:
    """Yields each command with its reply. `show` under `bump` has a reply of two lines."""
    lines = iter(output.splitlines())
    live: list[Chunk] = []
    for command in commands:
        reply = next(lines)
        if command == "show" and region.kind == "bump":
            reply = f"{reply} {next(lines)}"
        live = after(live, region.kind, command, reply)
        yield Step(command, reply, live)


def kept_bytes(region: Region, live: Sequence[Chunk]) -> Iterator[tuple[int, int]]:
    """Yields the start and the end of each range of bytes that no request can get."""
    if region.kind == "bump":
        yield region.start, max((chunk.end for chunk in live), default=region.start)
        return
    if region.kind == "one":
        if live:
            yield region.start, region.end
        return
    places = {chunk.place for chunk in live}
    at = region.start
    for bucket in region.buckets:
        yield at, bucket.place
        if bucket.place in places:
            yield bucket.place, bucket.end
        at = bucket.end
    yield at, region.end


def parts_of(region: Region, live: Sequence[Chunk]) -> list[Part]:
    """Returns the parts of a region, in order."""
    kept = [(start, end) for start, end in kept_bytes(region, live) if start < end]
    edges = {region.start, region.end}
    for start, end in [*kept, *((chunk.place, chunk.end) for chunk in live)]:
        edges |= {start, end}
    bounds = sorted(edges)
    parts = []
    for start, end in zip(bounds, bounds[1:]):
        sign = FREE
        if any(first <= start < last for first, last in kept):
            sign = KEPT
        for position, chunk in enumerate(live):
            if chunk.place <= start < chunk.end:
                sign = SIGNS[min(position, len(SIGNS) - 1)]
        parts.append(Part(start, end, sign))
    return parts


def row_of(region: Region, live: Sequence[Chunk]) -> str:
    """Returns the region as one line of text.

    A column shows the first chunk with a byte in it, otherwise `-` if one of its bytes is unusable.
    """
    columns = min(COLUMNS, region.size)
    parts = parts_of(region, live)
    row = []
    for column in range(columns):
        start = region.start + column * region.size // columns
        end = region.start + (column + 1) * region.size // columns
        signs = [part.sign for part in parts if part.start < end and start < part.end]
        chunks = [sign for sign in signs if sign not in (FREE, KEPT)]
        row.append(chunks[0] if chunks else KEPT if KEPT in signs else FREE)
    return f"{region.start} |{''.join(row)}| {region.end}"


def text_of(first: str, region: Region, steps: Sequence[Step]) -> str:
    """Returns a script with its replies, and with the region after each line."""
    lines = [first, row_of(region, [])]
    for step in steps:
        lines += [f"{step.command:<20}  {step.reply}", row_of(region, step.live)]
    return "\n".join([*lines, ""])


def rectangle(region: Region, part: Part, top: int) -> Iterator[str]:
    """Yields the rectangle of a part, and the position of a chunk if there is room for it."""
    x = LEFT + REGION * (part.start - region.start) / region.size
    width = REGION * (part.end - part.start) / region.size
    fill = FILLS.get(part.sign, LIVE_FILL)
    yield f'<rect x="{x:.1f}" y="{top}" width="{width:.1f}" height="{BAR}" fill="{fill}"/>'
    if fill == LIVE_FILL and width >= LABEL:
        yield (
            f'<text x="{x + width / 2:.1f}" y="{top + 20}" text-anchor="middle">{part.sign}</text>'
        )


def row_svg(region: Region, step: Step, top: int) -> Iterator[str]:
    """Yields a command with its reply, and the region below it."""
    said = f"{step.command}: {step.reply}" if step.reply else step.command
    if region.kind == "bump" and step.reply == "released":
        said += " (a bump frees everything)"
    bar = top + 14
    yield f'<text x="{LEFT}" y="{top + 6}" font-weight="bold">{escape(said)}</text>'
    if region.size > 0:
        for part in parts_of(region, step.live):
            yield from rectangle(region, part, bar)
        for bucket in region.buckets:
            x = LEFT + REGION * (bucket.place - region.start) / region.size
            yield f'<path d="M{x:.1f} {bar} v{BAR}" stroke="#000000"/>'
    frame = f'x="{LEFT}" y="{bar}" width="{REGION}" height="{BAR}"'
    yield f'<rect {frame} fill="none" stroke="#000000" stroke-width="2"/>'
    under = bar + BAR + 14
    yield f'<text x="{LEFT}" y="{under}">{region.start}</text>'
    yield f'<text x="{LEFT + REGION}" y="{under}" text-anchor="end">{region.end}</text>'


def legend(top: int) -> Iterator[str]:
    """Yields what each fill means, in a line."""
    for at, (fill, meaning) in enumerate(MEANINGS.items()):
        x = LEFT + 110 * at
        yield f'<rect x="{x}" y="{top}" width="26" height="16" fill="{fill}" stroke="#000000"/>'
        yield f'<text x="{x + 34}" y="{top + 13}">{meaning}</text>'


def svg_of(first: str, region: Region, steps: Sequence[Step]) -> str:
    """Returns the pictures as an SVG file."""
    rows = [Step(first, ""), *steps]
    width = REGION + 2 * LEFT
    top_of_legend = ROW * len(rows) + LEFT
    height = top_of_legend + LEGEND
    lines = [
        f'<svg xmlns="http://www.w3.org/2000/svg" width="{width}" height="{height}" '
        'font-family="Helvetica, Arial, sans-serif" font-size="13" role="img" '
        'aria-label="A region after each command of a script">',
        PATTERN,
        f'<rect width="{width}" height="{height}" fill="#ffffff"/>',
    ]
    for number, step in enumerate(rows):
        lines += row_svg(region, step, LEFT + ROW * number)
    lines += legend(top_of_legend)
    return "\n".join([*lines, "</svg>", ""])


def run_memrun(program: Path, script: str) -> str:
    """Runs memrun on a script, and returns its output. Raises Failed if memrun fails."""
    ran = subprocess.run([program], input=script.encode(), capture_output=True)
    output = ran.stdout.decode()
    if ran.returncode != 0:
        said = (output + ran.stderr.decode()).strip()
        raise Failed(f"picture: memrun ended with status {ran.returncode}: {said[-200:]}")
    return output


def draw(program: Path, script: str) -> tuple[str, str]:
    """Runs a script, and returns its pictures as a text and as an SVG file."""
    output = run_memrun(program, script)
    first, *commands = script.splitlines()
    region = region_of(first)
    steps = list(steps_of(region, commands, output))
    return text_of(first, region, steps), svg_of(first, region, steps)


def wrong_pictures(program: Path, page: str, svg: str) -> Iterator[str]:
    """Yields the parts of a page and an SVG file that differ from the pictures of their script."""
    part = page.partition(PART)[2].partition("\n## ")[0]
    blocks = [dedent(block) for block in re.findall(r"(?:^    .*\n)+", part, re.M)]
    if len(blocks) != 2:
        yield f"{PAGE.name}: `{PART.strip()}` has no script with pictures"
        return
    script, text = blocks
    drawn_text, drawn_svg = draw(program, script)
    if text != drawn_text:
        yield f"{PAGE.name}: the pictures aren't those that tools/picture draws:\n{drawn_text}"
    if svg != drawn_svg:
        yield f"{SVG.name}: isn't what tools/picture --svg writes for the script of {PAGE.name}"


def check_pages() -> None:
    """Raises Failed if the stored pictures differ from those that are drawn now."""
    page = PAGE.read_text(encoding="utf-8")
    found = list(wrong_pictures(libraries.program("memrun"), page, SVG.read_text(encoding="utf-8")))
    if found:
        raise Failed("\n".join(found))


def find_memrun() -> Path:
    """Returns the memrun that was built in this checkout, otherwise the one on the path."""
    built = libraries.program("memrun")
    if built.exists():
        return built
    found = shutil.which("memrun")
    if found is None:
        raise Failed("picture: memrun is neither built nor on the path: name it by --memrun FILE")
    return Path(found)


def main(words: list[str]) -> None:
    """Runs `tools/picture`."""
    parser = argparse.ArgumentParser(
        prog="tools/picture",
        description=__doc__,
        formatter_class=argparse.RawDescriptionHelpFormatter,
    )
    parser.add_argument("script", nargs="?", type=Path, help="see above")
    parser.add_argument("--svg", type=Path, metavar="FILE", help="see above")
    parser.add_argument("--memrun", type=Path, metavar="FILE", help="see above")
    wanted = parser.parse_args(words)
    script = wanted.script.read_text(encoding="utf-8") if wanted.script else sys.stdin.read()
    text, svg = draw(wanted.memrun or find_memrun(), script)
    if wanted.svg is not None:
        wanted.svg.write_text(svg, encoding="utf-8")
    say(text.rstrip("\n"))
