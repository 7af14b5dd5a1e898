"""Tests of the pictures of scripts."""

import unittest
from pathlib import Path
from xml.etree import ElementTree

from gate.picture import (
    PART,
    Chunk,
    Region,
    Step,
    draw,
    kept_bytes,
    region_of,
    row_of,
    steps_of,
    svg_of,
    text_of,
    wrong_pictures,
)
from gate.process import Failed
from gate.temporary import temporary_folder

BUMP = Region("bump", 4096, 64)
# The picture of the bump for each list of live chunks. A column is a byte.
BUMP_ROWS: list[tuple[list[Chunk], str]] = [
    ([], "." * 64),
    ([Chunk(4096, 10)], "0" * 10 + "." * 54),
    ([Chunk(4096, 10), Chunk(4112, 16)], "0" * 10 + "-" * 6 + "1" * 16 + "." * 32),
]
POOL = region_of("pool 4097 64 12 8")


def memrun(folder: Path, body: str) -> Path:
    """Writes a program instead of memrun."""
    program = folder / "memrun"
    program.write_text(f"#!/bin/sh\ncat > /dev/null\n{body}\n", encoding="utf-8")
    program.chmod(0o755)
    return program


class PictureTest(unittest.TestCase):
    """Draws regions."""

    def test_regions(self) -> None:
        self.assertEqual(region_of("one 4096 64"), Region("one", 4096, 64))
        self.assertEqual(
            POOL, Region("pool", 4097, 64, [Chunk(4104, 12), Chunk(4120, 12), Chunk(4136, 12)])
        )
        self.assertEqual(len(region_of("fixed 4096 1048576 8 8").buckets), 512)
        for line in ("steps-bump 4096 64", "loan-pool 4096 64 8 8"):
            with self.assertRaisesRegex(Failed, "has no region to draw"):
                region_of(line)
        with self.assertRaisesRegex(Failed, "room for 1024 buckets, not 1025"):
            region_of("pool 4096 1025 1 1")

    def test_a_bump(self) -> None:
        for live, row in BUMP_ROWS:
            self.assertEqual(row_of(BUMP, live), f"4096 |{row}| 4160")

    def test_one_chunk(self) -> None:
        one = Region("one", 4097, 15)
        self.assertEqual(row_of(one, []), "4097 |...............| 4112")
        self.assertEqual(row_of(one, [Chunk(4104, 8)]), "4097 |-------00000000| 4112")
        self.assertEqual(row_of(one, [Chunk(4104, 2)]), "4097 |-------00------| 4112")

    def test_a_pool(self) -> None:
        free = "-" * 7 + "." * 12 + "----" + "." * 12 + "----" + "." * 12 + "-" * 13
        self.assertEqual(row_of(POOL, []), f"4097 |{free}| 4161")
        held = "-" * 7 + "." * 12 + "----" + "0" * 5 + "-" * 11 + "1" * 12 + "-" * 13
        live = [Chunk(4120, 5), Chunk(4136, 12)]
        self.assertEqual(row_of(POOL, live), f"4097 |{held}| 4161")
        # A chunk of size 0 holds its bucket, too.
        self.assertIn((4104, 4116), list(kept_bytes(POOL, [Chunk(4104, 0)])))

    def test_a_column_shows_the_first_chunk_that_has_a_byte_of_it(self) -> None:
        large = Region("bump", 4096, 256)
        live = [Chunk(4096, 1), Chunk(4098, 3), Chunk(4104, 1)]
        self.assertEqual(row_of(large, live), f"4096 |012{'.' * 61}| 4352")
        self.assertEqual(row_of(Region("bump", 4096, 0), []), "4096 || 4096")

    def test_steps(self) -> None:
        commands = ["alloc 10 1", "show", "alloc 60 1", "free 0"]
        output = "chunk 4096 10\nstate\nused 10\nOutOfMemory\nreleased\n"
        live = [Chunk(4096, 10)]
        self.assertEqual(
            list(steps_of(BUMP, commands, output)),
            [
                Step("alloc 10 1", "chunk 4096 10", live),
                Step("show", "state used 10", live),
                Step("alloc 60 1", "OutOfMemory", live),
                Step("free 0", "released", []),
            ],
        )

    def test_a_pool_frees_and_resizes_by_position(self) -> None:
        commands = ["alloc 12 8", "alloc 1 1", "free 0", "grow 0 1 1 5 1", "free 3", "show"]
        output = "chunk 4104 12\nchunk 4120 1\nreleased\nchunk 4120 5\npassed\npool start\n"
        *_, last = steps_of(POOL, commands, output)
        self.assertEqual(last, Step("show", "pool start", [Chunk(4120, 5)]))

    def test_text(self) -> None:
        steps = [Step("alloc 10 1", "chunk 4096 10", [Chunk(4096, 10)])]
        self.assertEqual(
            text_of("bump 4096 64", BUMP, steps),
            f"bump 4096 64\n4096 |{BUMP_ROWS[0][1]}| 4160\n"
            f"alloc 10 1            chunk 4096 10\n4096 |{BUMP_ROWS[1][1]}| 4160\n",
        )

    def test_svg(self) -> None:
        steps = [Step("alloc 10 1", "chunk 4096 32", [Chunk(4096, 32)])]
        root = ElementTree.fromstring(svg_of("bump 4096 64", BUMP, steps))
        name = "{http://www.w3.org/2000/svg}"
        texts = [text.text for text in root.iter(f"{name}text")]
        row = ["bump 4096 64", "4096", "4160", "alloc 10 1: chunk 4096 32", "0", "4096", "4160"]
        self.assertEqual(texts, [*row, "a chunk", "unusable", "free"])
        # Half of the region is live.
        fills = [(rect.get("fill"), rect.get("width")) for rect in root.iter(f"{name}rect")]
        self.assertEqual(fills[3:5], [("#b0b0b0", "320.0"), ("#ffffff", "320.0")])

    def test_svg_of_a_free(self) -> None:
        everything = svg_of("bump 4096 64", BUMP, [Step("free 0", "released")])
        self.assertIn(">free 0: released (a bump frees everything)<", everything)
        one = svg_of("pool 4100 40 12 8", POOL, [Step("free 0", "released")])
        self.assertIn(">free 0: released<", one)

    def test_draw(self) -> None:
        with temporary_folder() as work:
            text, svg = draw(memrun(work, "echo chunk 4096 10"), "bump 4096 64\nalloc 10 1\n")
            self.assertTrue(text.endswith(f"|{BUMP_ROWS[1][1]}| 4160\n"))
            self.assertTrue(svg.endswith("</svg>\n"))
            with self.assertRaisesRegex(Failed, "status 2: line 1: refused"):
                draw(memrun(work, "echo line 1: refused; exit 2"), "bad\n")

    def test_pages(self) -> None:
        with temporary_folder() as work:
            program = memrun(work, "echo chunk 4096 10")
            text, svg = draw(program, "bump 4096 64\nalloc 10 1\n")
            shown = "".join(f"    {line}\n" for line in text.splitlines())
            page = (
                f"{PART}\nA script\n\n    bump 4096 64\n    alloc 10 1\n\nIt prints:\n\n{shown}\n"
            )
            with_more = f"{page}## More\n\n    a block\n"
            self.assertEqual(list(wrong_pictures(program, with_more, svg)), [])
            found = list(wrong_pictures(program, page.replace("000", "00."), f"{svg} "))
            self.assertEqual(len(found), 2)
            found = list(wrong_pictures(program, "## Another part\n", svg))
            self.assertEqual(len(found), 1)


if __name__ == "__main__":
    unittest.main()
