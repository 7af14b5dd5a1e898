"""Tests that changes of code in files that a person has to read are found, and no others."""

import unittest

from gate import places, readings
from gate.code import sum_of
from gate.crates import TOP

FLAGS = "crates/bb_memory_shared_pools/src/shared_pool/flags.rt"
POSITION = "crates/bb_memory_bump/src/shared_bump/position.rt"


class RealTree(unittest.TestCase):
    """The files of this checkout, and changes to them that are made here."""

    texts = {
        file: (TOP / file).read_text(encoding="utf-8") for file in (*readings.READ, readings.LIST)
    }

    def after(self, file: str, old: str, new: str) -> list[str]:
        """Returns the findings after a text in a file is replaced."""
        text = self.texts[file]
        self.assertIn(old, text)
        return list(readings.findings({**self.texts, file: text.replace(old, new, 1)}))

    def test_files_are_as_they_were_read(self) -> None:
        self.assertEqual(list(readings.findings(self.texts)), [])

    def test_each_file_is_compared(self) -> None:
        for file in readings.READ:
            found = self.after(file, "\nuse ", "\nconst MORE: u8 = 1;\nuse ")
            self.assertEqual(len(found), 1)
            self.assertIn(f"{file}: its code changed", found[0])

    def test_new_sum_and_what_is_to_be_read_are_shown(self) -> None:
        found = self.after(POSITION, "let shared =", "let mut shared =")
        text = self.texts[POSITION].replace("let shared =", "let mut shared =", 1)
        self.assertEqual(len(found), 1)
        self.assertIn(f"`{sum_of(text)}  {POSITION}`, read the whole file", found[0])

    def test_load_that_another_function_makes_is_found_only_by_the_sum(self) -> None:
        text = self.texts[FLAGS]
        looks = "        let seen = self.table.shared.load::<LooksAt>(seat, word_of(bucket));\n"
        met = "        let found = shared.load::<LooksMet>(seat, word_of(bucket));\n"
        self.assertEqual((text.count(looks), text.count(met)), (1, 1))
        traded = text.replace(met, "        let found = WITH_TOKEN * 4;\n")
        traded = traded.replace(looks, looks + looks)
        sources = places.sources_of({FLAGS: text})
        self.assertEqual(
            places.misplaced(sources), places.misplaced(places.sources_of({FLAGS: traded}))
        )
        self.assertEqual(len(list(readings.findings({**self.texts, FLAGS: traded}))), 1)

    def test_comments_and_clauses_are_not_compared(self) -> None:
        self.assertEqual(self.after(POSITION, "/// A load that", "/// One load that"), [])
        self.assertEqual(self.after(POSITION, "scene.opening ≤", "scene.opening + 1 ≤"), [])

    def test_file_without_a_sum_is_found(self) -> None:
        lines = self.texts[readings.LIST].splitlines()
        kept = "\n".join(line for line in lines if POSITION not in line)
        found = list(readings.findings({**self.texts, readings.LIST: kept}))
        self.assertEqual(len(found), 1)
        self.assertIn(POSITION, found[0])

    def test_sum_of_another_file_is_found(self) -> None:
        more = self.texts[readings.LIST] + "0123456789abcdef  crates/other.rt\n"
        texts = {**self.texts, readings.LIST: more, "crates/other.rt": ""}
        found = list(readings.findings(texts))
        self.assertEqual(len(found), 1)
        self.assertIn("has a file that isn't in READ", found[0])

    def test_file_that_is_gone_is_found(self) -> None:
        texts = {file: text for file, text in self.texts.items() if file != POSITION}
        self.assertEqual(
            list(readings.findings(texts)), [f"{POSITION}: has to be read, but is missing"]
        )

    def test_line_that_is_no_sum_is_found(self) -> None:
        found = list(readings.findings({**self.texts, readings.LIST: "no sum\n"}))
        self.assertEqual(found, ["gate/readings.txt: not of the form `SUM  FILE`: no sum"])

    def test_comment_in_stars_is_found(self) -> None:
        found = self.after(POSITION, "let shared =", "/* a */ let shared =")
        self.assertEqual(len(found), 1)
        self.assertIn("a block comment, so its sum can't be made", found[0])


if __name__ == "__main__":
    unittest.main()
