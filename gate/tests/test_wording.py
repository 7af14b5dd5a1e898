"""Tests that words that crept in are found in what users read, and that right uses pass."""

import unittest

from gate import wording
from gate.tests.sample import TEXTS, changed

# A sentence for each word, and the word as it is found.
WRONG = {
    "The next chunk begins behind it.": "behind",
    "It is refused with OutOfMemory alone.": "alone",
    "It succeeds if there is room. Else it is refused.": "Else",
    "Returns 1 if a chunk is held, else 0.": ", else",
    "A flag stands in its word.": "stands",
    "A lemma stood here.": "stood",
    "The caller is told the number.": "told",
    "Tells whether the party holds a bucket.": "Tells whether",
    "It asks so many times.": "so many",
    "The bump starts again with as many parties.": "as many",
    "The size that was handed in.": "handed",
    "Returns the number that was asked for.": "asked",
    "One of both goes on.": "One of both",
    "Up to the smaller of both lengths.": "smaller of both",
    "Which bucket is given is left open.": "left open",
    "It is refused for want of memory.": "for want of",
    "A wild place is refused.": "wild place",
    "No memory is had there.": "is had",
    "Of several causes the first one is returned.": "Of several",
    "The answer is as of a pool.": "as of a",
    "The time was measured of 1.2.3.": "measured of",
    "Each job more loads all libraries again.": "Each job more",
    "Returns None where no bucket begins there.": "where no",
    "It is refused where there is no such bucket.": "where there is",
    "It is refused where the size is greater.": "where the size is",
    "A request is refused where each bucket is held or cached.": "where each bucket is",
    "It is refused where it was lost before.": "where it was",
    "A second free is refused.": "second free",
    "The chunk is freed twice.": "freed twice",
    "Each taking is one step.": "Each taking",
    "The time of 1,000 takings.": "takings",
    "Returns the figures of the pool.": "figures",
    "Has the library call another function.": "Has the",
    "It fails exactly if the pool is empty.": "exactly if",
}
# Sentences in which the same words are right.
RIGHT = (
    "A value stands for a list, and lists stand for values.",
    "The memory stands in for the words.",
    "A stand-in has the view of its seat, and all stand-ins are at one table.",
    "The pool has as many buckets as there is room for.",
    "There are as many as before.",
    "The steps of both machines.",
    "Returns where the bucket of this number is.",
    "Returns where the first bucket is, and where it was.",
    "Where the bucket is in this process.",
    "A mark shows where the values are made.",
    "It follows from the machine, where the bucket is held after the step.",
    "Something else happens.",
    "Looks at a message without taking it.",
    "The pool has the library's memory.",
    "A name in code: `behind`, `alone`, `stands`.",
)


def found(text: str) -> list[str]:
    """Returns what is found in a page with this text."""
    return list(wording.wrong({"README.md": text}, ()))


class Sentences(unittest.TestCase):
    """Each wrong sentence is one finding, and each right one is none."""

    def test_wrong(self) -> None:
        for sentence, word in WRONG.items():
            with self.subTest(sentence):
                self.assertEqual(len(found(sentence)), 1, found(sentence))
                self.assertIn(f"README.md:1: `{word}`: write ", found(sentence)[0])

    def test_wrong_across_an_end_of_a_line(self) -> None:
        for sentence, word in WRONG.items():
            with self.subTest(sentence):
                self.assertEqual(len(found(sentence.replace(" ", "\n  "))), 1)

    def test_each_word_has_a_sentence(self) -> None:
        for word in wording.WORDS:
            with self.subTest(word.pattern):
                self.assertTrue(any(word.compiled().search(sentence) for sentence in WRONG))

    def test_right(self) -> None:
        for sentence in RIGHT:
            with self.subTest(sentence):
                self.assertEqual(found(sentence), [])

    def test_after_blank_lines(self) -> None:
        """The line is that of the word, and many blank lines take no longer than others."""
        (line,) = found(20_000 * "\n" + "Has the library call another function.")
        self.assertTrue(line.startswith("README.md:20001: "), line)

    def test_words_of_two_paragraphs(self) -> None:
        self.assertEqual(found("The reply is so\n\nmany lines"), [])


class Places(unittest.TestCase):
    """Words are found in pages, headers and doc comments, with the right line."""

    def one(self, path: str, text: str) -> str:
        lines = list(wording.wrong({path: text}, ()))
        self.assertEqual(len(lines), 1, lines)
        return lines[0]

    def none(self, path: str, text: str) -> None:
        self.assertEqual(list(wording.wrong({path: text}, ())), [])

    def test_line_of_a_page(self) -> None:
        page = "A page.\n\n```c\nint behind;\n```\n\n    behind\n\nIt is behind.\n"
        self.assertIn("docs/a.md:9: ", self.one("docs/a.md", page))

    def test_words_that_some_pages_define(self) -> None:
        self.one("docs/benchmarks.md", "The time of 1,000 takings.\n")
        self.none("PROMISES.md", "The takings and returns are a run.\n")
        self.none("crates/high/src/pools.rt", "/// The takings are a run.\n")
        self.none("docs/benchmarks.md", "All figures are in the file.\n")

    def test_changes_of_the_newest_version(self) -> None:
        page = "# Changes\n\n## 1.2.3\n\nNow it is behind.\n\n## 1.2.2\n\nIt was behind.\n"
        self.assertIn("CHANGELOG.md:5: ", self.one("CHANGELOG.md", page))

    def test_header(self) -> None:
        header = "// A bump.\nint behind;  // what is behind it\n"
        self.assertIn(":2: ", self.one("crates/bb_memory_c/bb_memory.h", header))
        self.assertIn(":2: ", self.one("crates/bb_memory_c/bb_pool_file.hpp", header))
        self.none("crates/bb_memory_c/memory.h", header)

    def test_doc_comments(self) -> None:
        source = "//! Pools.\n\n/// Returns what\n/// is behind.\nfn behind() {} // behind\n"
        self.assertIn(":4: ", self.one("crates/high/src/pools.rt", source))
        self.assertIn(":4: ", self.one("bindings/rust/src/pools.rs", source))
        self.none("crates/high/specs/Words.antt", source)

    def test_types_for_python(self) -> None:
        types = 'def post(self) -> None:\n    """Posts.\n\n    It is behind.\n    """\n'
        self.assertIn(":4: ", self.one("bindings/python/src/bb_memory/_native.pyi", types))
        self.none("bindings/python/src/native.c", types)

    def test_two_comments_are_no_sentence(self) -> None:
        self.none("crates/high/src/pools.rt", "/// Returns so\nfn a() {}\n/// many\nfn b() {}\n")

    def test_planted_in_the_sample(self) -> None:
        texts = {**TEXTS, **changed("README.md", "# Read\n", "# Read\n\nIt lies behind.\n")}
        self.assertEqual(len(list(wording.wrong(texts))), 1)


class Allowed(unittest.TestCase):
    """A phrase allows a use, and each phrase is needed."""

    PHRASE = "Where a peer is quicker"
    TEXTS = {"README.md": "Where a peer\nis quicker, and where a peer is slower by far.\n"}

    def test_only_the_phrase(self) -> None:
        lines = list(wording.wrong(self.TEXTS, [self.PHRASE]))
        self.assertEqual(len(lines), 1, lines)
        self.assertIn("README.md:2: `where a peer is`", lines[0])

    def test_used(self) -> None:
        self.assertEqual(list(wording.unused(self.TEXTS, [self.PHRASE])), [])

    def test_phrase_that_no_text_has(self) -> None:
        lines = list(wording.unused({"README.md": "A page.\n"}, [self.PHRASE]))
        self.assertEqual(len(lines), 1, lines)
        self.assertIn("is in no text", lines[0])

    def test_phrase_that_needs_no_allowance(self) -> None:
        lines = list(wording.unused(self.TEXTS, ["slower by far"]))
        self.assertEqual(len(lines), 1, lines)
        self.assertIn("needs no allowance", lines[0])


if __name__ == "__main__":
    unittest.main()
