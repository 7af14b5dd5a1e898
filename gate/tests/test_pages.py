"""Tests that each fault in a page, a comment or an edit is found, and nothing else."""

import os
import shutil
import unittest
from collections.abc import Callable, Iterable
from pathlib import Path
from unittest import mock

from gate import contracts, links, pages, process, versions, wording
from gate.files import TreeChanged, texts_below
from gate.pages import Tree
from gate.tests.sample import TEXTS, changed, checkout

Check = Callable[[Tree], Iterable[str]]
# A step of `os.walk`: a folder, and the names of the folders and files in it.
Step = tuple[str, list[str], list[str]]


def doc_links(tree: Tree) -> Iterable[str]:
    """Checks the links of doc comments."""
    return links.DocLinks(tree.texts, tree.index).dead()


CHECKS: dict[str, Check] = {
    "names": pages.lost_names,
    "links": lambda tree: links.dead_links(tree.texts),
    "doc links": doc_links,
    "promises": lambda tree: contracts.untrue(tree.index),
    "versions": lambda tree: versions.wrong(tree.texts),
    "edits": pages.wrong_promises,
    "folders of edits": pages.lost_edits,
    "crates": pages.unnamed_crates,
    "first words": pages.wrong_first_words,
    "words": lambda tree: wording.wrong(tree.texts),
    "examples": pages.lost_examples,
}


def found_in(changes: dict[str, str], name: str = "tree") -> list[str]:
    """Returns the findings in the sample with some changes."""
    with checkout(changes, name) as top:
        tree = pages.read_tree(top)
        return [line for check in CHECKS.values() for line in check(tree)]


class Faults(unittest.TestCase):
    """Each fault is the only finding in the sample."""

    def finds(self, changes: dict[str, str], *parts: str) -> None:
        found = found_in(changes)
        self.assertEqual(len(found), 1, found)
        for part in parts:
            self.assertIn(part, found[0])

    def test_sample_has_none(self) -> None:
        self.assertEqual(found_in({}), [])

    def test_line_count(self) -> None:
        self.finds(changed("PROMISES.md", "| 5 |", "| 6 |"), "5 lines, not 6")

    def test_file_to_read(self) -> None:
        self.finds(changed("PROMISES.md", "`Words`", "`traits`"), "crates/low/specs/traits.antt")

    def test_label_in_another_column(self) -> None:
        table = "| Step | What | Calls, for example |\n|---|---|---|\n"
        row = "| one | `Base` has it | `Pool::count`: `losses` |\n\n"
        changes = changed("PROMISES.md", "## What to read", f"{table}{row}## What to read")
        self.finds(changes, "Pool::count losses")

    def test_label_of_another_call(self) -> None:
        self.finds(changed("PROMISES.md", "`value`", "`losses`"), "Pool::count losses")

    def test_label_that_only_a_comment_has(self) -> None:
        self.finds(changed("PROMISES.md", "`value`", "`fresh`"), "Pool::count fresh")

    def test_call_of_a_promise(self) -> None:
        found = found_in(changed("PROMISES.md", "`Pool::count`", "`Poo::count`"))
        self.assertIn(
            "PROMISES.md: nothing has this name and these labels: Poo::count value", found
        )

    def test_clause_of_a_theorem_that_no_row_cites(self) -> None:
        theorem = "pub fn pool_theorem()\n    ensures run { 0 ≡ 0 }\n{\n}\n"
        pools = {"crates/high/src/pools.rt": f"{TEXTS['crates/high/src/pools.rt']}\n{theorem}"}
        self.finds(pools, "PROMISES.md: no row cites pool_theorem: run")
        for row in ("; `pool_theorem`: `run` | none |", "; `pool_theorem` | none |"):
            self.assertEqual(found_in({**pools, **changed("PROMISES.md", " | none |", row)}), [])

    def test_clause_of_a_law_that_no_row_cites(self) -> None:
        law = "pub fn pool_law()\n    ensures run { 0 ≡ 0 }\n    ensures held { 0 ≡ 0 }\n{\n}\n"
        pools = {"crates/high/src/pools.rt": f"{TEXTS['crates/high/src/pools.rt']}\n{law}"}
        row = "; `pool_law`: `run` | none |"
        changes = {**pools, **changed("PROMISES.md", " | none |", row)}
        self.finds(changes, "PROMISES.md: no row cites pool_law: held")

    def test_name(self) -> None:
        self.finds(changed("README.md", "`Pool::count`", "`Pool::size_of`"), "Pool::size_of")

    def test_link_to_a_file(self) -> None:
        self.finds(changed("README.md", "docs/words.md#", "docs/word.md#"), "docs/word.md")

    def test_link_to_a_heading(self) -> None:
        self.finds(changed("README.md", "#what-it-is", "#what-it-was"), "#what-it-was")

    def test_doc_link_to_a_module(self) -> None:
        changes = changed("crates/high/src/pools.rt", "low::traits::fits", "crate::traits::fits")
        self.finds(changes, "crates/high/src/pools.rt:16", "crate::traits::fits")

    def test_doc_link_to_a_call(self) -> None:
        changes = changed("crates/high/src/pools.rt", "[`Pool::fresh`]", "[`Pool::frsh`]")
        self.finds(changes, "crates/high/src/pools.rt:16", "Pool::frsh")

    def test_version_of_a_copy(self) -> None:
        changes = changed("bindings/rust/Cargo.toml", "1.2.3", "1.2.4")
        self.finds(changes, "bindings/rust/Cargo.toml: version 1.2.4, not 1.2.3")

    def test_version_that_cmake_looks_for(self) -> None:
        changes = changed("examples/c/CMakeLists.txt", "1.0", "2.0")
        self.finds(changes, "examples/c/CMakeLists.txt: version 2, not 1")

    def test_version_of_the_header(self) -> None:
        found = found_in(changed("crates/bb_memory_c/bb_memory.h", '"1.2.3"', '"1.3.0"'))
        self.assertIn("bindings/rust/Cargo.lock: version 1.2.3, not 1.3.0", "\n".join(found))
        self.assertIn("CHANGELOG.md: the newest version isn't 1.3.0", found)

    def test_version_on_a_page(self) -> None:
        self.finds(changed("README.md", "of 1.2.3", "of 1.2.7"), "README.md: 1.2.7")

    def test_release_on_a_page(self) -> None:
        self.finds(changed("README.md", "of 1.2.3", "in bb_memory-1.2.2-x86"), "version 1.2.2")

    def test_version_without_a_commit(self) -> None:
        self.finds(changed("CHANGELOG.md", " (commit 0123abcd)", ""), "1.2.2 has no `(commit ..)`")

    def test_newest_version_without_a_day(self) -> None:
        for rest in ("", " (commit 0123abcd)", " (2001-2-3)"):
            with self.subTest(rest):
                self.finds(changed("CHANGELOG.md", " (2001-02-03)", rest), "1.2.3 has no day")

    def test_edit_in_a_folder_that_nobody_reads(self) -> None:
        edit = TEXTS["crates/high/must-fail/counts_one.edit"]
        self.finds({"crates/high/mutants/counts_two.edit": edit}, "no check reads edits")

    def test_edit_names_no_call(self) -> None:
        changes = changed("crates/high/must-fail/counts_one.edit", "Pool::count", "Pool::cont")
        self.finds(changes, "no call is named Pool::cont")

    def test_edit_names_no_clause(self) -> None:
        changes = changed("crates/high/must-fail/counts_one.edit", ": value", ": valeu")
        self.finds(changes, "Pool::count has no clause valeu")

    def test_edit_is_misspelt(self) -> None:
        changes = changed("crates/high/must-fail/counts_one.edit", "# promise:", "# promis:")
        self.finds(changes, "has no line `# promise: CALL: LABEL`")

    def test_edit_without_a_label(self) -> None:
        changes = changed("crates/high/must-fail/counts_one.edit", ": value", "")
        self.finds(changes, "counts_one.edit", "# promise: CALL: LABEL")

    def test_crate(self) -> None:
        self.finds(changed("CONTRIBUTING.md", ", `high`", ""), "doesn't name the crate high")

    def test_first_word(self) -> None:
        changes = changed("crates/low/specs/Words.antt", "-- a size fits", "-- it fits")
        self.finds(changes, "crates/low/specs/Words.antt: -- it fits")

    def test_first_word_below_a_heading(self) -> None:
        changes = changed("crates/low/specs/Words.antt", "-- a size", "-- SIZES\n\n-- That size")
        changes |= changed("PROMISES.md", "| 5 |", "| 7 |")
        self.finds(changes, "crates/low/specs/Words.antt: -- That size fits")

    def test_word_within_a_sentence_passes(self) -> None:
        changes = changed("crates/low/specs/Words.antt", "-- a size", "-- a size so that\n-- it")
        changes |= changed("PROMISES.md", "| 5 |", "| 6 |")
        self.assertEqual(found_in(changes), [])

    def test_other_first_words_pass(self) -> None:
        changes = changed("crates/low/specs/Words.antt", "-- a size fits", "-- which size fits")
        self.assertEqual(found_in(changes), [])

    def test_example_of_a_comment(self) -> None:
        changes = changed(
            "crates/high/src/pools.rt",
            "/// A pool of words.",
            "/// A pool.\n///\n/// Example: `comments::pool` of `crates/examples`.",
        )
        self.finds(changes, "comments::pool of crates/examples")


class Subjects(unittest.TestCase):
    """The subject of the last commit."""

    def found(self, subject: str) -> list[str]:
        with checkout() as top:
            identity = ["-c", "user.name=n", "-c", "user.email=e", "-c", "commit.gpgsign=false"]
            for words in (["init", "-q"], ["commit", "-q", "--allow-empty", "-m", subject]):
                self.assertTrue(process.run(["git", *identity, *words], top).is_ok)
            return list(pages.long_subject(top))

    def test_long(self) -> None:
        self.assertIn("73 columns", self.found(73 * "x")[0])

    def test_short(self) -> None:
        self.assertEqual(self.found(72 * "x"), [])

    def test_no_git(self) -> None:
        with checkout() as top:
            self.assertEqual(list(pages.long_subject(top)), [])


class Checkouts(unittest.TestCase):
    """A checkout may be in any folder, and others may write into it meanwhile."""

    def test_folders(self) -> None:
        for name in ("out/tree", "target/tree", "a folder/tree"):
            with self.subTest(name):
                self.assertEqual(found_in({}, name), [])
                wrong = changed("PROMISES.md", "| 5 |", "| 6 |")
                self.assertEqual(len(found_in(wrong, name)), 1)

    def test_folders_that_tools_make_are_not_read(self) -> None:
        made = {"crates/low/out/lane0/README.md": "[a dead link](nowhere.md)\n"}
        self.assertEqual(found_in(made), [])

    def test_vanishing_folder_is_read_again(self) -> None:
        with checkout({"crates/low/passing/file.rt": "\n"}) as top:
            walk = os.walk
            walks = []

            def walk_once(folder: Path, onerror: Callable[[OSError], None]) -> Iterable[Step]:
                walks.append(folder)
                steps = walk(folder, onerror=onerror)
                if len(walks) == 1:
                    return vanishing(steps, top / "crates/low/passing")
                return steps

            with mock.patch("os.walk", walk_once):
                texts = pages.read_texts(top)
        self.assertEqual(len(walks), 2)
        self.assertEqual(set(texts), set(TEXTS))

    def test_tree_that_always_changes_is_no_pass(self) -> None:
        def changes(top: Path) -> dict[str, str]:
            raise TreeChanged(f"{top}: vanished")

        with self.assertRaises(TreeChanged):
            pages.read_texts(Path("."), changes)


def vanishing(walk: Iterable[Step], folder: Path) -> Iterable[Step]:
    """Goes on with a walk, but removes a folder once the walk has seen its name."""
    for step in walk:
        yield step
        if Path(step[0]) == folder.parent:
            shutil.rmtree(folder)


class Shown(unittest.TestCase):
    """The script with the programs that a page shows."""

    def test_script(self) -> None:
        page = "The whole `a.c`:\n\n```c\nint a;\n```\n\n```rust\nfn a() {}\n```\n\n```sh\ncc a.c\n```\n"
        self.assertEqual(list(pages.hosts(page)), ["cat > a.c <<'END'\nint a;\nEND\n", "cc a.c\n"])

    def test_script_of_a_program_in_cpp(self) -> None:
        page = "This is `a.cpp`:\n\n```cpp\nint a;\n```\n"
        self.assertEqual(list(pages.hosts(page)), ["cat > a.cpp <<'END'\nint a;\nEND\n"])

    def test_a_program_without_a_name(self) -> None:
        with self.assertRaisesRegex(process.Failed, "without the name of its file above:\nint a;"):
            list(pages.hosts("A program:\n\n```c\nint a;\n```\n"))

    def test_commands_for_another_target_may_be_skipped(self) -> None:
        (commands,) = pages.hosts("```sh\nmusl-gcc a.c\n./a.out\n```\n")
        self.assertEqual(
            commands,
            "if command -v musl-gcc > /dev/null; then\nmusl-gcc a.c\n./a.out\nelse\n"
            "echo 'musl-gcc: not installed, skipped'\nfi\n",
        )


class Fixes(unittest.TestCase):
    """`--fix` writes the numbers that nobody counts by hand."""

    def test_fix(self) -> None:
        changes = {
            **changed("PROMISES.md", "| 5 |", "| 600 |"),
            **changed("bindings/rust/Cargo.lock", "1.2.3", "1.0.0"),
        }
        with checkout(changes) as top:
            said = contracts.fix(top)
            names = ["PROMISES.md", "bindings/rust/Cargo.lock"]
            self.assertEqual(sorted(said), [f"wrote {name}" for name in names])
            texts = texts_below(top)
            for name in names:
                self.assertEqual(texts[name], TEXTS[name])
            self.assertEqual(contracts.fix(top), [])


if __name__ == "__main__":
    unittest.main()
