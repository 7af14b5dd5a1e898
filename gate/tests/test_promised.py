"""Tests that a function of C, a call or a row of PROMISES.md without a mutant is found."""

import unittest
from collections.abc import Mapping

from gate import promised
from gate.index import Index
from gate.tests.sample import EDIT, TEXTS

EDIT_PATH = "crates/high/must-fail/counts_one.edit"
MUTANT_PATH = "crates/bb_memory_c/tests/pool_file/mutants/opens_nothing.mutant"
TABLE = "| Promise | Carried by |\n|---|---|\n"


def found_in(changes: Mapping[str, str], lost: str = "") -> list[str]:
    """Returns the findings in the sample with some changes, and without the file `lost`."""
    texts = {path: text for path, text in {**TEXTS, **changes}.items() if path != lost}
    return list(promised.wrong(Index(texts)))


def promises(*rows: str) -> dict[str, str]:
    """Returns a page of promises with these rows."""
    return {"PROMISES.md": TABLE + "".join(f"{row}\n" for row in rows)}


def functions(*names: str) -> str:
    """Returns a header that declares these functions."""
    return "".join(f"BB_MUST_USE uint32_t {name}(bb_pool *pool);\n" for name in names)


class Lacks(unittest.TestCase):
    """What has no mutant is found, and names the file to add."""

    def finds(self, found: list[str], *parts: str) -> None:
        self.assertEqual(len(found), 1, found)
        for part in parts:
            self.assertIn(part, found[0])

    def test_sample_has_none(self) -> None:
        self.assertEqual(found_in({}), [])

    def test_function_of_the_library(self) -> None:
        found = found_in({promised.HEADER: functions("bb_count")})
        self.finds(found, "no mutant of bb_count", "crates/bb_memory_c/must-fail/WHAT.edit")

    def test_edit_of_several_functions(self) -> None:
        edit = f"# promise: bb_count: value\n# promise: bb_size: value\n{EDIT}"
        changes = {promised.HEADER: functions("bb_count", "bb_size"), EDIT_PATH: edit}
        self.assertEqual(found_in(changes), [])

    def test_function_of_pools_in_files(self) -> None:
        header = {promised.POOL_FILE_HEADER: functions("bb_pool_file_open")}
        self.finds(found_in(header), "no mutant of bb_pool_file_open", "WHAT.mutant")
        for line in ("# function: bb_pool_file_open", "# function: try\n# call: bb_pool_file_open"):
            mutant = f"{line}\n# refused by: cases\n"
            self.assertEqual(found_in({**header, MUTANT_PATH: mutant}), [])

    def test_function_of_pools_in_files_that_the_library_exports(self) -> None:
        changes = {
            promised.POOL_FILE_HEADER: functions("bb_file_party_take"),
            "crates/bb_memory_c/src/file.rt": 'pub extern "C" fn bb_file_party_take(\n',
            MUTANT_PATH: "# function: bb_file_party_take\n# refused by: cases\n",
        }
        self.finds(found_in(changes), "no mutant of bb_file_party_take", "WHAT.edit")
        edit = f"# promise: bb_file_party_take: answer\n{EDIT}"
        self.assertEqual(found_in({**changes, EDIT_PATH: edit}), [])

    def test_function_whose_edit_is_deleted(self) -> None:
        changes = promises("| It counts | `Pool::count`: `value` |")
        self.assertEqual(found_in(changes), [])
        found = found_in(changes, EDIT_PATH)
        self.assertEqual(len(found), 2, found)
        self.assertIn("no mutant of Pool::count: value: add WHAT.edit to crates/high", found[0])
        self.assertIn("no mutant of a row: It counts: add WHAT.edit", found[1])

    def test_call_with_a_mutant_of_another_clause(self) -> None:
        row = "| It is kept. And more | `Pool::count`: `value`; `Base::allocate`: `kept` |"
        self.finds(found_in(promises(row)), "no mutant of Base::allocate: kept")

    def test_call_without_labels(self) -> None:
        self.assertEqual(found_in(promises("| It is kept | `Base::allocate` |")), [])

    def test_row_of_a_definition(self) -> None:
        self.finds(found_in(promises("| It fits | `Fits`: `above` |")), "a row: It fits")
        edit = EDIT.replace("Pool::count: value", "fits: above")
        changes = promises("| It fits | `Fits`: `above` |") | {EDIT_PATH: edit}
        self.assertEqual(found_in(changes), [])

    def test_row_of_laws(self) -> None:
        row = "| Each list is a run | `pool_theorem`: `run`; `pool_law` |"
        self.assertEqual(found_in(promises(row)), [])


class Exceptions(unittest.TestCase):
    """The file of exceptions has names with reasons, and none that isn't needed."""

    def test_exception(self) -> None:
        text = "# Comment\n\nbb_count\n    It is written\n    in C.\n"
        self.assertEqual(promised.exceptions(text), {"bb_count": "It is written in C."})
        changes = {promised.HEADER: functions("bb_count"), promised.EXCEPTIONS: text}
        self.assertEqual(found_in(changes), [])

    def test_exception_without_a_reason(self) -> None:
        changes = {promised.HEADER: functions("bb_count"), promised.EXCEPTIONS: "bb_count\n"}
        self.assertEqual(found_in(changes), ["gate/promised.txt: has no reason: bb_count"])

    def test_exception_that_is_not_needed(self) -> None:
        changes = {promised.EXCEPTIONS: "Pool::count: value\n    It has one.\n"}
        self.assertEqual(
            found_in(changes),
            ["gate/promised.txt: has a mutant, or doesn't exist: Pool::count: value"],
        )

    def test_row_is_named_by_its_first_sentence(self) -> None:
        text = "It fits.\n    No call has it.\n"
        changes = promises("| It fits. And more | `Fits`: `above` |")
        self.assertEqual(found_in(changes | {promised.EXCEPTIONS: text}), [])


if __name__ == "__main__":
    unittest.main()
