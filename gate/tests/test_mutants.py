"""Tests of how mutants are judged."""

import unittest
from unittest.mock import patch

from gate import libraries, mutants
from gate.crates import TOP, Workspace
from gate.edits import Edit
from gate.kept import Kept
from gate.libraries import Libraries
from gate.mutants import Judgement, Outcome, Round, Rounds, Run, judge, rounds_of
from gate.process import Failed, Finished
from gate.tests.places import CheckoutTest, log, write

SOURCE = "fn round_up {\n    v & !mask\n}\nfn within {\n    a > b\n}\n"
ROUND_UP = "# function: layout::round_up\nfile: src/layout.rt\nold: v & !mask\nnew: v - mask\n"
WITHIN = "# function: layout::Layout::within\nfile: src/layout.rt\nold: a > b\nnew: a - a > b\n"
NOT_FOUND = WITHIN.replace("old: a > b", "old: a >= b")
NO_PROGRAM = ROUND_UP.replace("v - mask", "v & !masque")
# An edit that changes a function other than the one that it names.
MISNAMED = ROUND_UP.replace("layout::round_up", "layout::Layout::within")

CRATE = "bb_memory_traits"
WITHIN_PATH = f"{CRATE}::layout::Layout::within"
# The text of a check about an open goal, and about an answer that names what is gone.
NOTE = "note: src/layout.rt:7:1: it is not proved that what the function ensures holds (`returns`)"
NAME_IS_GONE = (
    "./proofs/layout/Layout/within/Answers.antt:3:4: error: `returns`: this has no field `next`\n"
    f"fn {WITHIN_PATH}: not proved\n"
)
ROUND_UP_REFUSED = (
    f"note: src/layout.rt:2:5: it is not proved that this holds (`returns`)\n"
    f"fn {CRATE}::layout::round_up: not proved\n"
)


class JudgeTest(CheckoutTest):
    """Edits judged by the stored output of `rt check` for the same edits."""

    def setUp(self) -> None:
        super().setUp()
        self.write({"crates.txt": f"{CRATE}:\n", f"crates/{CRATE}/src/layout.rt": SOURCE})
        self.checked: list[list[str]] = []

    def add(self, **edits: str) -> None:
        """Adds edits, by the names of their files."""
        for name, text in edits.items():
            self.write({f"crates/{CRATE}/must-fail/{name}.edit": text})

    def check(self, round_: Round) -> Finished:
        """Returns the output of `rt check` for these edits."""
        self.checked.append([edit.path.stem for edit in round_.edits])
        if "masque" in round_.texts["src/layout.rt"]:
            return Finished(1, log("compile"))
        if [edit.path.stem for edit in round_.edits] == ["misnamed"]:
            return Finished(1, log("other"))
        return Finished(1, log("round"))

    def outcomes(self) -> dict[str, Outcome]:
        """Judges all edits, and returns the outcomes."""
        workspace = Workspace(self.top)
        read = mutants.edits_of(workspace, CRATE)
        found = list(read.bad)
        for round_ in rounds_of(workspace, CRATE, read.good):
            found += judge(round_, self.check)
        return {each.path.stem: each.outcome for each in found}

    def outcome(self, said: str, status: int = 1) -> Outcome:
        """Judges an edit of `within` by what a check of it says, and returns the outcome."""
        self.add(within=WITHIN)
        (round_,) = self.rounds()
        (found,) = judge(round_, lambda _: Finished(status, said))
        return found.outcome

    def rounds(self) -> list[Round]:
        """Returns the rounds of all edits."""
        workspace = Workspace(self.top)
        return rounds_of(workspace, CRATE, mutants.edits_of(workspace, CRATE).good)

    def test_edits_of_different_functions_are_one_round(self) -> None:
        self.add(within=WITHIN, round_up=ROUND_UP)
        self.assertEqual(self.outcomes(), {"within": Outcome.REFUSED, "round_up": Outcome.REFUSED})
        self.assertEqual(self.checked, [["round_up", "within"]])

    def test_a_text_that_is_not_found_is_a_bad_edit_by_itself(self) -> None:
        self.add(not_found=NOT_FOUND, round_up=ROUND_UP)
        self.assertEqual(
            self.outcomes(), {"not_found": Outcome.BAD_EDIT, "round_up": Outcome.REFUSED}
        )

    def test_a_text_that_is_no_program_is_a_bad_edit_by_itself(self) -> None:
        self.add(no_program=NO_PROGRAM, within=WITHIN)
        self.assertEqual(
            self.outcomes(), {"no_program": Outcome.BAD_EDIT, "within": Outcome.REFUSED}
        )
        self.assertEqual(self.checked, [["no_program", "within"], ["no_program"], ["within"]])

    def test_a_goal_of_another_function_refuses_nothing(self) -> None:
        self.add(misnamed=MISNAMED)
        self.assertEqual(self.outcomes(), {"misnamed": Outcome.NOT_REFUSED})

    def test_two_edits_of_one_function_are_two_rounds(self) -> None:
        self.add(one=ROUND_UP, two=ROUND_UP.replace("v - mask", "v"))
        self.outcomes()
        self.assertEqual(self.checked, [["one"], ["two"]])

    def test_two_edits_of_one_text_are_two_rounds(self) -> None:
        self.add(one=ROUND_UP, two=MISNAMED)
        self.outcomes()
        self.assertEqual(self.checked, [["one"], ["two"]])

    def test_rounds_are_few_and_even(self) -> None:
        """The function with most edits has one in each round."""
        names = ("round_up", "within", "third", "last")
        source = "".join(f"fn {name} {{\n    {name} + 1\n}}\n" for name in names)
        self.write({f"crates/{CRATE}/src/layout.rt": source})
        for number, name in enumerate(["last", "last", "last", *names[:3]]):
            text = f"file: src/layout.rt\nold: {name} + 1\nnew: {name} + 2\n"
            self.add(**{f"edit{5 - number}": f"# function: layout::{name}\n{text}"})
        found = [sorted(edit.function[8:] for edit in each.edits) for each in self.rounds()]
        self.assertEqual([len(each) for each in found], [2, 2, 2])
        self.assertTrue(all("last" in each for each in found))

    def test_a_check_that_was_killed_judges_nothing(self) -> None:
        self.assertIs(self.outcome("so far: 1 of 2\n", -9), Outcome.NOT_JUDGED)

    def test_a_mutant_that_means_the_same_is_not_refused(self) -> None:
        self.assertIs(self.outcome(f"fn {WITHIN_PATH}: proved\n", 0), Outcome.NOT_REFUSED)

    def test_a_prover_that_could_not_tell_judges_nothing(self) -> None:
        said = f"fn {WITHIN_PATH}: could not tell\nrattle: no verdict\n"
        self.assertIs(self.outcome(said, 3), Outcome.NOT_JUDGED)

    def test_a_name_that_is_gone_is_no_refusal(self) -> None:
        self.assertIs(self.outcome(NAME_IS_GONE), Outcome.ONLY_NAMES)

    def test_a_search_that_gave_up_is_no_refusal(self) -> None:
        gave_up = NOTE + "; `search` gave up at one of its limits\n"
        verdict = f"fn {WITHIN_PATH}: no proof; `search` did not prove `returns`\n"
        self.assertIs(self.outcome(gave_up + verdict), Outcome.AT_A_LIMIT)
        self.assertIs(self.outcome(gave_up + NOTE + "\n" + verdict), Outcome.REFUSED)

    def test_an_edit_beside_others_is_judged_again_if_only_names_are_gone(self) -> None:
        """The function calls one that isn't proved since another edit of the round changed it."""
        self.add(within=WITHIN, round_up=ROUND_UP)
        checked = []

        def check(round_: Round) -> Finished:
            checked.append(len(round_.edits))
            if len(round_.edits) == 2:
                return Finished(1, f"fn {WITHIN_PATH}: not proved\n{ROUND_UP_REFUSED}")
            return Finished(0, f"fn {WITHIN_PATH}: proved\n")

        (round_,) = self.rounds()
        outcomes = {each.path.stem: each.outcome for each in judge(round_, check)}
        self.assertEqual(checked, [2, 1])
        self.assertEqual(outcomes, {"round_up": Outcome.REFUSED, "within": Outcome.NOT_REFUSED})

    def test_edits_of_one_function_each_are_shared_although_they_have_several_changes(self) -> None:
        second = "old: fn within {\nnew: fn within {\n"
        in_bodies = WITHIN.replace("old: a > b\nnew: a - a > b", "old: a > b\nnew: b > a\n")
        self.add(round_up=ROUND_UP, within=f"{in_bodies}old: b > a\nnew: b >= a\n")
        self.assertEqual([len(each.edits) for each in self.rounds()], [2])
        self.add(within=f"{in_bodies}{second}")
        self.assertEqual([len(each.edits) for each in self.rounds()], [1, 1])

    def test_edits_that_change_one_function_are_not_shared(self) -> None:
        both = f"{WITHIN}old: v & !mask\nnew: (v & !mask)\n"
        self.add(round_up=ROUND_UP.replace("v & !mask", "v &"), within=both)
        self.assertEqual([len(each.edits) for each in self.rounds()], [1, 1])

    def judge_with_tool(self, rattle: str, anew: bool = False) -> list[Outcome]:
        """Judges the crate's edits by this `rattle`, and keeps what it refuses below `self.work`."""
        kept = Kept(self.work / "kept", anew)
        built = Libraries(Workspace(self.top), None)
        with (
            self.tool("rattle", f"#!/bin/sh\n{rattle}\n"),
            patch("gate.crates.kit", return_value="kit"),
            patch("gate.libraries.kit_folder", return_value=self.work / "kit"),
            patch("gate.mutants.say") as said,
        ):
            found = Run(built, kept).judge_crates([CRATE])
        self.assertEqual(said.call_count, len(found))
        return [each.outcome for each in found]

    def refusing(self) -> str:
        """Returns a `rattle` that refuses both edits of a round, if the texts are the edited ones."""
        stored = self.work / "log"
        stored.write_text(log("round"), encoding="utf-8")
        return f'grep -q "v - mask" src/layout.rt && cat "{stored}"\nexit 1'

    def test_copies(self) -> None:
        """Edits judged in copies, with a `rattle` that fails on each text except the edited one."""
        self.add(round_up=ROUND_UP, within=WITHIN)
        self.assertEqual(self.judge_with_tool(self.refusing()), 2 * [Outcome.REFUSED])
        self.assertFalse((self.top / "crates" / CRATE / "out").exists())

    def rounds_in_turn(self, edits: list[tuple[str, int]]) -> Rounds:
        """Returns rounds of crates with some edits each, in a run of the gate."""
        crates = {f"crates/{name}/src/lib.rt": "" for name in ("low", "high", "other")}
        files = {"crates.txt": "low:\nhigh: low\nother:\n", **crates}
        self.write(files)
        write(self.work / "all", files)
        edit = Edit(self.top, "f", (), ())
        rounds = [Round(name, str, count * [edit]) for name, count in edits]
        return Rounds(rounds, Libraries(Workspace(self.top), self.work))

    def test_a_round_begins_once_the_crates_below_are_built(self) -> None:
        """The largest round that can begin is first."""
        rounds = self.rounds_in_turn([("high", 3), ("low", 1), ("other", 2)])
        found: list[str] = []
        with patch.object(Libraries, "is_built", lambda self, name: found == ["other"]):
            for round_ in rounds.in_turn():
                found.append(round_.crate)
        self.assertEqual(found, ["other", "high", "low"])

    def test_rounds_of_a_crate_come_one_after_the_other(self) -> None:
        rounds = self.rounds_in_turn([("low", 3), ("low", 2), ("other", 1)])
        first, second = rounds.in_turn(), rounds.in_turn()
        found = [next(first), next(second)]
        self.assertEqual([each.crate for each in found], ["low", "other"])
        self.assertIsNone(rounds.take_ready())
        self.assertEqual(len(next(first).edits), 2)

    def test_a_round_does_not_wait_once_the_first_one_has_kept_something(self) -> None:
        rounds = self.rounds_in_turn([("low", 3), ("low", 2), ("low", 1)])
        rounds.take_ready()
        self.assertIsNone(rounds.take_ready())
        made = self.work / "made"
        write(made, {"lemma.oantt": ""})
        rounds.built.keep("low", made)
        self.assertEqual([rounds.take_ready() is None for _ in range(3)], [False, False, True])

    def test_no_processor_is_idle_once_rt_ci_has_ended(self) -> None:
        rounds = self.rounds_in_turn([("low", 3), ("low", 2), ("other", 1)])
        rounds.take_ready()
        (self.work / libraries.ENDED).touch()
        with patch.object(Libraries, "is_built", return_value=True):
            taken = [rounds.take_ready() for _ in range(3)]
        self.assertEqual([each and each.crate for each in taken], ["other", "low", None])

    def test_the_first_round_waits_for_a_check_of_the_whole_crate(self) -> None:
        """`.ci/run-c` has the turn of the crate until it has compiled it."""
        rounds = self.rounds_in_turn([("low", 3), ("other", 1)])
        made = self.work / "made"
        write(made, {"lemma.oantt": ""})
        with rounds.built.turn("low"):
            taken = [rounds.take_ready(), rounds.take_ready()]
            self.assertEqual([each and each.crate for each in taken], ["other", None])
            rounds.built.keep("low", made, is_base=True)
        self.assertIsNotNone(rounds.take_ready())

    def test_a_crate_of_many_rounds_is_first_proved_as_it_is(self) -> None:
        """Once for all rounds, and not if another check has kept a base."""
        rattle = f'#!/bin/sh\necho "$*" >>"{self.work}/words"\nmkdir ../kept\n'
        rounds = self.rounds_in_turn([("low", 2), ("low", 1), ("other", 1)])
        with (
            self.tool("rattle", rattle),
            patch("gate.mutants.FEW", 1),
            patch("gate.libraries.kit_folder", return_value=self.work / "kit"),
        ):
            for crate in ("low", "low", "other"):
                rounds.prove_base(crate)
        (command,) = (self.work / "words").read_text(encoding="utf-8").splitlines()
        self.assertIn("--crate-name low ", command)
        self.assertTrue(command.endswith(" --only=f"), command)
        self.assertEqual(rounds.built.kept("low"), self.work / "kept/low/base")

    def test_a_round_begins_if_a_check_of_the_whole_crate_failed(self) -> None:
        rounds = self.rounds_in_turn([("low", 3), ("low", 2)])
        with rounds.built.turn("low"):
            self.assertIsNone(rounds.take_ready())
        self.assertEqual([rounds.take_ready() is None for _ in range(2)], [False, True])

    def test_rounds_run_side_by_side_over_what_the_tests_have_built(self) -> None:
        rounds = self.rounds_in_turn([("low", 3), ("low", 2)])
        rounds.built = Libraries(rounds.built.workspace, None)
        with patch.object(Libraries, "is_built", return_value=True):
            self.assertEqual([rounds.take_ready() is None for _ in range(2)], [False, False])

    def test_a_check_that_hangs_judges_nothing(self) -> None:
        self.add(round_up=ROUND_UP)
        with patch("gate.mutants.LONGEST", 0.5):
            self.assertEqual(self.judge_with_tool("sleep 600"), [Outcome.NOT_JUDGED])

    def test_what_is_refused_is_kept_until_something_changes(self) -> None:
        self.add(round_up=ROUND_UP, within=WITHIN)
        self.judge_with_tool(self.refusing())
        self.assertEqual(self.judge_with_tool("exit 7"), 2 * [Outcome.REFUSED])
        self.assertEqual(self.judge_with_tool("exit 7", anew=True), 2 * [Outcome.NOT_JUDGED])
        self.write({f"crates/{CRATE}/specs/Lib.antt": "-- another definition\n"})
        self.assertEqual(self.judge_with_tool("exit 7"), 2 * [Outcome.NOT_JUDGED])

    def test_what_is_at_a_limit_is_kept_as_that(self) -> None:
        self.add(within=WITHIN)
        said = NOTE + "; `search` gave up at one of its limits\n" + f"fn {WITHIN_PATH}: no proof"
        stored = self.work / "log"
        stored.write_text(said, encoding="utf-8")
        for rt in (f'cat "{stored}"', "exit 7"):
            self.assertEqual(self.judge_with_tool(rt), [Outcome.AT_A_LIMIT])

    def test_only_a_changed_edit_is_judged_again(self) -> None:
        self.add(round_up=ROUND_UP, within=WITHIN)
        self.judge_with_tool(self.refusing())
        self.add(within=WITHIN.replace("a - a > b", "b > a"))
        self.assertEqual(self.judge_with_tool("exit 7"), [Outcome.REFUSED, Outcome.NOT_JUDGED])

    def test_what_is_not_refused_is_not_kept(self) -> None:
        self.add(round_up=ROUND_UP)
        self.judge_with_tool("exit 7")
        self.assertFalse((self.work / "kept").exists())

    def test_an_edit_that_changes_while_it_is_judged_is_not_kept(self) -> None:
        self.add(round_up=ROUND_UP, within=WITHIN)
        edit = self.top / f"crates/{CRATE}/must-fail/within.edit"
        self.judge_with_tool(f'echo >>"{edit}"\n{self.refusing()}')
        self.assertEqual(len(list((self.work / "kept").iterdir())), 1)


class ReasonsTest(CheckoutTest):
    """The list of edits that are refused only at a limit."""

    def reasons(self, text: str) -> dict[str, str]:
        """Reads the list from a text, in a checkout that has one edit."""
        self.write({"gate/at_a_limit.txt": text, "crates/low/must-fail/one.edit": ROUND_UP})
        return mutants.read_reasons(self.top / "gate/at_a_limit.txt")

    def failed(self, outcome: Outcome, reasons: dict[str, str]) -> bool:
        """Returns whether an edit with an outcome fails."""
        path = self.top / "crates/low/must-fail/one.edit"
        with patch("gate.mutants.say"):
            return bool(mutants.failures([Judgement(path, outcome, "")], reasons, self.top))

    def test_a_line_is_an_edit_and_its_reason(self) -> None:
        self.assertEqual(
            self.reasons("# comment\nlow/must-fail/one.edit: too large: really\n"),
            {"low/must-fail/one.edit": "too large: really"},
        )
        for text in ("low/must-fail/one.edit\n", "low/must-fail/two.edit: no such edit\n"):
            with self.subTest(text), self.assertRaises(Failed):
                self.reasons(text)

    def test_the_list_of_this_tree(self) -> None:
        paths = list(mutants.read_reasons(TOP / mutants.AT_A_LIMIT))
        self.assertEqual(paths, sorted(paths))

    def test_a_limit_needs_a_reason(self) -> None:
        reasons = {"low/must-fail/one.edit": "too large"}
        self.assertTrue(self.failed(Outcome.AT_A_LIMIT, {}))
        self.assertFalse(self.failed(Outcome.AT_A_LIMIT, reasons))

    def test_a_reason_excuses_nothing_else(self) -> None:
        reasons = {"low/must-fail/one.edit": "too large"}
        for outcome in Outcome:
            if outcome not in (Outcome.AT_A_LIMIT, Outcome.REFUSED):
                with self.subTest(outcome):
                    self.assertTrue(self.failed(outcome, reasons))
        self.assertFalse(self.failed(Outcome.REFUSED, reasons))


if __name__ == "__main__":
    unittest.main()
