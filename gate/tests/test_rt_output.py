"""Tests of how the output of `rt` is read, on stored output of real runs."""

import unittest

from gate import rt_output
from gate.rt_output import Counts, Evidence, OpenGoal
from gate.tests.places import log

TRAITS = "bb_memory_traits"


class ProgressTest(unittest.TestCase):
    """Lines that report the progress of a check."""

    def test_lines_of_a_check(self) -> None:
        lines = log("round").splitlines()
        found = [rt_output.progress(line) for line in lines]
        self.assertEqual(
            [each for each in found if each is not None],
            ["5 of 10", "8 of 10", "9 of 10", "10 of 10"],
        )

    def test_line_of_batches(self) -> None:
        self.assertEqual(rt_output.progress("so far: 12 of 137\n"), "12 of 137")


class GoalsTest(unittest.TestCase):
    """Goals that a check left open."""

    def test_open_goal_of_a_function_without_written_proof(self) -> None:
        goals = rt_output.open_goals(f"{TRAITS}::allocator::Allocator::grow_zeroed", log("round"))
        self.assertEqual(goals, [OpenGoal("returns-clause-bytes", Evidence.LIMIT)])

    def test_refused_answer_in_a_proof_file(self) -> None:
        goals = rt_output.open_goals(f"{TRAITS}::layout::Layout::within", log("round"))
        self.assertEqual(len(goals), 2)
        self.assertTrue(
            goals[0].text.startswith("`invariant_of-result`: as printed, the two types")
        )

    def test_goals_of_other_functions_do_not_count(self) -> None:
        self.assertEqual(
            rt_output.open_goals(f"{TRAITS}::layout::Layout::within", log("other")), []
        )
        self.assertNotEqual(rt_output.open_goals(f"{TRAITS}::layout::round_up", log("other")), [])

    def test_an_answer_refused_for_a_name_that_is_gone_does_not_count(self) -> None:
        said = "./proofs/a/f/Answers.antt:3:4: error: `next` is not in scope\nfn low::a::f: not proved\n"
        self.assertEqual(rt_output.open_goals("low::a::f", said), [])

    def test_folder_of_a_function_that_calls_itself(self) -> None:
        said = "./proofs/a/+f/Answers.antt:3:4: error: `grind` found no proof\nfn low::a::f: not proved\n"
        self.assertEqual(
            rt_output.open_goals("low::a::f", said),
            [OpenGoal("`grind` found no proof", Evidence.OPEN)],
        )

    def test_evidence(self) -> None:
        for said, evidence in (
            ("; the facts known there allow values at which this goal is false", Evidence.VALUES),
            ("`grind`: the goal does not follow. The hypotheses hold", Evidence.VALUES),
            ("", Evidence.OPEN),
            ("; `search` gave up at one of its limits", Evidence.LIMIT),
            ("; `grind` gave up at one of its limits", Evidence.LIMIT),
            ("`grind` stopped at its own limit of 400 steps, so the goal may hold", Evidence.LIMIT),
        ):
            with self.subTest(said):
                self.assertIs(rt_output.evidence_of(said), evidence)

    def test_the_verdict_says_less_of_a_goal_than_its_note(self) -> None:
        note = "note: src/a.rt:1:1: it is not proved (`returns`); `search` gave up at one of its limits\n"
        verdict = "fn low::a::f: no proof; `search` did not prove `returns`; `search` did not prove `two`\n"
        goals = rt_output.open_goals("low::a::f", note + verdict)
        self.assertEqual(
            goals, [OpenGoal("returns", Evidence.LIMIT), OpenGoal("two", Evidence.OPEN)]
        )

    def test_words_of_verdicts(self) -> None:
        for text, proved, undecided in (
            ("proved", True, False),
            ("proved, may wait", True, False),
            ("not proved", False, False),
            ("no proof: expected answers", False, False),
            ("could not tell", False, True),
        ):
            with self.subTest(text):
                verdict = rt_output.Verdict(text, "")
                self.assertEqual(rt_output.is_proved(verdict), proved)
                self.assertEqual(rt_output.is_undecided(verdict), undecided)

    def test_verdict(self) -> None:
        verdict = rt_output.verdict_on(f"{TRAITS}::layout::Layout::align", log("round"))
        assert verdict is not None
        self.assertEqual(verdict.text, "proved")
        self.assertIsNone(rt_output.verdict_on(f"{TRAITS}::layout::Layout", log("round")))


class NamesTest(unittest.TestCase):
    """Errors that only say that a name is gone, and others that sound like them."""

    def test_each_kind(self) -> None:
        for error, is_gone in (
            ("module `Goals` has no `returns-x` that can be named from here", True),
            ("record `Else` has no field `if-align-self`", True),
            ("`and_step` is not in scope", True),
            ("`simp` has no last argument", False),
        ):
            with self.subTest(error):
                self.assertEqual(rt_output.NAME_IS_GONE.search(error) is not None, is_gone)


class CompileErrorsTest(unittest.TestCase):
    """Errors in texts that aren't programs."""

    def test_each_kind(self) -> None:
        for name, beginning in (
            ("compile", "src/layout.rt:113:34: error[unknown-name]: "),
            ("type", "src/layout.rt:113:10: error[mismatched-types]: "),
            ("syntax", "src/layout.rt:113:9: error[unclosed-delimiter]: "),
            ("name", "rattle: error: `bb_memory_traits` has no function `layout::round_upp`"),
        ):
            errors = rt_output.compile_errors(log(name))
            self.assertEqual(len(errors), 1, name)
            self.assertTrue(errors[0].startswith(beginning), errors[0])

    def test_a_refused_proof_is_none(self) -> None:
        self.assertEqual(rt_output.compile_errors(log("round")), [])


class EndTest(unittest.TestCase):
    """Tests, counts, and functions that may wait."""

    def test_tests(self) -> None:
        found = [(test.name, test.is_ok) for test in rt_output.tests(log("try_failed"))]
        self.assertEqual(found, [("tests::echoes", True), ("tests::echoes_another", False)])
        self.assertTrue(all(test.is_ok for test in rt_output.tests(log("try_ok"))))

    def test_counts(self) -> None:
        self.assertEqual(rt_output.counts(log("ci_wait")), Counts(1, 0))
        self.assertEqual(rt_output.counts(log("ci_failed")), Counts(1, 1))
        self.assertIsNone(rt_output.counts(log("round")))

    def test_functions_that_may_wait(self) -> None:
        self.assertEqual(rt_output.functions_that_may_wait(log("ci_wait")), ["waits::spin"])
        self.assertEqual(rt_output.functions_that_may_wait(log("round")), [])


if __name__ == "__main__":
    unittest.main()
