"""Tests that each definition and each lemma without a use is found, and no other."""

import unittest

from gate import unused

LEMMAS = "crates/low/proofs/Lemmas.antt"
MORE = "crates/low/proofs/More.antt"
ANSWERS = "crates/low/proofs/pools/Pool/count/Answers.antt"
SPECS = "crates/low/specs/Words.antt"
SOURCE = "crates/low/src/pools.rt"

# Everything in these files is used. `even` is by induction, and `half` is in a module.
TEXTS = {
    SPECS: """\
-- Words.
use Rattle.std.specs.Prelude.{ℕ, ◌≡◌}

-- a word of no bits
abbrev pub IsEmpty : ℕ → Type 0
IsEmpty word = word ≡ none

pub record Counted (word : ℕ) : Type 0 where
  pub few : word ≡ none

none : ℕ
none = 0
""",
    LEMMAS: """\
-- Lemmas about words.
use Rattle.low.specs.Words.{IsEmpty}
use Rattle.std.proofs.Common.{arith, suc, zero, ℕ}

pub even : (n : ℕ) → n ≡ n
even zero = refl
even (suc n) = ap suc (even n)

module _ (n : ℕ)
    (empty : IsEmpty n) where
  -- half of a number
  half : n ≡ n
  half = grind (arith, even)

  pub halves : n ≡ n
  halves =
      let same : n ≡ n = half in
      same
""",
    ANSWERS: """\
use Rattle.low.proofs.Lemmas.{halves}
use Rattle.low.proofs.pools.Pool.count.Goals as goal

own : (n : ℕ) → n ≡ n
own n = halves n tt

pub returns : goal.returns
returns c = own c.result
""",
    SOURCE: """\
//! Pools.
ghost use Rattle.low.specs.Words.{Counted};

impl Pool {
    /// Returns the number of buckets.
    pub fn count(&self) -> usize
        ensures few { Counted result }
    {
        self.count
    }
}
""",
}


class Unused(unittest.TestCase):
    """Changes to the sample, each with its findings."""

    def finds(self, changes: dict[str, str], *wanted: str) -> None:
        """Checks that exactly these definitions have no use after some changes."""
        found = list(unused.findings({**TEXTS, **changes}))
        self.assertEqual(found, list(wanted))

    def changed(self, path: str, old: str, new: str) -> dict[str, str]:
        """Returns a file of the sample, after its only text of this kind is replaced."""
        self.assertEqual(TEXTS[path].count(old), 1)
        return {path: TEXTS[path].replace(old, new)}

    def test_sample_has_none(self) -> None:
        self.finds({})

    def test_lemma_that_only_uses_itself(self) -> None:
        self.finds(
            self.changed(LEMMAS, "grind (arith, even)", "grind arith"),
            f"{LEMMAS}:5: nothing uses even",
        )

    def test_lemmas_that_use_each_other(self) -> None:
        two = "pub one : ℕ\none = other\n\nother : ℕ\nother = one\n"
        self.finds({MORE: two}, f"{MORE}:1: nothing uses one", f"{MORE}:4: nothing uses other")

    def test_lemmas_of_a_lemma_without_a_use(self) -> None:
        self.finds(
            self.changed(ANSWERS, "halves n tt", "refl"),
            f"{LEMMAS}:5: nothing uses even",
            f"{LEMMAS}:12: nothing uses half",
            f"{LEMMAS}:15: nothing uses halves",
        )

    def test_definition_that_no_clause_has(self) -> None:
        self.finds(
            self.changed(SOURCE, "Counted result", "result ≡ self.now"),
            f"{SPECS}:8: nothing uses Counted",
        )

    def test_lemma_of_a_written_part(self) -> None:
        self.finds(
            self.changed(ANSWERS, "own c.result", "halves c.result tt"),
            f"{ANSWERS}:4: nothing uses own",
        )

    def test_comment_is_no_use(self) -> None:
        self.finds(
            self.changed(LEMMAS, "grind (arith, even)", "grind arith -- not even"),
            f"{LEMMAS}:5: nothing uses even",
        )

    def test_field_of_the_same_name_is_no_use(self) -> None:
        self.finds(
            self.changed(LEMMAS, "grind (arith, even)", "empty.even"),
            f"{LEMMAS}:5: nothing uses even",
        )

    def test_lemma_of_the_same_name_in_another_file(self) -> None:
        self.finds({MORE: "pub even : ℕ\neven = 0\n"}, f"{MORE}:1: nothing uses even")

    def test_words_of_a_module_are_used(self) -> None:
        self.finds({MORE: "abbrev pub Below : Type 0\nBelow = ℕ\n\nmodule _ (b : Below) where\n"})

    def test_word_of_another_name_for_a_module(self) -> None:
        text = "use Rattle.low.proofs.More as more\n\npub returns : goal.returns\nreturns c = more.one\n"
        path = "crates/low/proofs/pools/Pool/take/Answers.antt"
        two = "pub one : ℕ\none = 1\n\npub two : ℕ\ntwo = 2\n"
        self.finds({MORE: two, path: text}, f"{MORE}:4: nothing uses two")

    def test_word_that_a_file_takes_under_another_name(self) -> None:
        text = TEXTS[SOURCE].replace("{Counted}", "{Counted as Few}").replace("Counted r", "Few r")
        self.finds({SOURCE: text})

    def test_word_that_a_module_passes_on(self) -> None:
        changes = self.changed(SOURCE, "low.specs.Words", "low.specs.All")
        self.finds(
            {**changes, "crates/low/specs/All.antt": "pub use Rattle.low.specs.Words.{Counted}\n"}
        )

    def test_word_of_a_module_that_a_library_passes_on(self) -> None:
        self.finds(self.changed(SOURCE, "low.specs.Words", "high.specs.Words"))

    def test_word_in_a_tactic(self) -> None:
        old = "    /// Returns"
        new = f"    #[tactic(auto, using(crate::proofs::More::one))]\n{old}"
        self.finds({**self.changed(SOURCE, old, new), MORE: "pub one : ℕ\none = 1\n"})

    def test_words_of_a_benchmark_are_used(self) -> None:
        text = "ghost use Rattle.low.proofs.More.{one};\n\nfn run()\n    ensures { one ≡ 1 }\n{}\n"
        self.finds({"bench/pool_bench/src/lib.rt.in": text, MORE: "pub one : ℕ\none = 1\n"})


if __name__ == "__main__":
    unittest.main()
