"""Tests that calls are found by the names that users write, and by no others."""

import unittest

from gate import contracts
from gate.crates import TOP
from gate.files import texts_below
from gate.index import Call, Index
from gate.process import Failed
from gate.tests.sample import changed, checkout

# Names that users write, each with the file of the body, and the trait with the contract, if any.
NAMES = {
    "SharedPoolAllocator::allocate": ("shared_pool/buckets.rt", ""),
    "SharedFixedSizePoolAllocator::allocate": ("shared_pool/buckets.rt", ""),
    "SharedPoolAllocator::deallocate_bucket": ("shared_pool/buckets.rt", ""),
    "SharedPoolAllocator::meet": ("shared_pool/buckets.rt", ""),
    "PoolAllocator::number_of_buckets": ("pool_allocator/bucket_pool.rt", ""),
    "PoolAllocator::held_buckets": ("pool_allocator/bucket_pool.rt", ""),
    "PoolAllocator::grow": ("pool_allocator/bucket_pool.rt", "Allocator"),
    "PoolAllocator::allocate": ("pool_allocator/bucket_pool.rt", "BaseAllocator"),
    "FixedSizePoolAllocator::allocate": ("pool_allocator/bucket_pool.rt", "BaseAllocator"),
    "FixedSizePoolAllocator::size": ("pool_allocator/bucket_pool.rt", ""),
    "OneChunkAllocator::allocate": ("one_chunk_allocator.rt", "BaseAllocator"),
    "BumpAllocator::allocate": ("bump_allocator.rt", "BaseAllocator"),
}
# Definitions that pages name, each with its file.
DEFINITIONS = {
    "Takes": "bb_memory_owned/specs/Pool.antt",
    "Frees": "bb_memory_owned/specs/Pool.antt",
    "Region": "bb_memory_traits/specs/Chunk.antt",
    "Chunk": "bb_memory_traits/specs/Chunk.antt",
    "Pool": "bb_memory_owned/specs/Pool.antt",
    "least_place": "bb_memory_traits/specs/LeastPlace.antt",
    "index_words": "bb_memory_index_set/specs/IndexSets.antt",
    "used_space": "bb_memory_traits/specs/BumpObject.antt",
    "note_after": "bb_memory_traits/src/allocator.rt",
}


def only(calls: list[Call]) -> Call:
    """Returns the only call in a list."""
    if len(calls) != 1:
        raise ValueError(f"{len(calls)} calls: {[call.title for call in calls]}")
    return calls[0]


class RealNames(unittest.TestCase):
    """The names that users write lead to their calls and definitions."""

    index = Index(texts_below(TOP))

    def test_calls(self) -> None:
        for name, (file, trait) in NAMES.items():
            with self.subTest(name):
                call = only(self.index.calls(name))
                self.assertEqual(call.title, name)
                self.assertTrue(call.place.file.endswith(file), call.place)
                self.assertEqual(call.trait, trait)

    def test_definitions(self) -> None:
        for name, file in DEFINITIONS.items():
            with self.subTest(name):
                files = [each.place.file for each in self.index.definitions_named(name)]
                self.assertIn(file, files)


class SampleNames(unittest.TestCase):
    """Only whole words match, and labels are those of clauses."""

    def lines(self, *words: str) -> list[str]:
        with checkout() as top:
            name, *labels = words
            found = contracts.look_up(Index(texts_below(top)), name, labels)
            return [line for each in found for line in each]

    def test_alias_has_calls_of_its_target(self) -> None:
        self.assertIn("Fixed::count  high/src/pools.rt:17", self.lines("Fixed::count"))

    def test_alias_lacks_calls_of_another_alias(self) -> None:
        self.assertEqual(self.lines("Fixed::fresh"), [])

    def test_inherited_call_names_trait_and_impl(self) -> None:
        lines = self.lines("Pool::allocate")
        self.assertEqual(lines[0], "Pool::allocate  high/src/pools.rt:35")
        self.assertIn("    contract: Base::allocate  low/src/traits.rt:10", lines)
        self.assertIn("    ensures: answer kept", lines)

    def test_crate_that_passes_a_module_on(self) -> None:
        for name in ("low::traits::Base::allocate", "high::traits::Base::allocate"):
            self.assertEqual(self.lines(name)[0], "Base::allocate  low/src/traits.rt:10")
        self.assertEqual(self.lines("low::pools::Pool::count"), [])

    def test_part_of_a_name_finds_nothing(self) -> None:
        self.assertEqual(self.lines("hared::allocate"), [])
        self.assertEqual(self.lines("alloc"), [])

    def test_label_has_to_be_a_clause(self) -> None:
        self.assertNotEqual(self.lines("Pool::count", "value"), [])
        self.assertEqual(self.lines("Pool::count", "Counts"), [])

    def test_label_finds_calls_and_definitions(self) -> None:
        with checkout() as top:
            index = Index(texts_below(top))
        self.assertEqual(
            contracts.found_lines(index, "kept", []), ["Base::allocate  low/src/traits.rt:10"]
        )
        self.assertEqual(
            contracts.found_lines(index, "above", []), ["Fits  low/specs/Words.antt:4"]
        )
        with self.assertRaises(Failed):
            contracts.found_lines(index, "kep", [])

    def test_mutants_of_a_call(self) -> None:
        mutant = "    mutant of value: high/must-fail/counts_one.edit"
        for name in ("Buckets::count", "Pool::count", "Fixed::count"):
            self.assertIn(mutant, self.lines(name))
        self.assertNotIn(mutant, self.lines("SharedPool::allocate"))

    def test_labels_show_a_lost_clause(self) -> None:
        with checkout() as top:
            before = contracts.labels(Index(texts_below(top)))
        lost = changed(
            "crates/low/src/traits.rt", "        ensures answer { Fits size result }\n", ""
        )
        with checkout(lost) as top:
            after = contracts.labels(Index(texts_below(top)))
        gone = sorted(set(before) - set(after))
        self.assertEqual(len(gone), 4)
        self.assertIn("Base::allocate: requires: fits; ensures: answer kept", gone)
        self.assertIn("Fixed::allocate by Base: requires: fits; ensures: answer kept", gone)

    def test_labels_show_a_lost_field(self) -> None:
        with checkout() as top:
            before = contracts.labels(Index(texts_below(top)))
        with checkout(
            changed("crates/low/specs/Words.antt", "  pub above : 0 < size\n", "")
        ) as top:
            after = contracts.labels(Index(texts_below(top)))
        self.assertEqual(set(before) - set(after), {"Words::Fits: fields: above"})

    def test_command_without_a_word_prints_one_line_a_call(self) -> None:
        with checkout() as top:
            titles = [call.title for call in Index(texts_below(top)).declared]
        self.assertEqual(
            titles,
            ["Buckets::count", "Pool::fresh", "SharedPool::allocate", "fits", "Base::allocate"],
        )


class Clauses(unittest.TestCase):
    """The names by which an edit may call a clause without a label."""

    SHOWN = """\
ghost use Rattle.low.specs.Words.{Fits};

pub struct Shown {}

impl fmt::Display for Shown {
    ghost output = { 0 };

    fn fmt(&self) -> fmt::Result {
        Ok(())
    }
}

pub fn shown(size: usize) -> bool
    requires { 0 < size }
    ensures { Fits size result }
{
    true
}
"""

    def test_names(self) -> None:
        with checkout({"crates/low/src/shown.rt": self.SHOWN}) as top:
            index = Index(texts_below(top))
        for label in ("(no label)", "Fits", "above"):
            self.assertTrue(index.has_promise("shown", label), label)
        for label in ("requires", "size", "below"):
            self.assertFalse(index.has_promise("shown", label), label)
        self.assertFalse(index.has_promise("Pool::count", "(no label)"))

    def test_trait_of_a_library(self) -> None:
        with checkout({"crates/low/src/shown.rt": self.SHOWN}) as top:
            index = Index(texts_below(top))
        self.assertTrue(index.has_promise("Shown::fmt", "(no label)"))


class Paths(unittest.TestCase):
    """A checkout may be in any folder."""

    def test_folders(self) -> None:
        for name in ("out/tree", "target/tree", "a folder/tree", "tests/tree"):
            with self.subTest(name), checkout(name=name) as top:
                self.assertEqual(len(Index(texts_below(top)).declared), 5)


if __name__ == "__main__":
    unittest.main()
