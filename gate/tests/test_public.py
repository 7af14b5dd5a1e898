"""Tests that the page of public names has what users write, and that each loss is found."""

import unittest
from collections.abc import Mapping

from gate import contracts, public
from gate.files import texts_below
from gate.index import Index
from gate.tests.sample import changed, checkout

# A crate whose names stay. It passes on a module, a trait and a function.
CRATE = {
    "crates.txt": "low:\nhigh: low\nbb_memory_base: low high\n",
    "crates/bb_memory_base/src/lib.rt": (
        "pub use high::pools;\npub use low::traits::{\n    Base, fits,\n};\npub mod words;\n"
    ),
    "crates/bb_memory_base/src/words.rt": (
        "pub use low::traits::Base;\nuse std::marker::Copy;\n\n"
        "/// Words.\n#[derive(Debug, Copy)]\npub enum Word {\n    /// A few.\n    Few(u8),\n    None,\n}\n"
    ),
    "CONTRIBUTING.md": "# Changing\n\nCrates: `low`, `high`, `bb_memory_base`.\n",
}
PAGE = """\
bb_memory_base::Base
    trait with takes
bb_memory_base::Base::allocate
    fn allocate(&mut self, size: usize) -> usize
    requires: fits
    ensures: answer kept
bb_memory_base::fits
    fn fits(size: usize) -> bool
    ensures: (no label)
bb_memory_base::pools::Buckets
    struct Buckets<S>
    implements: Base
bb_memory_base::pools::Buckets::count
    fn count(&self) -> usize
    ensures: value
bb_memory_base::pools::Buckets::allocate
    fn allocate(&mut self, size: usize) -> usize
    requires: fits
    ensures: answer kept
bb_memory_base::pools::Fixed
    type Fixed<const N: usize> = Buckets<Flags<N>>;
    implements: Base
bb_memory_base::pools::Fixed::count
    fn count(&self) -> usize
    ensures: value
bb_memory_base::pools::Fixed::allocate
    fn allocate(&mut self, size: usize) -> usize
    requires: fits
    ensures: answer kept
bb_memory_base::pools::Pool
    type Pool<A> = Buckets<Words<A>>;
    implements: Base
bb_memory_base::pools::Pool::fresh
    fn fresh() -> Self
bb_memory_base::pools::Pool::count
    fn count(&self) -> usize
    ensures: value
bb_memory_base::pools::Pool::allocate
    fn allocate(&mut self, size: usize) -> usize
    requires: fits
    ensures: answer kept
bb_memory_base::pools::SharedPool
    struct SharedPool {}
bb_memory_base::pools::SharedPool::allocate
    fn allocate(&self) -> usize
    ensures: losses
bb_memory_base::words::Base
    is bb_memory_base::Base
bb_memory_base::words::Word
    enum Word { Few(u8), None }
    implements: Copy Debug
low::Words::Fits
    fields: above
"""


def index_with(changes: Mapping[str, str]) -> Index:
    """Returns the index of the sample with the crate, the page, and these changes."""
    with checkout({**CRATE, public.PAGE: PAGE, **changes}) as top:
        return Index(texts_below(top))


class PublicNames(unittest.TestCase):
    """The page has each name as users write it, and changes of the sources are found."""

    def found(self, changes: Mapping[str, str]) -> list[str]:
        return list(public.wrong(index_with(changes)))

    def lost(self, changes: Mapping[str, str]) -> set[str]:
        """Returns the items of the page that the sources lack after these changes."""
        begin = f"{public.PAGE}: the sources no longer have: "
        return {line.removeprefix(begin) for line in self.found(changes) if line.startswith(begin)}

    def test_page(self) -> None:
        self.assertEqual(public.text_of(index_with({})), PAGE)
        self.assertEqual(self.found({}), [])

    def test_checkout_without_the_crates_has_no_page(self) -> None:
        with checkout() as top:
            self.assertEqual(public.fixed(Index(texts_below(top))), {})

    def test_lost_label(self) -> None:
        lost = changed(
            "crates/low/src/traits.rt", "        ensures answer { Fits size result }\n", ""
        )
        names = ("Base", "pools::Buckets", "pools::Fixed", "pools::Pool")
        wanted = {f"bb_memory_base::{name}::allocate: ensures: answer" for name in names}
        self.assertEqual(self.lost(lost), wanted)

    def test_lost_field(self) -> None:
        lost = changed("crates/low/specs/Words.antt", "  pub above : 0 < size\n", "  pub one : ⊤\n")
        self.assertEqual(self.lost(lost), {"low::Words::Fits: fields: above"})

    def test_lost_name(self) -> None:
        path = "crates/bb_memory_base/src/lib.rt"
        lost = {path: CRATE[path].replace("    Base, fits,\n", "    Base,\n")}
        self.assertIn("bb_memory_base::fits", self.lost(lost))

    def test_new_label_loses_nothing(self) -> None:
        new = changed(
            "crates/high/src/pools.rt",
            "        ensures losses { result ≡ 0 }\n",
            "        ensures losses { result ≡ 0 }\n        ensures none { result ≡ 0 }\n",
        )
        self.assertEqual(
            self.found(new),
            [
                f"{public.PAGE}: lacks (tools/contracts --fix): "
                "bb_memory_base::pools::SharedPool::allocate: ensures: none"
            ],
        )

    def test_another_order(self) -> None:
        page = PAGE.replace("    ensures: answer kept\n", "    ensures: kept answer\n")
        self.assertEqual(
            self.found({public.PAGE: page}),
            [f"{public.PAGE}: isn't in order (tools/contracts --fix)"],
        )

    def test_changed_signature(self) -> None:
        new = changed("crates/high/src/pools.rt", "pub fn count(&self)", "pub fn count(&mut self)")
        self.assertIn(
            "bb_memory_base::pools::Pool::count: fn count(&self) -> usize", self.lost(new)
        )

    def test_lost_variant(self) -> None:
        path = "crates/bb_memory_base/src/words.rt"
        lost = {path: CRATE[path].replace("    None,\n", "")}
        wanted = "bb_memory_base::words::Word: enum Word { Few(u8), None }"
        self.assertEqual(self.lost(lost), {wanted})

    def test_new_name_has_to_be_written(self) -> None:
        path = "crates/bb_memory_base/src/words.rt"
        new = {path: CRATE[path] + "\npub fn few() -> Word {\n    Word::None\n}\n"}
        self.assertEqual(self.lost(new), set())
        self.assertEqual(
            self.found(new),
            [
                f"{public.PAGE}: lacks (tools/contracts --fix): {line}"
                for line in (
                    "bb_memory_base::words::few",
                    "bb_memory_base::words::few: fn few() -> Word",
                )
            ],
        )

    def test_fix_writes_the_page_and_says_what_it_lost(self) -> None:
        lost = changed("crates/high/src/pools.rt", "        ensures losses { result ≡ 0 }\n", "")
        with checkout({**CRATE, public.PAGE: PAGE, **lost}) as top:
            said = contracts.fix(top)
            self.assertEqual(
                said,
                [
                    f"wrote {public.PAGE}",
                    f"{public.PAGE}: no longer has: "
                    "bb_memory_base::pools::SharedPool::allocate: ensures: losses",
                ],
            )
            self.assertEqual(contracts.fix(top), [])
            self.assertEqual(list(public.wrong(Index(texts_below(top)))), [])


if __name__ == "__main__":
    unittest.main()
