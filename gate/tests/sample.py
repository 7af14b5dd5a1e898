"""A small checkout for tests, in which `.ci/pages` finds nothing."""

import tempfile
from collections.abc import Iterator, Mapping
from contextlib import contextmanager
from pathlib import Path

TRAIT = """\
//! Traits.
ghost use Rattle.low.specs.Words.{Fits};

/// An allocator.
pub trait Base {
    /// The promise of a request.
    ghost takes: { Self };

    /// Asks for a chunk. Then more.
    fn allocate(&mut self, size: usize) -> usize
        requires fits { 0 < size }
        ensures answer { Fits size result }
        ensures kept { result ≡ size };
}

/// Tests that a size fits.
pub fn fits(size: usize) -> bool
    ensures { Fits size result }
{
    size > 0
}
"""

POOLS = """\
//! Pools, over [`Base`].
use low::traits::Base;

/// A pool of any set.
pub struct Buckets<S> {
    set: S,
}

/// A pool of words.
pub type Pool<A> = Buckets<Words<A>>;

/// A pool of flags.
pub type Fixed<const N: usize> = Buckets<Flags<N>>;

impl<S> Buckets<S> {
    /// Counts. See [`Pool::fresh`] and [`fits`](low::traits::fits).
    pub fn count(&self) -> usize
        ensures value { result ≡ 0 }
    {
        0
    }
}

impl<A> Pool<A> {
    /// Makes one.
    pub fn fresh() -> Self {
        loop {}
    }
}

impl<S> Base for Buckets<S> {
    ghost takes = { 0 };

    /// Takes a bucket.
    fn allocate(&mut self, size: usize) -> usize {
        size
    }
}

/// A pool that counts more than it has.
pub struct SharedPool {}

impl SharedPool {
    /// Asks, with a law of threads.
    pub fn allocate(&self) -> usize
        ensures losses { result ≡ 0 }
    {
        0
    }
}
"""

WORDS = """\
-- Words of the contracts.

-- a size fits
pub record Fits (size result : ℕ) : Type 0 where
  pub above : 0 < size
"""

EDIT = """\
# function: pools::Buckets::count
# promise: Pool::count: value
file: src/pools.rt
old:         0
new:         1
"""

OTHER_EDIT = """\
# function: pools::Buckets::allocate
# promise: Pool::allocate: answer
file: src/pools.rt
old:         size
new:         size - size
"""

HEADER = """\
#define BB_VERSION "1.2.3"
#define BB_VERSION_MAJOR 1
#define BB_VERSION_MINOR 2
#define BB_VERSION_PATCH 3
"""

PROMISES = """\
# Promises

| Promise | Carried by | Proof |
|---|---|---|
| All is well | `Pool::count`: `value`; `Base::allocate`: `answer`, `kept`; `Fits`: `above` | none |

## What to read

| For | Files | Lines |
|---|---|---|
| words | `low`: `Words` | 5 |
"""

TEXTS = {
    "crates.txt": "low:\nhigh: low\n",
    "crates/low/src/lib.rt": "pub mod traits;\n",
    "crates/low/src/traits.rt": TRAIT,
    "crates/low/specs/Words.antt": WORDS,
    "crates/high/src/lib.rt": "pub mod pools;\n",
    "crates/high/src/pools.rt": POOLS,
    "crates/high/must-fail/counts_one.edit": EDIT,
    "crates/high/must-fail/gives_nothing.edit": OTHER_EDIT,
    "crates/bb_memory_c/bb_memory.h": HEADER,
    "crates/bb_memory_c/README.md": "# C\n\n    find_package(bb_memory 1.0 REQUIRED)\n",
    "examples/c/CMakeLists.txt": "find_package(bb_memory 1.0 CONFIG REQUIRED)\n",
    "bindings/rust/Cargo.toml": '[package]\nname = "bb_memory"\nversion = "1.2.3"\n',
    "bindings/rust/Cargo.lock": '[[package]]\nname = "bb_memory"\nversion = "1.2.3"\n',
    "bindings/python/pyproject.toml": '[project]\nname = "bb_memory"\nversion = "1.2.3"\n',
    "CHANGELOG.md": "# Changes\n\n## 1.2.3 (2001-02-03)\n\n## 1.2.2 (commit 0123abcd)\n",
    "PROMISES.md": PROMISES,
    "README.md": "# Read\n\nSee [the words](docs/words.md#what-it-is), `Pool::count` of 1.2.3.\n",
    "GUIDE.md": "# Guide\n",
    "CONTRIBUTING.md": "# Changing\n\nCrates: `low`, `high`.\n",
    "docs/words.md": "# Words\n\n## What it is\n\nBack to [the page](../README.md).\n",
}


@contextmanager
def checkout(changes: Mapping[str, str] | None = None, name: str = "tree") -> Iterator[Path]:
    """Makes the checkout in a folder with this name, with other texts in some files."""
    with tempfile.TemporaryDirectory() as folder:
        top = Path(folder) / name
        for path, text in {**TEXTS, **(changes or {})}.items():
            file = top / path
            file.parent.mkdir(parents=True, exist_ok=True)
            file.write_text(text, encoding="utf-8")
        yield top


def changed(path: str, old: str, new: str) -> dict[str, str]:
    """Returns a file of the checkout, in which a text that it has once is replaced."""
    text = TEXTS[path]
    if text.count(old) != 1:
        raise ValueError(f"{path}: has {text.count(old)} times: {old}")
    return {path: text.replace(old, new)}
