"""A small repository: a crate with types, a trait, calls and definitions, one that re-exports them,
and one that shows how they are used."""
import tempfile
from pathlib import Path

FILES = {
    "crates.txt": "# NAME: DEP\nlow:\nvortex_buffer: low\nuse_low: low\n",
    "crates/low/src/lib.rt": """//! Counts that are kept.
#![tactic(auto)]

mod counter;
mod step;

pub use counter::{Counter, Pair, Place, fresh, of_pair};
pub use step::Step;
""",
    "crates/low/src/counter.rt": """//! Counters.
ghost use Rattle.std.specs.Prelude.{◌≡◌, ◌+◌, ◌<◌, length, IfSome};
ghost use Rattle.low.specs.Seen.{counted, IsOne};

use std::marker::Model;

/// A counter. It counts by [`Counter::add`].
pub struct Counter {
    count: usize,
}

impl Model for Counter {
    ghost use Rattle.low.specs.Seen.{Seen};

    ghost Value = { Seen };

    ghost view = { λ c. record { count = c.count } };
}

impl Counter {
    /// One more. See [`fresh`] and [`counted`](Self::counted).
    pub fn add(&mut self, by: usize)
        requires fits { self.old.count + by < 9 }
        ensures { self.new.count ≡ counted self.old by }
    {
        self.count += by;
    }

    /// How many there were.
    pub fn counted(&self) -> usize
        ensures { result ≡ self.now.count }
    {
        self.count
    }

    fn hidden(&self) {}
}

/// A counter that counted nothing.
pub fn fresh() -> Counter
    ensures zero { IsOne (result.count + 1) }
{
    Counter { count: 0 }
}

/// Where one stands.
pub enum Place {
    /// At a number.
    At(usize),
    /// Nowhere.
    Nowhere,
}

/// Two counts.
pub struct Pair {
    count: usize,
}

/// A counter of one count of a pair.
pub fn of_pair(pair: &Pair) -> Option<Counter>
    ensures counted { IfSome result (λ c. c.count ≡ pair.now.count) }
{
    None
}
""",
    "crates/low/src/step.rt": """//! Steps.
ghost use Rattle.std.specs.Prelude.{ℕ, ◌≡◌};

/// What can be stepped.
pub trait Step {
    // How far it is.
    ghost far: { Self → ℕ };

    /// One step, by `n`.
    fn step(&mut self, n: usize)
        ensures { far self.new ≡ n };
}

impl Step for u8 {
    ghost far = { λ n. n };

    fn step(&mut self, n: usize) {
        *self = n as u8;
    }
}
""",
    "crates/low/specs/Lib.antt": "pub mod Seen\n",
    "crates/low/specs/Seen.antt": """-- What is seen of a counter.
use Rattle.std.specs.Prelude.{ℕ, ◌+◌, ◌≡◌, List, [], ◌∷◌}

-- how many were counted
pub record Seen : Type 0 where
  pub count : ℕ

-- the count with more
abbrev pub counted : Seen → ℕ → ℕ
counted s by = s.count + by

-- the number is one
abbrev pub IsOne : ℕ → Type 0
IsOne n = n ≡ 1

-- the sum of a list
abbrev pub total : List ℕ → ℕ
total [] = 0
total (n ∷ more) = n + total more

-- the list has no number
abbrev pub IsNone : {S : Type 0} → (S → ℕ) → S → Type 0
IsNone {S = S} measure s = measure s ≡ 0
""",
    "crates/low/proofs/Lib.antt": "pub mod SeenLemmas\n",
    "crates/low/proofs/SeenLemmas.antt": """-- Laws of what is seen.
use Rattle.std.proofs.Common.{ℕ, ◌≡◌, refl}
use Rattle.low.specs.Seen.{IsOne}

-- one is one
pub one_is_one : IsOne 1
one_is_one = refl
""",
    "crates/vortex_buffer/src/lib.rt": """//! All of it. See [`Counter`].

pub use low::{Counter, Place, Step, fresh};
""",
    "crates/vortex_buffer/specs/Lib.antt": "pub use Rattle.low.specs.Seen\n",
    "crates/vortex_buffer/proofs/Lib.antt": "pub use Rattle.low.proofs.SeenLemmas\n",
    "crates/use_low/src/lib.rt": """//! How counters are used.
use low::{Counter, fresh};

/// Counts to three.
pub fn three() -> usize {
    let mut counter = fresh();
    counter.add(1);
    counter.add(2);
    counter.counted()
}

#[cfg(test)]
mod tests {
    use low::{Counter, fresh};

    #[test]
    fn one_is_added(rt: HostRuntime) {
        let mut one = fresh();
        one.add(1);
    }
}
""",
    "bindings/c/README.md": """| In a name | is one of |
|---|---|
| `WIDTH` | `u8`, `u16`, `u32`, `u64`, `i8` |

| Calls | C | C++ | Rust | Rattle |
|---|---|---|---|---|
| begin | `vb_fresh` | `begin` | `Counter::new` | `fresh` |
| add, or take away | `vb_added_WIDTH` | `add`, `-=` | `Counter::add` | `add` |
""",
    "bindings/c/vortex_bits.h": """/*
 * Counters for C, some by vb_try_ forms. vortex_bits.hpp has a class.
 *
 *     cc app.c
 */
#ifndef VORTEX_BITS_H
#define VORTEX_BITS_H

#include <stddef.h>

#ifdef __cplusplus
extern "C" {
#endif

/* A count, or none. */
typedef struct {
    bool found;
    size_t count;
} vb_count;

/*
 * Returns a count of `by`. More is added by vb_added_u8.
 *
 *     const vb_count one = vb_fresh(1);
 *
 *     assert(one.count < 2);
 */
vb_count vb_fresh(size_t by);
VB_CHECKED bool vb_try_fresh(size_t by,
        vb_count *count);

/* Adds to a count. */
/* Written by tools/write-lists from tools/families/add.txt. */
void vb_added_u8(uint8_t by);
void vb_added_u16(uint16_t by);
void vb_added_u32(uint32_t by);
void vb_added_u64(uint64_t by);
void vb_added_i8(int8_t by);
/* To here. */

#ifdef __cplusplus
}
#endif

#endif
""",
    "bindings/c/vortex_bits.hpp": """/* The counts of vortex_bits.h as a class. */
#ifndef VORTEX_BITS_HPP
#define VORTEX_BITS_HPP

#include "vortex_bits.h"

namespace vortex_bits {

namespace detail {
void hidden();
} // namespace detail

/* Any list. */
template <class Item> class list {
public:
    std::size_t begin() const { return 0; }
};

/* Counts. */
class counter {
public:
    /* Counts nothing: a case of {. */
    counter() = default;
    counter(const counter &) = delete;

    explicit counter(std::size_t count) : count_(count) {}

    vb_count begin() const { return vb_fresh(/* no } yet */ count_); }

    /* Adds a `value`. */
    template <class Value = std::pair<int, int>> void add(const Value &value);
    void operator-=(std::size_t by) { count_ -= by; }

private:
    void secret();
    std::size_t count_ = 0;
};

/* Returns twice `by`. */
constexpr std::size_t twice(std::size_t by) { return 2 * by; }

template <class Value> void counter::add(const Value &value)
{
    vb_added_u8(value);
}

} // namespace vortex_bits

#endif
""",
}


class Repository(tempfile.TemporaryDirectory):
    """The repository in its own folder, with some texts replaced."""

    def __init__(self, *edits: tuple[str, str, str]) -> None:
        super().__init__(prefix="reference-fixture-")
        self.root = Path(self.name)
        texts = dict(FILES)
        for path, old, new in edits:
            assert old in texts[path], old
            texts[path] = texts[path].replace(old, new)
        for path, text in texts.items():
            (self.root / path).parent.mkdir(parents=True, exist_ok=True)
            (self.root / path).write_text(text, encoding="utf-8")
