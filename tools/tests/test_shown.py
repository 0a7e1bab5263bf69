#!/usr/bin/env python3
"""Tests of what crates show of themselves, on a made-up repository in which one crate stands on another."""
import os
import shutil
import tempfile
import unittest
import unittest.mock

import places  # noqa: F401
from dev import shown

BELOW = {"low": [], "high": ["low"]}
LOW = """//! A crate.
ghost use Rattle.std.specs.Prelude.{◌≡◌, List};
ghost use Rattle.low.specs.Sets.{IsSorted, total as sum_of};

use std::marker::Model;

/// A bag: the words `pub fn` and { in a comment are no code.
#[derive(Drop)]
pub struct Bag<T> {
    items: Vec<T>, // in any order
    count: usize,
}

impl<T> Model for Bag<T> {
    ghost Value = { List T };

    ghost view = { λ b. b.items.items };

    ghost invariant = { λ b. b.count ≡ 1 };
}

#[derive(Clone, Copy)]
pub struct Place {
    /// From 1.
    pub line: (u64, Option<u8>),
    byte: u64,
}

pub struct Failed(pub u8, u16);

pub enum Found { Word(u8), End }

pub const MOST: u8 = b'{';

pub mod inside {
    pub use other::Name as Renamed;

    pub fn inner_most() -> Name
        ensures { result ≡ 1 };
}

pub trait Taker {
    ghost took: { Self → List ℕ };

    fn take(&mut self, at: [u8; 4]) -> u8
        requires { took self.old ≡ [] }
        ensures given { IsSorted result };
}

impl<T> Taker for Bag<T> {
    ghost took = { λ b. [] };

    fn take(&mut self, at: [u8; 4]) -> u8 {
        let text = "}";
        at[0]
    }
}

impl<T: Drop> Bag<T> {
    pub fn add(mut self, item: T) -> Bag<T>
        requires { sum_of self < 3 }
        ensures ok { result ≡ self }
    {
        if self.count > 1 { self } else { self }
    }

    pub fn unnamed(&self) -> bool
        ensures { result ≡ true }
    {
        true
    }

    fn hidden(&self) -> u8
        ensures { IsSorted result }
    {
        b'\\''
    }
}

pub(crate) fn inner(at: u8) -> u8 {
    at
}

#[cfg(test)]
mod tests;
"""
SETS = """-- Sets.
use Rattle.std.specs.Prelude.{List, ◌≡◌}
use Rattle.low.specs.declared.lib.Found.TheVariants as found

-- the numbers ascend
abbrev pub IsSorted : ℕ → Type 0
IsSorted n = ascends n ≡ true

pub ascends : ℕ → Bool
ascends 0 = true
-- a number more
ascends (suc n) = true

-- what nobody above comes to
pub apart : ℕ → Bool
apart n = ascends n

pub total : ℕ → ℕ
total n = n

pub record IsWhole (n : ℕ) : Type 0 where
  pub small : n < 3
  pub found : n ≡ found.End
"""
HIGH = """//! Above.
ghost use Rattle.low.specs.Sets.{IsWhole};

use low::{Bag, Place};

pub fn call(bag: Bag<u8>) -> Bag<u8>
    requires { IsWhole 1 }
{
    bag.add(MOST)
}
"""


class Shown(unittest.TestCase):
    def setUp(self):
        self.room = tempfile.mkdtemp()
        self.addCleanup(shutil.rmtree, self.room)
        patch = unittest.mock.patch.object(shown, "TOP", self.room)
        patch.start()
        self.addCleanup(patch.stop)
        self.write("low/src/lib.rt", LOW)
        self.write("low/specs/Sets.antt", SETS)
        self.write("high/src/lib.rt", HIGH)

    def write(self, name, text):
        path = os.path.join(self.room, "crates", name)
        os.makedirs(os.path.dirname(path), exist_ok=True)
        with open(path, "w", encoding="utf-8") as file:
            file.write(text)
        shown.shown_by.cache_clear()

    def sum_with(self, name, old, new):
        """The sum of what is shown to the crate above, where one text of a file is another one."""
        given = {"low/src/lib.rt": LOW, "low/specs/Sets.antt": SETS, "high/src/lib.rt": HIGH}[name]
        self.assertEqual(given.count(old), 1, old)
        self.write(name, given.replace(old, new))
        found = shown.shown_below("high", BELOW)
        self.write(name, given)
        return found

    def test_what_the_crate_above_can_come_to_is_in_the_sum_and_nothing_else(self):
        before = shown.shown_below("high", BELOW)
        source, sets = "low/src/lib.rt", "low/specs/Sets.antt"
        for name, old, new, differs in (
                # bodies, comments, layout, what is private and what is for tests
                (source, "if self.count > 1 { self } else { self }", "self", False),
                (source, "/// A bag:", "/// A sack } of", False),
                (source, "requires { sum_of self < 3 }\n        ensures", "requires { sum_of self < 3 } ensures", False),
                (source, "mut self, item", "self, item", False),
                (source, "ensures { IsSorted result }\n    {\n        b'", "{\n        b'", False),
                (source, "inner(at: u8)", "inner(at: u16)", False),
                (source, "mod tests;", "mod tests { fn open() {} }", False),
                (source, "count: usize,", "count: u32,", False),
                (source, "λ b. b.items.items", "λ b. []", False),
                (source, "b.count ≡ 1", "b.count ≡ 2", False),
                (source, "    byte: u64,", "    byte: u32,", False),
                # public, but not come to: no word of it stands above
                (source, "result ≡ true", "result ≡ false", False),
                (source, "pub enum Found { Word(u8)", "pub enum Found { Word(u16)", True),
                (source, "Failed(pub u8, u16)", "Failed(pub u16, u16)", False),
                # public, and come to
                (source, "ensures ok { result ≡ self }", "ensures ok { self ≡ result }", True),
                (source, "impl<T: Drop> Bag<T>", "impl<T> Bag<T>", True),
                (source, "ghost Value = { List T }", "ghost Value = { List ℕ }", True),
                (source, "pub line: (u64,", "pub line: (u32,", True),
                (source, "#[derive(Clone, Copy)]", "#[derive(Clone)]", True),
                (source, "= b'{'", "= b'}'", True),
                (source, "ghost took = { λ b. [] }", "ghost took = { λ b. 1 ∷ [] }", True),
                (source, "total as sum_of", "apart as sum_of", True),
                (sets, "total n = n", "total n = 0", True),
                (sets, "n < 3", "n < 4", True),
                # through the bag's trait, a clause of it, and a definition
                (sets, "ascends (suc n) = true", "ascends (suc n) = false", True),
                (sets, "apart n = ascends n", "apart n = true", False),
                (sets, "-- a number more", "-- one more", False),
                (source, "result ≡ 1 };", "result ≡ 2 };", False),
                (source, "other::Name as Renamed", "other::Named as Renamed", False),
                ("high/src/lib.rt", "{Bag, Place}", "{Bag, Place, Failed}", True),
                ("high/src/lib.rt", "{Bag, Place}", "{Bag, Place, Renamed}", True),
                ("high/src/lib.rt", "bag.add(MOST)", "bag.unnamed(MOST)", True),
                ("high/src/lib.rt", "//! Above.", "//! Above all.", False),
        ):
            self.assertEqual(self.sum_with(name, old, new) != before, differs, f"{name}: {old}")

    def test_items_are_found_with_their_braces(self):
        found = [it for it in shown.parts_of(LOW, 0, len(LOW)) if it.word not in ("use", "ghost")]
        named = [(it.word, it.is_public, it.name()) for it in found if it.word != "impl"]
        self.assertEqual(named, [("struct", True, "Bag"), ("struct", True, "Place"), ("struct", True, "Failed"),
                                 ("enum", True, "Found"), ("const", True, "MOST"), ("fn", True, "inner_most"),
                                 ("trait", True, "Taker"), ("fn", False, "inner")])
        self.assertEqual([shown.implemented(it.text) for it in found if it.word == "impl"],
                         [("Model", "Bag"), ("Taker", "Bag"), (None, "Bag")])
        self.assertEqual([it.name() for it in shown.members(LOW, found[-2])], ["add", "unnamed", "hidden"])

    def test_everybody_comes_to_what_is_unknown(self):
        before = shown.shown_below("high", BELOW)
        for text in ("union Either { a: u8 }", "union Either { a: u16 }", "make!(a);", "make!(b);"):
            self.write("low/src/other.rt", text + "\npub fn apart() {}\n")
            now = shown.shown_below("high", BELOW)
            self.assertNotEqual(now, before, text)
            before = now

    def test_each_source_of_the_repository_is_read(self):
        with unittest.mock.patch.object(shown, "TOP", os.path.dirname(os.path.dirname(os.path.abspath(shown.__file__)))):
            for crate in ("gm_io", "gm_tool", "turn_lock"):
                names = {need for item in shown.shown_by(crate) for need in item.needs}
                self.assertLessEqual({"gm_io": {"begin", "Finish"},
                                      "gm_tool": {"run", "Rattle.gm_tool.specs.Listing.IsListing"},
                                      "turn_lock": {"turn", "TurnLock", "Book"}}[crate], names)
        shown.shown_by.cache_clear()


if __name__ == "__main__":
    unittest.main()
