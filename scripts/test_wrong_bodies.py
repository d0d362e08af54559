#!/usr/bin/env python3
"""Tries `wrong_bodies` on a crate of its own, whose edits have each to come to what stands beside them here. It takes the prover a minute."""
import pathlib
import sys
import tempfile

import edits
import verdicts
import wrong_bodies

SOURCE = """\
//! Numbers, for a test.
#![tactic(auto)]
ghost use Rattle.std.specs.Prelude.{◌≡◌, ◌≤◌, ◌+◌, true, false};

use std::marker::PhantomData;

pub fn one_more(number: u8) -> u64
    ensures { result ≡ number + 1 }
{
    u64::from(number) + 1
}

pub fn two_more(number: u8) -> u64
    ensures { result ≡ number + 2 }
{
    one_more(number) + 1
}

pub fn three_more(number: u8) -> u64
    ensures { result ≡ number + 3 }
{
    two_more(number) + 1
}

pub fn at_most_nine() -> u64
    ensures { result ≤ 9 }
{
    9
}

pub struct Asked<T> {
    of: PhantomData<T>,
}

impl<T: Clone> Asked<T> {
    pub fn is_clone() -> bool
        ensures { result ≡ true }
    {
        true
    }
}

pub trait NoClone {
    fn is_clone() -> bool
        ensures { result ≡ false };
}

impl<T> NoClone for Asked<T> {
    fn is_clone() -> bool {
        false
    }
}

#[derive(Drop)]
pub struct Token {
    number: u64,
}

pub fn token_is_clone() -> bool
    ensures { result ≡ false }
{
    Asked::<Token>::is_clone()
}
"""

# Each edit with its old and new text, and what it has to come to.
EDITS = {
    "one_more_is_two_more": ("u64::from(number) + 1", "u64::from(number) + 2", wrong_bodies.REFUSED),
    "one_more_is_itself": ("u64::from(number) + 1", "u64::from(number)", wrong_bodies.REFUSED),
    "two_more_is_one_more": ("one_more(number) + 1", "one_more(number)", wrong_bodies.REFUSED),
    # waits for the two above, and means the same as before
    "three_more_the_other_way_round": ("two_more(number) + 1", "1 + two_more(number)", wrong_bodies.LET_THROUGH),
    "nine_is_eight": ("    9", "    8", wrong_bodies.LET_THROUGH),
    "no_such_name": ("    false", "    untrue", wrong_bodies.BAD),
    "stands_twice": ("result ≡ false", "result ≡ true", wrong_bodies.BAD),
    "token_is_cloned": ("pub struct Token {", "#[derive(Clone)] pub struct Token {", wrong_bodies.REFUSED),
}


# What an edit says of its function, the prover's paths, and those of them that are that function.
PATHS = [
    (("list", "", "find"), ["list::find", "tree::find", "list::List::find"], ["list::find"]),
    (("list", "List", "find"), ["list::List::find", "list::ListIterator::find", "list::ListOrdered::find"], ["list::List::find"]),
    (("map::retain", "Map", "keep"), ["map::Map::keep", "set::Set::keep"], ["map::Map::keep"]),
    (("map", "Map", "new"), ["map::Map+K+V+Hasher::new", "map::MapIterator::new"], ["map::Map+K+V+Hasher::new"]),
    (("hash", "LowHash", "of"), ["hash::LowHashU64::of"], ["hash::LowHashU64::of"]),
    (("hash", "LowHash", "of"), ["hash::LowHashU64::of", "hash::LowHashU32::of"], []),
]

# What the prover calls a block, by its head.
BLOCKS = [
    ("impl<K: Ord, F: Fn(&K) -> bool> Map<K, F> where F: for<'a> Walk<'a> ", "Map"),
    ("pub(crate) trait Query<K: Ord>: Copy ", "Query"),
    ("impl<K, V, F: FnOnce(&K, &V) -> Option<V> + Drop> ComputeFn<K, V> for F ", "AnyComputeFn"),
    ("impl<'m, K: Ord> Walk<'m, K> for map::Iter<'m, K> ", "IterWalk"),
    ("impl<K: Ord> Query<K> for &K ", "RefQuery"),
    ("impl Query<String> for &'static str ", "RefStrQueryString"),
    ("impl<B: BuildHasher> KeyHasher<u64> for OfKit<B> ", "OfKitKeyHasherU64"),
    # and how it begins or ends
    ("impl<K, V> Put<(K, V), String> for View<K, V> ", "ViewPut"),
    ("impl Source for &mut [u8] ", "Source"),
]

# What the prover prints where a proof file names a goal that is not there any more, in one line and in two, and where a goal is not met.
GONE = """\
./proofs/one/Answers.antt:7:17: error: `returns-x`: `goal.returns-x`: module `Rattle.s.proofs.one.Goals` has no `returns-x` that can be named
fn s::one: not proved
"""
GONE_BELOW = """\
./proofs/one/Answers.antt:4:72: error: `returns-of-a-long-name`: `goal.returns-of-a-long-name`
  module `Rattle.s.proofs.one.Goals` has no `returns-of-a-long-name` that can be named from here
fn s::one: not proved
"""
UNMET = """\
./proofs/one/Answers.antt:9:17: error: `returns-x`: the term does not have its type
  expected 1, found 2
fn s::one: not proved
"""
UNMET_IN_BLOCK = """\
./proofs/map/Map+K+V+Hasher/new/Answers.antt:5:27: error: `returns-clause-seed`: `search`: no proof of `seed`
fn s::map::Map+K+V+Hasher::new: not proved
"""
UNMET_IN_CYCLE = """\
./proofs/tree/+insert_in/Answers.antt:5:27: error: `returns`: `search`: no proof of `kept`
fn s::tree::insert_in: not proved
"""
# Each of these texts with whether a goal of the function is told, and whether names are missed.
PRINTED = [(GONE, False, True), (GONE_BELOW, False, True), (UNMET, True, False), (UNMET_IN_BLOCK, True, False), (UNMET_IN_CYCLE, True, False)]

# What the prover prints of an edit that is tried alone, and what that comes to.
UNCOVERED = """\
fn s::one: no proof: expected `one_spec` in ./proofs/one/Proof.antt; the borrow checker does not cover this function yet
logic=not-proved
"""
ALONE = [(f"{UNMET}logic=not-proved\n", wrong_bodies.REFUSED), (UNCOVERED, wrong_bodies.WRONG_REASON)]


def make_repository(root):
    crate = root / "crates/sample"
    (crate / "src").mkdir(parents=True)
    (crate / "must-fail").mkdir()
    (root / "crates.txt").write_text("sample:\n", encoding="utf-8")
    (crate / "src/lib.rt").write_text(SOURCE, encoding="utf-8")
    for name, (old, new, _) in EDITS.items():
        (crate / f"must-fail/{name}.edit").write_text(f"file: src/lib.rt\nold: {old}\nnew: {new}\n", encoding="utf-8")
    return crate


def main():
    with tempfile.TemporaryDirectory(prefix="test-wrong-bodies-") as room:
        root = pathlib.Path(room)
        crate = make_repository(root)
        _, outcomes = wrong_bodies.try_all(root, root, is_anew=True)
        edit = edits.Edit(crate, crate / "must-fail/one_more_is_itself.edit")
    came_to = {label.removeprefix("sample/").removesuffix(".edit"): (outcome, reason) for label, outcome, reason in outcomes}
    faults = [f"{name} came to {came_to.get(name)}, not to {wanted}" for name, (_, _, wanted) in EDITS.items() if came_to.get(name, [""])[0] != wanted]
    for function, paths, wanted in PATHS:
        if verdicts.paths_of(function, paths) != wanted:
            faults.append(f"{function} is {verdicts.paths_of(function, paths)}, not {wanted}")
    for head, wanted in BLOCKS:
        if edits.block_name(head) != wanted:
            faults.append(f"{head} is {edits.block_name(head)}, not {wanted}")
    for printed, has_goal, has_misses in PRINTED:
        (found,) = verdicts.verdicts_of(printed).values()
        if (bool(found.goal), bool(found.misses)) != (has_goal, has_misses):
            faults.append(f"{printed!r} is read as {found}")
    for printed, wanted in ALONE:
        outcome, _ = wrong_bodies.judged_alone(edit, wrong_bodies.Check(1, printed))
        if outcome != wanted:
            faults.append(f"{printed!r} comes to {outcome}, not to {wanted}")
    for fault in faults:
        print(f"test_wrong_bodies: {fault}", file=sys.stderr)
    print(f"test_wrong_bodies: {'FAILED' if faults else 'passed'}")
    return 1 if faults else 0


if __name__ == "__main__":
    sys.exit(main())
