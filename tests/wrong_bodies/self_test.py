"""Right bodies planted among wrong ones in toy crates: does each get the verdict that is due?"""

import shutil
import subprocess
import tempfile
from pathlib import Path

from checks import folder_of_copy, say
from listing import PUBLIC, chosen, lacking
from trials import try_all
from verdicts import BROKEN, PROVED, REFUSED

TOY = {
    "crates.txt": "toy:\nabove: toy\n",
    "crates/toy/src/lib.rt": """\
//! Small numbers, and the least of some.
#![tactic(auto)]

ghost use Rattle.std.specs.Prelude.{◌≤◌, ◌<◌, ◌↔◌, IsTrue};

mod ranges;

pub use ranges::{Range, is_among};

const MOST: u64 = 64;

/// Whether a number is at most 64.
pub fn is_small(p: u64) -> bool
    ensures { IsTrue result ↔ (p ≤ 64) }
{
    p <= MOST
}

/// The lesser of two numbers, or one that is less.
pub fn least(a: u64, b: u64) -> u64
    ensures one { result ≤ a }
    ensures other { result ≤ b }
{
    if a < b { a } else { b }
}

/// The least of three numbers, or one that is less.
pub fn least_of_three(a: u64, b: u64, c: u64) -> u64
    ensures one { result ≤ a }
    ensures other { result ≤ b }
    ensures third { result ≤ c }
{
    let ab = least(a, b);
    least(ab, c)
}
""",
    "crates/toy/src/ranges.rt": """\
//! Ranges, and lists of numbers.

ghost use Rattle.std.specs.Prelude.{◌≡◌, ◌≤◌, ◌<◌, ◌↔◌, IsTrue, Contains};

/// The numbers from 1 to a last one.
pub struct Range {
    pub last: u64,
}

impl Range {
    /// Whether a number lies in it.
    pub fn has(&self, p: u64) -> bool
        ensures { IsTrue result ↔ (0 < p × p ≤ self.now.last) }
    {
        0 < p && p <= self.last
    }
}

impl From<u64> for Range {
    fn from(last: u64) -> Range
        ensures { result.last ≡ last }
    {
        Range { last }
    }
}

/// Whether a number is among these.
pub fn is_among(numbers: &[u64], p: u64) -> bool
    ensures { IsTrue result ↔ Contains numbers.now p }
{
    numbers.iter().any(|it| *it == p)
}
""",
    "crates/above/src/lib.rt": """\
//! Pairs of small numbers.
#![tactic(auto)]

ghost use Rattle.std.specs.Prelude.{◌≤◌, ◌↔◌, IsTrue};

use toy::{is_small, least};

/// Whether two numbers are at most 64.
pub fn are_small(a: u64, b: u64) -> bool
    ensures { IsTrue result ↔ (a ≤ 64 × b ≤ 64) }
{
    is_small(a) && is_small(b)
}

/// A number that is at most the first.
pub fn lesser(a: u64, b: u64) -> u64
    ensures { result ≤ a }
{
    least(a, b)
}

/// A number that is at most this one.
pub fn below(p: u64) -> u64
    ensures most { result ≤ p }
{
    lowered(p)
}

fn lowered(p: u64) -> u64
    ensures lower { result ≤ p }
{
    p / 2
}
""",
}

# Bodies planted in toy, right ones among wrong ones: the file, pairs of old and new, and the verdict that is due.
PLANTED = {
    "1-has-zero": ("ranges", ["0 < p && p <= self.last", "p <= self.last"], REFUSED),
    "2-has-in-another-order": ("ranges", ["0 < p && p <= self.last", "p <= self.last && 0 < p"], PROVED),
    "3-has-a-type-error": ("ranges", ["p <= self.last", "p <= self.first"], BROKEN),
    "least-of-three-forgets-one": ("lib", ["least(ab, c)", "ab"], REFUSED),
    "least-of-three-from-behind": ("lib", ["least(a, b)", "least(b, c)", "least(ab, c)", "least(a, ab)"], PROVED),
    "least-is-the-greater": ("lib", ["if a < b", "if b < a"], REFUSED),
    "least-on-ties": ("lib", ["if a < b", "if a <= b"], PROVED),
    "from-one-above": ("ranges", ["Range { last }", "Range { last: last / 2 }"], REFUSED),
    "is-among-the-lesser": ("ranges", ["*it == p", "*it <= p"], REFUSED),
    "is-among-turned-round": ("ranges", ["*it == p", "p == *it"], PROVED),
    "is-small-below": ("lib", ["p <= MOST", "p < MOST"], REFUSED),
    "most-is-63": ("lib", ["MOST: u64 = 64", "MOST: u64 = 63"], REFUSED),
    "two-places-at-once": ("lib", ["if a < b", "if a <= b", "least(ab, c)", "least(c, ab)"], PROVED),
    "stands-twice": ("lib", ["least(", "most("], BROKEN),
    "stands-nowhere": ("lib", ["if b > a", "if b < a"], BROKEN),
}

# Those of its public functions that have no mutant in must-fail/ or mutants/public/.
LACKING = {"lib::is_small", "lib::least", "lib::least_of_three", "ranges::Range::has", "ranges::RangeFromU64::from", "ranges::is_among"}

# Mutants of public functions, planted in the crate above it once `rt ci` has passed both.
PLANTED_ABOVE = {
    "are_small-by-the-first": ("lib", ["is_small(a) && is_small(b)", "is_small(a)"], REFUSED),
    "are_small-in-another-order": ("lib", ["is_small(a) && is_small(b)", "is_small(b) && is_small(a)"], PROVED),
    "lesser-is-the-second": ("lib", ["least(a, b)", "b"], REFUSED),
    "lesser-is-the-first": ("lib", ["least(a, b)", "a"], PROVED),
    "lesser-has-a-type-error": ("lib", ["least(a, b)", "is_small(a)"], BROKEN),
    "below-above": ("lib", ["    lowered(p)", "    lowered(p) + 1"], REFUSED),
    "below-twice": ("lib", ["    lowered(p)", "    lowered(lowered(p))"], PROVED),
    "below-promises-zero": ("lib", ["most { result ≤ p }", "most { result ≤ 0 }"], REFUSED),
    "below-by-a-type-error": ("lib", ["most { result ≤ p }", "most { result ≤ 0 }", "p / 2", "is_small(p)"], BROKEN),
    # A half is in no contract, so no caller sees another number.
    "lowered-to-a-third": ("lib", ["p / 2", "p / 3"], PROVED),
    # Only a caller shows that this is too little.
    "lowered-promises-nothing": ("lib", ["lower { result ≤ p }", "lower { 0 ≤ result }"], REFUSED),
}
# A crate that isn't proved without a mutant: a function that its others call, which is no stub, for a const fn never is
# one.
UNPROVED = """\
//! A function that isn't what it says.
#![tactic(auto)]

ghost use Rattle.std.specs.Prelude.{◌≡◌, ◌≤◌};

/// A number that is at most this one.
pub fn half(p: u64) -> u64
    ensures { result ≤ p }
{
    other(p) / 2
}

/// The number itself.
pub fn same(p: u64) -> u64
    ensures { result ≡ p }
{
    p
}

/// The number itself, so it says.
pub const fn other(p: u64) -> u64
    ensures { result ≡ p }
{
    p / 3
}
"""
PLANTED_UNPROVED = {
    "half-of-one": "file: src/lib.rt\nold: other(p) / 2\nnew: other(p) / 2 + 1\n",
    "same-is-zero": "file: src/lib.rt\nafter: pub fn same\nold:     p\nnew:     p / 4\n",
}

# A text that occurs twice, after one that occurs once.
AFTER = "file: src/lib.rt\nafter: pub fn lesser\nold: (a, b)\nnew: (b, b)\n"


def write(top):
    """Writes the toy crates, with what is planted in them."""
    for path, text in TOY.items():
        (top / path).parent.mkdir(parents=True, exist_ok=True)
        (top / path).write_text(text)
    for folder, planted in (("toy/mutants", PLANTED), (f"above/{PUBLIC}", PLANTED_ABOVE)):
        (top / "crates" / folder).mkdir(parents=True)
        for name, (file, texts, _) in planted.items():
            pairs = "".join(f"old: {old}\nnew: {new}\n" for old, new in zip(texts[::2], texts[1::2]))
            (top / f"crates/{folder}/{name}.edit").write_text(f"file: src/{file}.rt\n{pairs}")
    (top / f"crates/above/{PUBLIC}/lesser-of-the-second.edit").write_text(AFTER)


def add_unproved(top):
    """Writes the crate that isn't proved, which `rt ci` would refuse."""
    (top / "crates.txt").write_text(f"{TOY['crates.txt']}unproved:\n")
    for path, text in (("src/lib.rt", UNPROVED), *[(f"{PUBLIC}/{name}.edit", edit) for name, edit in PLANTED_UNPROVED.items()]):
        (top / "crates/unproved" / path).parent.mkdir(parents=True, exist_ok=True)
        (top / "crates/unproved" / path).write_text(text)


def failures(top):
    """What is not as it should be, after all has been tried."""
    due = {f"toy/{name}": verdict for name, (_, _, verdict) in PLANTED.items()}
    due |= {f"above/public/{name}": verdict for name, (_, _, verdict) in PLANTED_ABOVE.items()}
    due["above/public/lesser-of-the-second"] = REFUSED
    due |= {f"unproved/public/{name}": BROKEN for name in PLANTED_UNPROVED}
    told = try_all(top, chosen(top, [], ["mutants"]), are_proved=False)
    gate = subprocess.run(["rt", "ci"], cwd=top, stdin=subprocess.DEVNULL, stdout=subprocess.PIPE, stderr=subprocess.STDOUT, text=True)
    found = [f"rt ci does not pass the toy crates: {gate.stdout}"] if gate.returncode else []
    built = [it.name for it in top.glob("crates/*/out/rlib/stamp")]
    found += ["rt ci left libraries with a stamp, so those of a whole run weren't tried"] if built else []
    told |= try_all(top, chosen(top, [], [PUBLIC]), are_proved=True)
    add_unproved(top)
    told |= try_all(top, chosen(top, ["unproved"], [PUBLIC]), are_proved=True)
    found += [f"{label}: {verdict} is due, and {told.get(label)} was told" for label, verdict in due.items() if told.get(label) != verdict]
    named = {it.path().partition("::")[2] for it in lacking(top, ["toy"])}
    wrong = named ^ {it.removeprefix("lib::") for it in LACKING}
    found += [f"toy: {it}: wrongly listed as lacking a wrong body, or not listed" for it in sorted(wrong)]
    found += [f"above: {it.path()}: listed as lacking a wrong body" for it in lacking(top, ["above"])]
    say(f"self-test: {len(due)} verdicts, {len(LACKING)} public functions without a wrong body")
    return found


def self_test():
    with tempfile.TemporaryDirectory(prefix="mutants-toy-") as room:
        top = Path(room)
        write(top)
        try:
            found = failures(top)
        finally:
            shutil.rmtree(folder_of_copy(top), ignore_errors=True)
    for it in found:
        say(it)
    say(f"self-test {'FAILED' if found else 'ok'}")
    return 1 if found else 0
