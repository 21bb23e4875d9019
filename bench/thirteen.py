#!/usr/bin/env python3
"""Shows that tries stand with thirteen levels over hashes of 64 bits: makes a repository of copies in which only constants, the
type of a hash and the stages are others, and has `rattle check` prove it. Outside the gate; some ten processor minutes.

    bench/thirteen.py FOLDER [--libs FOLDER:..] [--make]

FOLDER gets the copies and what the checks keep. --libs has the rlibs of `cow_model` and `cow_cell`, which stay as they are;
without it those that rt made in this repository are taken. --make stops before any check.

| crate of FOLDER | what it is | what is another |
|---|---|---|
| `wide_shapes` | the definitions and lemmas on shapes, out of `cow_model` | 7 is 13; a hash is below 2^64 |
| `cow_item` | elements and keys | a hash is a `u64` |
| `cow_champ` | the nodes | 7 is 13, 14 is 26 and 13 is 25, a hash is a `u64` |
| `cow_levels` | the stages | thirteen of them |
| `thirteen` | a look-up after a change, over thirteen levels of integers | |
"""
import os
import re
import subprocess
import sys
import time

TOP = os.path.dirname(os.path.dirname(os.path.abspath(__file__)))
KIT = "/opt/rattle"
LEVELS = 13

CRATES = {
    "wide_shapes": "cow_model",
    "cow_item": "cow_model cow_cell",
    "cow_champ": "cow_model cow_cell cow_item wide_shapes",
    "cow_levels": "cow_cell cow_item cow_champ wide_shapes",
    "thirteen": "cow_model cow_cell cow_item cow_champ cow_levels wide_shapes",
}

SHAPES = re.compile(r"Rattle\.cow_model\.(specs\.(?:Canon|Slots)|proofs\.Canon\w*)\b")

THIRTEEN = """//! A task over thirteen levels: a pair is put into an empty trie, and its key is looked for.
#![tactic(auto)]

ghost use Rattle.std.specs.Prelude.{◌≡◌, ◌≤◌, ◌^◌, []};
ghost use Rattle.cow_cell.specs.Opens.{Opens};
ghost use Rattle.cow_model.specs.Hash.{literal_hash};
ghost use Rattle.wide_shapes.specs.Canon.{canon};

use cow_cell::{Counted, Holder, Opening, Stock};
use cow_champ::Level;
use cow_item::Key;
use cow_levels::{Task, over_levels};
use std::alloc::Global;

/// A key and its value.
#[derive(Drop)]
struct Once {
    alloc: Global,
    opening: Opening,
    key: i64,
    value: i64,
}

impl<Q: Stock> Task<i64, i64, Q> for Once {
    type Out = Option<i64>;

    ghost use Rattle.std.specs.Prelude.{⊤};
    ghost use Rattle.cow_cell.specs.Opens.{Opens};

    ghost Takes = { λ t. Opens Q.Stock t.opening };

    ghost Gives = { λ t r. ⊤ };

    fn run<C: Level<i64, i64, Q> + Send + Sync>(self) -> Option<i64> {
        let Once {
            alloc,
            opening,
            key,
            value,
        } = self;
        let mut h = Holder::<Q>::fresh(opening);
        let node = C::empty(alloc).ok()?;
        let Ok(mut root) = Counted::<C, Q>::new(alloc, node, &mut h) else {
            return None;
        };
        put_and_find::<Q, C>(alloc, &mut root, key, value, &mut h)
    }
}

/// The value under a key after it was put there; none where memory is wanting.
fn put_and_find<Q: Stock, C: Level<i64, i64, Q>>(
    alloc: Global,
    root: &mut Counted<C, Q>,
    key: i64,
    value: i64,
    h: &mut Holder<Q>,
) -> Option<i64>
    requires root { C.LEVEL ≡ 0 }
    requires stacked { C.Stacked }
    requires whole { C.IsWhole root.old.value }
    requires empty { C.shape root.old.value ≡ canon literal_hash [] C.LEVEL }
    requires spare { 2 ^ 10 ≤ h.old.spare }
{
    let hash = <i64 as Key<Q>>::hash(&key);
    if C::put(root, alloc, hash, key, value, h).is_err() {
        return None;
    }
    root.get().find(hash, &key).copied()
}

/// The same over thirteen levels.
pub fn over_thirteen<Q: Stock + Send + Sync>(
    alloc: Global,
    opening: Opening,
    key: i64,
    value: i64,
) -> Option<i64>
    requires { Opens Q.Stock opening }
{
    over_levels::<i64, i64, Q, Once>(Once {
        alloc,
        opening,
        key,
        value,
    })
}
"""

ANSWERS = """use Rattle.std.proofs.Common.{[], length, sym, ap, subst, arith}
use Rattle.cow_model.specs.Hash.{literal_hash}
use Rattle.wide_shapes.specs.Canon.{IsCanonical, pairs}
use Rattle.wide_shapes.proofs.CanonSlots.{IsCanonical-canon, length-canon}
use Rattle.thirteen.proofs.put_and_find.Goals as goal

pub put-requires-clause-canonical : goal.put-requires-clause-canonical
put-requires-clause-canonical g c =
    subst (λ t. IsCanonical literal_hash t g.C.Level.LEVEL) (sym c.requires.empty) (IsCanonical-canon literal_hash [] g.C.Level.LEVEL (λ k. omega arith))

pub put-requires-clause-spare : goal.put-requires-clause-spare
put-requires-clause-spare g c =
    let none = ap (λ t. length (pairs t)) c.requires.empty in
    omega (arith, none, length-canon literal_hash [] g.C.Level.LEVEL, c.requires.spare)
"""


def numbers(text, others):
    """Each whole number that `others` has, but a place in a tuple, becomes the other one."""
    return re.sub(r"(?<![.\w])(\d+)\b(?!\.\w)", lambda it: others.get(it[1], it[1]), text)


def shapes(text):
    return SHAPES.sub(r"Rattle.wide_shapes.\1", text)


def wide_hash(text):
    """A hash is a number of 64 bits, by itself and beside a key and a value."""
    text = re.sub(r"\b(hash|other_hash): u32", r"\1: u64", text)
    return text.replace("(u32, K, V)", "(u64, K, V)")


def of_shapes(text):
    text = numbers(text.replace("2 ^ 32", "2 ^ 64"), {"7": "13"})
    return shapes(text)


def of_item(text):
    text = re.sub(r"(fn (?:sought_)?hash\(&self\)) -> u32", r"\1 -> u64", text)
    text = text.replace("hash_of p < 2 ^ 32", "hash_of p < 2 ^ 64")
    text = re.sub(r"^(\s+(?:\S.* => )?)(hash::of_\w+\(.*\))(,?)$", r"\1u64::from(\2)\3", text, flags=re.M)
    if "ghost hash_fits = { literal_fits }" in text:
        text = text.replace("ghost hash_fits = { literal_fits }", "ghost hash_fits = { λ p. Prim.omega (arith, literal_fits p) }")
        text = text.replace("ghost use Rattle.cow_model.proofs.Hashes", "ghost use Rattle.std.proofs.Common.{arith};\nghost use Rattle.cow_model.proofs.Hashes", 1)
    return text


def of_champ(text):
    text = wide_hash(numbers(shapes(text), {"7": "13", "13": "25", "14": "26"}))
    text = text.replace("hash < 2 ^ 32", "hash < 2 ^ 64")
    return text.replace("(hash >> (5 * level)) & 31", "((hash >> (5 * level)) & 31) as u32")


def of_levels(text):
    """The stage of level 1 is written again for each level above it."""
    begin = text.index("/// With level 6")
    head, stages = text[:begin], text[begin:]
    first = stages[stages.index("/// With level 1") : stages.index("/// With level 0")]
    last = stages[stages.index("/// With level 0") :]
    head = head.replace("over_6::<", f"over_{LEVELS - 1}::<").replace("seven", "thirteen")
    more = ""
    for k in reversed(range(1, LEVELS)):
        stage = first.replace("level 1 ", f"level {k} ").replace("over_1<", f"over_{k}<")
        stage = stage.replace("C.LEVEL ≡ 2", f"C.LEVEL ≡ {k + 1}")
        more += stage.replace("over_0::<", f"over_{k - 1}::<").replace("C, Q, 1>", f"C, Q, {k}>")
    return shapes(head + more + last)


def copy(crate, into, change, only=lambda path: True):
    source = f"{TOP}/crates/{crate}"
    for part in ("src", "specs", "proofs"):
        for folder, _, files in os.walk(f"{source}/{part}"):
            for file in files:
                path = os.path.relpath(f"{folder}/{file}", source)
                if only(path):
                    with open(f"{source}/{path}", encoding="utf-8") as it:
                        write(f"{into}/{path}", change(it.read()))


def write(path, text):
    os.makedirs(os.path.dirname(path), exist_ok=True)
    with open(path, "w", encoding="utf-8") as it:
        it.write(text)


def make(folder):
    crates = f"{folder}/crates"
    shape = re.compile(r"specs/(Canon|Slots)\.antt|proofs/Canon\w*\.antt")
    copy("cow_model", f"{crates}/wide_shapes", of_shapes, lambda path: bool(shape.fullmatch(path)))
    names = sorted(it[:-5] for it in os.listdir(f"{crates}/wide_shapes/proofs"))
    write(f"{crates}/wide_shapes/specs/Lib.antt", "pub mod Canon\npub mod Slots\n")
    write(f"{crates}/wide_shapes/proofs/Lib.antt", "".join(f"pub mod {name}\n" for name in names if name != "Lib"))
    write(f"{crates}/wide_shapes/src/lib.rt", "//! Shapes of tries of thirteen levels.\n#![tactic(auto)]\n")
    copy("cow_item", f"{crates}/cow_item", of_item)
    copy("cow_champ", f"{crates}/cow_champ", of_champ)
    copy("cow_levels", f"{crates}/cow_levels", of_levels)
    write(f"{crates}/thirteen/src/lib.rt", THIRTEEN)
    write(f"{crates}/thirteen/proofs/put_and_find/Answers.antt", ANSWERS)
    lines = [f"{name}: {on}\n" for name, on in CRATES.items()]
    write(f"{folder}/crates.txt", "".join(lines))


def rlib(name, folders):
    for folder in folders:
        path = f"{folder}/{name}.rlib"
        if os.path.exists(path):
            return path
    sys.exit(f"no rlib of {name}: give --libs")


def prove(folder, libs):
    made = f"{folder}/rlibs"
    os.makedirs(made, exist_ok=True)
    ours = [made, *libs]
    for name, on in CRATES.items():
        words = [f"{KIT}/bin/rattle", "build", "--crate-name", name, "src/lib.rt", "-o", f"{made}/{name}.rlib"]
        words += ["--extern", f"std={KIT}/rlibs/std.rlib", "-L", f"dependency={KIT}/rlibs"]
        for dep in on.split():
            words += ["--extern", f"{dep}={rlib(dep, ours)}"]
        for it in ours:
            words += ["-L", f"dependency={it}"]
        words += ["--antt-project", f"{KIT}/rattle/logic/antt-project.json", "--logic-built", f"{KIT}/logic_built"]
        kept = f"{folder}/kept/{name}"
        os.makedirs(kept, exist_ok=True)
        begin, used = time.time(), os.times()
        with open(f"{folder}/{name}.log", "w", encoding="utf-8") as log:
            status = subprocess.run(
                [*words, "--links", f"{name}=", "--incremental", kept], cwd=f"{folder}/crates/{name}", stdout=log, stderr=log
            ).returncode
        now = os.times()
        taken = now.children_user + now.children_system - used.children_user - used.children_system
        verdict = "proved" if status == 0 else f"not proved, see {folder}/{name}.log"
        print(f"{name}: {verdict}, {taken:.0f} processor seconds, {time.time() - begin:.0f} in all", flush=True)
        if status:
            sys.exit(1)


def main():
    words = sys.argv[1:]
    libs = [f"{TOP}/crates/{name}/out/rlib" for name in ("cow_model", "cow_cell")]
    if "--libs" in words:
        at = words.index("--libs")
        libs = words[at + 1].split(":")
        del words[at : at + 2]
    stops = "--make" in words
    words = [it for it in words if it != "--make"]
    if len(words) != 1:
        sys.exit(__doc__)
    folder = os.path.abspath(words[0])
    make(folder)
    if not stops:
        prove(folder, libs)


main()
