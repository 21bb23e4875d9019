//! The workloads of the crate bench_hashed over other sets, for bench/hashed.sh: Rust's `HashSet` and `HashMap` with
//! their default hasher (`std`), the same with a hasher that only multiplies (`fast`), and, where bench/hashed.sh found the crate,
//! `IndexSet` and `IndexMap` with the default hasher (`index`).
//!
//! `std_sets SET WORKLOAD KEYS SIZE ROUNDS` runs one of them and prints a number that shows what was done, as
//! bench_hashed does, whose page tells the workloads and the keys.

use std::collections::{HashMap, HashSet};
use std::hash::{BuildHasher, BuildHasherDefault, Hash, Hasher, RandomState};
use std::hint::black_box;
use std::sync::Arc;

/// A hasher that takes in a number by one multiplication, and bytes one by one, as FNV-1a does.
#[derive(Default)]
struct Fast {
    hash: u64,
}

impl Hasher for Fast {
    fn finish(&self) -> u64 {
        self.hash
    }

    fn write(&mut self, bytes: &[u8]) {
        for byte in bytes {
            self.write_u64(u64::from(*byte));
        }
    }

    fn write_u64(&mut self, x: u64) {
        self.hash = (self.hash.rotate_left(5) ^ x).wrapping_mul(0x517c_c1b7_2722_0a95);
    }

    fn write_i64(&mut self, x: i64) {
        self.write_u64(x as u64);
    }

    fn write_isize(&mut self, x: isize) {
        self.write_u64(x as u64);
    }
}

/// A key of a script's collections: an integer, or a counted text.
#[derive(Clone, PartialEq, Eq, Hash)]
#[allow(dead_code)]
enum Atom {
    Int(i64),
    Text(Arc<Vec<u8>>),
}

/// A key that is made of a number.
trait Numbered: Clone + Eq + Hash {
    fn of(x: i64) -> Self;
}

impl Numbered for i64 {
    fn of(x: i64) -> i64 {
        x
    }
}

impl Numbered for Atom {
    fn of(x: i64) -> Atom {
        Atom::Int(x)
    }
}

/// What the workloads ask of a set.
trait Keys<K>: Clone {
    fn empty() -> Self;
    fn count(&self) -> usize;
    fn add(&mut self, key: K) -> bool;
    fn take(&mut self, key: &K) -> bool;
    fn has(&self, key: &K) -> bool;
    fn join(&mut self, other: &Self);
}

impl<K: Numbered, S: BuildHasher + Default + Clone> Keys<K> for HashSet<K, S> {
    fn empty() -> Self {
        HashSet::default()
    }

    fn count(&self) -> usize {
        self.len()
    }

    fn add(&mut self, key: K) -> bool {
        self.insert(key)
    }

    fn take(&mut self, key: &K) -> bool {
        self.remove(key)
    }

    fn has(&self, key: &K) -> bool {
        self.contains(key)
    }

    fn join(&mut self, other: &Self) {
        self.extend(other.iter().cloned());
    }
}

impl<S: BuildHasher + Default + Clone> Keys<i64> for HashMap<i64, i64, S> {
    fn empty() -> Self {
        HashMap::default()
    }

    fn count(&self) -> usize {
        self.len()
    }

    fn add(&mut self, key: i64) -> bool {
        self.insert(key, key).is_none()
    }

    fn take(&mut self, key: &i64) -> bool {
        self.remove(key).is_some()
    }

    fn has(&self, key: &i64) -> bool {
        self.get(key).is_some()
    }

    fn join(&mut self, other: &Self) {
        self.extend(other.iter());
    }
}

#[cfg(has_indexmap)]
impl<K: Numbered, S: BuildHasher + Default + Clone> Keys<K> for indexmap::IndexSet<K, S> {
    fn empty() -> Self {
        indexmap::IndexSet::default()
    }

    fn count(&self) -> usize {
        self.len()
    }

    fn add(&mut self, key: K) -> bool {
        self.insert(key)
    }

    fn take(&mut self, key: &K) -> bool {
        self.swap_remove(key)
    }

    fn has(&self, key: &K) -> bool {
        self.contains(key)
    }

    fn join(&mut self, other: &Self) {
        self.extend(other.iter().cloned());
    }
}

#[cfg(has_indexmap)]
impl<S: BuildHasher + Default + Clone> Keys<i64> for indexmap::IndexMap<i64, i64, S> {
    fn empty() -> Self {
        indexmap::IndexMap::default()
    }

    fn count(&self) -> usize {
        self.len()
    }

    fn add(&mut self, key: i64) -> bool {
        self.insert(key, key).is_none()
    }

    fn take(&mut self, key: &i64) -> bool {
        self.swap_remove(key).is_some()
    }

    fn has(&self, key: &i64) -> bool {
        self.get(key).is_some()
    }

    fn join(&mut self, other: &Self) {
        self.extend(other.iter());
    }
}

/// The `i`-th number of the kind of keys.
#[inline]
fn number(scale: u64, i: usize) -> i64 {
    (i as u64).wrapping_mul(scale) as i64
}

/// What the numbers of a kind of keys are multiplied by.
fn scale(keys: &str) -> u64 {
    match keys {
        "row" => 1,
        "scattered" => 0x9e37_79b9_7f4a_7c15,
        "crowd" => 0x4_0000,
        _ => panic!("no keys {keys}"),
    }
}

/// A set of the keys from `first` on, `size` in all.
fn filled<K: Numbered, S: Keys<K>>(scale: u64, first: usize, size: usize) -> S {
    let mut s = S::empty();
    for i in first..first + size {
        s.add(K::of(number(scale, i)));
    }
    s
}

/// Fills a set in each round, and drops it. Answers how many keys were added.
fn insert<K: Numbered, S: Keys<K>>(scale: u64, size: usize, rounds: u64) -> i64 {
    let mut sum = 0i64;
    for _ in 0..rounds {
        let s = black_box(filled::<K, S>(scale, 0, size));
        sum = sum.wrapping_add(s.count() as i64);
    }
    sum
}

/// Fills a set in each round, and takes each key out. Answers how many were taken out.
fn remove<K: Numbered, S: Keys<K>>(scale: u64, size: usize, rounds: u64) -> i64 {
    let mut sum = 0i64;
    for _ in 0..rounds {
        let mut s = filled::<K, S>(scale, 0, size);
        for i in 0..size {
            if s.take(&K::of(number(scale, i))) {
                sum = sum.wrapping_add(1);
            }
        }
    }
    sum
}

/// Looks for `size` keys from the `first` on in each round. Answers how many were there.
fn find<K: Numbered, S: Keys<K>>(scale: u64, first: usize, size: usize, rounds: u64) -> i64 {
    let s = filled::<K, S>(scale, 0, size);
    let mut sum = 0i64;
    for _ in 0..rounds {
        for i in 0..size {
            if s.has(&K::of(number(scale, first + i))) {
                sum = sum.wrapping_add(1);
            }
        }
    }
    sum
}

/// Adds a key to a copy of a set in each round, and drops the copy. Answers how many keys the copies had.
fn copy<S: Keys<i64>>(scale: u64, size: usize, rounds: u64) -> i64 {
    let s = filled::<i64, S>(scale, 0, size);
    let mut sum = 0i64;
    for _ in 0..rounds {
        let mut other = s.clone();
        other.add(-1);
        sum = sum.wrapping_add(black_box(other).count() as i64);
    }
    sum
}

/// Makes the union of a copy of a set and another in each round, and drops it. Answers how many keys it had.
fn union<S: Keys<i64>>(scale: u64, size: usize, rounds: u64) -> i64 {
    let other = filled::<i64, S>(scale, size / 2, size);
    let s = filled::<i64, S>(scale, 0, size);
    let mut sum = 0i64;
    for _ in 0..rounds {
        let mut both = s.clone();
        both.join(&other);
        sum = sum.wrapping_add(black_box(both).count() as i64);
    }
    sum
}

/// Runs one workload over one kind of set.
fn run<S: Keys<i64>, A: Keys<Atom>, P: Keys<i64>>(
    workload: &str,
    scale: u64,
    size: usize,
    rounds: u64,
) -> i64 {
    match workload {
        "insert" => insert::<i64, S>(scale, size, rounds),
        "remove" => remove::<i64, S>(scale, size, rounds),
        "find" => find::<i64, S>(scale, 0, size, rounds),
        "miss" => find::<i64, S>(scale, size, size, rounds),
        "copy" => copy::<S>(scale, size, rounds),
        "union" => union::<S>(scale, size, rounds),
        "insert-atoms" => insert::<Atom, A>(scale, size, rounds),
        "remove-atoms" => remove::<Atom, A>(scale, size, rounds),
        "find-atoms" => find::<Atom, A>(scale, 0, size, rounds),
        "miss-atoms" => find::<Atom, A>(scale, size, size, rounds),
        "insert-pairs" => insert::<i64, P>(scale, size, rounds),
        "remove-pairs" => remove::<i64, P>(scale, size, rounds),
        "find-pairs" => find::<i64, P>(scale, 0, size, rounds),
        "miss-pairs" => find::<i64, P>(scale, size, size, rounds),
        _ => panic!("no workload {workload}"),
    }
}

fn main() {
    let words: Vec<String> = std::env::args().skip(1).collect();
    let [set, workload, keys, size, rounds] = words.as_slice() else {
        panic!("std_sets SET WORKLOAD KEYS SIZE ROUNDS");
    };
    let size: usize = size.parse().expect("a size");
    let rounds: u64 = rounds.parse().expect("a number of rounds");
    type Quick = BuildHasherDefault<Fast>;
    let scale = scale(keys);
    let done = match set.as_str() {
        "std" => run::<
            HashSet<i64, RandomState>,
            HashSet<Atom, RandomState>,
            HashMap<i64, i64, RandomState>,
        >(workload, scale, size, rounds),
        "fast" => run::<HashSet<i64, Quick>, HashSet<Atom, Quick>, HashMap<i64, i64, Quick>>(
            workload, scale, size, rounds,
        ),
        #[cfg(has_indexmap)]
        "index" => {
            use indexmap::{IndexMap, IndexSet};
            run::<
                IndexSet<i64, RandomState>,
                IndexSet<Atom, RandomState>,
                IndexMap<i64, i64, RandomState>,
            >(workload, scale, size, rounds)
        }
        _ => panic!("no set {set}"),
    };
    println!("{workload} {keys} {done}");
}
