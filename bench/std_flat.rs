//! The workloads of the crate bench_flat over other collections, for bench/flat.sh: `VecDeque`, and `BinaryHeap` with `Reverse`
//! where the least number goes (`std`); `BTreeSet` in place of a heap, which has two ends (`tree`); and, where bench/flat.sh found
//! the crate, `IndexSet` and `IndexMap` with the default hasher (`index`) and with one that only multiplies (`fast`).
//!
//! `std_flat PEER WORKLOAD KEYS SIZE ROUNDS` runs one of them and prints a number that shows what was done, as bench_flat
//! does, whose files tell the workloads.

use std::cmp::Reverse;
use std::collections::{BTreeSet, BinaryHeap, VecDeque};
use std::hint::black_box;

/// How many steps a round has whose steps are linear in the size.
const STEPS: usize = 100;

/// Over how many numbers of which kind a workload is run, and how often.
#[derive(Clone, Copy)]
struct Task {
    scale: u64,
    size: usize,
    rounds: u64,
}

impl Task {
    #[inline]
    fn number(self, i: usize) -> i64 {
        (i as u64).wrapping_mul(self.scale) as i64
    }

    fn numbers(self) -> impl Iterator<Item = i64> {
        (0..self.size).map(move |i| self.number(i))
    }
}

/// A deque of the numbers, put last one by one.
fn deque_of(task: Task) -> VecDeque<i64> {
    let mut d = VecDeque::new();
    for x in task.numbers() {
        d.push_back(x);
    }
    d
}

fn deque(workload: &str, task: Task) -> i64 {
    let mut sum = 0i64;
    let mut d = deque_of(task);
    for _ in 0..task.rounds {
        match workload {
            "append" => sum = sum.wrapping_add(black_box(deque_of(task)).len() as i64),
            "prepend" => {
                let mut d = VecDeque::new();
                for x in task.numbers() {
                    d.push_front(x);
                }
                sum = sum.wrapping_add(black_box(d).len() as i64);
            }
            "pop-first" => {
                let mut d = deque_of(task);
                for _ in 0..task.size {
                    sum = sum.wrapping_add(d.pop_front().unwrap_or(0));
                }
            }
            "pop-last" => {
                let mut d = deque_of(task);
                for _ in 0..task.size {
                    sum = sum.wrapping_add(d.pop_back().unwrap_or(0));
                }
            }
            "queue" => {
                for x in task.numbers() {
                    sum = sum.wrapping_add(d.pop_front().unwrap_or(0));
                    d.push_back(x);
                }
            }
            "rotate" => {
                d.rotate_left(d.len() / 3);
                sum = sum.wrapping_add(*d.front().unwrap_or(&0));
            }
            "insert" => {
                for i in 0..STEPS {
                    d.insert(d.len() / 2, task.number(i));
                }
                for _ in 0..STEPS {
                    sum = sum.wrapping_add(d.pop_back().unwrap_or(0));
                }
            }
            "remove" => {
                for _ in 0..STEPS {
                    sum = sum.wrapping_add(d.remove(d.len() / 2).unwrap_or(0));
                }
                for i in 0..STEPS {
                    d.push_back(task.number(i));
                }
            }
            "get" => {
                for i in 0..d.len() {
                    sum = sum.wrapping_add(*d.get(i).unwrap_or(&0));
                }
                d = black_box(d);
            }
            "walk" => {
                let (front, rest) = d.as_slices();
                sum = front.iter().chain(rest).fold(sum, |a, x| a.wrapping_add(*x));
                let first = d.pop_front().unwrap_or(0);
                d.push_back(first);
            }
            "copy" => {
                let mut other = d.clone();
                sum = sum.wrapping_add(std::mem::replace(&mut other[0], 7));
                sum = sum.wrapping_add(black_box(other).len() as i64);
            }
            _ => panic!("no workload {workload}"),
        }
    }
    sum
}

/// What the workloads ask of a heap.
trait Ends: Clone {
    fn empty() -> Self;
    fn count(&self) -> usize;
    fn add(&mut self, x: i64);
    fn end(&self) -> Option<i64>;
    fn pop(&mut self) -> Option<i64>;
    fn replace(&mut self, x: i64) -> i64;
    fn made(items: Vec<i64>) -> Self;
}

/// The greatest number is the end.
#[derive(Clone)]
struct Max(BinaryHeap<i64>);

/// The least number is.
#[derive(Clone)]
struct Min(BinaryHeap<Reverse<i64>>);

/// Both are; `true` where the least is meant.
#[derive(Clone)]
struct Tree<const LEAST: bool>(BTreeSet<i64>);

impl Ends for Max {
    fn empty() -> Self {
        Max(BinaryHeap::new())
    }
    fn count(&self) -> usize {
        self.0.len()
    }
    fn add(&mut self, x: i64) {
        self.0.push(x);
    }
    fn end(&self) -> Option<i64> {
        self.0.peek().copied()
    }
    fn pop(&mut self) -> Option<i64> {
        self.0.pop()
    }
    fn replace(&mut self, x: i64) -> i64 {
        std::mem::replace(&mut *self.0.peek_mut().expect("one"), x)
    }
    fn made(items: Vec<i64>) -> Self {
        Max(BinaryHeap::from(items))
    }
}

impl Ends for Min {
    fn empty() -> Self {
        Min(BinaryHeap::new())
    }
    fn count(&self) -> usize {
        self.0.len()
    }
    fn add(&mut self, x: i64) {
        self.0.push(Reverse(x));
    }
    fn end(&self) -> Option<i64> {
        self.0.peek().map(|x| x.0)
    }
    fn pop(&mut self) -> Option<i64> {
        self.0.pop().map(|x| x.0)
    }
    fn replace(&mut self, x: i64) -> i64 {
        std::mem::replace(&mut *self.0.peek_mut().expect("one"), Reverse(x)).0
    }
    fn made(items: Vec<i64>) -> Self {
        Min(items.into_iter().map(Reverse).collect::<Vec<_>>().into())
    }
}

impl<const LEAST: bool> Ends for Tree<LEAST> {
    fn empty() -> Self {
        Tree(BTreeSet::new())
    }
    fn count(&self) -> usize {
        self.0.len()
    }
    fn add(&mut self, x: i64) {
        self.0.insert(x);
    }
    fn end(&self) -> Option<i64> {
        if LEAST { self.0.first().copied() } else { self.0.last().copied() }
    }
    fn pop(&mut self) -> Option<i64> {
        if LEAST { self.0.pop_first() } else { self.0.pop_last() }
    }
    fn replace(&mut self, x: i64) -> i64 {
        let old = self.pop().expect("one");
        self.add(x);
        old
    }
    fn made(items: Vec<i64>) -> Self {
        Tree(items.into_iter().collect())
    }
}

/// A heap of the numbers, added one by one.
fn heap_of<H: Ends>(task: Task) -> H {
    let mut s = H::empty();
    for x in task.numbers() {
        s.add(x);
    }
    s
}

fn heap<H: Ends>(workload: &str, task: Task) -> i64 {
    let mut sum = 0i64;
    let mut s = heap_of::<H>(task);
    for _ in 0..task.rounds {
        match workload {
            "insert" => sum = sum.wrapping_add(black_box(heap_of::<H>(task)).count() as i64),
            "ends" => {
                let mut s = H::empty();
                for x in task.numbers() {
                    s.add(x);
                    sum = sum.wrapping_add(s.end().unwrap_or(0));
                }
            }
            "pop-min" | "pop-max" => {
                let mut s = heap_of::<H>(task);
                while let Some(x) = s.pop() {
                    sum = sum.wrapping_mul(3).wrapping_add(x);
                }
            }
            "build" => {
                let mut items = Vec::new();
                for x in task.numbers() {
                    items.push(x);
                }
                sum = sum.wrapping_add(black_box(H::made(items)).end().unwrap_or(0));
            }
            "replace-min" | "replace-max" => {
                for x in task.numbers() {
                    sum = sum.wrapping_add(s.replace(x));
                }
            }
            "copy" => {
                let mut other = s.clone();
                sum = sum.wrapping_add(other.replace(7));
                black_box(other);
            }
            _ => panic!("no workload {workload}"),
        }
    }
    sum
}

#[cfg(has_indexmap)]
mod index {
    use super::{STEPS, Task, black_box};
    use indexmap::{IndexMap, IndexSet};
    use std::hash::{BuildHasher, Hasher};

    /// A hasher that takes in a number by one multiplication.
    #[derive(Default)]
    pub struct Fast {
        hash: u64,
    }

    impl Hasher for Fast {
        fn finish(&self) -> u64 {
            self.hash
        }

        fn write(&mut self, bytes: &[u8]) {
            for byte in bytes {
                self.write_u64(u64::from(*byte));
            }
        }

        fn write_u64(&mut self, x: u64) {
            self.hash = (self.hash.rotate_left(5) ^ x).wrapping_mul(0x517c_c1b7_2722_0a95);
        }

        fn write_i64(&mut self, x: i64) {
            self.write_u64(x as u64);
        }
    }

    /// A set of the numbers from the `first` on, added one by one.
    fn set_of<S: BuildHasher + Default>(first: usize, task: Task) -> IndexSet<i64, S> {
        let mut s = IndexSet::default();
        for i in 0..task.size {
            s.insert(task.number(first + i));
        }
        s
    }

    pub fn set<S: BuildHasher + Default + Clone>(workload: &str, task: Task) -> i64 {
        let mut sum = 0i64;
        let mut next = task.size;
        let other = set_of::<S>(task.size / 2, task);
        let mut s = set_of::<S>(0, task);
        for _ in 0..task.rounds {
            match workload {
                "append" => sum = sum.wrapping_add(black_box(set_of::<S>(0, task)).len() as i64),
                "find" | "miss" => {
                    let first = if workload == "find" { 0 } else { task.size };
                    for i in 0..task.size {
                        sum = sum.wrapping_add(i64::from(s.contains(&task.number(first + i))));
                    }
                }
                "index-of" => {
                    for i in 0..task.size {
                        sum = sum.wrapping_add(s.get_index_of(&task.number(i)).unwrap_or(0) as i64);
                    }
                }
                "at" => {
                    for i in 0..task.size {
                        sum = sum.wrapping_add(*s.get_index(i).unwrap_or(&0));
                    }
                    s = black_box(s);
                }
                "pop" => {
                    let mut s = set_of::<S>(0, task);
                    for _ in 0..task.size {
                        sum = sum.wrapping_add(s.pop().unwrap_or(0));
                    }
                }
                "remove" => {
                    for _ in 0..STEPS {
                        let key = *s.get_index(s.len() / 2).unwrap_or(&0);
                        sum = sum.wrapping_add(s.shift_take(&key).unwrap_or(0));
                        s.insert(key);
                    }
                }
                "insert" => {
                    for _ in 0..STEPS {
                        let (last, _) = s.insert_full(task.number(next));
                        s.move_index(last, 0);
                        next += 1;
                        sum = sum.wrapping_add(s.pop().unwrap_or(0));
                    }
                }
                "union" => {
                    let mut both = s.clone();
                    both.extend(other.iter());
                    sum = sum.wrapping_add(black_box(both).len() as i64);
                }
                "intersection" => {
                    let mut both = s.clone();
                    both.retain(|key| other.contains(key));
                    sum = sum.wrapping_add(black_box(both).len() as i64);
                }
                "copy" => {
                    let mut copy = s.clone();
                    sum = sum.wrapping_add(copy.pop().unwrap_or(0));
                    black_box(copy);
                }
                _ => panic!("no workload {workload}"),
            }
        }
        sum
    }

    /// A dictionary of the numbers, each under itself, put one by one.
    fn map_of<S: BuildHasher + Default>(task: Task) -> IndexMap<i64, i64, S> {
        let mut d = IndexMap::default();
        for x in task.numbers() {
            d.insert(x, x);
        }
        d
    }

    pub fn map<S: BuildHasher + Default + Clone>(workload: &str, task: Task) -> i64 {
        let mut sum = 0i64;
        let mut d = map_of::<S>(task);
        for _ in 0..task.rounds {
            match workload {
                "put" => sum = sum.wrapping_add(black_box(map_of::<S>(task)).len() as i64),
                "get" | "miss" => {
                    let first = if workload == "get" { 0 } else { task.size };
                    for i in 0..task.size {
                        sum = sum.wrapping_add(*d.get(&task.number(first + i)).unwrap_or(&0));
                    }
                }
                "update" => {
                    for i in 0..task.size {
                        sum = sum.wrapping_add(d.insert(task.number(i), task.number(i)).unwrap_or(0));
                    }
                }
                "pop" => {
                    let mut d = map_of::<S>(task);
                    for _ in 0..task.size {
                        sum = sum.wrapping_add(d.pop().map_or(0, |pair| pair.0));
                    }
                }
                "remove" => {
                    for _ in 0..STEPS {
                        let key = *d.get_index(d.len() / 2).map_or(&0, |pair| pair.0);
                        sum = sum.wrapping_add(d.shift_remove(&key).unwrap_or(0));
                        d.insert(key, key);
                    }
                }
                "walk" => {
                    for (key, value) in &d {
                        sum = sum.wrapping_add(*key).wrapping_add(*value);
                    }
                    d.insert(0, sum);
                }
                "copy" => {
                    let mut copy = d.clone();
                    sum = sum.wrapping_add(copy.insert(task.number(1), 7).unwrap_or(0));
                    black_box(copy);
                }
                _ => panic!("no workload {workload}"),
            }
        }
        sum
    }
}

/// Runs a workload of a kind over a peer.
fn run(peer: &str, kind: &str, workload: &str, task: Task) -> i64 {
    let least = workload.ends_with("-min") || workload == "copy";
    match (kind, peer) {
        ("deque", "std") => deque(workload, task),
        ("heap", "std") if least => heap::<Min>(workload, task),
        ("heap", "std") => heap::<Max>(workload, task),
        ("heap", "tree") if least => heap::<Tree<true>>(workload, task),
        ("heap", "tree") => heap::<Tree<false>>(workload, task),
        #[cfg(has_indexmap)]
        ("oset", "index") => index::set::<std::hash::RandomState>(workload, task),
        #[cfg(has_indexmap)]
        ("odict", "index") => index::map::<std::hash::RandomState>(workload, task),
        #[cfg(has_indexmap)]
        ("oset", "fast") => index::set::<std::hash::BuildHasherDefault<index::Fast>>(workload, task),
        #[cfg(has_indexmap)]
        ("odict", "fast") => index::map::<std::hash::BuildHasherDefault<index::Fast>>(workload, task),
        _ => panic!("no {peer} of {kind}"),
    }
}

fn main() {
    let words: Vec<String> = std::env::args().skip(1).collect();
    let [peer, word, keys, size, rounds] = words.as_slice() else {
        panic!("std_flat PEER WORKLOAD KEYS SIZE ROUNDS");
    };
    let (kind, workload) = word.split_once('-').expect("a kind and a workload");
    let task = Task {
        scale: if keys == "row" { 1 } else { 0x9e37_79b9_7f4a_7c15 },
        size: size.parse().expect("a size"),
        rounds: rounds.parse().expect("a number of rounds"),
    };
    println!("{word} {keys} {}", run(peer, kind, workload, task));
}
