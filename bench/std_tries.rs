//! The workloads of the crate bench_trie over other maps, for bench/tries.sh: the persistent hash map of `im` with our hash
//! of a key (`im`) and with its own (`sip`), where bench/tries.sh found the crate; and std's `HashMap` with our hash, which is
//! no persistent one, so that a copy of it copies all pairs (`std`).
//!
//! `std_tries PEER WORKLOAD KEYS SIZE ROUNDS` runs one of them and prints a number that shows what was done, as bench_trie
//! does, whose file `workload` tells the workloads.

use std::hash::{BuildHasherDefault, Hasher};
use std::hint::black_box;

/// The hash of ours: the two halves of a number, with one `xor`.
#[derive(Default)]
struct Halves(u64);

impl Hasher for Halves {
    #[inline]
    fn finish(&self) -> u64 {
        self.0
    }

    fn write(&mut self, _: &[u8]) {
        panic!("no number");
    }

    #[inline]
    fn write_i64(&mut self, x: i64) {
        self.0 = (x as u32 ^ (x >> 32) as u32) as u64;
    }
}

/// The same times an odd number, for a map that looks at the upper bits of a hash.
#[derive(Default)]
struct Spread(Halves);

impl Hasher for Spread {
    #[inline]
    fn finish(&self) -> u64 {
        self.0.finish().wrapping_mul(0x9e37_79b9_7f4a_7c15)
    }

    fn write(&mut self, bytes: &[u8]) {
        self.0.write(bytes);
    }

    #[inline]
    fn write_i64(&mut self, x: i64) {
        self.0.write_i64(x);
    }
}

/// Over how many numbers of which kind a workload is run, and how often.
#[derive(Clone, Copy)]
struct Task {
    scale: u64,
    size: usize,
    rounds: u64,
}

impl Task {
    #[inline]
    fn number(self, i: usize) -> i64 {
        (i as u64).wrapping_mul(self.scale) as i64
    }

    fn pairs(self) -> Vec<(i64, i64)> {
        (0..self.size).map(|i| (self.number(i), self.number(i))).collect()
    }
}

/// What the workloads ask of a map.
trait Map: Clone + Default + FromIterator<(i64, i64)> {
    fn put(&mut self, key: i64, value: i64) -> Option<i64>;
    fn take(&mut self, key: &i64) -> Option<i64>;
    fn value(&self, key: &i64) -> Option<&i64>;
    fn count(&self) -> usize;
    fn listed(&self) -> Vec<(&i64, &i64)>;
}

macro_rules! map {
    ($name:ty) => {
        impl Map for $name {
            #[inline]
            fn put(&mut self, key: i64, value: i64) -> Option<i64> {
                self.insert(key, value)
            }
            #[inline]
            fn take(&mut self, key: &i64) -> Option<i64> {
                self.remove(key)
            }
            #[inline]
            fn value(&self, key: &i64) -> Option<&i64> {
                self.get(key)
            }
            fn count(&self) -> usize {
                self.len()
            }
            fn listed(&self) -> Vec<(&i64, &i64)> {
                self.iter().collect()
            }
        }
    };
}

map!(std::collections::HashMap<i64, i64, BuildHasherDefault<Spread>>);
#[cfg(has_im)]
map!(im_rc::HashMap<i64, i64, BuildHasherDefault<Halves>>);
#[cfg(has_im)]
map!(im_rc::HashMap<i64, i64>);

/// A map of the numbers, each under itself, put one by one.
fn filled<M: Map>(task: Task) -> M {
    let mut m = M::default();
    for i in 0..task.size {
        m.put(task.number(i), task.number(i));
    }
    m
}

/// The values of the keys from the `first` on.
fn got<M: Map>(m: &M, first: usize, task: Task) -> i64 {
    let mut sum = 0i64;
    for i in 0..task.size {
        if let Some(x) = m.value(&task.number(first + i)) {
            sum = sum.wrapping_add(*x);
        }
    }
    sum
}

/// One round of a workload that begins with a full map.
fn round<M: Map>(workload: &str, m: &mut M, task: Task) -> i64 {
    let mut sum = 0i64;
    match workload {
        "update" => {
            for i in 0..task.size {
                sum = sum.wrapping_add(m.put(task.number(i), i as i64).unwrap_or(0));
            }
        }
        "copy" => {
            for i in 0..task.size {
                let mut other = m.clone();
                sum = sum.wrapping_add(other.put(task.number(i), 7).unwrap_or(0));
                drop(black_box(other));
            }
        }
        "lend" => {
            for _ in 0..task.size {
                sum = sum.wrapping_add(black_box(m.clone()).count() as i64);
            }
        }
        "find" => sum = got(m, 0, task),
        "miss" => sum = got(m, task.size, task),
        "walk" => {
            for (key, value) in m.listed() {
                sum = sum.wrapping_add(*key).wrapping_add(*value);
            }
        }
        _ => panic!("no workload {workload}"),
    }
    sum
}

fn run<M: Map>(workload: &str, task: Task) -> i64 {
    let mut sum = 0i64;
    match workload {
        "put" => {
            for _ in 0..task.rounds {
                sum = sum.wrapping_add(black_box(filled::<M>(task)).count() as i64);
            }
        }
        "remove" => {
            for _ in 0..task.rounds {
                let mut m = black_box(filled::<M>(task));
                for i in 0..task.size {
                    sum = sum.wrapping_add(m.take(&task.number(i)).unwrap_or(0));
                }
                drop(black_box(m));
            }
        }
        "build" => {
            for _ in 0..task.rounds {
                let m: M = black_box(task.pairs()).into_iter().collect();
                sum = sum.wrapping_add(black_box(m).count() as i64);
            }
        }
        _ => {
            let mut m = filled::<M>(task);
            for _ in 0..task.rounds {
                sum = sum.wrapping_add(round(workload, &mut m, task));
                m = black_box(m);
            }
        }
    }
    sum
}

fn main() {
    let words: Vec<String> = std::env::args().skip(1).collect();
    let [peer, workload, keys, size, rounds] = &words[..] else {
        panic!("std_tries PEER WORKLOAD KEYS SIZE ROUNDS");
    };
    let task = Task {
        scale: if keys == "row" { 1 } else { 0x9e37_79b9_7f4a_7c15 },
        size: size.parse().unwrap(),
        rounds: rounds.parse().unwrap(),
    };
    let sum = match peer.as_str() {
        "std" => run::<std::collections::HashMap<i64, i64, BuildHasherDefault<Spread>>>(workload, task),
        #[cfg(has_im)]
        "im" => run::<im_rc::HashMap<i64, i64, BuildHasherDefault<Halves>>>(workload, task),
        #[cfg(has_im)]
        "sip" => run::<im_rc::HashMap<i64, i64>>(workload, task),
        _ => panic!("no peer {peer}"),
    };
    println!("{workload} {keys} {sum}");
}
