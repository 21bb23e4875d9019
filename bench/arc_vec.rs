//! The workloads of the crate bench_array over Rust's `Arc<Vec<_>>` with `make_mut`, for bench/arrays.sh.
//!
//! `arc_vec WORKLOAD SIZE ROUNDS` runs one of them and prints a number that shows what was done, as bench_array
//! does: `append`, `get`, `set` and `copy` over integers, `append-atoms` and `copy-atoms` over atoms.

use std::hint::black_box;
use std::sync::Arc;

/// An element of a script's collections: an integer, or a counted text.
#[derive(Clone)]
#[allow(dead_code)]
enum Atom {
    Int(i64),
    Text(Arc<Vec<u8>>),
}

/// An element that is made of a number.
trait Numbered: Clone {
    fn of(x: i64) -> Self;
}

impl Numbered for i64 {
    fn of(x: i64) -> i64 {
        x
    }
}

impl Numbered for Atom {
    fn of(x: i64) -> Atom {
        Atom::Int(x)
    }
}

/// An array of the numbers below `size`, appended one by one.
fn filled<T: Numbered>(size: usize) -> Arc<Vec<T>> {
    let mut a = Arc::new(Vec::new());
    for i in 0..size {
        Arc::make_mut(&mut a).push(T::of(i as i64));
    }
    a
}

/// Fills an array in each round, and drops it. Answers how many elements were appended.
fn append<T: Numbered>(size: usize, rounds: u64) -> i64 {
    let mut sum = 0i64;
    for _ in 0..rounds {
        let a = black_box(filled::<T>(size));
        sum = sum.wrapping_add(a.len() as i64);
    }
    sum
}

/// Reads each number in each round. Answers their sum.
fn get(size: usize, rounds: u64) -> i64 {
    let a = filled::<i64>(size);
    let mut sum = 0i64;
    for _ in 0..rounds {
        for i in 0..a.len() {
            if let Some(x) = a.get(i) {
                sum = sum.wrapping_add(*x);
            }
        }
    }
    sum
}

/// Sets each number of an unshared array in each round. Answers the sum of what stood there.
fn set(size: usize, rounds: u64) -> i64 {
    let mut a = filled::<i64>(size);
    let mut sum = 0i64;
    for _ in 0..rounds {
        for i in 0..size {
            let old = std::mem::replace(&mut Arc::make_mut(&mut a)[i], 7);
            sum = sum.wrapping_add(old);
        }
    }
    sum
}

/// Sets the first element of a copy in each round, so that all are copied, and drops the copy. Answers how many
/// elements the copies had.
fn copy<T: Numbered>(size: usize, rounds: u64) -> i64 {
    let a = filled::<T>(size);
    let mut sum = 0i64;
    for _ in 0..rounds {
        let mut b = Arc::clone(&a);
        drop(std::mem::replace(&mut Arc::make_mut(&mut b)[0], T::of(7)));
        sum = sum.wrapping_add(black_box(b).len() as i64);
    }
    sum
}

fn main() {
    let words: Vec<String> = std::env::args().skip(1).collect();
    let [workload, size, rounds] = words.as_slice() else {
        panic!("arc_vec WORKLOAD SIZE ROUNDS");
    };
    let size: usize = size.parse().expect("a size");
    let rounds: u64 = rounds.parse().expect("a number of rounds");
    let done = match workload.as_str() {
        "append" => append::<i64>(size, rounds),
        "get" => get(size, rounds),
        "set" => set(size, rounds),
        "copy" => copy::<i64>(size, rounds),
        "append-atoms" => append::<Atom>(size, rounds),
        "copy-atoms" => copy::<Atom>(size, rounds),
        _ => panic!("no workload {workload}"),
    };
    println!("{workload} {done}");
}
