//! The workloads of the crate bench_cell over `std::sync::Arc`, for bench/cell.sh.
//!
//! `arc WORKLOAD ROUNDS` runs one of `share`, `sole` and `get` and prints a number that shows what was
//! done, as bench_cell does.

use std::sync::Arc;

/// How many blocks `get` reads in a round.
const BLOCKS: usize = 1000;

/// Clones a handle and drops the twin. Answers how often.
fn share(rounds: u64) -> u64 {
    let one = Arc::new(1u64);
    let mut done = 0u64;
    for _ in 0..rounds {
        drop(Arc::clone(&one));
        done = done.wrapping_add(1);
    }
    done
}

/// Adds 1 to the value of an unshared block. Answers the value.
fn sole(rounds: u64) -> u64 {
    let mut one = Arc::new(0u64);
    for _ in 0..rounds {
        if let Some(value) = Arc::get_mut(&mut one) {
            *value = value.wrapping_add(1);
        }
    }
    *one
}

/// Reads the values of all blocks. Answers their sum.
fn get(rounds: u64) -> u64 {
    let handles: Vec<Arc<u64>> = (0..BLOCKS).map(|_| Arc::new(1u64)).collect();
    let mut sum = 0u64;
    for _ in 0..rounds {
        for one in handles.iter() {
            sum = sum.wrapping_add(**one);
        }
    }
    sum
}

fn main() {
    let words: Vec<String> = std::env::args().skip(1).collect();
    let [workload, rounds] = words.as_slice() else {
        panic!("arc WORKLOAD ROUNDS");
    };
    let rounds: u64 = rounds.parse().expect("a number of rounds");
    let done = match workload.as_str() {
        "share" => share(rounds),
        "sole" => sole(rounds),
        "get" => get(rounds),
        _ => panic!("share, sole or get"),
    };
    println!("{workload} {done}");
}
