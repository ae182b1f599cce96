//! Measures the row list, the plain row, the original and a plain `Vec` on the same work, and prints a table.
mod dice;
mod turns;

use std::hint::black_box;
use std::time::Instant;
use turns::{script, Script};

extern "C" {
    fn order_speed(plain: u32, work: u32, keys: u16, turns: u32) -> u32;
}

const WORKS: [(u32, &str, u32); 7] = [
    (1, "index_of", 200_000),
    (2, "key_of", 200_000),
    (3, "remove_key, insert_index", 100_000),
    (4, "remove_key, push", 100_000),
    (5, "remove_index(0), push", 100_000),
    (6, "16 times remove_index(0), splice of 16", 5_000),
    (7, "iteration over all keys", 0),
];

/// Seconds of the shortest of several rounds, and the checksum that the work gave.
fn shortest(rounds: usize, mut work: impl FnMut() -> (f64, u32)) -> (f64, u32) {
    let mut best = work();
    for _ in 1..rounds {
        let next = work();
        assert_eq!(next.1, best.1, "the same work gave two answers");
        if next.0 < best.0 {
            best = next;
        }
    }
    best
}

/// Nanoseconds a turn of our work, the filling not counted.
fn ours(plain: u32, work: u32, keys: u16, turns: u32) -> (f64, u32) {
    let timed = |turns: u32| {
        let start = Instant::now();
        let sum = unsafe { order_speed(plain, work, keys, turns) };
        (start.elapsed().as_secs_f64(), black_box(sum))
    };
    let filling = shortest(5, || timed(0)).0;
    let (all, sum) = shortest(5, || timed(turns));
    ((all - filling).max(0.0) * 1e9 / f64::from(turns), sum)
}

fn theirs(script: &Script, turns: u32) -> (f64, u32) {
    let (seconds, sum) = shortest(5, || script.on_original());
    (seconds * 1e9 / f64::from(turns), sum)
}

fn plain_vec(script: &Script, turns: u32) -> (f64, u32) {
    let (seconds, sum) = shortest(5, || script.on_vec());
    (seconds * 1e9 / f64::from(turns), sum)
}

fn row(keys: u16, work: u32, what: &str, turns: u32) {
    let script = script(work, keys, turns);
    let (list, a) = ours(0, work, keys, turns);
    let (row, b) = ours(1, work, keys, turns);
    let (original, c) = theirs(&script, turns);
    let (vec, d) = plain_vec(&script, turns);
    assert!(a == b && b == c && c == d, "{what} at {keys} keys: {a} {b} {c} {d}");
    println!("| {keys} | {what} | {list:.0} | {row:.0} | {original:.0} | {vec:.0} | {:.1} | {:.2} |", original / list, row / vec);
}

fn churn() {
    println!("\nTen million turns of remove_key and insert_index at 256 keys, a million at a time, ns a turn of the row list:");
    let mut before = 0.0;
    for millions in 1..=10u32 {
        let start = Instant::now();
        black_box(unsafe { order_speed(0, 3, 256, millions * 1_000_000) });
        let all = start.elapsed().as_secs_f64();
        print!(" {:.0}", (all - before) * 1000.0);
        before = all;
    }
    println!();
}

fn main() {
    println!("| keys | a turn | row list, ns | plain row, ns | original, ns | Vec, ns | original / row list | plain row / Vec |");
    println!("|---|---|---|---|---|---|---|---|");
    for keys in [32u16, 256, 4096] {
        for (work, what, turns) in WORKS {
            let turns = if work == 7 { 2_000_000 / u32::from(keys) / 10 } else { turns };
            row(keys, work, what, turns);
        }
    }
    println!("\nBytes a key of the original at 256 keys: {}", turns::original_bytes(256));
    churn();
}
