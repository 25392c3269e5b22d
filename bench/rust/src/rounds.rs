//! Timing: each round times both sides one after the other; the row shows the middle round and the spread.

use std::time::Instant;

const ROUNDS: usize = 5;
const ROUND_SECONDS: f64 = 0.1;

pub fn heading() {
    heading_of("Rust, µs", "port, µs", "port / Rust");
}

pub fn heading_of(first: &str, second: &str, ratio: &str) {
    println!("| call | size | {first} | {second} | {ratio} | spread |");
    println!("|---|---|---|---|---|---|");
}

/// Microseconds a call, over about a tenth of a second.
fn time(call: &mut dyn FnMut()) -> f64 {
    let mut calls = 1u64;
    loop {
        let start = Instant::now();
        (0..calls).for_each(|_| call());
        let seconds = start.elapsed().as_secs_f64();
        if seconds >= ROUND_SECONDS {
            return seconds * 1e6 / calls as f64;
        }
        calls = (calls * 2).max((calls as f64 * ROUND_SECONDS * 1.1 / seconds.max(1e-9)) as u64);
    }
}

pub fn row(name: &str, size: &str, rust: &mut dyn FnMut(), port: &mut dyn FnMut()) {
    let mut rounds: Vec<(f64, f64)> = (0..ROUNDS).map(|_| (time(rust), time(port))).collect();
    rounds.sort_by(|a, b| (a.1 / a.0).total_cmp(&(b.1 / b.0)));
    let ratio = |k: usize| rounds[k].1 / rounds[k].0;
    let (r, p) = rounds[ROUNDS / 2];
    println!("| `{name}` | {size} | {r:.2} | {p:.2} | {:.2} | {:.2} to {:.2} |", p / r, ratio(0), ratio(ROUNDS - 1));
}
