//! Module 3: updates of the extended accumulator, by the same frame again and again from a new state.

use crate::{port, port::Update, rounds::row};
use norfair::internal::motmetrics::accumulator::ExtendedMOTAccumulator;
use norfair::internal::scipy::optimize::linear_sum_assignment;
use std::hint::black_box;

/// Updates a call: then the new state's cost is small beside them.
pub const TIMES: u64 = 100;
pub const THRESHOLD: f64 = 0.5;

pub struct Frame {
    pub ids: Vec<i32>,
    pub truth: Vec<f64>,
    pub predicted: Vec<f64>,
}

fn numbers() -> impl FnMut() -> f64 {
    let mut state = 11u64;
    move || {
        state = state.wrapping_mul(6364136223846793005).wrapping_add(1442695040888963407);
        (state >> 11) as f64 / (1u64 << 53) as f64
    }
}

fn boxed(x: f64, y: f64, side: f64) -> [f64; 4] {
    [x, y, x + side, y + 2.0 * side]
}

/// Players on a field, and a prediction a little beside each of them.
pub fn tracking(side: usize) -> Frame {
    let mut next = numbers();
    let corners: Vec<_> = (0..side).map(|_| (next() * 1900.0, next() * 1000.0)).collect();
    Frame {
        ids: (1..=side as i32).collect(),
        truth: corners.iter().flat_map(|&(x, y)| boxed(x, y, 40.0)).collect(),
        predicted: corners.iter().flat_map(|&(x, y)| boxed(x + 4.0 * next(), y + 4.0 * next(), 41.0)).collect(),
    }
}

/// Boxes of every size, predictions that have nothing to do with the truth.
pub fn unrelated(side: usize) -> Frame {
    let mut next = numbers();
    let mut boxes = || (0..side).flat_map(|_| boxed(next() * 300.0, next() * 300.0, 10.0 + next() * 150.0)).collect();
    Frame { ids: (1..=side as i32).collect(), truth: boxes(), predicted: boxes() }
}

pub fn solved(costs: &[Vec<f64>], most: f64) -> (Vec<[usize; 2]>, Vec<usize>, Vec<usize>) {
    let found = linear_sum_assignment(costs, most);
    let pairs = found.assignments.iter().map(|a| [a.row_idx, a.col_idx]).collect();
    (pairs, found.unmatched_rows, found.unmatched_cols)
}

fn case(kind: &str, frame: &Frame) {
    let boxes = |run: &[f64]| run.chunks(4).map(<[f64]>::to_vec).collect::<Vec<_>>();
    let (truth, predicted) = (boxes(&frame.truth), boxes(&frame.predicted));
    let rust = || {
        let mut state = ExtendedMOTAccumulator::new("");
        for _ in 0..TIMES {
            state.update(&truth, &frame.ids, black_box(&predicted), &frame.ids, THRESHOLD, solved);
        }
        state.total_distance
    };
    let side = frame.ids.len();
    for (name, update) in [
        ("extended_in_place::update_in_place", Update::InPlace),
        ("mot_extended_update", Update::Flat),
        ("extended::update_sound", Update::Sound),
        ("extended::update", Update::Public),
    ] {
        let port = || port::updates(&frame.ids, &frame.truth, black_box(&frame.predicted), THRESHOLD, TIMES, update);
        assert_eq!(rust().to_bits(), port().to_bits());
        row(name, &format!("{side} a side, {kind}, {TIMES} frames"), &mut || { black_box(rust()); }, &mut || { black_box(port()); });
    }
}

pub fn bench() {
    for side in [5, 20, 64] {
        case("tracking", &tracking(side));
        case("unrelated", &unrelated(side));
    }
}
