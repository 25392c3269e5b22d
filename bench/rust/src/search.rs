//! Module 2: the assignment search.

use crate::{port, rounds::row};
use norfair::internal::scipy::optimize::linear_sum_assignment;
use std::hint::black_box;

/// Above every cost, so that no pair is filtered.
const MAX_COST: f64 = 1e12;

/// Numbers of 53 bits, from one seed, so that every run times the same matrices.
fn numbers() -> impl FnMut() -> u64 {
    let mut state = 7u64;
    move || {
        state = state.wrapping_mul(6364136223846793005).wrapping_add(1442695040888963407);
        state >> 11
    }
}

fn uniform(size: usize) -> Vec<f64> {
    let mut next = numbers();
    (0..size * size).map(|_| next() as f64 / (1u64 << 53) as f64).collect()
}

/// From 0 to 99: many equal costs.
fn whole(size: usize) -> Vec<f64> {
    let mut next = numbers();
    (0..size * size).map(|_| ((next() >> 20) % 100) as f64).collect()
}

/// The search's hard case: almost every row needs a cost correction.
fn product(size: usize) -> Vec<f64> {
    (0..size * size).map(|k| ((k / size + 1) * (k % size + 1)) as f64).collect()
}

/// A ratio says something only where both sides give the same answer.
fn assert_same(rows: &[Vec<f64>], run: &[f64], size: usize) {
    let rust = linear_sum_assignment(rows, MAX_COST);
    let mut out = [0; port::FLAT];
    assert_eq!(port::linear_sum_assignment(run, size, size, MAX_COST, &mut out), 0);
    let pairs: Vec<_> = rust.assignments.iter().map(|pair| (pair.row_idx, pair.col_idx)).collect();
    let flat: Vec<_> = (0..out[0]).map(|k| (out[5 + k], out[69 + k])).collect();
    assert_eq!(pairs, flat);
    assert_eq!(rust.unmatched_rows, out[133..133 + out[1]]);
    assert_eq!(rust.unmatched_cols, out[197..197 + out[2]]);
    let at = |list: &[usize], place: usize| list.get(place).copied().unwrap_or(0);
    for place in 0..64 {
        let (row, col) = pairs.get(place).copied().unwrap_or((0, 0));
        let told = if at(&rust.unmatched_rows, place) > 0 {
            rust.unmatched_rows.len()
        } else if at(&rust.unmatched_cols, place) > 0 {
            rust.unmatched_cols.len()
        } else if row > place {
            pairs.len()
        } else {
            col
        };
        assert_eq!(told, port::assignment_by_value(run, size, size, MAX_COST, place));
    }
}

fn case(kind: &str, size: usize, run: &[f64]) {
    let rows: Vec<Vec<f64>> = run.chunks(size).map(<[f64]>::to_vec).collect();
    assert_same(&rows, run, size);
    let mut out = [0; port::FLAT];
    let label = format!("{size} by {size}, {kind}");
    let mut rust = || drop(black_box(linear_sum_assignment(black_box(&rows), MAX_COST)));
    row("mot_linear_sum_assignment", &label, &mut rust, &mut || {
        black_box(port::linear_sum_assignment(black_box(run), size, size, MAX_COST, black_box(&mut out)));
    });
    row("optimize::linear_sum_assignment", &label, &mut rust, &mut || {
        black_box(port::assignment_by_value(black_box(run), size, size, MAX_COST, black_box(0)));
    });
}

pub fn bench() {
    for size in [5, 8, 20, 64] {
        case("uniform", size, &uniform(size));
    }
    case("whole numbers", 64, &whole(64));
    for size in [20, 64] {
        case("products", size, &product(size));
    }
}
