//! Both matrices.

use crate::{numbers::{same, Numbers}, port};
use nalgebra::DMatrix;
use norfair::internal::motmetrics::iou::{compute_iou_distance_matrix, iou_matrix};

/// A box of one of six kinds.
fn boxed(numbers: &mut Numbers, kind: u64) -> [f64; 4] {
    let mut value = || match kind {
        0 => numbers.below(20) as f64,
        1 => numbers.below(32768) as f64 - 16384.0,
        2 => numbers.fraction() * 100.0,
        3 => numbers.telling(),
        4 => numbers.bits(),
        _ => f64::from_bits(0x4059_0000_0000_0000 + numbers.below(8)),
    };
    [value(), value(), value(), value()]
}

fn run_of(numbers: &mut Numbers, count: usize) -> Vec<f64> {
    let kind = numbers.below(6);
    // most boxes are turned the right way, so that most runs are not refused
    let turned = numbers.below(8) != 0;
    (0..count)
        .flat_map(|_| {
            let [a, b, c, d] = boxed(numbers, kind);
            if turned && (c <= a || d <= b) { [a.min(c), b.min(d), a.max(c) + 1.0, b.max(d) + 1.0] } else { [a, b, c, d] }
        })
        .collect()
}

/// Document 01's refusal 4, said once more on this side.
fn any_bad(run: &[f64]) -> bool {
    run.chunks(4).any(|b| b[2] <= b[0] || b[3] <= b[1])
}

fn side(numbers: &mut Numbers) -> usize {
    match numbers.below(40) {
        0 => numbers.below(65) as usize,
        1 => 0,
        _ => 1 + numbers.below(5) as usize,
    }
}

pub fn rows(run: &[f64]) -> Vec<Vec<f64>> {
    run.chunks(4).map(<[f64]>::to_vec).collect()
}

/// One call of each matrix; None, or what differs.
pub fn call(numbers: &mut Numbers) -> Option<String> {
    let (h, w) = (side(numbers), side(numbers));
    let (truth, predicted) = (run_of(numbers, h), run_of(numbers, w));
    let mut out = vec![7.5; h * w + 1];
    let number = port::compute_iou_distance_matrix(&truth, &predicted, &mut out);
    let bad = h > 0 && w > 0 && (any_bad(&truth) || any_bad(&predicted));
    let expected = if bad { vec![] } else { compute_iou_distance_matrix(&rows(&truth), &rows(&predicted)).concat() };
    let kept = if bad { &out[..] } else { &out[h * w..] };
    if number != if bad { 4 } else { 0 } || kept.iter().any(|&x| x != 7.5) || differs(&expected, &out) {
        return Some(format!("distances of {truth:?} and {predicted:?}: {expected:?}, the port {number} {out:?}"));
    }
    let mut out = vec![7.5; h * w + 1];
    let number = port::iou_matrix(&truth, &predicted, &mut out);
    let dense = |count: usize, run: &[f64]| DMatrix::from_row_slice(count, 4, run);
    let shares = iou_matrix(&dense(h, &truth), &dense(w, &predicted));
    let expected: Vec<f64> = (0..h).flat_map(|i| (0..w).map(move |j| (i, j))).map(|at| shares[at]).collect();
    if number != 0 || out[h * w] != 7.5 || differs(&expected, &out) {
        return Some(format!("shares of {truth:?} and {predicted:?}: {expected:?}, the port {number} {out:?}"));
    }
    None
}

fn differs(expected: &[f64], out: &[f64]) -> bool {
    expected.iter().zip(out).any(|(&a, &b)| !same(a, b))
}
