//! Module 1: the distance of two boxes, and both matrices.

use crate::{port, rounds::row};
use nalgebra::DMatrix;
use norfair::internal::motmetrics::iou::{compute_iou_distance_matrix, iou_distance, iou_matrix};
use std::hint::black_box;

/// So many distances that the call over the border, which is in the port's time alone, is small beside them.
const TIMES: u64 = 1_000;

/// Players on a pitch: boxes of some 40 by 80, most pairs apart.
fn boxes(count: usize, seed: u64) -> Vec<f64> {
    let mut state = seed;
    let mut next = |below: u64| {
        state = state.wrapping_mul(6364136223846793005).wrapping_add(1442695040888963407);
        ((state >> 33) % below) as f64
    };
    (0..count)
        .flat_map(|_| {
            let (x, y, w, h) = (next(1800) + next(100) / 100.0, next(1000), 20.0 + next(40), 40.0 + next(80));
            [x, y, x + w, y + h]
        })
        .collect()
}

pub fn bench() {
    for size in [5, 20, 64] {
        let (truth, predicted) = (boxes(size, 7), boxes(size, 8));
        let rows = |run: &[f64]| run.chunks(4).map(<[f64]>::to_vec).collect::<Vec<_>>();
        let (truth_rows, predicted_rows) = (rows(&truth), rows(&predicted));
        let dense = |run: &[f64]| DMatrix::from_row_slice(size, 4, run);
        let (truth_dense, predicted_dense) = (dense(&truth), dense(&predicted));
        let each = || {
            let mut total = 0.0;
            for _ in 0..TIMES {
                truth_rows.iter().for_each(|other| total += iou_distance(&truth_rows[0], black_box(other)));
            }
            total
        };
        assert_eq!(each(), port::iou_distances(&truth, TIMES));
        row(
            "iou_distance",
            &format!("one box to {size}, {TIMES} times"),
            &mut || { black_box(each()); },
            &mut || { black_box(port::iou_distances(black_box(&truth), TIMES)); },
        );
        let mut out = vec![0.0; size * size];
        let label = format!("{size} by {size}");
        row(
            "compute_iou_distance_matrix",
            &label,
            &mut || drop(black_box(compute_iou_distance_matrix(black_box(&truth_rows), black_box(&predicted_rows)))),
            &mut || {
                black_box(port::compute_iou_distance_matrix(black_box(&truth), black_box(&predicted), black_box(&mut out)));
            },
        );
        let mut out = vec![0.0; size * size];
        row(
            "iou_matrix",
            &label,
            &mut || drop(black_box(iou_matrix(black_box(&truth_dense), black_box(&predicted_dense)))),
            &mut || {
                black_box(port::iou_matrix(black_box(&truth), black_box(&predicted), black_box(&mut out)));
            },
        );
    }
}
