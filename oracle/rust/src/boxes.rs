//! Module 1: internal/motmetrics/iou.rs.

use crate::words::{computed, float_word, run_words, Request};
use crate::Answer;
use nalgebra::DMatrix;
use norfair::internal::motmetrics::iou::{compute_iou_distance_matrix, iou_distance, iou_matrix};

pub const ANSWERS: &[(&str, Answer)] = &[
    ("iou_distance", |r| {
        let (box1, box2) = (r.floats(4)?, r.floats(4)?);
        r.end()?;
        Some(format!("0 {}", float_word(computed(iou_distance(&box1, &box2)))))
    }),
    ("iou_share", |r| {
        let (box1, box2) = (r.floats(4)?, r.floats(4)?);
        r.end()?;
        Some(float_word(computed(shares(&box1, &box2)[0])))
    }),
    ("compute_iou_distance_matrix", |r| matrix(r, distances)),
    ("iou_matrix", |r| matrix(r, shares)),
];

/// The Rust gives a new matrix; here it is laid over the first places of the lent run.
fn matrix(request: &mut Request, entries: fn(&[f64], &[f64]) -> Vec<f64>) -> Option<String> {
    let (truth, predicted, mut lent) = (request.run()?, request.run()?, request.run()?);
    request.end()?;
    for (place, entry) in entries(&truth, &predicted).into_iter().enumerate() {
        lent[place] = computed(entry);
    }
    Some(format!("0 {}", run_words(&lent)))
}

fn distances(truth: &[f64], predicted: &[f64]) -> Vec<f64> {
    let boxes = |run: &[f64]| run.chunks(4).map(<[f64]>::to_vec).collect::<Vec<_>>();
    compute_iou_distance_matrix(&boxes(truth), &boxes(predicted)).concat()
}

fn shares(truth: &[f64], predicted: &[f64]) -> Vec<f64> {
    let boxes = |run: &[f64]| DMatrix::from_row_slice(run.len() / 4, 4, run);
    let shares = iou_matrix(&boxes(truth), &boxes(predicted));
    let columns = shares.ncols();
    (0..shares.nrows() * columns).map(|k| shares[(k / columns, k % columns)]).collect()
}
