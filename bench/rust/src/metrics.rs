//! Module 4: updates of the public MOTAccumulator, by the same frame again and again from a new state.

use crate::{extended, extended::Frame, mot::frames, port, rounds::row};
use nalgebra::DMatrix;
use norfair::metrics::accumulator::MOTAccumulator;
use std::hint::black_box;

fn case(kind: &str, frame: &Frame, threshold: f64) {
    let side = frame.ids.len();
    let times = frames(side);
    let boxes = |run: &[f64]| DMatrix::from_row_slice(side, 4, run);
    let (truth, predicted) = (boxes(&frame.truth), boxes(&frame.predicted));
    let rust = || {
        let mut state = MOTAccumulator::new();
        for _ in 0..times {
            state.update(1, &frame.ids, &frame.ids, &truth, black_box(&predicted), threshold);
        }
        state.events().len()
    };
    let size = format!("{side} a side, {kind}, threshold {threshold:.1}, {times} frames");
    for (name, update) in [
        ("metrics_in_place::update_in_place", port::Update::InPlace),
        ("mot_metrics_update", port::Update::Flat),
        ("metrics_update::update_sound", port::Update::Sound),
        ("metrics_update::update", port::Update::Public),
    ] {
        let port = || port::metrics_updates(&frame.ids, &frame.truth, &frame.predicted, black_box(threshold), times, update);
        assert_eq!(rust(), port());
        row(name, &size, &mut || { black_box(rust()); }, &mut || { black_box(port()); });
    }
}

pub fn bench() {
    for side in [5, 20, 64] {
        for (kind, frame) in [("tracking", extended::tracking(side)), ("unrelated", extended::unrelated(side))] {
            for threshold in [0.5, 0.0] {
                case(kind, &frame, threshold);
            }
        }
    }
}
