//! The lifecycles, new states, and the metrics and counts of a state, many times: one of them is over in nanoseconds.

use crate::{extended, extended::Frame, mot::frames, port, rounds::row};
use nalgebra::DMatrix;
use norfair::internal::motmetrics::accumulator::{self as inner, ExtendedMOTAccumulator, TrackLifecycle};
use norfair::internal::motmetrics::iou::compute_iou_distance_matrix;
use norfair::metrics::accumulator::{MOTAccumulator, MOTEventType};
use norfair::metrics::evaluation::MOTMetrics;
use std::hint::black_box;

/// So many that the making of the state, which is in the port's time alone, is small beside them.
const TIMES: u64 = 10_000;

fn lifecycles() {
    let rust = || {
        let mut it = TrackLifecycle::new(1, 7);
        let mut total = 0.0;
        for _ in 0..TIMES {
            it.update_matched(black_box(7));
            it.update_missed(black_box(7));
            total += it.coverage();
        }
        total
    };
    let port = || port::lifecycles(black_box(7), TIMES);
    assert_eq!(rust(), port());
    row("TrackLifecycle: new, then matched, missed, coverage", &format!("{TIMES} times"), &mut || { black_box(rust()); }, &mut || { black_box(port()); });
}

/// The same record changed where it stands: the Rust's is kept in memory, as in its map.
fn lent_lifecycles() {
    let rust = || {
        let mut it = TrackLifecycle::new(1, 7);
        for _ in 0..TIMES {
            black_box(&mut it).update_matched(black_box(7));
            black_box(&mut it).update_missed(black_box(7));
        }
        [it.tracked_frames, it.detected_frames, it.fragmentations]
    };
    let port = || {
        let it = port::lent_lifecycle(black_box(7), TIMES);
        [it.tracked_frames, it.detected_frames, it.fragmentations]
    };
    assert_eq!(rust(), port());
    row("mot_update_matched, mot_update_missed", &format!("{TIMES} times"), &mut || { black_box(rust()); }, &mut || { black_box(port()); });
}

fn new_states() {
    let rust: [fn(); 3] = [
        || drop(black_box(ExtendedMOTAccumulator::new(black_box("")))),
        || drop(black_box(inner::MOTAccumulator::new())),
        || drop(black_box(MOTAccumulator::new())),
    ];
    for ((name, mut port), rust) in port::new_states(black_box(0), TIMES).into_iter().zip(rust) {
        assert_eq!(port(), 0);
        row(name, &format!("{TIMES} times"), &mut || (0..TIMES).for_each(|_| rust()), &mut || { black_box(port()); });
    }
}

fn rows_of(run: &[f64]) -> Vec<Vec<f64>> {
    run.chunks(4).map(<[f64]>::to_vec).collect()
}

fn extended_metrics(side: usize, frame: &Frame) {
    let (truth, predicted) = (rows_of(&frame.truth), rows_of(&frame.predicted));
    let mut state = ExtendedMOTAccumulator::new("");
    state.update(&truth, &frame.ids, &predicted, &frame.ids, extended::THRESHOLD, extended::solved);
    let rust = || (0..TIMES).filter(|_| black_box(&state).compute_extended_metrics().0 > 0).count() as f64;
    let port = || port::extended_metrics(&frame.ids, &frame.truth, black_box(&frame.predicted), extended::THRESHOLD, TIMES);
    assert_eq!(rust(), port());
    row("compute_extended_metrics", &format!("{side} objects, {TIMES} times"), &mut || { black_box(rust()); }, &mut || { black_box(port()); });
}

fn logged(side: usize, frame: &Frame) {
    let times = frames(side);
    let distances = compute_iou_distance_matrix(&rows_of(&frame.truth), &rows_of(&frame.predicted)).concat();
    let matrix = DMatrix::from_row_slice(side, side, &distances);
    let mut state = inner::MOTAccumulator::new();
    (0..times).for_each(|_| state.update(1, &frame.ids, &frame.ids, &matrix));
    let rust = || (0..TIMES).map(|_| black_box(&state).compute_metrics().mota).sum::<f64>();
    let port = || port::mot_metrics(&frame.ids, black_box(&distances), times, TIMES);
    assert_eq!(rust(), port());
    let size = format!("{side} a side, {} events, {TIMES} times", state.get_events().len());
    row("motmetrics: compute_metrics", &size, &mut || { black_box(rust()); }, &mut || { black_box(port()); });

    let boxes = |run: &[f64]| DMatrix::from_row_slice(side, 4, run);
    let (truth, predicted) = (boxes(&frame.truth), boxes(&frame.predicted));
    let mut state = MOTAccumulator::new();
    (0..times).for_each(|_| state.update(1, &frame.ids, &frame.ids, &truth, &predicted, 0.5));
    let size = format!("{side} a side, {} events, {TIMES} times", state.events().len());
    let port = |whole| port::scores(&frame.ids, &frame.truth, black_box(&frame.predicted), 0.5, times, TIMES, whole);
    let rust = || (0..TIMES).map(|_| black_box(&state).mota() + black_box(&state).motp()).sum::<f64>();
    assert_eq!(rust(), port(false));
    row("metrics: mota and motp", &size, &mut || { black_box(rust()); }, &mut || { black_box(port(false)); });
    let rust = || (0..TIMES).map(|_| MOTMetrics::from_accumulator(black_box(&state)).mota).sum::<f64>();
    assert_eq!(rust(), port(true));
    row("MOTMetrics::from_accumulator", &size, &mut || { black_box(rust()); }, &mut || { black_box(port(true)); });

    let port = |all| port::counts(&frame.ids, &frame.truth, black_box(&frame.predicted), 0.5, times, TIMES, all);
    let some = |count: usize| if count > 0 { 1.0 } else { 0.0 };
    let rust = || (0..TIMES).map(|_| some(black_box(&state).count_events(MOTEventType::Match))).sum::<f64>();
    assert_eq!(rust(), port(false));
    row("metrics: count_events", &size, &mut || { black_box(rust()); }, &mut || { black_box(port(false)); });
    let six = |it: &MOTAccumulator| {
        some(it.num_matches()) + some(it.num_false_positives()) + some(it.num_misses()) + some(it.num_switches())
            + some(it.num_gt_ids()) + some(it.num_hyp_ids())
    };
    let rust = || (0..TIMES).map(|_| six(black_box(&state))).sum::<f64>();
    assert_eq!(rust(), port(true));
    row("metrics: num_matches to num_hyp_ids", &size, &mut || { black_box(rust()); }, &mut || { black_box(port(true)); });
}

pub fn bench() {
    lifecycles();
    lent_lifecycles();
    new_states();
    for side in [5, 20, 64] {
        let frame = extended::tracking(side);
        extended_metrics(side, &frame);
        logged(side, &frame);
    }
}
