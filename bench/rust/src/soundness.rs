//! What the test of a state costs: the public updates over lent numbers, which test it, against the inner ones in place, which
//! don't, on states whose tables are full. Both columns are the port's.

use crate::{extended, mot::frames, port, port::Log, rounds, rounds::row};
use norfair::internal::motmetrics::iou::compute_iou_distance_matrix;
use std::hint::black_box;

const TRUTHS: usize = 256;
const HYPOTHESES: usize = 1024;

/// The id at place k of a table of so many, a power of two: each from 1 on once, rising or in no order.
type Ids = fn(usize, usize) -> i32;

fn rising(k: usize, _: usize) -> i32 {
    k as i32 + 1
}

fn scattered(k: usize, many: usize) -> i32 {
    ((k * 167 + 61) % many) as i32 + 1
}

fn full_log(id: Ids) -> Log {
    let mut log = Log::new();
    (log.truths, log.known) = (TRUTHS, HYPOTHESES);
    (0..TRUTHS).for_each(|k| log.table[k] = id(k, TRUTHS));
    (0..HYPOTHESES).for_each(|k| log.hypotheses[k] = id(k, HYPOTHESES));
    log
}

pub fn bench() {
    println!();
    rounds::heading_of("in place, µs", "with the test, µs", "ratio");
    rows_of("rising", rising);
    rows_of("in no order", scattered);
}

fn rows_of(order: &str, id: Ids) {
    for side in [5, 20, 64] {
        let frame = extended::tracking(side);
        let (ids, truth, predicted) = (&frame.ids, &frame.truth, &frame.predicted);
        let mut full = [0i32; 2304];
        (0..TRUTHS).for_each(|k| full[k] = id(k, TRUTHS));
        let (times, most) = (extended::TIMES, extended::THRESHOLD);
        let inner = || port::extended_in_place(&mut full.clone(), TRUTHS, ids, truth, black_box(predicted), most, times);
        let public = || port::extended_flat(&mut full.clone(), TRUTHS, ids, truth, black_box(predicted), most, times);
        assert_eq!(inner(), public());
        let size = format!("{side} a side, tracking, {TRUTHS} ids {order}, {times} frames");
        row("mot_extended_update", &size, &mut || { black_box(inner()); }, &mut || { black_box(public()); });

        let times = frames(side);
        let rows = |run: &[f64]| run.chunks(4).map(<[f64]>::to_vec).collect::<Vec<_>>();
        let distances: Vec<f64> = compute_iou_distance_matrix(&rows(truth), &rows(predicted))
            .concat()
            .iter()
            .map(|&d| if d <= 0.5 { d } else { f64::INFINITY })
            .collect();
        let (mut a, mut b) = (full_log(id), full_log(id));
        let mut inner = || port::mot_in_place(&mut a, ids, black_box(&distances), times);
        let mut public = || port::mot_flat(&mut b, ids, black_box(&distances), times);
        assert_eq!(inner(), public());
        let size = format!("{side} a side, tracking, up to 0.5, {TRUTHS} truths {order}, {times} frames");
        row("mot_motmetrics_update", &size, &mut || { black_box(inner()); }, &mut || { black_box(public()); });

        let (mut a, mut b) = (full_log(id), full_log(id));
        let mut inner = || port::metrics_in_place(&mut a, ids, truth, black_box(predicted), 0.5, times);
        let mut public = || port::metrics_flat(&mut b, ids, truth, black_box(predicted), 0.5, times);
        assert_eq!(inner(), public());
        let size = format!("{side} a side, tracking, 0.5, {TRUTHS} truths, {HYPOTHESES} hypotheses {order}, {times} frames");
        row("mot_metrics_update", &size, &mut || { black_box(inner()); }, &mut || { black_box(public()); });
    }
}
