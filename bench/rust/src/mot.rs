//! Module 3: updates of the internal MOTAccumulator, by the same frame again and again from a new state.

use crate::{extended, port, rounds::row};
use nalgebra::DMatrix;
use norfair::internal::motmetrics::accumulator::{Event, EventType, MOTAccumulator};
use norfair::internal::motmetrics::iou::compute_iou_distance_matrix;
use std::hint::black_box;

/// As many frames as a log of 1,024 events holds, whatever is paired.
pub fn frames(side: usize) -> u64 {
    (1024 / (2 * side)) as u64
}

/// The port's log on lent columns is the Rust's, event by event.
fn assert_same_log(events: &[Event], log: &port::Log) {
    assert_eq!(events.len(), log.used);
    for (k, event) in events.iter().enumerate() {
        let kind = match event.event_type {
            EventType::Match => 0,
            EventType::Switch => 1,
            EventType::Miss => 2,
            _ => 3,
        };
        let truth = event.object_id.unwrap_or(0);
        let hypothesis = event.hypothesis_id.unwrap_or(0);
        let column = |c: usize| log.numbers[c * 1024 + k];
        assert_eq!([event.frame_id, kind, truth, hypothesis], [column(0), column(1), column(2), column(3)]);
        assert_eq!(event.distance.unwrap_or(0.0), log.distances[k]);
    }
}

fn case(kind: &str, ids: &[i32], distances: &[f64]) {
    let side = ids.len();
    let times = frames(side);
    let matrix = DMatrix::from_row_slice(side, side, distances);
    let rust = || {
        let mut state = MOTAccumulator::new();
        for _ in 0..times {
            state.update(1, ids, black_box(ids), &matrix);
        }
        state.get_events().len()
    };
    let mut state = MOTAccumulator::new();
    (0..times).for_each(|_| state.update(1, ids, ids, &matrix));
    assert_same_log(state.get_events(), &port::mot_log_in_place(ids, distances, times));
    let size = format!("{side} a side, {kind}, {times} frames");
    for (name, update) in [
        ("motmetrics_in_place::update_in_place", port::Update::InPlace),
        ("mot_motmetrics_update", port::Update::Flat),
        ("motmetrics_update::update_sound", port::Update::Sound),
        ("motmetrics_update::update", port::Update::Public),
    ] {
        let port = || port::mot_updates(ids, black_box(distances), times, update);
        assert_eq!(rust(), port());
        row(name, &size, &mut || { black_box(rust()); }, &mut || { black_box(port()); });
    }
    let pairing = || (0..times).map(|_| port::pair_by_distance(black_box(distances), side)).sum::<usize>();
    row("of it the pairing, which lists and sorts", &size, &mut || { black_box(rust()); }, &mut || { black_box(pairing()); });
}

pub fn bench() {
    for side in [5, 20, 64] {
        for (kind, frame) in [("tracking", extended::tracking(side)), ("unrelated", extended::unrelated(side))] {
            let boxes = |run: &[f64]| run.chunks(4).map(<[f64]>::to_vec).collect::<Vec<_>>();
            let distances = compute_iou_distance_matrix(&boxes(&frame.truth), &boxes(&frame.predicted)).concat();
            case(&format!("{kind}, all pairs"), &frame.ids, &distances);
            // as a caller would have it: beyond a half no pair is valid
            let near: Vec<f64> = distances.iter().map(|&d| if d <= 0.5 { d } else { f64::INFINITY }).collect();
            case(&format!("{kind}, pairs up to 0.5"), &frame.ids, &near);
        }
    }
}
