//! The accumulators of modules 3 and 4: sequences of frames, both sides from a new state, the logs held to each other after
//! every frame.

use crate::{boxes, numbers::{same, Numbers}, port, updates::{frame, Frame}};
use nalgebra::DMatrix;
use norfair::internal::motmetrics::accumulator as internal;
use norfair::internal::motmetrics::iou::compute_iou_distance_matrix;
use norfair::metrics::accumulator as public;

/// Events that a log holds.
const EVENTS: usize = 1024;

/// An event as the port's columns have it; what an event lacks is 0 there.
struct Row {
    numbers: [i32; 4],
    distance: f64,
}

fn row(frame: i32, kind: i32, truth: Option<i32>, hypothesis: Option<i32>, distance: Option<f64>) -> Row {
    Row { numbers: [frame, kind, truth.unwrap_or(0), hypothesis.unwrap_or(0)], distance: distance.unwrap_or(0.0) }
}

fn internal_row(e: &internal::Event) -> Row {
    let kind = match e.event_type {
        internal::EventType::Match => 0,
        internal::EventType::Switch => 1,
        internal::EventType::Miss => 2,
        _ => 3,
    };
    row(e.frame_id, kind, e.object_id, e.hypothesis_id, e.distance)
}

fn public_row(e: &public::MOTEvent) -> Row {
    let kind = match e.event_type {
        public::MOTEventType::Match => 0,
        public::MOTEventType::Switch => 1,
        public::MOTEventType::Miss => 2,
        public::MOTEventType::FalsePositive => 3,
    };
    row(e.frame, kind, e.gt_id, e.hyp_id, e.distance)
}

/// The port's runs of a log, from a new state.
struct Log {
    numbers: Vec<i32>,
    distances: Vec<f64>,
}

impl Log {
    fn new() -> Self {
        Self { numbers: vec![0; 4 * EVENTS], distances: vec![0.0; EVENTS] }
    }

    /// Whether the events from a place on are these.
    fn holds(&self, from: usize, rows: impl Iterator<Item = Row>) -> bool {
        rows.enumerate().all(|(i, row)| {
            let k = from + i;
            (0..4).all(|c| self.numbers[c * EVENTS + k] == row.numbers[c]) && same(self.distances[k], row.distance)
        })
    }
}

/// Distances as callers make them: many ties, and some that are no pair.
fn distances(numbers: &mut Numbers, count: usize) -> Vec<f64> {
    let kind = numbers.below(4);
    let mut one = || match kind {
        0 => numbers.below(4) as f64,
        1 => numbers.fraction(),
        2 => if numbers.below(2) == 0 { numbers.fraction() } else { f64::INFINITY },
        _ => numbers.telling(),
    };
    (0..count).map(|_| one()).collect()
}

/// Module 3, a frame number and distances beside each frame; how many were asked, or what differs.
pub fn internal_play(frames: impl Iterator<Item = (i32, Frame, Vec<f64>)>) -> Result<u64, String> {
    let mut rust = internal::MOTAccumulator::new();
    let (mut log, mut table, mut used) = (Log::new(), [0; 768], [0; 2]);
    let mut done = 0;
    for (id, Frame { gt_ids, pred_ids, .. }, run) in frames {
        let before = rust.get_events().len();
        rust.update(id, &gt_ids, &pred_ids, &DMatrix::from_row_slice(gt_ids.len(), pred_ids.len(), &run));
        let number = port::motmetrics_update(
            &mut log.numbers, &mut log.distances, &mut table, &mut used, id, &gt_ids, &pred_ids, &run,
        );
        let events = rust.get_events();
        if number != 0 || used[0] != events.len() || !log.holds(before, events[before..].iter().map(internal_row)) {
            return Err(format!("frame {id} of {gt_ids:?} and {pred_ids:?}, {run:?}: {rust:?}, the port {number} {used:?}"));
        }
        done += 1;
    }
    Ok(done)
}

/// Module 4, the same way.
pub fn public_play(frames: impl Iterator<Item = (i32, Frame)>) -> Result<u64, String> {
    let mut rust = public::MOTAccumulator::new();
    let (mut log, mut table, mut hypotheses, mut used) = (Log::new(), [0; 768], [0; EVENTS], [0; 3]);
    let mut done = 0;
    for (id, Frame { gt_ids, gt_boxes, pred_ids, pred_boxes, threshold }) in frames {
        let dense = |ids: &[i32], run: &[f64]| DMatrix::from_row_slice(ids.len(), 4, run);
        let before = rust.events().len();
        rust.update(id, &gt_ids, &pred_ids, &dense(&gt_ids, &gt_boxes), &dense(&pred_ids, &pred_boxes), threshold);
        let number = port::metrics_update(
            &mut log.numbers, &mut log.distances, &mut table, &mut hypotheses, &mut used, id, &gt_ids, &pred_ids, &gt_boxes,
            &pred_boxes, threshold,
        );
        let events = rust.events();
        let seen = [events.len(), rust.num_gt_ids(), rust.num_hyp_ids()];
        if number != 0 || used != seen || !log.holds(before, events[before..].iter().map(public_row)) {
            return Err(format!(
                "frame {id} of {gt_ids:?} {gt_boxes:?} and {pred_ids:?} {pred_boxes:?}, {threshold}: {rust:?}, the port \
                 {number} {used:?}"
            ));
        }
        done += 1;
    }
    Ok(done)
}

fn number(numbers: &mut Numbers) -> i32 {
    numbers.below(9) as i32 - 4
}

/// Up to eight frames of module 3.
pub fn internal_sequence(numbers: &mut Numbers) -> Result<u64, String> {
    let frames = 1 + numbers.below(8);
    internal_play((0..frames).map(|_| {
        let next = frame(numbers);
        let run = distances(numbers, next.gt_ids.len() * next.pred_ids.len());
        (number(numbers), next, run)
    }))
}

/// Up to eight frames of module 4.
pub fn public_sequence(numbers: &mut Numbers) -> Result<u64, String> {
    let frames = 1 + numbers.below(8);
    public_play((0..frames).map(|_| (number(numbers), frame(numbers))))
}

/// Module 3's distances of a frame of boxes, infinite beyond the threshold, as callers make them.
pub fn near(frame: &Frame) -> Vec<f64> {
    let all = compute_iou_distance_matrix(&boxes::rows(&frame.gt_boxes), &boxes::rows(&frame.pred_boxes)).concat();
    all.into_iter().map(|d| if d <= frame.threshold { d } else { f64::INFINITY }).collect()
}
