//! The extended accumulator: a sequence of frames, both sides from a new state, held to each other after every frame.

use crate::{boxes, numbers::{same, Numbers}, port};
use norfair::internal::motmetrics::accumulator::ExtendedMOTAccumulator;
use norfair::internal::scipy::optimize::linear_sum_assignment;

/// Truth ids of a sequence: few, so that they come, go and stand twice in a frame.
const IDS: u64 = 6;
const PLACES: usize = 256;

#[derive(Clone)]
pub struct Frame {
    pub gt_ids: Vec<i32>,
    pub gt_boxes: Vec<f64>,
    pub pred_ids: Vec<i32>,
    pub pred_boxes: Vec<f64>,
    pub threshold: f64,
}

pub fn frame(numbers: &mut Numbers) -> Frame {
    let side = |numbers: &mut Numbers| {
        let count = if numbers.below(10) == 0 { 0 } else { 1 + numbers.below(4) };
        let ids: Vec<i32> = (0..count).map(|_| numbers.below(IDS) as i32 - 2).collect();
        // a small field of whole numbers: much overlap, and many ties
        let boxes = (0..count).flat_map(|_| {
            let (x, y) = (numbers.below(4) as f64, numbers.below(4) as f64);
            [x, y, x + 1.0 + numbers.below(3) as f64, y + 1.0 + numbers.below(3) as f64]
        });
        let boxes = boxes.collect();
        (ids, boxes)
    };
    let (gt_ids, gt_boxes) = side(numbers);
    let (pred_ids, pred_boxes) = side(numbers);
    let threshold = match numbers.below(8) { 0 => numbers.telling(), 1 => 0.0, 2 => f64::INFINITY, _ => numbers.fraction() };
    Frame { gt_ids, gt_boxes, pred_ids, pred_boxes, threshold }
}

fn solved(costs: &[Vec<f64>], most: f64) -> (Vec<[usize; 2]>, Vec<usize>, Vec<usize>) {
    let found = linear_sum_assignment(costs, most);
    (found.assignments.iter().map(|a| [a.row_idx, a.col_idx]).collect(), found.unmatched_rows, found.unmatched_cols)
}

/// Whether the columns and counters say what the Rust's state holds, slots in any order.
fn agree(rust: &ExtendedMOTAccumulator, run: &[i32], counters: &[i32], distance: f64) -> bool {
    let totals = [
        rust.track_lifecycles.len() as i32, rust.frame_id, rust.num_matches, rust.num_misses, rust.num_false_positives,
        rust.num_switches, rust.num_objects,
    ];
    let slot = |k: usize| {
        let at = |column: usize| run[column * PLACES + k];
        let partner = (at(7) != 0).then(|| at(8));
        rust.track_lifecycles.get(&at(0)).is_some_and(|it| {
            [it.first_frame, it.last_frame, it.tracked_frames, it.detected_frames, it.fragmentations, it.was_matched as i32]
                == [at(1), at(2), at(3), at(4), at(5), at(6)]
                && rust.previous_mapping.get(&at(0)).copied() == partner
        })
    };
    totals == counters && same(rust.total_distance, distance) && (0..counters[0] as usize).all(slot)
}

/// Frames in a row from a new state; how many they are, or what differs.
pub fn play(frames: impl Iterator<Item = Frame>) -> Result<u64, String> {
    let mut rust = ExtendedMOTAccumulator::new("");
    let (mut run, mut counters, mut distance) = ([0; 9 * PLACES], [0; 7], [0.0]);
    let mut done = 0;
    for Frame { gt_ids, gt_boxes, pred_ids, pred_boxes, threshold } in frames {
        rust.update(&boxes::rows(&gt_boxes), &gt_ids, &boxes::rows(&pred_boxes), &pred_ids, threshold, solved);
        let number = port::extended_update(
            &mut run, &mut counters, &mut distance, &gt_ids, &gt_boxes, &pred_ids, &pred_boxes, threshold,
        );
        if number != 0 || !agree(&rust, &run, &counters, distance[0]) {
            return Err(format!(
                "a frame of {gt_ids:?} {gt_boxes:?} and {pred_ids:?} {pred_boxes:?}, {threshold}: {rust:?}, the port \
                 {number} {counters:?} {distance:?}"
            ));
        }
        done += 1;
    }
    Ok(done)
}

/// Up to eight frames.
pub fn sequence(numbers: &mut Numbers) -> Result<u64, String> {
    let frames = 1 + numbers.below(8);
    play((0..frames).map(|_| frame(numbers)))
}

/// The frames of a tiny scene: on each side nobody, one of two ids, both, or one of them twice, in one place or two.
fn tiny() -> Vec<Frame> {
    let side = |ids: &[i32]| {
        let boxes: Vec<f64> = (0..ids.len()).flat_map(|k| [2.0 * k as f64, 0.0, 2.0 * k as f64 + 3.0, 3.0]).collect();
        (ids.to_vec(), boxes)
    };
    let sides: Vec<_> = [&[][..], &[1], &[2], &[1, 2], &[2, 1], &[1, 1]].map(side).into();
    let pairs = sides.iter().flat_map(|truth| sides.iter().map(move |predicted| (truth.clone(), predicted.clone())));
    pairs
        .map(|((gt_ids, gt_boxes), (pred_ids, pred_boxes))| Frame { gt_ids, gt_boxes, pred_ids, pred_boxes, threshold: 0.5 })
        .collect()
}

/// All sequences of so many such frames, each held after every frame, handed to a player; how many updates that is.
pub fn exhaustive(length: u32, play: fn(&[Frame]) -> Result<u64, String>) -> Result<u64, String> {
    let frames = tiny();
    let kinds = frames.len();
    (0..kinds.pow(length)).try_fold(0, |done, code| {
        let sequence: Vec<Frame> = (0..length).map(|k| frames[code / kinds.pow(k) % kinds].clone()).collect();
        Ok(done + play(&sequence)?)
    })
}
