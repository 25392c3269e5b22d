//! A lifecycle by itself, where it stands: matches and misses from any sound record, both sides held to each other after each.

use crate::{numbers::Numbers, port};
use norfair::internal::motmetrics::accumulator::TrackLifecycle;

const UPDATES: u64 = 8;

/// A count that so many updates don't lead past its limit, often a small one.
fn count(numbers: &mut Numbers) -> i32 {
    let most = i32::MAX as u64 - UPDATES;
    match numbers.below(4) { 0 => numbers.below(most) as i32, 1 => (most - numbers.below(3)) as i32, _ => numbers.below(3) as i32 }
}

fn parts(it: &TrackLifecycle) -> ([i32; 6], bool) {
    ([it.gt_id, it.first_frame, it.last_frame, it.tracked_frames, it.detected_frames, it.fragmentations], it.was_matched)
}

/// How many updates were held to each other.
pub fn sequence(numbers: &mut Numbers) -> Result<u64, String> {
    let mut rust = TrackLifecycle::new(numbers.below(9) as i32 - 4, numbers.below(9) as i32);
    rust.tracked_frames = count(numbers);
    rust.detected_frames = count(numbers);
    rust.fragmentations = count(numbers);
    rust.was_matched = numbers.below(2) == 1;
    let mut port = port::TrackLifecycle {
        gt_id: rust.gt_id,
        first_frame: rust.first_frame,
        last_frame: rust.last_frame,
        tracked_frames: rust.tracked_frames,
        detected_frames: rust.detected_frames,
        fragmentations: rust.fragmentations,
        was_matched: rust.was_matched,
    };
    for _ in 0..UPDATES {
        let (came, frame, matched) = (parts(&rust), numbers.below(1000) as i32 - 500, numbers.below(2) == 1);
        if matched { rust.update_matched(frame) } else { rust.update_missed(frame) }
        let number = port::update_lifecycle(&mut port, frame, matched);
        let there = [
            port.gt_id, port.first_frame, port.last_frame, port.tracked_frames, port.detected_frames, port.fragmentations,
        ];
        if number != 0 || parts(&rust) != (there, port.was_matched) {
            return Err(format!("a lifecycle differs: from {came:?} at frame {frame}, matched {matched}: {number}, {there:?}, {}", port.was_matched));
        }
    }
    Ok(UPDATES)
}
