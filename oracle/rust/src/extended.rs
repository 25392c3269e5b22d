//! Module 3: the lifecycles and the extended accumulator of internal/motmetrics/accumulator.rs.

use crate::words::{computed, float_word, Request};
use crate::Answer;
use norfair::internal::motmetrics::accumulator::{ExtendedMOTAccumulator, TrackLifecycle};
use norfair::internal::scipy::optimize::linear_sum_assignment;

pub const ANSWERS: &[(&str, Answer)] = &[
    ("lifecycle_new", |r| {
        let (id, frame) = (r.whole()?, r.whole()?);
        r.end()?;
        Some(lifecycle_words(&TrackLifecycle::new(id, frame)))
    }),
    ("update_matched", |r| updated(r, TrackLifecycle::update_matched)),
    ("update_missed", |r| updated(r, TrackLifecycle::update_missed)),
    ("coverage", |r| {
        let it = lifecycle(r)?;
        r.end()?;
        Some(format!("0 {}", float_word(computed(it.coverage()))))
    }),
    ("extended", |r| extended(r)),
];

fn updated(request: &mut Request, step: fn(&mut TrackLifecycle, i32)) -> Option<String> {
    let (mut it, frame) = (lifecycle(request)?, request.whole()?);
    request.end()?;
    step(&mut it, frame);
    Some(format!("0 {}", lifecycle_words(&it)))
}

fn lifecycle(request: &mut Request) -> Option<TrackLifecycle> {
    Some(TrackLifecycle {
        gt_id: request.whole()?,
        first_frame: request.whole()?,
        last_frame: request.whole()?,
        tracked_frames: request.whole()?,
        detected_frames: request.whole()?,
        fragmentations: request.whole()?,
        was_matched: request.flag()?,
    })
}

fn lifecycle_words(it: &TrackLifecycle) -> String {
    format!(
        "{} {} {} {} {} {} {}",
        it.gt_id,
        it.first_frame,
        it.last_frame,
        it.tracked_frames,
        it.detected_frames,
        it.fragmentations,
        it.was_matched as u8
    )
}

fn state(request: &mut Request) -> Option<ExtendedMOTAccumulator> {
    let used = request.count()?;
    let mut state = ExtendedMOTAccumulator::new("");
    state.frame_id = request.whole()?;
    state.num_matches = request.whole()?;
    state.num_misses = request.whole()?;
    state.num_false_positives = request.whole()?;
    state.num_switches = request.whole()?;
    state.num_objects = request.whole()?;
    state.total_distance = request.float()?;
    let given = request.count()?;
    for place in 0..given {
        let it = lifecycle(request)?;
        let partner = request.partner()?;
        // places beyond the used count are not the table's
        if place < used {
            if let Some(to) = partner {
                state.previous_mapping.insert(it.gt_id, to);
            }
            state.track_lifecycles.insert(it.gt_id, it);
        }
    }
    // a used count over the places given: those of a new accumulator stand there
    for _ in given..used {
        state.track_lifecycles.insert(0, TrackLifecycle::new(0, 0));
    }
    Some(state)
}

fn extended(request: &mut Request) -> Option<String> {
    let mut state = state(request)?;
    let mut words = Vec::new();
    for k in 0..request.count()? {
        let (truths, truth) = (request.ids()?, request.run()?);
        let (predictions, predicted) = (request.ids()?, request.run()?);
        let threshold = request.float()?;
        let number = request.refused(k);
        if number == 0 {
            let boxes = |run: &[f64]| run.chunks(4).map(<[f64]>::to_vec).collect::<Vec<_>>();
            state.update(&boxes(&truth), &truths, &boxes(&predicted), &predictions, threshold, solved);
        }
        words.push(format!("{number} {}", totals(&state)));
    }
    request.end()?;
    let (tracked, lost, partially, fragmentations) = state.compute_extended_metrics();
    words.push(format!("0 {tracked} {lost} {partially} {fragmentations}"));
    words.push(slots(&state));
    Some(words.join(" "))
}

/// The wiring that the port adds: the Rust's own solver as its callback.
fn solved(costs: &[Vec<f64>], most: f64) -> (Vec<[usize; 2]>, Vec<usize>, Vec<usize>) {
    let found = linear_sum_assignment(costs, most);
    let pairs = found.assignments.iter().map(|a| [a.row_idx, a.col_idx]).collect();
    (pairs, found.unmatched_rows, found.unmatched_cols)
}

fn totals(state: &ExtendedMOTAccumulator) -> String {
    format!(
        "{} {} {} {} {} {} {} {}",
        state.track_lifecycles.len(),
        state.frame_id,
        state.num_matches,
        state.num_misses,
        state.num_false_positives,
        state.num_switches,
        state.num_objects,
        float_word(state.total_distance)
    )
}

/// By rising id: a hash map has no order of its own.
fn slots(state: &ExtendedMOTAccumulator) -> String {
    let mut ids: Vec<_> = state.track_lifecycles.keys().copied().collect();
    ids.sort_unstable();
    let mut words = ids.len().to_string();
    for id in ids {
        let partner = state.previous_mapping.get(&id).map_or("0".to_string(), |to| format!("1 {to}"));
        words += &format!(" {} {partner}", lifecycle_words(&state.track_lifecycles[&id]));
    }
    words
}
