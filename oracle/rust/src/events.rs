//! Module 3's MOTAccumulator (internal/motmetrics/accumulator.rs), and modules 4 and 5 (metrics/accumulator.rs and
//! metrics/evaluation.rs): their logs, their tables by rising id, their metrics.

use crate::words::{computed, float_word, Request};
use crate::Answer;
use nalgebra::DMatrix;
use norfair::opened::accumulator::{MOTAccumulator, MOTEvent, MOTEventType};
use norfair::opened::evaluation::MOTMetrics;
use norfair::opened::motmetrics;
use norfair::opened::motmetrics::EventType;
use std::collections::HashMap;

pub const ANSWERS: &[(&str, Answer)] = &[("mot", mot), ("metrics", metrics)];

/// The words of an event, read or to be written: frame, case, the ids and the distance.
struct Said(i32, usize, i32, i32, f64);

fn event(request: &mut Request) -> Option<Said> {
    let (frame, case) = (request.whole()?, request.count()?);
    match case {
        0 | 1 => Some(Said(frame, case, request.whole()?, request.whole()?, request.float()?)),
        2 | 3 => Some(Said(frame, case, request.whole()?, 0, 0.0)),
        _ => None,
    }
}

fn event_words(Said(frame, case, first, second, distance): &Said) -> String {
    match case {
        0 | 1 => format!("{frame} {case} {first} {second} {}", float_word(*distance)),
        _ => format!("{frame} {case} {first}"),
    }
}

/// A log's used events. Places that are used and not given are a new accumulator's: a miss of object 0 in frame 0.
fn log(request: &mut Request) -> Option<Vec<Said>> {
    let (used, given) = (request.count()?, request.count()?);
    let mut events = (0..given).map(|_| event(request)).collect::<Option<Vec<_>>>()?;
    events.truncate(used);
    while events.len() < used {
        events.push(Said(0, 2, 0, 0, 0.0));
    }
    Some(events)
}

fn run_of(words: Vec<String>) -> String {
    [vec![words.len().to_string()], words].concat().join(" ")
}

fn by_id<T: Copy>(map: &HashMap<i32, T>) -> Vec<(i32, T)> {
    let mut entries: Vec<_> = map.iter().map(|(&id, &value)| (id, value)).collect();
    entries.sort_unstable_by_key(|entry| entry.0);
    entries
}

fn floats(values: &[f64]) -> String {
    values.iter().map(|&x| float_word(computed(x))).collect::<Vec<_>>().join(" ")
}

fn mot(request: &mut Request) -> Option<String> {
    let mut state = motmetrics::MOTAccumulator::new();
    for Said(frame_id, case, first, second, distance) in log(request)? {
        state.events.push(match case {
            0 | 1 => motmetrics::Event {
                frame_id,
                event_type: if case == 0 { EventType::Match } else { EventType::Switch },
                object_id: Some(first),
                hypothesis_id: Some(second),
                distance: Some(distance),
            },
            2 => motmetrics::Event { frame_id, event_type: EventType::Miss, object_id: Some(first), hypothesis_id: None, distance: None },
            _ => motmetrics::Event { frame_id, event_type: EventType::FalsePositive, object_id: None, hypothesis_id: Some(first), distance: None },
        });
    }
    let (used, given) = (request.count()?, request.count()?);
    for place in 0..given {
        let (id, partner) = (request.whole()?, request.partner()?);
        if place < used {
            state.last_match.insert(id, partner?);
        }
    }
    let mut words = Vec::new();
    for k in 0..request.count()? {
        let (frame, objects, hypotheses, distances) = (request.whole()?, request.ids()?, request.ids()?, request.run()?);
        let number = request.refused(k);
        if number == 0 {
            let distances = DMatrix::from_row_slice(objects.len(), hypotheses.len(), &distances);
            state.update(frame, &objects, &hypotheses, &distances);
        }
        words.push(format!("{number} {} {}", state.events.len(), state.last_match.len()));
    }
    request.end()?;
    let m = state.compute_metrics();
    words.push(format!(
        "0 {} {} {} {} {}",
        m.num_matches, m.num_misses, m.num_false_positives, m.num_switches, m.num_fragmentations
    ));
    words.push(floats(&[m.total_distance, m.mota, m.motp, m.precision, m.recall]));
    words.push(format!("{} {} {}", m.mostly_tracked, m.mostly_lost, m.partially_tracked));
    let said = |e: &motmetrics::Event| match e.event_type {
        EventType::Match => Said(e.frame_id, 0, e.object_id.unwrap(), e.hypothesis_id.unwrap(), e.distance.unwrap()),
        EventType::Switch => Said(e.frame_id, 1, e.object_id.unwrap(), e.hypothesis_id.unwrap(), e.distance.unwrap()),
        EventType::Miss => Said(e.frame_id, 2, e.object_id.unwrap(), 0, 0.0),
        EventType::FalsePositive => Said(e.frame_id, 3, e.hypothesis_id.unwrap(), 0, 0.0),
        EventType::Fragmentation => unreachable!("the Rust makes none"),
    };
    words.push(run_of(state.get_events().iter().map(|e| event_words(&said(e))).collect()));
    words.push(run_of(by_id(&state.last_match).into_iter().map(|(id, to)| format!("{id} 1 {to}")).collect()));
    Some(words.join(" "))
}

fn metrics(request: &mut Request) -> Option<String> {
    let mut state = MOTAccumulator::new();
    for Said(frame, case, first, second, distance) in log(request)? {
        state.events.push(match case {
            0 | 1 => MOTEvent {
                frame,
                event_type: if case == 0 { MOTEventType::Match } else { MOTEventType::Switch },
                gt_id: Some(first),
                hyp_id: Some(second),
                distance: Some(distance),
            },
            2 => MOTEvent { frame, event_type: MOTEventType::Miss, gt_id: Some(first), hyp_id: None, distance: None },
            _ => MOTEvent { frame, event_type: MOTEventType::FalsePositive, gt_id: None, hyp_id: Some(first), distance: None },
        });
    }
    let (used, given) = (request.count()?, request.count()?);
    for place in 0..given {
        let (id, partner) = (request.whole()?, request.partner()?);
        if place < used {
            state.gt_ids_seen.insert(id);
            if let Some(to) = partner {
                state.matches.insert(id, to);
            }
        }
    }
    if used > given {
        state.gt_ids_seen.insert(0);
    }
    let (used, given) = (request.count()?, request.count()?);
    for place in 0..given {
        let id = request.whole()?;
        if place < used {
            state.hyp_ids_seen.insert(id);
        }
    }
    if used > given {
        state.hyp_ids_seen.insert(0);
    }
    let mut words = Vec::new();
    for k in 0..request.count()? {
        let (frame, truths, hypotheses) = (request.whole()?, request.ids()?, request.ids()?);
        let (truth, predicted, threshold) = (request.run()?, request.run()?, request.float()?);
        let number = request.refused(k);
        if number == 0 {
            let boxes = |run: &[f64]| DMatrix::from_row_slice(run.len() / 4, 4, run);
            state.update(frame, &truths, &hypotheses, &boxes(&truth), &boxes(&predicted), threshold);
        }
        let seen = (state.gt_ids_seen.len(), state.hyp_ids_seen.len());
        words.push(format!("{number} {} {} {}", state.events.len(), seen.0, seen.1));
    }
    request.end()?;
    let counts = [state.num_matches(), state.num_false_positives(), state.num_misses(), state.num_switches()];
    for count in counts.into_iter().chain([state.num_gt_ids(), state.num_hyp_ids()]) {
        words.push(format!("0 {count}"));
    }
    for float in [state.mota(), state.motp()] {
        words.push(format!("0 {}", float_word(computed(float))));
    }
    let m = MOTMetrics::from_accumulator(&state);
    words.push(format!("0 {}", floats(&[m.mota, m.motp, m.idf1, m.precision, m.recall])));
    words.push(format!("{} {} {}", m.num_false_positives, m.num_misses, m.num_switches));
    words.push(format!("{} {} {} {} {}", m.num_gt_ids, m.num_hyp_ids, m.mostly_tracked, m.mostly_lost, m.num_fragmentations));
    let said = |e: &MOTEvent| match e.event_type {
        MOTEventType::Match => Said(e.frame, 0, e.gt_id.unwrap(), e.hyp_id.unwrap(), e.distance.unwrap()),
        MOTEventType::Switch => Said(e.frame, 1, e.gt_id.unwrap(), e.hyp_id.unwrap(), e.distance.unwrap()),
        MOTEventType::Miss => Said(e.frame, 2, e.gt_id.unwrap(), 0, 0.0),
        MOTEventType::FalsePositive => Said(e.frame, 3, e.hyp_id.unwrap(), 0, 0.0),
    };
    words.push(run_of(state.events().iter().map(|e| event_words(&said(e))).collect()));
    let partner = |id: i32| state.matches.get(&id).map_or("0".to_string(), |to| format!("1 {to}"));
    let mut truths: Vec<_> = state.gt_ids_seen.iter().copied().collect();
    truths.sort_unstable();
    words.push(run_of(truths.into_iter().map(|id| format!("{id} {}", partner(id))).collect()));
    let mut hypotheses: Vec<_> = state.hyp_ids_seen.iter().copied().collect();
    hypotheses.sort_unstable();
    words.push(run_of(hypotheses.into_iter().map(|id| id.to_string()).collect()));
    Some(words.join(" "))
}
