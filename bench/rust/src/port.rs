//! What crates/mot_c, crates/extended_c, crates/motmetrics_c, crates/metrics_c, crates/lifecycle_in_place_c, crates/bench_c
//! and crates/bench_calls export. A slice goes over as a pointer and a length.

extern "C" {
    fn mot_compute_iou_distance_matrix(
        gt: *const f64, gt_len: usize, pred: *const f64, pred_len: usize, out: *mut f64, out_len: usize,
    ) -> u32;
    fn mot_iou_matrix(
        a: *const f64, a_len: usize, b: *const f64, b_len: usize, out: *mut f64, out_len: usize,
    ) -> u32;
    fn mot_linear_sum_assignment(
        cost: *const f64, cost_len: usize, rows: usize, cols: usize, max_cost: f64, out: *mut usize, out_len: usize,
    ) -> u32;
    fn mot_extended_update(
        run: *mut i32, run_len: usize, counters: *mut i32, counters_len: usize, distance: *mut f64, distance_len: usize,
        gt_ids: *const i32, gt_ids_len: usize, gt: *const f64, gt_len: usize, pred_ids: *const i32, pred_ids_len: usize,
        pred: *const f64, pred_len: usize, threshold: f64,
    ) -> u32;
    fn mot_motmetrics_update(
        numbers: *mut i32, numbers_len: usize, log_distances: *mut f64, log_distances_len: usize, table: *mut i32,
        table_len: usize, used: *mut usize, used_len: usize, frame_id: i32, ids: *const i32, ids_len: usize,
        hyp_ids: *const i32, hyp_ids_len: usize, distances: *const f64, distances_len: usize,
    ) -> u32;
    fn mot_metrics_update(
        numbers: *mut i32, numbers_len: usize, log_distances: *mut f64, log_distances_len: usize, table: *mut i32,
        table_len: usize, hypotheses: *mut i32, hypotheses_len: usize, used: *mut usize, used_len: usize, frame: i32,
        ids: *const i32, ids_len: usize, hyp_ids: *const i32, hyp_ids_len: usize, truth: *const f64, truth_len: usize,
        predicted: *const f64, predicted_len: usize, threshold: f64,
    ) -> u32;
    fn bench_update(
        gt_ids: *const i32, gt_ids_len: usize, gt: *const f64, gt_len: usize, pred_ids: *const i32, pred_ids_len: usize,
        pred: *const f64, pred_len: usize, threshold: f64, times: u64,
    ) -> f64;
    fn bench_update_sound(
        gt_ids: *const i32, gt_ids_len: usize, gt: *const f64, gt_len: usize, pred_ids: *const i32, pred_ids_len: usize,
        pred: *const f64, pred_len: usize, threshold: f64, times: u64,
    ) -> f64;
    fn bench_mot_update(
        ids: *const i32, ids_len: usize, hyp_ids: *const i32, hyp_ids_len: usize, distances: *const f64,
        distances_len: usize, times: u64,
    ) -> usize;
    fn bench_mot_update_sound(
        ids: *const i32, ids_len: usize, hyp_ids: *const i32, hyp_ids_len: usize, distances: *const f64,
        distances_len: usize, times: u64,
    ) -> usize;
    fn bench_mot_update_in_place(
        numbers: *mut i32, numbers_len: usize, log_distances: *mut f64, log_distances_len: usize, table: *mut i32, table_len: usize,
        truths: usize, ids: *const i32, ids_len: usize, hyp_ids: *const i32, hyp_ids_len: usize, distances: *const f64,
        distances_len: usize, times: u64,
    ) -> usize;
    fn bench_metrics_update(
        ids: *const i32, ids_len: usize, hyp_ids: *const i32, hyp_ids_len: usize, truth: *const f64, truth_len: usize,
        predicted: *const f64, predicted_len: usize, threshold: f64, times: u64,
    ) -> usize;
    fn bench_metrics_update_sound(
        ids: *const i32, ids_len: usize, hyp_ids: *const i32, hyp_ids_len: usize, truth: *const f64, truth_len: usize,
        predicted: *const f64, predicted_len: usize, threshold: f64, times: u64,
    ) -> usize;
    fn bench_metrics_update_in_place(
        numbers: *mut i32, numbers_len: usize, log_distances: *mut f64, log_distances_len: usize, table: *mut i32, table_len: usize,
        hypotheses: *mut i32, hypotheses_len: usize, truths: usize, known: usize,
        ids: *const i32, ids_len: usize, hyp_ids: *const i32, hyp_ids_len: usize, truth: *const f64, truth_len: usize,
        predicted: *const f64, predicted_len: usize, threshold: f64, times: u64,
    ) -> usize;
    fn bench_pair_by_distance(distances: *const f64, distances_len: usize, rows: usize, columns: usize) -> usize;
    fn bench_update_in_place(
        run: *mut i32, run_len: usize, used: usize, gt_ids: *const i32, gt_ids_len: usize, gt: *const f64, gt_len: usize, pred_ids: *const i32, pred_ids_len: usize,
        pred: *const f64, pred_len: usize, threshold: f64, times: u64,
    ) -> f64;
    fn bench_iou_distances(boxes: *const f64, boxes_len: usize, times: u64) -> f64;
    fn bench_lifecycles(frame: i32, times: u64) -> f64;
    fn bench_extended_metrics(
        gt_ids: *const i32, gt_ids_len: usize, gt: *const f64, gt_len: usize, pred_ids: *const i32, pred_ids_len: usize,
        pred: *const f64, pred_len: usize, threshold: f64, times: u64,
    ) -> f64;
    fn bench_mot_metrics(
        ids: *const i32, ids_len: usize, hyp_ids: *const i32, hyp_ids_len: usize, distances: *const f64,
        distances_len: usize, frames: u64, times: u64,
    ) -> f64;
    fn bench_scores(
        ids: *const i32, ids_len: usize, hyp_ids: *const i32, hyp_ids_len: usize, truth: *const f64, truth_len: usize,
        predicted: *const f64, predicted_len: usize, threshold: f64, frames: u64, times: u64, whole: bool,
    ) -> f64;
    fn bench_counts(
        ids: *const i32, ids_len: usize, hyp_ids: *const i32, hyp_ids_len: usize, truth: *const f64, truth_len: usize,
        predicted: *const f64, predicted_len: usize, threshold: f64, frames: u64, times: u64, all: bool,
    ) -> f64;
    fn bench_assignment(
        cost: *const f64, cost_len: usize, rows: usize, cols: usize, max_cost: f64, place: usize,
    ) -> usize;
    fn bench_new_extended(place: usize, times: u64) -> i32;
    fn bench_new_mot(place: usize, times: u64) -> i32;
    fn bench_new_metrics(place: usize, times: u64) -> i32;
    fn mot_update_matched(it: *mut TrackLifecycle, frame: i32) -> u32;
    fn mot_update_missed(it: *mut TrackLifecycle, frame: i32) -> u32;
}

/// The port's record of a truth object.
#[repr(C)]
pub struct TrackLifecycle {
    pub gt_id: i32,
    pub first_frame: i32,
    pub last_frame: i32,
    pub tracked_frames: i32,
    pub detected_frames: i32,
    pub fragmentations: i32,
    pub was_matched: bool,
}

/// Which of the port's updates.
#[derive(Clone, Copy)]
pub enum Update {
    Public,
    Sound,
    InPlace,
    Flat,
}

/// Places of a solver's answer: 5 counts, then 64 each of the pairs' rows, their columns, the rows left, the columns left.
pub const FLAT: usize = 5 + 4 * 64;

pub fn compute_iou_distance_matrix(gt: &[f64], pred: &[f64], out: &mut [f64]) -> u32 {
    // SAFETY: the callee demands nothing, and reads and writes within the three runs alone
    unsafe {
        mot_compute_iou_distance_matrix(
            gt.as_ptr(), gt.len(), pred.as_ptr(), pred.len(), out.as_mut_ptr(), out.len(),
        )
    }
}

pub fn iou_matrix(a: &[f64], b: &[f64], out: &mut [f64]) -> u32 {
    // SAFETY: as above
    unsafe { mot_iou_matrix(a.as_ptr(), a.len(), b.as_ptr(), b.len(), out.as_mut_ptr(), out.len()) }
}

pub fn linear_sum_assignment(cost: &[f64], rows: usize, cols: usize, max_cost: f64, out: &mut [usize]) -> u32 {
    // SAFETY: as above
    unsafe {
        mot_linear_sum_assignment(cost.as_ptr(), cost.len(), rows, cols, max_cost, out.as_mut_ptr(), out.len())
    }
}

/// The extended accumulator over flat numbers: nine columns of 256, seven counters, one distance.
#[allow(clippy::too_many_arguments)]
pub fn extended_update(
    run: &mut [i32], counters: &mut [i32], distance: &mut [f64], gt_ids: &[i32], gt: &[f64], pred_ids: &[i32], pred: &[f64],
    threshold: f64,
) -> u32 {
    // SAFETY: as above
    unsafe {
        mot_extended_update(
            run.as_mut_ptr(), run.len(), counters.as_mut_ptr(), counters.len(), distance.as_mut_ptr(), distance.len(),
            gt_ids.as_ptr(), gt_ids.len(), gt.as_ptr(), gt.len(), pred_ids.as_ptr(), pred_ids.len(), pred.as_ptr(),
            pred.len(), threshold,
        )
    }
}

/// Module 3's accumulator over flat numbers: a log's four columns of 1,024 and its distances, a table's three of 256.
#[allow(clippy::too_many_arguments)]
pub fn motmetrics_update(
    numbers: &mut [i32], log_distances: &mut [f64], table: &mut [i32], used: &mut [usize], frame_id: i32, ids: &[i32],
    hyp_ids: &[i32], distances: &[f64],
) -> u32 {
    // SAFETY: as above
    unsafe {
        mot_motmetrics_update(
            numbers.as_mut_ptr(), numbers.len(), log_distances.as_mut_ptr(), log_distances.len(), table.as_mut_ptr(),
            table.len(), used.as_mut_ptr(), used.len(), frame_id, ids.as_ptr(), ids.len(), hyp_ids.as_ptr(), hyp_ids.len(),
            distances.as_ptr(), distances.len(),
        )
    }
}

/// Module 4's, with the 1,024 hypothesis ids beside them.
#[allow(clippy::too_many_arguments)]
pub fn metrics_update(
    numbers: &mut [i32], log_distances: &mut [f64], table: &mut [i32], hypotheses: &mut [i32], used: &mut [usize],
    frame: i32, ids: &[i32], hyp_ids: &[i32], truth: &[f64], predicted: &[f64], threshold: f64,
) -> u32 {
    // SAFETY: as above
    unsafe {
        mot_metrics_update(
            numbers.as_mut_ptr(), numbers.len(), log_distances.as_mut_ptr(), log_distances.len(), table.as_mut_ptr(),
            table.len(), hypotheses.as_mut_ptr(), hypotheses.len(), used.as_mut_ptr(), used.len(), frame, ids.as_ptr(),
            ids.len(), hyp_ids.as_ptr(), hyp_ids.len(), truth.as_ptr(), truth.len(), predicted.as_ptr(), predicted.len(),
            threshold,
        )
    }
}

/// The extended accumulator's total distance after so many updates by one frame, truths and predictions with the same ids.
pub fn updates(ids: &[i32], truth: &[f64], predicted: &[f64], threshold: f64, times: u64, update: Update) -> f64 {
    let call = match update {
        Update::Public => bench_update,
        Update::Sound => bench_update_sound,
        Update::InPlace => return extended_in_place(&mut [0; 2304], 0, ids, truth, predicted, threshold, times),
        Update::Flat => return extended_flat(&mut [0; 2304], 0, ids, truth, predicted, threshold, times),
    };
    // SAFETY: as above
    unsafe {
        call(
            ids.as_ptr(), ids.len(), truth.as_ptr(), truth.len(), ids.as_ptr(), ids.len(), predicted.as_ptr(),
            predicted.len(), threshold, times,
        )
    }
}

/// The same by the inner update on a lent table that has so many ids in use.
pub fn extended_in_place(
    run: &mut [i32], used: usize, ids: &[i32], truth: &[f64], predicted: &[f64], threshold: f64, times: u64,
) -> f64 {
    // SAFETY: as above
    unsafe {
        bench_update_in_place(
            run.as_mut_ptr(), run.len(), used, ids.as_ptr(), ids.len(), truth.as_ptr(), truth.len(), ids.as_ptr(), ids.len(),
            predicted.as_ptr(), predicted.len(), threshold, times,
        )
    }
}

/// The same by the public update over lent numbers.
pub fn extended_flat(
    run: &mut [i32], used: usize, ids: &[i32], truth: &[f64], predicted: &[f64], threshold: f64, times: u64,
) -> f64 {
    let (mut counters, mut distance) = ([used as i32, 0, 0, 0, 0, 0, 0], [0.0]);
    for _ in 0..times {
        extended_update(run, &mut counters, &mut distance, ids, truth, ids, predicted, threshold);
    }
    distance[0]
}

/// How many events module 3's accumulator has logged after so many updates by one frame.
pub fn mot_updates(ids: &[i32], distances: &[f64], times: u64, update: Update) -> usize {
    let call = match update {
        Update::Public => bench_mot_update,
        Update::Sound => bench_mot_update_sound,
        Update::InPlace => return mot_log_in_place(ids, distances, times).used,
        Update::Flat => return mot_flat(&mut Log::new(), ids, distances, times),
    };
    // SAFETY: as above
    unsafe { call(ids.as_ptr(), ids.len(), ids.as_ptr(), ids.len(), distances.as_ptr(), distances.len(), times) }
}

/// A state of module 3 or 4 as columns: a log's frames, kinds, truths and hypotheses, 1,024 of each, and distances; the tables
/// of ids. Of the ids so many are in use; of the events used, none before an update.
pub struct Log {
    pub numbers: [i32; 4096],
    pub distances: [f64; 1024],
    pub table: [i32; 768],
    pub hypotheses: [i32; 1024],
    pub truths: usize,
    pub known: usize,
    pub used: usize,
}

impl Log {
    pub fn new() -> Self {
        Log { numbers: [0; 4096], distances: [0.0; 1024], table: [0; 768], hypotheses: [0; 1024], truths: 0, known: 0, used: 0 }
    }
}

pub fn mot_log_in_place(ids: &[i32], distances: &[f64], times: u64) -> Log {
    let mut log = Log::new();
    log.used = mot_in_place(&mut log, ids, distances, times);
    log
}

/// How many events are logged, by the inner update on lent columns.
pub fn mot_in_place(log: &mut Log, ids: &[i32], distances: &[f64], times: u64) -> usize {
    // SAFETY: as above
    unsafe {
        bench_mot_update_in_place(
            log.numbers.as_mut_ptr(), log.numbers.len(), log.distances.as_mut_ptr(), log.distances.len(),
            log.table.as_mut_ptr(), log.table.len(), log.truths, ids.as_ptr(), ids.len(), ids.as_ptr(), ids.len(),
            distances.as_ptr(), distances.len(), times,
        )
    }
}

/// The same by the public update over lent numbers.
pub fn mot_flat(log: &mut Log, ids: &[i32], distances: &[f64], times: u64) -> usize {
    let mut used = [0, log.truths];
    for _ in 0..times {
        motmetrics_update(
            &mut log.numbers, &mut log.distances, &mut log.table, &mut used, 1, ids, ids, distances,
        );
    }
    used[0]
}

/// How many events module 4's accumulator has logged after so many updates by one frame.
pub fn metrics_updates(
    ids: &[i32], truth: &[f64], predicted: &[f64], threshold: f64, times: u64, update: Update,
) -> usize {
    let call = match update {
        Update::Public => bench_metrics_update,
        Update::Sound => bench_metrics_update_sound,
        Update::InPlace => return metrics_in_place(&mut Log::new(), ids, truth, predicted, threshold, times),
        Update::Flat => return metrics_flat(&mut Log::new(), ids, truth, predicted, threshold, times),
    };
    // SAFETY: as above
    unsafe {
        call(
            ids.as_ptr(), ids.len(), ids.as_ptr(), ids.len(), truth.as_ptr(), truth.len(), predicted.as_ptr(),
            predicted.len(), threshold, times,
        )
    }
}

/// The same by the inner update on lent columns.
pub fn metrics_in_place(
    log: &mut Log, ids: &[i32], truth: &[f64], predicted: &[f64], threshold: f64, times: u64,
) -> usize {
    // SAFETY: as above
    unsafe {
        bench_metrics_update_in_place(
            log.numbers.as_mut_ptr(), log.numbers.len(), log.distances.as_mut_ptr(), log.distances.len(),
            log.table.as_mut_ptr(), log.table.len(), log.hypotheses.as_mut_ptr(), log.hypotheses.len(), log.truths, log.known,
            ids.as_ptr(), ids.len(), ids.as_ptr(), ids.len(), truth.as_ptr(), truth.len(), predicted.as_ptr(),
            predicted.len(), threshold, times,
        )
    }
}

/// The same by the public update over lent numbers.
pub fn metrics_flat(
    log: &mut Log, ids: &[i32], truth: &[f64], predicted: &[f64], threshold: f64, times: u64,
) -> usize {
    let mut used = [0, log.truths, log.known];
    for _ in 0..times {
        metrics_update(
            &mut log.numbers, &mut log.distances, &mut log.table, &mut log.hypotheses, &mut used, 1, ids, ids, truth,
            predicted, threshold,
        );
    }
    used[0]
}

/// The distances of the first box to every box, so many times, summed.
pub fn iou_distances(boxes: &[f64], times: u64) -> f64 {
    // SAFETY: as above
    unsafe { bench_iou_distances(boxes.as_ptr(), boxes.len(), times) }
}

/// A match, a miss and the coverage so many times; the sum of the coverages.
pub fn lifecycles(frame: i32, times: u64) -> f64 {
    // SAFETY: as above
    unsafe { bench_lifecycles(frame, times) }
}

/// The extended metrics of a state after one frame, so many times; for how many there was an object mostly tracked.
pub fn extended_metrics(ids: &[i32], truth: &[f64], predicted: &[f64], threshold: f64, times: u64) -> f64 {
    // SAFETY: as above
    unsafe {
        bench_extended_metrics(
            ids.as_ptr(), ids.len(), truth.as_ptr(), truth.len(), ids.as_ptr(), ids.len(), predicted.as_ptr(),
            predicted.len(), threshold, times,
        )
    }
}

/// Module 3's metrics of a state after so many frames, so many times; the sum of the MOTAs.
pub fn mot_metrics(ids: &[i32], distances: &[f64], frames: u64, times: u64) -> f64 {
    // SAFETY: as above
    unsafe {
        bench_mot_metrics(
            ids.as_ptr(), ids.len(), ids.as_ptr(), ids.len(), distances.as_ptr(), distances.len(), frames, times,
        )
    }
}

/// Module 5's metrics, or module 4's two scores, of a state after so many frames, so many times; the sum of them.
pub fn scores(
    ids: &[i32], truth: &[f64], predicted: &[f64], threshold: f64, frames: u64, times: u64, whole: bool,
) -> f64 {
    // SAFETY: as above
    unsafe {
        bench_scores(
            ids.as_ptr(), ids.len(), ids.as_ptr(), ids.len(), truth.as_ptr(), truth.len(), predicted.as_ptr(),
            predicted.len(), threshold, frames, times, whole,
        )
    }
}

pub fn pair_by_distance(distances: &[f64], side: usize) -> usize {
    // SAFETY: as above
    unsafe { bench_pair_by_distance(distances.as_ptr(), distances.len(), side, side) }
}

/// Module 4's matches by count_events, or all six counts, of a state after so many frames, so many times; how often one was above 0.
pub fn counts(ids: &[i32], truth: &[f64], predicted: &[f64], threshold: f64, frames: u64, times: u64, all: bool) -> f64 {
    // SAFETY: as above
    unsafe {
        bench_counts(
            ids.as_ptr(), ids.len(), ids.as_ptr(), ids.len(), truth.as_ptr(), truth.len(), predicted.as_ptr(),
            predicted.len(), threshold, frames, times, all,
        )
    }
}

/// The search by value; what it says of a place of its lists.
pub fn assignment_by_value(cost: &[f64], rows: usize, cols: usize, max_cost: f64, place: usize) -> usize {
    // SAFETY: as above
    unsafe { bench_assignment(cost.as_ptr(), cost.len(), rows, cols, max_cost, place) }
}

/// New states, so many: the extended accumulator's, module 3's, module 4's. What the last holds at a place.
pub fn new_states(place: usize, times: u64) -> [(&'static str, Box<dyn FnMut() -> i32>); 3] {
    // SAFETY: as above
    [
        ("ExtendedMOTAccumulator::new", Box::new(move || unsafe { bench_new_extended(place, times) })),
        ("motmetrics: MOTAccumulator::new", Box::new(move || unsafe { bench_new_mot(place, times) })),
        ("metrics: MOTAccumulator::new", Box::new(move || unsafe { bench_new_metrics(place, times) })),
    ]
}

/// The record after so many matches and misses, one after the other, where it stands.
pub fn lent_lifecycle(frame: i32, times: u64) -> TrackLifecycle {
    let mut it = TrackLifecycle {
        gt_id: 1, first_frame: frame, last_frame: frame, tracked_frames: 0, detected_frames: 0, fragmentations: 0, was_matched: false,
    };
    for _ in 0..times {
        update_lifecycle(&mut it, frame, true);
        update_lifecycle(&mut it, frame, false);
    }
    it
}

/// A match or a miss of a record, where it stands.
#[inline(always)]
pub fn update_lifecycle(it: &mut TrackLifecycle, frame: i32, matched: bool) -> u32 {
    // SAFETY: the callee demands nothing, and reads and writes the record alone
    unsafe { if matched { mot_update_matched(it, frame) } else { mot_update_missed(it, frame) } }
}
