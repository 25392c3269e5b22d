/* The port for C. The matrices and the solver are in the archive of crates/mot_c, the accumulators in those of
 * crates/extended_c, crates/motmetrics_c and crates/metrics_c, a lifecycle by itself in liblifecycle_in_place.a, which is that of
 * crates/lifecycle_in_place_c.
 * Each stands alone: link those that you call.
 *
 * A slice is a pointer and the number of its elements. A length of 0 goes with any pointer that is not null and is aligned.
 * Lent memory that is written must not overlap any other argument of the call.
 *
 * Every function gives a number back:
 *   0  done
 *   1  a state handed in isn't sound: a used count that is negative or over its capacity, an id twice in the used places,
 *      or a negative counter
 *   2  more than 64 rows, columns, boxes or ids on one side
 *   3  ids and boxes differ in number; a run of box floats isn't a multiple of four long; a matrix isn't rows times columns
 *      long; the solver is given 0 rows with columns; the runs of a state are of another length than the state's
 *   4  a box that is read has x_max <= x_min or y_max <= y_min
 *   5  after the frame a table would hold more distinct ids than it can
 *   6  a log would pass its capacity, or an output is shorter than what the call would write
 *   7  a counter would pass 2,147,483,647
 * The lowest number that applies is given. Beside a refusal all lent memory keeps its contents.
 *
 * A box is four doubles: x_min, y_min, x_max, y_max. */
#ifndef MOT_H
#define MOT_H

#include <stdbool.h>
#include <stddef.h>
#include <stdint.h>

#ifdef __cplusplus
extern "C" {
#endif

/* ---- boxes: matrices of truth boxes by predicted boxes, row by row over the first rows times columns places of out */

/* 1.0 - intersection / union of each two boxes. Numbers 0, 2, 3, 4, 6. */
uint32_t mot_compute_iou_distance_matrix(const double *gt_bboxes, size_t gt_bboxes_len,
                                         const double *pred_bboxes, size_t pred_bboxes_len,
                                         double *out, size_t out_len);

/* intersection / union of each two boxes; no box is refused. Numbers 0, 2, 3, 6. */
uint32_t mot_iou_matrix(const double *boxes_a, size_t boxes_a_len,
                        const double *boxes_b, size_t boxes_b_len,
                        double *out, size_t out_len);

/* ---- the solver */

/* The places of its answer. */
enum {
    MOT_PAIRS = 0,            /* how many pairs */
    MOT_ROWS_LEFT = 1,        /* how many unmatched rows */
    MOT_COLS_LEFT = 2,        /* how many unmatched columns */
    MOT_CORRECTIONS = 3,      /* how many cost corrections the search made */
    MOT_PATHS = 4,            /* how many path changes */
    MOT_PAIR_ROWS = 5,        /* 64 places: the pairs' rows, rising */
    MOT_PAIR_COLS = 69,       /* 64 places: their columns */
    MOT_UNMATCHED_ROWS = 133, /* 64 places, rising */
    MOT_UNMATCHED_COLS = 197, /* 64 places, rising */
    MOT_ANSWER_LEN = 261      /* places of a list after its count are 0 */
};

/* Pairs of least cost; of these the ones with cost <= max_cost are listed. The cost is row by row. Numbers 0, 2, 3, 6. */
uint32_t mot_linear_sum_assignment(const double *cost, size_t cost_len,
                                   size_t rows, size_t cols, double max_cost,
                                   size_t *out, size_t out_len);

/* ---- the lifecycle of a truth object, by itself */

struct mot_track_lifecycle {
    int32_t gt_id;
    int32_t first_frame;
    int32_t last_frame;
    int32_t tracked_frames;  /* those in which it was matched */
    int32_t detected_frames; /* all in which it was there */
    int32_t fragmentations;  /* how often it was matched again after a miss */
    bool was_matched;        /* false or true, and no other byte */
};

/* The object is matched in a frame, or missed. A new record has its id, the frame as first and last, and zeros.
 * Numbers 0, 1 (a count is negative), 7. */
uint32_t mot_update_matched(struct mot_track_lifecycle *it, int32_t frame);
uint32_t mot_update_missed(struct mot_track_lifecycle *it, int32_t frame);

/* ---- the extended accumulator
 * Its state is three runs that the caller keeps. All zeros are a new state. */

enum {
    /* run: nine columns of 256 numbers, a slot for each truth id in the order of first booking */
    MOT_EXTENDED_ID = 0,
    MOT_EXTENDED_FIRST_FRAME = 256,
    MOT_EXTENDED_LAST_FRAME = 512,
    MOT_EXTENDED_TRACKED = 768,
    MOT_EXTENDED_DETECTED = 1024,
    MOT_EXTENDED_FRAGMENTATIONS = 1280,
    MOT_EXTENDED_WAS_MATCHED = 1536,  /* 0, or matched in its last frame */
    MOT_EXTENDED_HAS_PARTNER = 1792,  /* 0, or the next column holds the last partner */
    MOT_EXTENDED_PARTNER = 2048,
    MOT_EXTENDED_RUN_LEN = 2304,
    /* counters */
    MOT_EXTENDED_USED = 0,            /* slots in use */
    MOT_EXTENDED_FRAME_ID = 1,
    MOT_EXTENDED_MATCHES = 2,
    MOT_EXTENDED_MISSES = 3,
    MOT_EXTENDED_FALSE_POSITIVES = 4,
    MOT_EXTENDED_SWITCHES = 5,
    MOT_EXTENDED_OBJECTS = 6,
    MOT_EXTENDED_COUNTERS_LEN = 7,
    /* distance: the sum over all matches */
    MOT_EXTENDED_DISTANCE_LEN = 1
};

/* A frame: truth ids with their boxes, predicted ids with theirs, and the largest distance of a match.
 * Numbers 0, 1, 2, 3, 4, 5, 7. */
uint32_t mot_extended_update(int32_t *run, size_t run_len,
                             int32_t *counters, size_t counters_len,
                             double *distance, size_t distance_len,
                             const int32_t *gt_ids, size_t gt_ids_len,
                             const double *gt_bboxes, size_t gt_bboxes_len,
                             const int32_t *pred_ids, size_t pred_ids_len,
                             const double *pred_bboxes, size_t pred_bboxes_len,
                             double threshold);

/* ---- module 3's accumulator of events
 * Its state is four runs that the caller keeps. All zeros are a new state. */

enum {
    /* numbers: four columns of 1,024, a place for each event in order */
    MOT_EVENT_FRAME = 0,
    MOT_EVENT_KIND = 1024,       /* 0 match, 1 switch, 2 miss, 3 false positive */
    MOT_EVENT_OBJECT = 2048,     /* 0 for a false positive */
    MOT_EVENT_HYPOTHESIS = 3072, /* 0 for a miss */
    MOT_EVENT_NUMBERS_LEN = 4096,
    /* log_distances: one for each event, 0.0 where it has none */
    MOT_EVENT_DISTANCES_LEN = 1024,
    /* table: three columns of 256, the last match of each object id */
    MOT_LAST_OBJECT = 0,
    MOT_LAST_KNOWN = 256,        /* 0, or the next column holds the hypothesis */
    MOT_LAST_HYPOTHESIS = 512,
    MOT_LAST_LEN = 768,
    /* used */
    MOT_USED_EVENTS = 0,
    MOT_USED_OBJECTS = 1,
    MOT_USED_LEN = 2
};

/* A frame: object ids, hypothesis ids, and the distances of objects by hypotheses, row by row; one that isn't finite is no pair.
 * Numbers 0, 1, 2, 3, 5, 6 (the log would pass 1,024 events). */
uint32_t mot_motmetrics_update(int32_t *numbers, size_t numbers_len,
                               double *log_distances, size_t log_distances_len,
                               int32_t *table, size_t table_len,
                               size_t *used, size_t used_len,
                               int32_t frame_id,
                               const int32_t *object_ids, size_t object_ids_len,
                               const int32_t *hypothesis_ids, size_t hypothesis_ids_len,
                               const double *distances, size_t distances_len);

/* ---- module 4's accumulator of events
 * Its state is five runs that the caller keeps: numbers, log_distances and table are laid out as above, where an object id is a
 * truth id that was seen. All zeros are a new state. */

enum {
    /* hypotheses: the ids that were seen, in the order of first appearance */
    MOT_HYPOTHESES_LEN = 1024,
    /* used: events and truth ids as above, then the hypothesis ids */
    MOT_USED_HYPOTHESES = 2,
    MOT_METRICS_USED_LEN = 3
};

/* A frame: truth ids with their boxes, hypothesis ids with theirs, and the least IoU of a match. Stored is 1.0 - IoU.
 * Numbers 0, 1, 2, 3, 5, 6. */
uint32_t mot_metrics_update(int32_t *numbers, size_t numbers_len,
                            double *log_distances, size_t log_distances_len,
                            int32_t *table, size_t table_len,
                            int32_t *hypotheses, size_t hypotheses_len,
                            size_t *used, size_t used_len,
                            int32_t frame,
                            const int32_t *gt_ids, size_t gt_ids_len,
                            const int32_t *hyp_ids, size_t hyp_ids_len,
                            const double *gt_boxes, size_t gt_boxes_len,
                            const double *hyp_boxes, size_t hyp_boxes_len,
                            double iou_threshold);

#ifdef __cplusplus
}
#endif

#endif
