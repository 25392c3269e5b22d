/* Document 01's marked example 15: two truths, one prediction, threshold 0.5. Its output stands in metrics.out. */
#include <stdio.h>

#include "mot.h"

static int32_t numbers[MOT_EVENT_NUMBERS_LEN];
static double log_distances[MOT_EVENT_DISTANCES_LEN];
static int32_t table[MOT_LAST_LEN];
static int32_t hypotheses[MOT_HYPOTHESES_LEN];
static size_t used[MOT_METRICS_USED_LEN];

int main(void)
{
    const int32_t truth_ids[] = {5, 6};
    const int32_t predicted_ids[] = {9};
    const double truth[] = {0, 0, 2, 2, 4, 4, 6, 6};
    const double predicted[] = {4, 4, 6, 6};
    uint32_t number = mot_metrics_update(numbers, MOT_EVENT_NUMBERS_LEN, log_distances, MOT_EVENT_DISTANCES_LEN, table, MOT_LAST_LEN,
                                         hypotheses, MOT_HYPOTHESES_LEN, used, MOT_METRICS_USED_LEN,
                                         1, truth_ids, 2, predicted_ids, 1, truth, 8, predicted, 4, 0.5);
    printf("%u: %zu truths and %zu hypotheses seen\n", (unsigned)number, used[MOT_USED_OBJECTS], used[MOT_USED_HYPOTHESES]);
    for (size_t k = 0; k < used[MOT_USED_EVENTS]; k++)
        printf("frame %d: kind %d, truth %d, hypothesis %d, distance %.6f\n", (int)numbers[MOT_EVENT_FRAME + k], (int)numbers[MOT_EVENT_KIND + k],
               (int)numbers[MOT_EVENT_OBJECT + k], (int)numbers[MOT_EVENT_HYPOTHESIS + k], log_distances[k]);
    return 0;
}
