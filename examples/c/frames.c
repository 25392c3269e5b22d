/* Truth 7 is matched to 1, missed, and matched to 2: one switch. Then a state that isn't sound, which stays as it is.
 * Its output stands in frames.out. */
#include <stdio.h>

#include "mot.h"

static int32_t run[MOT_EXTENDED_RUN_LEN];
static int32_t counters[MOT_EXTENDED_COUNTERS_LEN];
static double distance[MOT_EXTENDED_DISTANCE_LEN];

static void frame(int32_t predicted_id, size_t predictions)
{
    const int32_t truth_ids[] = {7};
    const int32_t predicted_ids[] = {predicted_id};
    const double truth[] = {0, 0, 2, 2};
    const double predicted[] = {0, 0, 2, 1};
    uint32_t number = mot_extended_update(run, MOT_EXTENDED_RUN_LEN, counters, MOT_EXTENDED_COUNTERS_LEN, distance, MOT_EXTENDED_DISTANCE_LEN,
                                          truth_ids, 1, truth, 4, predicted_ids, predictions, predicted, 4 * predictions, 0.5);
    printf("%u: frame %d, %d matches, %d misses, %d switches, distance %.6f\n", (unsigned)number, (int)counters[MOT_EXTENDED_FRAME_ID],
           (int)counters[MOT_EXTENDED_MATCHES], (int)counters[MOT_EXTENDED_MISSES], (int)counters[MOT_EXTENDED_SWITCHES], distance[0]);
}

int main(void)
{
    frame(1, 1);
    frame(1, 0);
    frame(2, 1);
    printf("truth %d: tracked %d of %d\n", (int)run[MOT_EXTENDED_ID], (int)run[MOT_EXTENDED_TRACKED], (int)run[MOT_EXTENDED_DETECTED]);
    counters[MOT_EXTENDED_USED] = -1;
    frame(2, 1);
    return 0;
}
