/* Objects 1 and 2 against hypotheses 8 and 9 in two frames; in the second object 1 has moved to 9. Then a frame that is refused.
 * Its output stands in events.out. */
#include <stdio.h>

#include "mot.h"

static int32_t numbers[MOT_EVENT_NUMBERS_LEN];
static double log_distances[MOT_EVENT_DISTANCES_LEN];
static int32_t table[MOT_LAST_LEN];
static size_t used[MOT_USED_LEN];

static uint32_t frame(int32_t frame_id, const double *distances, size_t distances_len)
{
    const int32_t objects[] = {1, 2};
    const int32_t hypotheses[] = {8, 9};
    return mot_motmetrics_update(numbers, MOT_EVENT_NUMBERS_LEN, log_distances, MOT_EVENT_DISTANCES_LEN, table, MOT_LAST_LEN,
                                 used, MOT_USED_LEN, frame_id, objects, 2, hypotheses, 2, distances, distances_len);
}

int main(void)
{
    static const char *const kinds[] = {"match", "switch", "miss", "false positive"};
    const double far = 1.0 / 0.0;
    const double first[] = {0.25, 0.75, 0.5, 0.125};
    const double second[] = {far, 0.25, far, far};

    printf("%u\n", (unsigned)frame(1, first, 4));
    printf("%u\n", (unsigned)frame(2, second, 4));
    printf("%u\n", (unsigned)frame(3, first, 3));
    for (size_t k = 0; k < used[MOT_USED_EVENTS]; k++)
        printf("frame %d: %s %d %d %.6f\n", (int)numbers[MOT_EVENT_FRAME + k], kinds[numbers[MOT_EVENT_KIND + k]],
               (int)numbers[MOT_EVENT_OBJECT + k], (int)numbers[MOT_EVENT_HYPOTHESIS + k], log_distances[k]);
    return 0;
}
