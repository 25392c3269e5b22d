/* An object that is missed and then matched three times: one fragmentation. Then a match that no count has room for, and a
 * record that isn't sound: both stay as they are. Its output stands in lifecycle.out. */
#include <stdio.h>

#include "mot.h"

static void tell(uint32_t number, const struct mot_track_lifecycle *it)
{
    printf("%u: frame %d, tracked %d of %d, %d fragmentations, %s\n", (unsigned)number, (int)it->last_frame, (int)it->tracked_frames,
           (int)it->detected_frames, (int)it->fragmentations, it->was_matched ? "matched" : "missed");
}

int main(void)
{
    struct mot_track_lifecycle it = {7, 1, 1, 0, 0, 0, false};
    tell(mot_update_missed(&it, 1), &it);
    for (int32_t frame = 2; frame <= 4; frame++)
        tell(mot_update_matched(&it, frame), &it);
    it.tracked_frames = INT32_MAX;
    tell(mot_update_matched(&it, 5), &it);
    it.fragmentations = -1;
    tell(mot_update_missed(&it, 5), &it);
    return 0;
}
