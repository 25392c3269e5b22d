/* Four truth boxes paired with three predictions by least distance. Its output stands in pairs.out. */
#include <stdio.h>

#include "mot.h"

int main(void)
{
    const double truth[] = {0, 0, 2, 2, 10, 10, 14, 14, 20, 0, 22, 2, 30, 30, 32, 32};
    const double predicted[] = {10, 10, 14, 13, 1, 0, 3, 2, 40, 40, 42, 42};
    double distances[12];
    size_t answer[MOT_ANSWER_LEN];

    uint32_t number = mot_compute_iou_distance_matrix(truth, 16, predicted, 12, distances, 12);
    if (number == 0)
        number = mot_linear_sum_assignment(distances, 12, 4, 3, 0.9, answer, MOT_ANSWER_LEN);
    if (number != 0) {
        printf("refused with %u\n", (unsigned)number);
        return 1;
    }
    for (size_t k = 0; k < answer[MOT_PAIRS]; k++) {
        size_t row = answer[MOT_PAIR_ROWS + k];
        size_t col = answer[MOT_PAIR_COLS + k];
        printf("truth %zu is prediction %zu, distance %.6f\n", row, col, distances[row * 3 + col]);
    }
    for (size_t k = 0; k < answer[MOT_ROWS_LEFT]; k++)
        printf("truth %zu is missed\n", answer[MOT_UNMATCHED_ROWS + k]);
    for (size_t k = 0; k < answer[MOT_COLS_LEFT]; k++)
        printf("prediction %zu is extra\n", answer[MOT_UNMATCHED_COLS + k]);
    return 0;
}
