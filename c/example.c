#include "approach.h"
#include <stdio.h>

int main(void) {
    struct approach_train train = {
        .electropneumatic = true,
        .braked_weight = 100,
        .length = 200,
        .top_speed = 100,
        .coefficients = APPROACH_FIRST_VALUES,
    };

    /* From 90 km/h to a stop on the level. */
    struct approach_distances d = approach_step(train, 90, 0, 0);
    printf("refusal %u, EBI %u mm\n", d.refusal, d.ebi);

    /* One level stretch up to 2,000 m; signals at 0 with 120 m of overlap and at 1,057 m with none. */
    const uint32_t starts[] = {0}, places[] = {0, 1057};
    const int16_t gradients[] = {0};
    const uint16_t overlaps[] = {120, 0};
    uint8_t sheet[APPROACH_SHEET_LENGTH(1, 2)];
    struct approach_written w = approach_sheet_write(starts, 1, gradients, 1, places, 2, overlaps, 2, 2000, sheet, sizeof sheet);

    /* Towards the second signal, with the head at 0, TM 2 s and TR 4 s. */
    struct approach_answer a = approach_query(train, 200, 400, sheet, w.length, 1, 0);
    printf("refusal %u, permitted %u km/h, %s\n", a.refusal, a.permitted, a.mark == APPROACH_MARK_CURVE ? "curve" : "release");
}
