/*
 * A bus from the depot gate on: where the filter aboard has it at each reading, and where the depot has it once the
 * whole duty is smoothed. The wheel is silent for a while. Built and run by examples/run.
 */
#include <stdio.h>
#include <string.h>

#include "estimators.h"

enum { N = 2, M = 1, I = 1, STEP = 10, READINGS = 14, STAGES = 4 };
enum { FILTER = ESTIMATORS_FILTER(N, M, I), STATE = ESTIMATORS_FILTER_STATE(N, M, I), PAIR = ESTIMATORS_PAIR(N) };
enum { SLOTS = READINGS * ESTIMATORS_SLOT(N), SMOOTHED = READINGS * PAIR };

/* Metres from the gate that the wheel says, every STEP seconds; below 0 is no reading. */
static const double wheel[READINGS] = {38, 121, 214, 262, 301, 390, -1, -1, -1, 561, 640, 722, 753, 760};
/* Where each fare stage ends, in metres. */
static const int ends[STAGES] = {280, 600, 740, 1200};

/* The first stage that ends at or after a place, else the last; stages count from 1. */
static int stage_of(double place)
{
    int stage = 1;
    while (stage < STAGES && ends[stage - 1] < place) stage++;
    return stage;
}

/* Filters the readings and stores a slot for each; the filtered places into filtered. */
static uint8_t drive(double *filter, double *slots, double *filtered)
{
    const double none[I] = {0};
    double ahead[FILTER], innovation[M];
    uint64_t stored = 0;
    uint8_t told = estimators_kalman_position_velocity(STEP, 0.25, 8.0, filter, FILTER);

    for (int k = 0; told == ESTIMATORS_OK && k < READINGS; k++) {
        told = estimators_kalman_predict(N, M, I, filter, FILTER, none, I);
        if (told == ESTIMATORS_OK && wheel[k] >= 0)
            told = estimators_kalman_update(N, M, I, filter, FILTER, &wheel[k], M, innovation, M);
        if (told != ESTIMATORS_OK) break;
        filtered[k] = filter[STATE];
        /* A slot's predicted pair is for the reading after it. */
        memcpy(ahead, filter, sizeof ahead);
        told = estimators_kalman_predict(N, M, I, ahead, FILTER, none, I);
        if (told == ESTIMATORS_OK)
            told = estimators_rts_smoother_store_forward(N, READINGS, &stored, slots, SLOTS, filter + STATE, PAIR, ahead + STATE, PAIR);
    }
    return told;
}

int main(void)
{
    double filter[FILTER], slots[SLOTS], smoothed[SMOOTHED], filtered[READINGS];
    uint8_t told = drive(filter, slots, filtered);

    /* A filter begins with its transition. */
    if (told == ESTIMATORS_OK)
        told = estimators_rts_smoother_smooth(N, READINGS, READINGS, slots, SLOTS, filter, N * N, smoothed, SMOOTHED);
    if (told != ESTIMATORS_OK) {
        printf("refused %d\n", told);
        return told;
    }
    printf("metres from the depot gate; stages end at %d, %d, %d and %d\n", ends[0], ends[1], ends[2], ends[3]);
    printf(" time   wheel  filtered  smoothed  stage\n");
    for (int k = 0; k < READINGS; k++) {
        const double place = smoothed[ESTIMATORS_SMOOTHED_STATE(N, k)];
        const int aboard = stage_of(filtered[k]), stage = stage_of(place);
        printf("%3d s  ", (k + 1) * STEP);
        if (wheel[k] >= 0) printf("%6.0f", wheel[k]); else printf("     -");
        printf("  %8.1f  %8.1f  %5d", filtered[k], place, stage);
        if (aboard != stage) printf("  (aboard: %d)", aboard);
        printf("\n");
    }
    printf("A dash is a missing reading: the filter aboard goes on by its speed, and at 90 s is a stage too far.\n");
    printf("The depot smooths the whole duty, so the readings after the gap put that right.\n");
    return 0;
}
