/*
 * A tracker written from the header alone: readings that are missing, readings that are no numbers, a duty longer than the
 * smoother's room; and every misuse that a call can test, each refused and nothing changed. It is C99 and C++ alike.
 * Built by several compilers, with sanitizers, and run by examples/run; the last line is `N checks, 0 failed`.
 */
#include "estimators.h"
#include <math.h>
#include <stdio.h>
#include <string.h>

#define N 2
#define M 1
#define I 1
#define ROOM ESTIMATORS_MAX_SLOTS
#define DUTY 100
#define FILTER ESTIMATORS_FILTER(N, M, I)
#define STATE ESTIMATORS_FILTER_STATE(N, M, I)
#define PAIR ESTIMATORS_PAIR(N)
#define SLOT ESTIMATORS_SLOT(N)
#define SLOTS (ROOM * SLOT)
#define SMOOTHED (ROOM * PAIR)
#define MODELS 2
#define MODEL ESTIMATORS_MODEL(N)
#define BANK ESTIMATORS_BANK(N, M, MODELS)
#define SQRT ESTIMATORS_SQRT(N, M, I)

static int checks, failures;

static void check(int holds, const char *what)
{
    checks++;
    if (!holds) {
        failures++;
        printf("failed: %s\n", what);
    }
}

/* ---- the tracker: one filter, and a slot for each reading of a duty of any length */

typedef struct {
    double filter[FILTER];
    double slots[DUTY * SLOT];
    uint64_t stored;
    int dropped;
} tracker;

static const double none[I] = {0};

static uint8_t tracker_start(tracker *t)
{
    t->stored = 0;
    t->dropped = 0;
    return estimators_kalman_position_velocity(1.0, 1.0, 8.0, t->filter, FILTER);
}

/* One second on, with the wheel's metres; a reading that is no number counts as missing. */
static uint8_t tracker_step(tracker *t, double wheel)
{
    double ahead[FILTER], innovation[M], *slot;
    uint8_t told;
    uint64_t count;

    if (t->stored == DUTY) return ESTIMATORS_REFUSED_FULL;
    told = estimators_kalman_predict(N, M, I, t->filter, FILTER, none, I);
    if (told != ESTIMATORS_OK) return told;
    if (isfinite(wheel)) {
        told = estimators_kalman_update(N, M, I, t->filter, FILTER, &wheel, M, innovation, M);
        if (told != ESTIMATORS_OK) return told;
    } else {
        t->dropped++;
    }
    memcpy(ahead, t->filter, sizeof ahead);
    told = estimators_kalman_predict(N, M, I, ahead, FILTER, none, I);
    if (told != ESTIMATORS_OK) return told;
    /* Room for one slot at a time, so that a duty may be longer than ROOM. */
    slot = t->slots + ESTIMATORS_SLOT_STATE(N, t->stored);
    count = 0;
    told = estimators_rts_smoother_store_forward(N, 1, &count, slot, SLOT, t->filter + STATE, PAIR, ahead + STATE, PAIR);
    if (told == ESTIMATORS_OK) t->stored++;
    return told;
}

/* The whole duty smoothed into output, PAIR numbers a slot, in parts of at most ROOM slots, the last first: the first slot of what
 * is smoothed stands at the end of the part before it, with its smoothed pair for the filtered one. */
static uint8_t tracker_smooth(const tracker *t, uint64_t room, double *output)
{
    double part[SLOTS], smoothed[SMOOTHED];
    uint64_t end = t->stored, known = 0;

    if (end == 0) return ESTIMATORS_REFUSED_EMPTY;
    while (end > 0) {
        const uint64_t own = end + known > room ? room - known : end, count = own + known;
        uint8_t told;
        memcpy(part, t->slots + (end - own) * SLOT, (size_t)(count * SLOT) * sizeof(double));
        if (known == 1) memcpy(part + own * SLOT, output + end * PAIR, PAIR * sizeof(double));
        told = estimators_rts_smoother_smooth(N, count, count, part, count * SLOT, t->filter, N * N, smoothed, count * PAIR);
        if (told != ESTIMATORS_OK) return told;
        memcpy(output + (end - own) * PAIR, smoothed, (size_t)(count * PAIR) * sizeof(double));
        end -= own;
        known = 1;
    }
    return ESTIMATORS_OK;
}

/* ---- its checks */

static double wheel_at(int k) { return k % 7 == 5 || (k > 30 && k < 41) ? NAN : 11.0 * k + (k * k) % 13; }

static void track_a_duty(tracker *t)
{
    double whole[DUTY * PAIR], parts[DUTY * PAIR];
    int k;

    check(tracker_start(t) == ESTIMATORS_OK, "a tracker starts");
    check(tracker_smooth(t, ROOM, whole) == ESTIMATORS_REFUSED_EMPTY, "no slot is stored");
    for (k = 0; k < ROOM; k++) check(tracker_step(t, wheel_at(k)) == ESTIMATORS_OK, "a step");
    check(t->dropped == 17, "missing readings are counted");
    check(fabs(t->filter[STATE] - wheel_at(ROOM - 1)) < 20.0, "the filter is near the wheel");
    check(tracker_smooth(t, ROOM, whole) == ESTIMATORS_OK, "as many slots as there is room for");
    check(memcmp(whole + (ROOM - 1) * PAIR, t->filter + STATE, PAIR * sizeof(double)) == 0, "the last pair is the filter's");
    for (k = 2; k < ROOM; k++) {
        check(tracker_smooth(t, (uint64_t)k, parts) == ESTIMATORS_OK, "a duty in parts");
        check(memcmp(whole, parts, ROOM * PAIR * sizeof(double)) == 0, "parts give what one pass gives");
    }
    for (; k < DUTY; k++) check(tracker_step(t, wheel_at(k)) == ESTIMATORS_OK, "a step past the room");
    check(tracker_step(t, 0.0) == ESTIMATORS_REFUSED_FULL, "the duty is full");
    check(tracker_smooth(t, ROOM, whole) == ESTIMATORS_OK, "a duty longer than the room");
    check(tracker_smooth(t, 9, parts) == ESTIMATORS_OK && memcmp(whole, parts, sizeof whole) == 0, "in parts of nine");
}

static void numbers_that_are_none(void)
{
    const double x0[N] = {0, 0}, p0[N * N] = {1000, 0, 0, 1000}, nan[M] = {NAN};
    double filter[FILTER], innovation[M];

    check(estimators_kalman_position_velocity(1.0, 1.0, 8.0, filter, FILTER) == ESTIMATORS_OK, "a filter");
    check(estimators_kalman_update(N, M, I, filter, FILTER, nan, M, innovation, M) == ESTIMATORS_OK, "a NaN is taken in");
    check(isnan(filter[STATE]) && isnan(innovation[0]), "and stays");
    check(estimators_kalman_reset(N, M, I, filter, FILTER, x0, N, p0, N * N) == ESTIMATORS_OK && filter[STATE] == 0, "until a reset");
}

/* The sizes and lengths that are wrong where `right` is right. */
static uint64_t wrong(uint64_t right, int k)
{
    const uint64_t all[] = {0, UINT64_MAX, UINT64_MAX / 8 + 2, (uint64_t)1 << 32, 5};
    return k < 5 ? all[k] : k == 5 ? right - 1 : right + 1;
}

/* A call with one wrong size or length: refused with 1, and all that is lent has the bits that it had. */
static void wrong_sizes(const tracker *t)
{
    double filter[FILTER], innovation[M] = {7}, slots[SLOTS], output[SMOOTHED], slot[SLOT];
    double filter_before[FILTER], slots_before[SLOTS], output_before[SMOOTHED], slot_before[SLOT];
    uint64_t count = 3, sizes[5];
    int which, k;

    memcpy(filter, t->filter, sizeof filter);
    memcpy(slots, t->slots, sizeof slots);
    memset(output, 0x55, sizeof output);
    memset(slot, 0x55, sizeof slot);
    memcpy(filter_before, filter, sizeof filter);
    memcpy(slots_before, slots, sizeof slots);
    memcpy(output_before, output, sizeof output);
    memcpy(slot_before, slot, sizeof slot);
    for (which = 0; which < 5; which++) {
        for (k = 0; k < 7; k++) {
            const uint64_t right[5] = {N, M, I, FILTER, I};
            memcpy(sizes, right, sizeof sizes);
            sizes[which] = wrong(right[which], k);
            if (sizes[which] == right[which]) continue;
            check(estimators_kalman_predict(sizes[0], sizes[1], sizes[2], filter, sizes[3], none, sizes[4]) == ESTIMATORS_REFUSED_SIZE,
                "predict with a wrong size");
            check(estimators_kalman_update(sizes[0], sizes[1], sizes[2], filter, sizes[3], none, sizes[4], innovation, M)
                == ESTIMATORS_REFUSED_SIZE, "update with a wrong size");
        }
        for (k = 0; k < 7; k++) {
            const uint64_t right[5] = {N, ROOM, SLOTS, PAIR, 3};
            memcpy(sizes, right, sizeof sizes);
            sizes[which] = which == 4 ? ROOM + 1 + (uint64_t)k : wrong(right[which], k);
            if (sizes[which] == right[which]) continue;
            count = sizes[4];
            check(estimators_rts_smoother_store_forward(sizes[0], sizes[1], &count, slots, sizes[2], filter + STATE, sizes[3],
                filter + STATE, PAIR) == ESTIMATORS_REFUSED_SIZE && count == sizes[4], "a store with a wrong size");
            check(estimators_rts_smoother_get_state(sizes[0], sizes[1], count, slots, sizes[2], 0, slot, 2 * sizes[3])
                == ESTIMATORS_REFUSED_SIZE, "a slot with a wrong size");
            check(estimators_rts_smoother_smooth(sizes[0], sizes[1], count, slots, sizes[2], filter, N * N, output, ROOM * sizes[3])
                == ESTIMATORS_REFUSED_SIZE, "smoothing with a wrong size");
        }
    }
    check(memcmp(filter, filter_before, sizeof filter) == 0 && innovation[0] == 7, "the filter stays");
    check(memcmp(slots, slots_before, sizeof slots) == 0 && memcmp(slot, slot_before, sizeof slot) == 0, "the slots stay");
    check(memcmp(output, output_before, sizeof output) == 0, "the output stays");
}

/* The refusals that right sizes can meet. */
static void other_refusals(const tracker *t)
{
    const double flat[N * N] = {1, 2, 2, 4}, falling[N * N] = {1, 0, 1, 1};
    double out[N * N] = {7, 7, 7, 7}, slot[SLOT], filter[FILTER], before[FILTER], innovation[M] = {7}, slots[SLOTS];
    uint64_t count = ROOM;

    check(estimators_matrix_inv(N, flat, N * N, out, N * N) == ESTIMATORS_REFUSED_INVERSE && out[0] == 7, "no inverse");
    check(estimators_matrix_cholesky(N, falling, N * N, out, N * N) == ESTIMATORS_REFUSED_FACTOR && out[3] == 7, "no factor");
    memcpy(slots, t->slots, sizeof slots);
    check(estimators_rts_smoother_store_forward(N, ROOM, &count, slots, SLOTS, t->filter + STATE, PAIR, t->filter + STATE, PAIR)
        == ESTIMATORS_REFUSED_FULL && count == ROOM, "a full buffer");
    check(memcmp(slots, t->slots, sizeof slots) == 0, "a full buffer stays");
    check(estimators_rts_smoother_get_state(N, ROOM, 3, slots, SLOTS, 3, slot, SLOT) == ESTIMATORS_REFUSED_SLOT, "a slot past the count");
    check(estimators_rts_smoother_get_state(N, ROOM, 3, slots, SLOTS, UINT64_MAX, slot, SLOT) == ESTIMATORS_REFUSED_SLOT, "a slot far past it");
    check(estimators_rts_smoother_get_state(N, ROOM, 3, slots, SLOTS, 2, slot, SLOT) == ESTIMATORS_OK
        && memcmp(slot, slots + ESTIMATORS_SLOT_STATE(N, 2), sizeof slot) == 0, "a slot that is stored");
    check(estimators_kalman_position_velocity(1.0, 0.0, 0.0, filter, FILTER) == ESTIMATORS_OK, "a filter without noise");
    memset(filter + ESTIMATORS_FILTER_COVARIANCE(N, M, I), 0, N * N * sizeof(double));
    memcpy(before, filter, sizeof filter);
    check(estimators_kalman_update(N, M, I, filter, FILTER, none, M, innovation, M) == ESTIMATORS_REFUSED_INVERSE, "no variance at all");
    check(memcmp(filter, before, sizeof filter) == 0 && innovation[0] == 7, "a refused update changes nothing");
}

/* Where the header says that parts begin, the functions read them. */
static void places(void)
{
    const double a[N * N] = {1, 1, 0, 1}, b[N * I] = {0, 0}, h[M * N] = {1, 0}, q[N * N] = {1, 0, 0, 1}, r[M * M] = {4};
    const double x0[N] = {5, 6}, p0[N * N] = {4, 0, 0, 16}, half[MODELS * MODELS] = {0.5, 0.5, 0.5, 0.5};
    double filter[FILTER], root[SQRT], models[MODELS * MODEL], bank[BANK], out[N * N], one;
    int k;

    check(estimators_kalman_new(N, M, I, a, N * N, b, N * I, h, M * N, q, N * N, r, M * M, x0, N, p0, N * N, filter, FILTER)
        == ESTIMATORS_OK && filter[STATE] == 5 && filter[ESTIMATORS_FILTER_COVARIANCE(N, M, I)] == 4, "a linear filter's places");
    check(estimators_kalman_covariance(N, M, I, filter, FILTER, out, N * N) == ESTIMATORS_OK && out[3] == 16, "and its covariance");
    check(estimators_information_new(N, M, I, a, N * N, b, N * I, h, M * N, q, N * N, r, M * M, x0, N, p0, N * N, filter, FILTER)
        == ESTIMATORS_OK && filter[ESTIMATORS_INFORMATION_VECTOR(N, M, I)] == 1.25
        && filter[ESTIMATORS_INFORMATION_MATRIX(N, M, I)] == 0.25, "an information filter's places");
    check(estimators_sqrt_kalman_new(N, M, I, a, N * N, b, N * I, h, M * N, q, N * N, r, M, x0, N, p0, N * N, root, SQRT)
        == ESTIMATORS_OK && root[ESTIMATORS_SQRT_STATE(N, M, I)] == 5 && root[ESTIMATORS_SQRT_FACTOR(N, M, I)] == 2,
        "a square-root filter's places");
    for (k = 0; k < MODELS; k++) {
        memset(models + k * MODEL, 0, MODEL * sizeof(double));
        models[ESTIMATORS_BANK_STATE(N, k)] = 5 + k;
        models[ESTIMATORS_BANK_COVARIANCE(N, k)] = 4;
        models[ESTIMATORS_BANK_LIKELIHOOD(N, k)] = 1 + 2 * k;
    }
    check(estimators_imm_new(N, M, MODELS, models, MODELS * MODEL, half, MODELS * MODELS, h, M * N, r, M * M, bank, BANK)
        == ESTIMATORS_OK && bank[ESTIMATORS_BANK_PROBABILITIES(N, M, MODELS)] == 0.5, "a bank's places");
    check(estimators_imm_fused_estimate(N, M, MODELS, bank, BANK, out, N) == ESTIMATORS_OK && out[0] == 5.5, "its states");
    check(estimators_imm_update_probabilities(N, M, MODELS, bank, BANK) == ESTIMATORS_OK, "its likelihoods");
    check(estimators_imm_model_probability(N, M, MODELS, bank, BANK, 1, &one) == ESTIMATORS_OK && one == 0.75, "and probabilities");
    check(estimators_imm_model_probability(N, M, MODELS, bank, BANK, 2, &one) == ESTIMATORS_REFUSED_SIZE && one == 0.75, "a third model");
}

/* Sheets of any bytes: a report, within its room. */
static void sheets(void)
{
    static const char likely[] = "     1234567890\n-";
    uint8_t sheet[ESTIMATORS_SHEET] = {0}, report[ESTIMATORS_REPORT];
    uint64_t written = 7;
    unsigned state = 1;
    int k, length;

    check(estimators_sheet_report(sheet, 0, report, ESTIMATORS_REPORT - 1, &written) == ESTIMATORS_REFUSED_SIZE && written == 7, "a short output");
    for (length = 0; length < ESTIMATORS_SHEET; length += 31) {
        for (k = 0; k < length; k++) {
            state = state * 1103515245u + 12345u;
            sheet[k] = length % 2 ? (uint8_t)likely[(state >> 16) % 17] : (uint8_t)(state >> 16);
        }
        check(estimators_sheet_report(sheet, (uint64_t)length, report, sizeof report, &written) == ESTIMATORS_OK
            && written == 17 && report[7] == '0' + ESTIMATORS_SHEET_FORM && report[16] == '\n', "a sheet of any bytes");
    }
}

int main(void)
{
    static tracker t;

    track_a_duty(&t);
    numbers_that_are_none();
    wrong_sizes(&t);
    other_refusals(&t);
    places();
    sheets();
    printf("%d checks, %d failed\n", checks, failures);
    return failures == 0 ? 0 : 1;
}
