/* Judges three readings of one drawer and prints what was said: one that is quiet, one that is
 * raised, and one that is refused; and before and after the first two what the drawer shows. */

#include <stdio.h>
#include <string.h>

#include "withdrawal_watch.h"

/* Four rows of one number. */
enum { SHINGLE = 4, BASE = 1, D = SHINGLE * BASE };

static void put_u32(uint8_t *at, uint32_t n) {
    for (int k = 0; k < 4; k++) at[k] = (uint8_t)(n >> (8 * k));
}

static void put_f32(uint8_t *at, float x) {
    put_u32(at, krcf_f32_to_bits(x));
}

static uint32_t get_u32(const uint8_t *at) {
    return (uint32_t)at[0] | (uint32_t)at[1] << 8 | (uint32_t)at[2] << 16 | (uint32_t)at[3] << 24;
}

static float get_f32(const uint8_t *at) {
    return krcf_f32_from_bits(get_u32(at));
}

static double get_f64(const uint8_t *at) {
    return krcf_f64_from_bits((uint64_t)get_u32(at) | (uint64_t)get_u32(at + 4) << 32);
}

/* What is lent of the forest; the same for every reading here. */
static const float point[D] = {2, 1, 2, 9};
static const float median[D] = {2, 2, 2, 2};
static const double high[D] = {0, 0, 0.5, 3};
static const double zeros[D] = {0, 0, 0, 0};
static const float scale[BASE] = {1}, shift[BASE] = {0.5f}, deviations[BASE] = {0.25f};

static void judge(uint8_t *state, uint32_t values_seen, float score) {
    uint8_t reading[KRCF_READING_BYTES] = {0};
    uint8_t last[KRCF_LAST_BYTES] = {0}; /* no anomaly, so its two points are empty */
    uint8_t verdict[KRCF_VERDICT_BYTES];
    float expected[D];
    double out_high[D], out_low[D];
    put_u32(reading, SHINGLE);
    put_u32(reading + 4, BASE);
    put_u32(reading + 11, values_seen);
    put_f32(reading + 15, score);
    uint8_t answer = krcf_detect_and_modify(
        state, KRCF_STATE_BYTES, reading, sizeof reading, last, sizeof last, point, D, scale, BASE,
        shift, BASE, deviations, BASE, NULL, 0, NULL, 0, high, D, zeros, D, median, D, zeros, D,
        zeros, D, NULL, 0, expected, D, out_high, D, out_low, D, verdict, sizeof verdict);
    if (answer != 0) {
        printf("score %g: refusal %d\n", (double)score, answer);
        return;
    }
    static const char *const kinds[] = {"quiet", "corrected", "raised", "skipped"};
    printf("score %g: %s, threshold %g", (double)score, kinds[verdict[0]],
           (double)get_f32(verdict + 2));
    if (verdict[0] == 2) {
        printf(", grade %g, row %d, %g expected, attribution %g", (double)get_f32(verdict + 6),
               (int)(int32_t)get_u32(verdict + 10), (double)expected[D - 1], out_high[D - 1]);
    }
    printf("\n");
}

/* What a dashboard shows of the drawer: byte 0 of the answer says whether there is a number. */
static void show(const uint8_t *state) {
    uint8_t mean[KRCF_MEASURED_BYTES], deviation[KRCF_MEASURED_BYTES];
    const uint8_t *primary = state + 16;
    uint8_t answer = krcf_deviation_mean(primary, KRCF_STATISTIC_BYTES, mean, sizeof mean);
    if (answer == 0) {
        answer = krcf_deviation_deviation(primary, KRCF_STATISTIC_BYTES, deviation, sizeof deviation);
    }
    if (answer != 0) {
        printf("mean and deviation: refusal %d\n", answer);
    } else if (mean[0] == 0) {
        printf("no scores yet\n");
    } else {
        printf("mean %g, deviation %g\n", get_f64(mean + 1), get_f64(deviation + 1));
    }
}

int main(void) {
    uint8_t state[KRCF_STATE_BYTES], before[KRCF_STATE_BYTES];
    uint8_t answer = krcf_new(0.01, 0, BASE, state, sizeof state);
    if (answer != 0) {
        printf("new: refusal %d\n", answer);
        return 1;
    }
    show(state);
    judge(state, 5, 1.25f);
    judge(state, 6, 1.75f);
    show(state);
    memcpy(before, state, sizeof state);
    judge(state, 0, 1.75f);
    printf("state %s\n", memcmp(before, state, sizeof state) == 0 ? "kept" : "changed");
    return 0;
}
