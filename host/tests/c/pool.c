/* Keeps three drawers in a pool and prints what becomes of them: opened, judged, listed, set, removed,
 * and what is refused. */

#include <stdio.h>
#include <string.h>

#include "withdrawal_watch.h"

/* A row of one number, and what is lent of the forest. */
static const float one[1] = {1}, zero[1] = {0};
static const double none[1] = {0};

static uint8_t pool[KRCF_POOL_BYTES];

static void put_u32(uint8_t *at, uint32_t n) {
    for (int k = 0; k < 4; k++) at[k] = (uint8_t)(n >> (8 * k));
}

static void judge(uint32_t drawer, uint32_t values_seen, float score) {
    uint8_t reading[KRCF_READING_BYTES] = {0};
    uint8_t last[KRCF_LAST_BYTES] = {0};
    uint8_t verdict[KRCF_VERDICT_BYTES] = {0};
    float expected[1];
    double out_high[1], out_low[1];
    put_u32(reading, 1);
    put_u32(reading + 4, 1);
    put_u32(reading + 11, values_seen);
    put_u32(reading + 15, krcf_f32_to_bits(score));
    uint8_t answer = krcf_pool_detect_and_modify(
        pool, sizeof pool, drawer, reading, sizeof reading, last, sizeof last, one, 1, one, 1, zero, 1,
        zero, 1, NULL, 0, NULL, 0, none, 1, none, 1, one, 1, none, 1, none, 1, NULL, 0, expected, 1,
        out_high, 1, out_low, 1, verdict, sizeof verdict);
    printf("judge %u: answer %d, kind %d\n", (unsigned)drawer, answer, verdict[0]);
}

static void list(void) {
    uint32_t numbers[KRCF_POOL_RECORDS];
    uint8_t answer = krcf_pool_list(pool, sizeof pool, numbers, KRCF_POOL_RECORDS);
    printf("list: answer %d,", answer);
    for (int k = 0; answer == 0 && k < KRCF_POOL_RECORDS && numbers[k] != 0; k++) {
        printf(" %u", (unsigned)numbers[k]);
    }
    printf("\n");
}

int main(void) {
    uint8_t before[KRCF_POOL_BYTES];
    printf("lay out: answer %d\n", krcf_pool_lay_out(pool, sizeof pool));
    for (uint32_t drawer = 7; drawer < 10; drawer++) {
        printf("open %u: answer %d\n", (unsigned)drawer,
               krcf_pool_open(pool, sizeof pool, drawer, 0.01, 0, 1));
    }
    list();
    judge(8, 1, 1.25f);
    judge(7, 1, 0.0f);
    memcpy(before, pool, sizeof pool);
    judge(6, 1, 1.25f);
    printf("open 8: answer %d\n", krcf_pool_open(pool, sizeof pool, 8, 0.01, 0, 1));
    printf("horizon of 8: answer %d\n", krcf_pool_set_horizon(pool, sizeof pool, 8, 2.0f));
    printf("short pool: answer %d\n", krcf_pool_remove(pool, sizeof pool - 1, 8));
    printf("pool %s\n", memcmp(before, pool, sizeof pool) == 0 ? "kept" : "changed");
    printf("remove 8: answer %d\n", krcf_pool_remove(pool, sizeof pool, 8));
    list();
    return 0;
}
