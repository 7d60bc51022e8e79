/* The withdrawal watch's decision chain for programs in C: which drawers to recount.
 *
 * The functions are written in Rattle and proved. `tools/archives NAME` writes libNAME.a
 * to target/staticlib; `cargo build` in host/ does it for all. Each archive stands by itself: link those
 * whose functions you call. They need memcpy and memset, and nothing else.
 *
 * THE RULES A CALLER KEEPS
 *
 * A slice is a pointer and, behind it, a length in elements (not in bytes).
 *  - The pointer is valid for that many elements for the whole call, to read, and to write where it
 *    is not const. It is aligned for its type.
 *  - A slice that is written overlaps no other slice of the call.
 *  - An empty slice may be NULL with length 0.
 *  - No other thread writes to a slice during the call, or reads one that the call writes. Calls on
 *    different memory may run at the same time: the library keeps nothing of its own.
 * Everything else is tested by the call itself: lengths, codes, numbers that are not finite.
 *
 * WHAT A CALL ANSWERS
 *
 * A uint8_t is 0 if the call was carried out, and otherwise the number that applies; then nothing was
 * written. Of several 13 is given, else 11, else 12, else the smallest.
 *   1  discount not at least 0 and below 1
 *   2  shingle size not 1 to 64, base dimension not 1 to 16 or not the state's, or a byte that is a
 *      yes/no (1/0) or a code outside its list
 *   3  a slice is not of its length: D (shingle size times base dimension) for points and
 *      attributions, base dimension for scale, shift and deviations, a table's length for bytes;
 *      neighbours that are not 0 to 256 whole points; a start position beyond D - base dimension
 *   4  a number of the reading or of the last descriptor is infinite or NaN
 *   5  values seen 0, over 16,777,216 or not later than the last anomaly's; gap 0 in the corrector
 *      and for the missing indices
 *   6  a count or the run length in the state is outside 0 to 16,777,215
 *   7  horizon not 0 to 1
 *   8  blocks: gap or base 0, or a length that is empty or no multiple of the base
 *  11  the pool does not have the drawer, has it already on opening, or it is not 1 to 65,535
 *  12  all records of the pool are used, on opening
 *  13  a pool or a listing's buffer of another length; a pool whose chains do not have each record
 *      once, whose count is not the used chain's length, with a drawer number in the used chain that
 *      is not 1 to 65,535 or is there twice, or with a flag there that is not 1 or 0
 * (9 and 10 are of a cabinet's export, which no C function reads.)
 * A call without slices has nothing to refuse and answers its result.
 *
 * THE BYTES
 *
 * Little-endian, without gaps. f32 and f64 are IEEE 754's; "flag" is one byte, 1 or 0.
 *
 * A statistic, 36 bytes:
 *     0 f64 discount     8 f64 weight     16 f64 sum of squares     24 f64 sum     32 i32 count
 *
 * A thresholder, 149 bytes:
 *     0 f32 elasticity           4 i32 count                 8 f32 score differencing (horizon)
 *    12 f32 last score          16 primary statistic        52 secondary statistic
 *    88 third statistic        124 flag auto threshold     125 f32 absolute threshold
 *   129 f32 score fraction     133 f32 lower threshold     137 f32 factor adjustment threshold
 *   141 f32 initial threshold  145 f32 z factor
 *
 * A state, 1310 bytes; krcf_new writes it, and it may be stored and read back as it is:
 *     0 thresholder            149 flag auto adjust        150 u32 run length
 *   154 u32 base dimension     158 16 statistics, actual   734 16 statistics, expected
 * Of the two lists the first "base dimension" entries exist, and only with auto adjust.
 *
 * A new thresholder or state has the z factor 2.5, the absolute threshold 0.8, the initial threshold
 * 1.5 and the horizon 0.5. One that is stored keeps its own.
 *
 * A pool of thirty records, 61472 bytes; krcf_pool_lay_out writes an empty one, and it may be stored
 * and read back as it is:
 *     0 u32 count of drawers     4 u32 first used record     8 u32 first free record
 *    32 30 records of 2048 bytes, counted from 1: record i begins at 32 + 2048 (i - 1)
 * A record, where 0 stands for no record:
 *     0 u32 next in its chain    4 u32 drawer number         8 a state
 * All other bytes are zero in what these functions write, and none looks at them, nor at anything of a
 * free record but its next one.
 *
 * A reading, 23 bytes:
 *     0 u32 shingle size         4 u32 base dimension
 *     8 strategy: 0 EXPECTED_INVERSE_HEIGHT, 1 DISTANCE
 *     9 transform method: 0 NONE, 1 WEIGHTED, 2 DIFFERENCE, 3 SUBTRACT_MA, 4 NORMALIZE,
 *       5 NORMALIZE_DIFFERENCE
 *    10 flag time augmented     11 u32 values seen          15 f32 score
 *    19 f32 corrected point's score
 *
 * The last descriptor, 23 bytes; all zero before the first reading. Behind a no at 9 nothing is
 * looked at, and the slices last_expected and last_anomalous may be empty:
 *     0 strategy                 1 f32 score                 5 f32 threshold
 *     9 flag: there is a last anomaly                       10 i32 its relative index
 *    14 u32 its values seen     18 flag: its attribution was kept
 *    19 f32 its score
 *
 * A verdict, 14 bytes; what a kind does not carry is 0:
 *     0 kind: 0 quiet, 1 corrected, 2 raised (recount the drawer), 3 skipped (score 0)
 *     1 mode of a corrected one: 1 NOISE, 3 ANOMALY_IN_SHINGLE, 4 CONDITIONAL_FORECAST, 5 FORECAST,
 *       6 DATA_DRIFT
 *     2 f32 threshold            6 f32 grade of a raised one, no probability
 *    10 i32 relative index of a raised one: the row that stands out, 0 the newest, -1 the one before
 *
 * ONE READING
 *
 * krcf_detect_and_modify judges a reading and changes the state. Its slices of D: point, last_expected
 * and last_anomalous (the last anomaly's expected and own point), high and low (the forest's attribution
 * of the corrected point), median (its conditional field's), ideal_high and ideal_low (its
 * attribution of the expected point); neighbours are points one after the other; scale, shift and
 * difference_deviations are as long as the base dimension. All of them are tested, so what a path does
 * not need is lent as zeros. expected, out_high and out_low (D each) are written for a raised reading
 * only: the expected point and the normalised attribution. Which forest call fills which slice, and when
 * it has to be asked, is said at the trait Forest in host/src/forest.rs. After an accepted reading the
 * next one's last descriptor has its strategy, score and threshold (0 if skipped; one that is not finite
 * must not be lent, or every later reading is refused by 4), and a raised one is the last anomaly.
 *
 * Between the forest's calls, once the score alone is judged neither quiet nor skipped:
 * krcf_asked_of_forest writes five numbers, the gap (how much later the reading is than the last
 * anomaly, or its values seen where there is none), then 1 for yes and 0 for no: the corrected point's
 * score is asked for, the neighbours are, the expected point's attribution is, the corrector takes the
 * point's numbers for differences. krcf_apply_basic_corrector writes the corrected point;
 * krcf_likely_missing_indices writes eight numbers, the block that stands out, where its row starts,
 * how many positions the conditional field is to be asked for (none: it is not asked) and five places
 * for them; krcf_expected_point writes the expected point, its position being the row's start.
 *
 * Single numbers that a call writes: krcf_threshold and krcf_primary_grade an f32 (4 bytes);
 * krcf_*threshold_and_grade* two f32, threshold and grade (8); krcf_total and krcf_high_low_sum an
 * f64 (8); krcf_max_gap_contribution, krcf_max_contribution and krcf_newest_row a u64 (8);
 * krcf_*_is_* a flag (1).
 *
 * krcf_deviation_mean and krcf_deviation_deviation write a flag and an f64 (9): 1 and the number; or 0
 * for a statistic that is empty, its weight at or below 0, and then the eight bytes behind it are left
 * as they were. A dashboard shows both of a drawer's primary statistic, 36 bytes from byte 16 of a
 * thresholder or a state on; a score by height is counted in it as 2 at most.
 *
 * SEVERAL DRAWERS
 *
 * A pool has the states of up to thirty drawers, each by its number. krcf_pool_open makes a drawer's
 * state as krcf_new does, in the first free record, which becomes the first used one;
 * krcf_pool_detect_and_modify and krcf_pool_set_* do to it what krcf_detect_and_modify and
 * krcf_chain_set_* do to a state, with the same answers behind 13 and 11, and write nothing where the
 * state would be the same, all its numbers comparing equal or both being NaN. krcf_pool_remove
 * clears the record, which becomes the first free one. krcf_pool_list writes thirty numbers: the
 * drawers' in the order of the used chain, the newest first, then zeros. One drawer's verdicts do not
 * depend on the others'.
 */

#ifndef WITHDRAWAL_WATCH_H
#define WITHDRAWAL_WATCH_H

#include <stddef.h>
#include <stdint.h>

#ifdef __cplusplus
extern "C" {
#endif

#define KRCF_STATISTIC_BYTES 36
#define KRCF_THRESHOLDER_BYTES 149
#define KRCF_STATE_BYTES 1310
#define KRCF_READING_BYTES 23
#define KRCF_LAST_BYTES 23
#define KRCF_VERDICT_BYTES 14
#define KRCF_MEASURED_BYTES 9
#define KRCF_POOL_BYTES 61472
#define KRCF_POOL_RECORDS 30

/* The functions. Written by tools/declarations from the Rattle source, which its --check compares. */

/* libc_interface.a */
double krcf_sqrt(double x);
float krcf_floor(float x);
float krcf_narrow(double x);
double krcf_widen(float x);
float krcf_f32_from_bits(uint32_t n);
double krcf_f64_from_bits(uint64_t n);
uint32_t krcf_f32_to_bits(float x);
uint64_t krcf_f64_to_bits(double x);
float krcf_i32_to_f32(int32_t n);
double krcf_i32_to_f64(int32_t n);
float krcf_u32_to_f32(uint32_t n);
double krcf_usize_to_f64(size_t n);
float krcf_maxf32(float a, float b);
float krcf_minf32(float a, float b);
float krcf_absf32(float a);
uint8_t krcf_deviation_new(double discount, uint8_t *out, size_t out_len);
uint8_t krcf_deviation_update(uint8_t *state, size_t state_len, double score);
uint8_t krcf_deviation_reset(uint8_t *state, size_t state_len);
uint8_t krcf_deviation_mean(const uint8_t *state, size_t state_len, uint8_t *out, size_t out_len);
uint8_t krcf_deviation_deviation(
    const uint8_t *state,
    size_t state_len,
    uint8_t *out,
    size_t out_len);
uint8_t krcf_deviation_is_empty(
    const uint8_t *state,
    size_t state_len,
    uint8_t *out,
    size_t out_len);
uint8_t krcf_thresholder_new(double discount, uint8_t adjust, uint8_t *out, size_t out_len);
uint8_t krcf_thresholder_is_deviation_ready(
    const uint8_t *state,
    size_t state_len,
    uint8_t *out,
    size_t out_len);
uint8_t krcf_threshold(const uint8_t *state, size_t state_len, uint8_t *out, size_t out_len);
uint8_t krcf_primary_grade(
    const uint8_t *state,
    size_t state_len,
    float score,
    uint8_t *out,
    size_t out_len);
uint8_t krcf_primary_threshold_and_grade(
    const uint8_t *state,
    size_t state_len,
    float score,
    uint8_t *out,
    size_t out_len);
uint8_t krcf_threshold_and_grade(
    const uint8_t *state,
    size_t state_len,
    float score,
    uint8_t method,
    size_t shingle_size,
    uint8_t *out,
    size_t out_len);
uint8_t krcf_threshold_and_grade_with_factor(
    const uint8_t *state,
    size_t state_len,
    float score,
    float factor,
    uint8_t method,
    size_t shingle_size,
    uint8_t *out,
    size_t out_len);
uint8_t krcf_update_threshold(uint8_t *state, size_t state_len, float score);
uint8_t krcf_update_primary(uint8_t *state, size_t state_len, double score);
uint8_t krcf_update_both(uint8_t *state, size_t state_len, float primary, float secondary);
uint8_t krcf_update(
    uint8_t *state,
    size_t state_len,
    float primary,
    float secondary,
    float last_score);
uint8_t krcf_set_score_differencing(uint8_t *state, size_t state_len, float horizon);
uint8_t krcf_set_z_factor(uint8_t *state, size_t state_len, float factor);
uint8_t krcf_set_lower_threshold(uint8_t *state, size_t state_len, float lower);
uint8_t krcf_set_absolute_threshold(uint8_t *state, size_t state_len, float value);
uint8_t krcf_set_initial_threshold(uint8_t *state, size_t state_len, float initial);

/* libc_chain.a */
uint8_t krcf_total(
    const double *high,
    size_t high_len,
    const double *low,
    size_t low_len,
    uint8_t *out,
    size_t out_len);
uint8_t krcf_scale(double *high, size_t high_len, double *low, size_t low_len, double factor);
uint8_t krcf_normalize(double *high, size_t high_len, double *low, size_t low_len, double value);
uint8_t krcf_divide(double *high, size_t high_len, double *low, size_t low_len, size_t num);
uint8_t krcf_assign(
    double *high,
    size_t high_len,
    double *low,
    size_t low_len,
    const double *from_high,
    size_t from_high_len,
    const double *from_low,
    size_t from_low_len);
uint8_t krcf_add_to(
    const double *high,
    size_t high_len,
    const double *low,
    size_t low_len,
    double *other_high,
    size_t other_high_len,
    double *other_low,
    size_t other_low_len);
uint8_t krcf_add_to_scaled(
    const double *high,
    size_t high_len,
    const double *low,
    size_t low_len,
    double *other_high,
    size_t other_high_len,
    double *other_low,
    size_t other_low_len,
    double factor);
uint8_t krcf_high_low_sum(
    const double *high,
    size_t high_len,
    const double *low,
    size_t low_len,
    size_t index,
    uint8_t *out,
    size_t out_len);
uint8_t krcf_max_gap_contribution(
    const double *high,
    size_t high_len,
    const double *low,
    size_t low_len,
    size_t base,
    size_t gap,
    uint8_t *out,
    size_t out_len);
uint8_t krcf_max_contribution(
    const double *high,
    size_t high_len,
    const double *low,
    size_t low_len,
    size_t base,
    uint8_t *out,
    size_t out_len);
uint8_t krcf_new(
    double discount,
    uint8_t auto_adjust,
    size_t base_dimension,
    uint8_t *out,
    size_t out_len);
uint8_t krcf_chain_set_z_factor(uint8_t *state, size_t state_len, float factor);
uint8_t krcf_chain_set_lower_threshold(uint8_t *state, size_t state_len, float lower);
uint8_t krcf_chain_set_initial_threshold(uint8_t *state, size_t state_len, float initial);
uint8_t krcf_chain_set_horizon(uint8_t *state, size_t state_len, float horizon);

/* libc_calls.a */
uint8_t krcf_asked_of_forest(
    const uint8_t *state,
    size_t state_len,
    const uint8_t *reading,
    size_t reading_len,
    const uint8_t *last,
    size_t last_len,
    size_t *out,
    size_t out_len);
uint8_t krcf_likely_missing_indices(
    size_t shingle_size,
    size_t base_dimension,
    size_t gap,
    const double *high,
    size_t high_len,
    const double *low,
    size_t low_len,
    size_t *out,
    size_t out_len);
uint8_t krcf_expected_point(
    size_t shingle_size,
    size_t base_dimension,
    size_t position,
    const float *point,
    size_t point_len,
    const double *high,
    size_t high_len,
    const double *low,
    size_t low_len,
    const float *median,
    size_t median_len,
    float *out,
    size_t out_len);
uint8_t krcf_apply_basic_corrector(
    const float *point,
    size_t point_len,
    size_t gap,
    size_t shingle_size,
    size_t base_dimension,
    uint8_t has_anomaly,
    const float *last_expected,
    size_t last_expected_len,
    const float *last_anomalous,
    size_t last_anomalous_len,
    int32_t relative_index,
    uint8_t use_difference,
    uint8_t time_augmented,
    float *out,
    size_t out_len);
uint8_t krcf_update_auto_adjust(
    uint8_t *state,
    size_t state_len,
    size_t shingle_size,
    const float *point,
    size_t point_len);

/* libc_judging.a */
uint8_t krcf_detect_and_modify(
    uint8_t *state,
    size_t state_len,
    const uint8_t *reading,
    size_t reading_len,
    const uint8_t *last,
    size_t last_len,
    const float *point,
    size_t point_len,
    const float *scale,
    size_t scale_len,
    const float *shift,
    size_t shift_len,
    const float *difference_deviations,
    size_t difference_deviations_len,
    const float *last_expected,
    size_t last_expected_len,
    const float *last_anomalous,
    size_t last_anomalous_len,
    const double *high,
    size_t high_len,
    const double *low,
    size_t low_len,
    const float *median,
    size_t median_len,
    const double *ideal_high,
    size_t ideal_high_len,
    const double *ideal_low,
    size_t ideal_low_len,
    const float *neighbours,
    size_t neighbours_len,
    float *expected,
    size_t expected_len,
    double *out_high,
    size_t out_high_len,
    double *out_low,
    size_t out_low_len,
    uint8_t *verdict,
    size_t verdict_len);
uint8_t krcf_newest_row(
    const float *point,
    size_t point_len,
    size_t shingle_size,
    size_t base_dimension,
    uint8_t *out,
    size_t out_len);

/* libpool_drawers.a */
uint8_t krcf_pool_lay_out(uint8_t *pool, size_t pool_len);
uint8_t krcf_pool_open(
    uint8_t *pool,
    size_t pool_len,
    uint32_t drawer,
    double discount,
    uint8_t auto_adjust,
    size_t base_dimension);
uint8_t krcf_pool_remove(uint8_t *pool, size_t pool_len, uint32_t drawer);
uint8_t krcf_pool_list(const uint8_t *pool, size_t pool_len, uint32_t *numbers, size_t numbers_len);

/* libpool_settings.a */
uint8_t krcf_pool_set_z_factor(uint8_t *pool, size_t pool_len, uint32_t drawer, float factor);
uint8_t krcf_pool_set_lower_threshold(uint8_t *pool, size_t pool_len, uint32_t drawer, float lower);
uint8_t krcf_pool_set_initial_threshold(
    uint8_t *pool,
    size_t pool_len,
    uint32_t drawer,
    float initial);
uint8_t krcf_pool_set_horizon(uint8_t *pool, size_t pool_len, uint32_t drawer, float horizon);

/* libpool_judging.a */
uint8_t krcf_pool_detect_and_modify(
    uint8_t *pool,
    size_t pool_len,
    uint32_t drawer,
    const uint8_t *reading,
    size_t reading_len,
    const uint8_t *last,
    size_t last_len,
    const float *point,
    size_t point_len,
    const float *scale,
    size_t scale_len,
    const float *shift,
    size_t shift_len,
    const float *difference_deviations,
    size_t difference_deviations_len,
    const float *last_expected,
    size_t last_expected_len,
    const float *last_anomalous,
    size_t last_anomalous_len,
    const double *high,
    size_t high_len,
    const double *low,
    size_t low_len,
    const float *median,
    size_t median_len,
    const double *ideal_high,
    size_t ideal_high_len,
    const double *ideal_low,
    size_t ideal_low_len,
    const float *neighbours,
    size_t neighbours_len,
    float *expected,
    size_t expected_len,
    double *out_high,
    size_t out_high_len,
    double *out_low,
    size_t out_low_len,
    uint8_t *verdict,
    size_t verdict_len);

/* End of the functions. */

#ifdef __cplusplus
}
#endif

#endif
