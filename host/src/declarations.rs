//! The library's C functions. A slice is its start and its length in elements.
//!
//! Written by `tools/declarations` from the Rattle source, which its `--check` compares.

// Each program that reads this file needs a part of it.
#![allow(dead_code)]

#[link(name = "c_interface", kind = "static")]
unsafe extern "C" {
    pub safe fn krcf_sqrt(x: f64) -> f64;
    pub safe fn krcf_floor(x: f32) -> f32;
    pub safe fn krcf_narrow(x: f64) -> f32;
    pub safe fn krcf_widen(x: f32) -> f64;
    pub safe fn krcf_f32_from_bits(n: u32) -> f32;
    pub safe fn krcf_f64_from_bits(n: u64) -> f64;
    pub safe fn krcf_f32_to_bits(x: f32) -> u32;
    pub safe fn krcf_f64_to_bits(x: f64) -> u64;
    pub safe fn krcf_i32_to_f32(n: i32) -> f32;
    pub safe fn krcf_i32_to_f64(n: i32) -> f64;
    pub safe fn krcf_u32_to_f32(n: u32) -> f32;
    pub safe fn krcf_usize_to_f64(n: usize) -> f64;
    pub safe fn krcf_maxf32(a: f32, b: f32) -> f32;
    pub safe fn krcf_minf32(a: f32, b: f32) -> f32;
    pub safe fn krcf_absf32(a: f32) -> f32;
    pub fn krcf_deviation_new(discount: f64, out: *mut u8, out_len: usize) -> u8;
    pub fn krcf_deviation_update(state: *mut u8, state_len: usize, score: f64) -> u8;
    pub fn krcf_deviation_reset(state: *mut u8, state_len: usize) -> u8;
    pub fn krcf_deviation_mean(
        state: *const u8,
        state_len: usize,
        out: *mut u8,
        out_len: usize,
    ) -> u8;
    pub fn krcf_deviation_deviation(
        state: *const u8,
        state_len: usize,
        out: *mut u8,
        out_len: usize,
    ) -> u8;
    pub fn krcf_deviation_is_empty(
        state: *const u8,
        state_len: usize,
        out: *mut u8,
        out_len: usize,
    ) -> u8;
    pub fn krcf_thresholder_new(discount: f64, adjust: u8, out: *mut u8, out_len: usize) -> u8;
    pub fn krcf_thresholder_is_deviation_ready(
        state: *const u8,
        state_len: usize,
        out: *mut u8,
        out_len: usize,
    ) -> u8;
    pub fn krcf_threshold(state: *const u8, state_len: usize, out: *mut u8, out_len: usize) -> u8;
    pub fn krcf_primary_grade(
        state: *const u8,
        state_len: usize,
        score: f32,
        out: *mut u8,
        out_len: usize,
    ) -> u8;
    pub fn krcf_primary_threshold_and_grade(
        state: *const u8,
        state_len: usize,
        score: f32,
        out: *mut u8,
        out_len: usize,
    ) -> u8;
    pub fn krcf_threshold_and_grade(
        state: *const u8,
        state_len: usize,
        score: f32,
        method: u8,
        shingle_size: usize,
        out: *mut u8,
        out_len: usize,
    ) -> u8;
    pub fn krcf_threshold_and_grade_with_factor(
        state: *const u8,
        state_len: usize,
        score: f32,
        factor: f32,
        method: u8,
        shingle_size: usize,
        out: *mut u8,
        out_len: usize,
    ) -> u8;
    pub fn krcf_update_threshold(state: *mut u8, state_len: usize, score: f32) -> u8;
    pub fn krcf_update_primary(state: *mut u8, state_len: usize, score: f64) -> u8;
    pub fn krcf_update_both(state: *mut u8, state_len: usize, primary: f32, secondary: f32) -> u8;
    pub fn krcf_update(
        state: *mut u8,
        state_len: usize,
        primary: f32,
        secondary: f32,
        last_score: f32,
    ) -> u8;
    pub fn krcf_set_score_differencing(state: *mut u8, state_len: usize, horizon: f32) -> u8;
    pub fn krcf_set_z_factor(state: *mut u8, state_len: usize, factor: f32) -> u8;
    pub fn krcf_set_lower_threshold(state: *mut u8, state_len: usize, lower: f32) -> u8;
    pub fn krcf_set_absolute_threshold(state: *mut u8, state_len: usize, value: f32) -> u8;
    pub fn krcf_set_initial_threshold(state: *mut u8, state_len: usize, initial: f32) -> u8;
}

#[link(name = "c_chain", kind = "static")]
unsafe extern "C" {
    pub fn krcf_total(
        high: *const f64,
        high_len: usize,
        low: *const f64,
        low_len: usize,
        out: *mut u8,
        out_len: usize,
    ) -> u8;
    pub fn krcf_scale(
        high: *mut f64,
        high_len: usize,
        low: *mut f64,
        low_len: usize,
        factor: f64,
    ) -> u8;
    pub fn krcf_normalize(
        high: *mut f64,
        high_len: usize,
        low: *mut f64,
        low_len: usize,
        value: f64,
    ) -> u8;
    pub fn krcf_divide(
        high: *mut f64,
        high_len: usize,
        low: *mut f64,
        low_len: usize,
        num: usize,
    ) -> u8;
    pub fn krcf_assign(
        high: *mut f64,
        high_len: usize,
        low: *mut f64,
        low_len: usize,
        from_high: *const f64,
        from_high_len: usize,
        from_low: *const f64,
        from_low_len: usize,
    ) -> u8;
    pub fn krcf_add_to(
        high: *const f64,
        high_len: usize,
        low: *const f64,
        low_len: usize,
        other_high: *mut f64,
        other_high_len: usize,
        other_low: *mut f64,
        other_low_len: usize,
    ) -> u8;
    pub fn krcf_add_to_scaled(
        high: *const f64,
        high_len: usize,
        low: *const f64,
        low_len: usize,
        other_high: *mut f64,
        other_high_len: usize,
        other_low: *mut f64,
        other_low_len: usize,
        factor: f64,
    ) -> u8;
    pub fn krcf_high_low_sum(
        high: *const f64,
        high_len: usize,
        low: *const f64,
        low_len: usize,
        index: usize,
        out: *mut u8,
        out_len: usize,
    ) -> u8;
    pub fn krcf_max_gap_contribution(
        high: *const f64,
        high_len: usize,
        low: *const f64,
        low_len: usize,
        base: usize,
        gap: usize,
        out: *mut u8,
        out_len: usize,
    ) -> u8;
    pub fn krcf_max_contribution(
        high: *const f64,
        high_len: usize,
        low: *const f64,
        low_len: usize,
        base: usize,
        out: *mut u8,
        out_len: usize,
    ) -> u8;
    pub fn krcf_new(
        discount: f64,
        auto_adjust: u8,
        base_dimension: usize,
        out: *mut u8,
        out_len: usize,
    ) -> u8;
    pub fn krcf_chain_set_z_factor(state: *mut u8, state_len: usize, factor: f32) -> u8;
    pub fn krcf_chain_set_lower_threshold(state: *mut u8, state_len: usize, lower: f32) -> u8;
    pub fn krcf_chain_set_initial_threshold(state: *mut u8, state_len: usize, initial: f32) -> u8;
    pub fn krcf_chain_set_horizon(state: *mut u8, state_len: usize, horizon: f32) -> u8;
}

#[link(name = "c_calls", kind = "static")]
unsafe extern "C" {
    pub fn krcf_asked_of_forest(
        state: *const u8,
        state_len: usize,
        reading: *const u8,
        reading_len: usize,
        last: *const u8,
        last_len: usize,
        out: *mut usize,
        out_len: usize,
    ) -> u8;
    pub fn krcf_likely_missing_indices(
        shingle_size: usize,
        base_dimension: usize,
        gap: usize,
        high: *const f64,
        high_len: usize,
        low: *const f64,
        low_len: usize,
        out: *mut usize,
        out_len: usize,
    ) -> u8;
    pub fn krcf_expected_point(
        shingle_size: usize,
        base_dimension: usize,
        position: usize,
        point: *const f32,
        point_len: usize,
        high: *const f64,
        high_len: usize,
        low: *const f64,
        low_len: usize,
        median: *const f32,
        median_len: usize,
        out: *mut f32,
        out_len: usize,
    ) -> u8;
    pub fn krcf_apply_basic_corrector(
        point: *const f32,
        point_len: usize,
        gap: usize,
        shingle_size: usize,
        base_dimension: usize,
        has_anomaly: u8,
        last_expected: *const f32,
        last_expected_len: usize,
        last_anomalous: *const f32,
        last_anomalous_len: usize,
        relative_index: i32,
        use_difference: u8,
        time_augmented: u8,
        out: *mut f32,
        out_len: usize,
    ) -> u8;
    pub fn krcf_update_auto_adjust(
        state: *mut u8,
        state_len: usize,
        shingle_size: usize,
        point: *const f32,
        point_len: usize,
    ) -> u8;
}

#[link(name = "c_judging", kind = "static")]
unsafe extern "C" {
    pub fn krcf_detect_and_modify(
        state: *mut u8,
        state_len: usize,
        reading: *const u8,
        reading_len: usize,
        last: *const u8,
        last_len: usize,
        point: *const f32,
        point_len: usize,
        scale: *const f32,
        scale_len: usize,
        shift: *const f32,
        shift_len: usize,
        difference_deviations: *const f32,
        difference_deviations_len: usize,
        last_expected: *const f32,
        last_expected_len: usize,
        last_anomalous: *const f32,
        last_anomalous_len: usize,
        high: *const f64,
        high_len: usize,
        low: *const f64,
        low_len: usize,
        median: *const f32,
        median_len: usize,
        ideal_high: *const f64,
        ideal_high_len: usize,
        ideal_low: *const f64,
        ideal_low_len: usize,
        neighbours: *const f32,
        neighbours_len: usize,
        expected: *mut f32,
        expected_len: usize,
        out_high: *mut f64,
        out_high_len: usize,
        out_low: *mut f64,
        out_low_len: usize,
        verdict: *mut u8,
        verdict_len: usize,
    ) -> u8;
    pub fn krcf_newest_row(
        point: *const f32,
        point_len: usize,
        shingle_size: usize,
        base_dimension: usize,
        out: *mut u8,
        out_len: usize,
    ) -> u8;
}

#[link(name = "pool_drawers", kind = "static")]
unsafe extern "C" {
    pub fn krcf_pool_lay_out(pool: *mut u8, pool_len: usize) -> u8;
    pub fn krcf_pool_open(
        pool: *mut u8,
        pool_len: usize,
        drawer: u32,
        discount: f64,
        auto_adjust: u8,
        base_dimension: usize,
    ) -> u8;
    pub fn krcf_pool_remove(pool: *mut u8, pool_len: usize, drawer: u32) -> u8;
    pub fn krcf_pool_list(
        pool: *const u8,
        pool_len: usize,
        numbers: *mut u32,
        numbers_len: usize,
    ) -> u8;
}

#[link(name = "pool_settings", kind = "static")]
unsafe extern "C" {
    pub fn krcf_pool_set_z_factor(pool: *mut u8, pool_len: usize, drawer: u32, factor: f32) -> u8;
    pub fn krcf_pool_set_lower_threshold(
        pool: *mut u8,
        pool_len: usize,
        drawer: u32,
        lower: f32,
    ) -> u8;
    pub fn krcf_pool_set_initial_threshold(
        pool: *mut u8,
        pool_len: usize,
        drawer: u32,
        initial: f32,
    ) -> u8;
    pub fn krcf_pool_set_horizon(pool: *mut u8, pool_len: usize, drawer: u32, horizon: f32) -> u8;
}

#[link(name = "pool_judging", kind = "static")]
unsafe extern "C" {
    pub fn krcf_pool_detect_and_modify(
        pool: *mut u8,
        pool_len: usize,
        drawer: u32,
        reading: *const u8,
        reading_len: usize,
        last: *const u8,
        last_len: usize,
        point: *const f32,
        point_len: usize,
        scale: *const f32,
        scale_len: usize,
        shift: *const f32,
        shift_len: usize,
        difference_deviations: *const f32,
        difference_deviations_len: usize,
        last_expected: *const f32,
        last_expected_len: usize,
        last_anomalous: *const f32,
        last_anomalous_len: usize,
        high: *const f64,
        high_len: usize,
        low: *const f64,
        low_len: usize,
        median: *const f32,
        median_len: usize,
        ideal_high: *const f64,
        ideal_high_len: usize,
        ideal_low: *const f64,
        ideal_low_len: usize,
        neighbours: *const f32,
        neighbours_len: usize,
        expected: *mut f32,
        expected_len: usize,
        out_high: *mut f64,
        out_high_len: usize,
        out_low: *mut f64,
        out_low_len: usize,
        verdict: *mut u8,
        verdict_len: usize,
    ) -> u8;
}
