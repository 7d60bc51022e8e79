//! Our library's C functions. A lent slice is passed as its start and its length.

#[path = "../../host/src/declarations.rs"]
pub mod c;

pub use c::krcf_absf32 as absf32;
pub use c::krcf_f32_from_bits as f32_from_bits;
pub use c::krcf_f32_to_bits as f32_to_bits;
pub use c::krcf_f64_from_bits as f64_from_bits;
pub use c::krcf_f64_to_bits as f64_to_bits;
pub use c::krcf_floor as floor;
pub use c::krcf_i32_to_f32 as i32_to_f32;
pub use c::krcf_i32_to_f64 as i32_to_f64;
pub use c::krcf_maxf32 as maxf32;
pub use c::krcf_minf32 as minf32;
pub use c::krcf_narrow as narrow;
pub use c::krcf_sqrt as sqrt;
pub use c::krcf_u32_to_f32 as u32_to_f32;
pub use c::krcf_usize_to_f64 as usize_to_f64;
pub use c::krcf_widen as widen;

// Each function below hands over slices that are alive and apart for the length of the call.

/// Functions that make a state.
macro_rules! making {
    ($($name:ident = $c:ident($($arg:ident: $t:ty),*);)*) => {$(
        pub fn $name($($arg: $t,)* out: &mut [u8]) -> u8 {
            unsafe { c::$c($($arg,)* out.as_mut_ptr(), out.len()) }
        }
    )*};
}

/// Functions that change a state.
macro_rules! changing {
    ($($name:ident = $c:ident($($arg:ident: $t:ty),*);)*) => {$(
        pub fn $name(state: &mut [u8] $(, $arg: $t)*) -> u8 {
            unsafe { c::$c(state.as_mut_ptr(), state.len() $(, $arg)*) }
        }
    )*};
}

/// Functions that read a state and answer into a slice.
macro_rules! reading {
    ($($name:ident = $c:ident($($arg:ident: $t:ty),*);)*) => {$(
        pub fn $name(state: &[u8] $(, $arg: $t)*, out: &mut [u8]) -> u8 {
            unsafe { c::$c(state.as_ptr(), state.len() $(, $arg)*, out.as_mut_ptr(), out.len()) }
        }
    )*};
}

making! {
    deviation_new = krcf_deviation_new(discount: f64);
    thresholder_new = krcf_thresholder_new(discount: f64, adjust: u8);
}

changing! {
    deviation_update = krcf_deviation_update(score: f64);
    deviation_reset = krcf_deviation_reset();
    update_threshold = krcf_update_threshold(score: f32);
    update_primary = krcf_update_primary(score: f64);
    update_both = krcf_update_both(primary: f32, secondary: f32);
    update = krcf_update(primary: f32, secondary: f32, last_score: f32);
    set_score_differencing = krcf_set_score_differencing(horizon: f32);
    set_z_factor = krcf_set_z_factor(factor: f32);
    set_lower_threshold = krcf_set_lower_threshold(lower: f32);
    set_absolute_threshold = krcf_set_absolute_threshold(value: f32);
    set_initial_threshold = krcf_set_initial_threshold(initial: f32);
}

reading! {
    deviation_mean = krcf_deviation_mean();
    deviation_deviation = krcf_deviation_deviation();
    deviation_is_empty = krcf_deviation_is_empty();
    is_deviation_ready = krcf_thresholder_is_deviation_ready();
    threshold = krcf_threshold();
    primary_grade = krcf_primary_grade(score: f32);
    primary_threshold_and_grade = krcf_primary_threshold_and_grade(score: f32);
    threshold_and_grade = krcf_threshold_and_grade(score: f32, method: u8, shingle_size: usize);
    threshold_and_grade_with_factor = krcf_threshold_and_grade_with_factor(
        score: f32, factor: f32, method: u8, shingle_size: usize);
}
