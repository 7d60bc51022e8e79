//! Our C functions on attribution vectors. Each hands over slices that are alive and apart.

use crate::ours::c;

/// Functions that change a vector.
macro_rules! changing {
    ($($name:ident = $c:ident($arg:ident: $t:ty);)*) => {$(
        pub fn $name(high: &mut [f64], low: &mut [f64], $arg: $t) -> u8 {
            unsafe {
                c::$c(high.as_mut_ptr(), high.len(), low.as_mut_ptr(), low.len(), $arg)
            }
        }
    )*};
}

/// Functions that answer a number about a vector in eight bytes.
macro_rules! asking {
    ($($name:ident = $c:ident($($arg:ident: $t:ty),*);)*) => {$(
        pub fn $name(high: &[f64], low: &[f64] $(, $arg: $t)*, out: &mut [u8]) -> u8 {
            unsafe {
                c::$c(
                    high.as_ptr(), high.len(), low.as_ptr(), low.len() $(, $arg)*,
                    out.as_mut_ptr(), out.len(),
                )
            }
        }
    )*};
}

changing! {
    scale = krcf_scale(factor: f64);
    divide = krcf_divide(num: usize);
    normalize = krcf_normalize(value: f64);
}

asking! {
    total = krcf_total();
    high_low_sum = krcf_high_low_sum(index: usize);
    max_gap_contribution = krcf_max_gap_contribution(base: usize, gap: usize);
    max_contribution = krcf_max_contribution(base: usize);
}

/// A vector's high and low, to be changed.
type Changed<'a> = (&'a mut [f64], &'a mut [f64]);

pub fn assign((high, low): Changed, from_high: &[f64], from_low: &[f64]) -> u8 {
    unsafe {
        c::krcf_assign(
            high.as_mut_ptr(),
            high.len(),
            low.as_mut_ptr(),
            low.len(),
            from_high.as_ptr(),
            from_high.len(),
            from_low.as_ptr(),
            from_low.len(),
        )
    }
}

/// A call that adds a pair, which is read, to another.
macro_rules! adding {
    ($($name:ident = $function:ident($($arg:ident: $t:ty)?);)*) => {$(
        pub fn $name(
            high: &[f64],
            low: &[f64],
            (other_high, other_low): Changed,
            $($arg: $t,)?
        ) -> u8 {
            unsafe {
                c::$function(
                    high.as_ptr(),
                    high.len(),
                    low.as_ptr(),
                    low.len(),
                    other_high.as_mut_ptr(),
                    other_high.len(),
                    other_low.as_mut_ptr(),
                    other_low.len(),
                    $($arg,)?
                )
            }
        }
    )*};
}

adding! {
    add_to = krcf_add_to();
    add_to_scaled = krcf_add_to_scaled(factor: f64);
}
