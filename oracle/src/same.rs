//! When two answers are the same: bit for bit, any NaN equal to any NaN.

use rcflib::common::deviation::Deviation;
use rcflib::common::divector::DiVector;
use rcflib::trcf::basicthresholder::Numbers;
use rcflib::trcf::predictorcorrector::State;

pub trait Same {
    fn same(&self, other: &Self) -> bool;

    /// The value for a reader, floats by their bits.
    fn show(&self) -> String;
}

impl Same for f32 {
    #[inline]
    fn same(&self, other: &f32) -> bool {
        self.to_bits() == other.to_bits() || (self.is_nan() && other.is_nan())
    }

    fn show(&self) -> String {
        format!("{:08x} ({self:e})", self.to_bits())
    }
}

impl Same for f64 {
    #[inline]
    fn same(&self, other: &f64) -> bool {
        self.to_bits() == other.to_bits() || (self.is_nan() && other.is_nan())
    }

    fn show(&self) -> String {
        format!("{:016x} ({self:e})", self.to_bits())
    }
}

/// Types whose values are the same if they are equal.
macro_rules! plain {
    ($($t:ty),*) => {$(
        impl Same for $t {
            #[inline]
            fn same(&self, other: &$t) -> bool {
                self == other
            }

            fn show(&self) -> String {
                format!("{self:?}")
            }
        }
    )*};
}

plain!(u8, u32, u64, usize, i32, bool, String);

impl<T: Same> Same for [T] {
    fn same(&self, other: &[T]) -> bool {
        self.len() == other.len() && self.iter().zip(other).all(|(a, b)| a.same(b))
    }

    fn show(&self) -> String {
        let each: Vec<String> = self.iter().map(|x| x.show()).collect();
        format!("[{}]", each.join(", "))
    }
}

impl<T: Same> Same for Vec<T> {
    fn same(&self, other: &Vec<T>) -> bool {
        self[..].same(&other[..])
    }

    fn show(&self) -> String {
        self[..].show()
    }
}

impl<T: Same, const N: usize> Same for [T; N] {
    fn same(&self, other: &[T; N]) -> bool {
        self[..].same(&other[..])
    }

    fn show(&self) -> String {
        self[..].show()
    }
}

impl<A: Same, B: Same> Same for (A, B) {
    fn same(&self, other: &(A, B)) -> bool {
        self.0.same(&other.0) && self.1.same(&other.1)
    }

    fn show(&self) -> String {
        format!("({}, {})", self.0.show(), self.1.show())
    }
}

/// Records, field by field.
macro_rules! record {
    ($t:ty: $($field:ident),*) => {
        impl Same for $t {
            fn same(&self, other: &$t) -> bool {
                $(self.$field.same(&other.$field))&&*
            }

            fn show(&self) -> String {
                let each = [$(format!("{} {}", stringify!($field), self.$field.show())),*];
                format!("{{{}}}", each.join(", "))
            }
        }
    };
}

record!(Deviation: discount, weight, sum_squared, sum, count);

record!(DiVector: high, low);

record!(Numbers: elasticity, count, score_differencing, last_score, primary_deviation,
    secondary_deviation, threshold_deviation, auto_threshold, absolute_threshold,
    absolute_score_fraction, lower_threshold, factor_adjustment_threshold, initial_threshold,
    z_factor);

record!(State: basic_thresholder, auto_adjust, run_length, deviations_actual, deviations_expected);
