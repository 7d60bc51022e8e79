//! States as the C functions take them: little-endian, without gaps, in the Rust's field order.

use std::hint::black_box;

use rcflib::common::deviation::Deviation;
use rcflib::trcf::basicthresholder::Numbers;

pub trait Bytes {
    const SIZE: usize;

    /// Writes the value to the first SIZE bytes.
    fn put(&self, out: &mut [u8]);

    /// Reads it from there.
    fn get(bytes: &[u8]) -> Self;

    /// The value with the one pattern for a NaN that our library writes.
    fn plain(self) -> Self;

    fn bytes(&self) -> Vec<u8> {
        let mut out = vec![0; Self::SIZE];
        self.put(&mut out);
        out
    }
}

macro_rules! number {
    ($($t:ty: $plain:expr),*) => {$(
        impl Bytes for $t {
            const SIZE: usize = size_of::<$t>();

            #[inline]
            fn put(&self, out: &mut [u8]) {
                out[..Self::SIZE].copy_from_slice(&self.to_le_bytes());
            }

            #[inline]
            fn get(bytes: &[u8]) -> $t {
                let mut own = [0; Self::SIZE];
                own.copy_from_slice(&bytes[..Self::SIZE]);
                <$t>::from_le_bytes(own)
            }

            #[inline]
            fn plain(self) -> $t {
                $plain(self)
            }
        }
    )*};
}

// The compiler may take any NaN for any other, so it is kept from seeing where x comes from.
number!(
    f64: |x| { let x: f64 = black_box(x); if x.is_nan() { f64::NAN } else { x } },
    f32: |x| { let x: f32 = black_box(x); if x.is_nan() { f32::NAN } else { x } },
    i32: |n| n
);

impl Bytes for bool {
    const SIZE: usize = 1;

    fn put(&self, out: &mut [u8]) {
        out[0] = *self as u8;
    }

    fn get(bytes: &[u8]) -> bool {
        bytes[0] != 0
    }

    fn plain(self) -> bool {
        self
    }
}

/// A record as its fields one after another.
macro_rules! record {
    ($t:ident: $($field:ident: $kind:ty),*) => {
        impl Bytes for $t {
            const SIZE: usize = 0 $(+ <$kind>::SIZE)*;

            fn put(&self, mut out: &mut [u8]) {
                $(
                    self.$field.put(out);
                    out = &mut out[<$kind>::SIZE..];
                )*
                let _ = out;
            }

            fn get(mut bytes: &[u8]) -> $t {
                $(
                    let $field = <$kind>::get(bytes);
                    bytes = &bytes[<$kind>::SIZE..];
                )*
                let _ = bytes;
                $t { $($field),* }
            }

            fn plain(self) -> $t {
                $t { $($field: self.$field.plain()),* }
            }
        }
    };
}

record!(Deviation: discount: f64, weight: f64, sum_squared: f64, sum: f64, count: i32);

record!(Numbers: elasticity: f32, count: i32, score_differencing: f32, last_score: f32,
    primary_deviation: Deviation, secondary_deviation: Deviation, threshold_deviation: Deviation,
    auto_threshold: bool, absolute_threshold: f32, absolute_score_fraction: f32,
    lower_threshold: f32, factor_adjustment_threshold: f32, initial_threshold: f32,
    z_factor: f32);
