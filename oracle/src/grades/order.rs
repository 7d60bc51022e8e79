//! The floats that are no NaN, in their order, -0 next before 0.

fn place(x: f32) -> i32 {
    let bits = x.to_bits() as i32;
    if bits < 0 {
        !(bits & i32::MAX)
    } else {
        bits
    }
}

fn at(place: i32) -> f32 {
    let bits = place as u32;
    f32::from_bits(if place < 0 { !bits | 1 << 31 } else { bits })
}

/// The float some places on, or the infinity if it lies beyond; of a NaN a NaN.
pub fn beside(x: f32, by: i32) -> f32 {
    if x.is_nan() {
        return x;
    }
    let (least, most) = (place(f32::NEG_INFINITY), place(f32::INFINITY));
    at((place(x).saturating_add(by)).clamp(least, most))
}

/// The least float that passes, if all behind it do; the infinity if none does.
pub fn first(passes: impl Fn(f32) -> bool) -> f32 {
    let mut low = place(f32::NEG_INFINITY) as i64 - 1;
    let mut high = place(f32::INFINITY) as i64;
    while high - low > 1 {
        let middle = (low + high).div_euclid(2);
        if passes(at(middle as i32)) {
            high = middle;
        } else {
            low = middle;
        }
    }
    at(high as i32)
}
