//! The forest's bounding box, as far as the vectors of divector.rs name it. The chain never makes one.

pub mod boundingbox {
    pub struct BoundingBox {
        min_values: Vec<f32>,
        max_values: Vec<f32>,
        range_sum: f64,
    }

    impl BoundingBox {
        pub fn get_min_values(&self) -> &[f32] {
            &self.min_values
        }

        pub fn get_max_values(&self) -> &[f32] {
            &self.max_values
        }

        pub fn get_range_sum(&self) -> f64 {
            self.range_sum
        }
    }
}
