//! A thousand withdrawals from one drawer, judged over a forest of one's own.

use std::convert::Infallible;

use withdrawal_watch::{Attribution, Drawer, Forest, Verdict, Withdrawal};

/// Stands for a random cut forest that knows one usual amount.
struct Usual(f32);

impl Forest for Usual {
    type Error = Infallible;

    fn score(&self, point: &[f32]) -> Result<f64, Infallible> {
        let far = point.iter().map(|x| f64::from((x - self.0).abs()));
        Ok(0.75 + far.sum::<f64>() / 16.0)
    }

    fn attribution(&self, point: &[f32]) -> Result<Attribution, Infallible> {
        let far = |x: f32| f64::from(x.max(0.0));
        Ok(Attribution {
            high: point.iter().map(|x| far(x - self.0)).collect(),
            low: point.iter().map(|x| far(self.0 - x)).collect(),
        })
    }

    fn density_interpolant(&self, point: &[f32]) -> Result<Attribution, Infallible> {
        self.attribution(point)
    }

    fn near_neighbor_list(&self, point: &[f32], _: usize) -> Result<Vec<f32>, Infallible> {
        Ok(vec![self.0; point.len()])
    }

    fn conditional_field(
        &self,
        _positions: &[usize],
        point: &[f32],
        _centrality: f64,
        _project: bool,
        _max_number: usize,
    ) -> Result<Vec<f32>, Infallible> {
        Ok(vec![self.0; point.len()])
    }
}

fn main() -> Result<(), Box<dyn std::error::Error>> {
    let forest = Usual(3.0);
    let mut drawer = Drawer::new(0.01, false, 1)?;
    let mut point = [3.0; 4]; // the last four amounts
    let mut raised = 0;
    for n in 1..=1000 {
        point.rotate_left(1);
        point[3] = if n % 300 == 0 {
            12.0
        } else {
            2.0 + (n % 3) as f32
        };
        let withdrawal = Withdrawal {
            shingle_size: 4,
            base_dimension: 1,
            values_seen: n,
            rcf_point: &point,
            scale: &[1.0],
            shift: &[0.0],
            difference_deviations: &[1.0],
            ..Withdrawal::default()
        };
        if let Verdict::Raised { expected_point, .. } = drawer.judge(&withdrawal, &forest)? {
            let (taken, expected) = (point[3], expected_point[3]);
            println!("withdrawal {n}: recount, {taken} taken where {expected} was expected");
            raised += 1;
        }
        drawer = Drawer::of_bytes(&drawer.to_bytes())?; // as after a restart
    }
    println!("1000 withdrawals, {raised} to recount");
    Ok(())
}
