//! A stand-in for the forest: it hands out lent results by the order of the calls.
//!
//! The signatures are rcf.rs's, as far as the chain calls it. A call beyond what was lent panics:
//! then the chain and the reader of its rules disagree on which results a reading uses.

use std::cell::RefCell;
use std::collections::VecDeque;
use std::marker::PhantomData;
use std::mem::take;

use crate::common::divector::DiVector;
use crate::types::Result;

/// What the forest lends to one judgment, each list in the order in which it is asked for. A
/// neighbour is its point between two numbers that the chain does not read.
#[derive(Clone, Debug, Default)]
pub struct Lent {
    pub scores: VecDeque<f64>,
    pub densities: VecDeque<DiVector>,
    pub attributions: VecDeque<DiVector>,
    pub neighbours: Vec<(f64, Vec<f32>, f64)>,
    pub median: Vec<f32>,
}

/// A call that the chain made, with the point that it asked about. The field's other arguments are
/// its centrality, whether it projects, and its largest number.
#[derive(Clone, Debug)]
pub enum Call {
    Score(Vec<f32>),
    Density(Vec<f32>),
    Attribution(Vec<f32>),
    Neighbours(Vec<f32>, usize),
    Field(Vec<usize>, Vec<f32>, (f64, bool, usize)),
}

/// What density_interpolant answers, as far as the chain reads it.
pub struct InterpolationMeasure {
    pub distance: DiVector,
}

/// What conditional_field answers, as far as the chain reads it.
pub struct SampleSummary {
    pub median: Vec<f32>,
}

/// A vector whose total is exactly `score`, minus zero included.
pub fn of_total(score: f32) -> DiVector {
    DiVector {
        high: vec![score as f64],
        low: vec![-0.0],
    }
}

/// Hands each result out once, as it was lent. `calls` is there where they are to be recorded.
pub struct RCFLarge<Label, Attributes> {
    dimensions: usize,
    lent: RefCell<Lent>,
    calls: Option<RefCell<Vec<Call>>>,
    kind: PhantomData<(Label, Attributes)>,
}

impl<Label, Attributes> RCFLarge<Label, Attributes> {
    pub fn lending(dimensions: usize, lent: Lent) -> Self {
        RCFLarge {
            dimensions,
            lent: RefCell::new(lent),
            calls: Some(RefCell::default()),
            kind: PhantomData,
        }
    }

    /// One that records nothing, for timing.
    pub fn unwatched(dimensions: usize, lent: Lent) -> Self {
        RCFLarge {
            calls: None,
            ..RCFLarge::lending(dimensions, lent)
        }
    }

    /// The calls that were recorded, in their order.
    pub fn calls(self) -> Vec<Call> {
        self.calls.map_or(vec![], RefCell::into_inner)
    }

    fn record(&self, call: impl FnOnce() -> Call) {
        if let Some(calls) = &self.calls {
            calls.borrow_mut().push(call());
        }
    }
}

/// The next one of a list's results.
fn next<T>(list: &mut VecDeque<T>) -> T {
    list.pop_front().expect("a result that was lent")
}

pub trait AugmentedRCF<Label, Attributes> {
    fn dimensions(&self) -> usize;
    fn score(&self, point: &[f32]) -> Result<f64>;
    fn attribution(&self, point: &[f32]) -> Result<DiVector>;
    fn density_interpolant(&self, point: &[f32]) -> Result<InterpolationMeasure>;
    fn near_neighbor_list(
        &self,
        point: &[f32],
        percentile: usize,
    ) -> Result<Vec<(f64, Vec<f32>, f64)>>;
    fn conditional_field(
        &self,
        positions: &[usize],
        point: &[f32],
        centrality: f64,
        project: bool,
        max_number: usize,
    ) -> Result<SampleSummary>;
}

impl<Label, Attributes> AugmentedRCF<Label, Attributes> for RCFLarge<Label, Attributes> {
    fn dimensions(&self) -> usize {
        self.dimensions
    }

    fn score(&self, point: &[f32]) -> Result<f64> {
        self.record(|| Call::Score(point.to_vec()));
        Ok(next(&mut self.lent.borrow_mut().scores))
    }

    fn attribution(&self, point: &[f32]) -> Result<DiVector> {
        self.record(|| Call::Attribution(point.to_vec()));
        Ok(next(&mut self.lent.borrow_mut().attributions))
    }

    fn density_interpolant(&self, point: &[f32]) -> Result<InterpolationMeasure> {
        self.record(|| Call::Density(point.to_vec()));
        let distance = next(&mut self.lent.borrow_mut().densities);
        Ok(InterpolationMeasure { distance })
    }

    fn near_neighbor_list(
        &self,
        point: &[f32],
        percentile: usize,
    ) -> Result<Vec<(f64, Vec<f32>, f64)>> {
        self.record(|| Call::Neighbours(point.to_vec(), percentile));
        Ok(take(&mut self.lent.borrow_mut().neighbours))
    }

    fn conditional_field(
        &self,
        positions: &[usize],
        point: &[f32],
        centrality: f64,
        project: bool,
        max_number: usize,
    ) -> Result<SampleSummary> {
        let others = (centrality, project, max_number);
        self.record(|| Call::Field(positions.to_vec(), point.to_vec(), others));
        let median = take(&mut self.lent.borrow_mut().median);
        Ok(SampleSummary { median })
    }
}
