//! A ward's five drawers in one pool, the month that was recorded of them, and a stand-in for their
//! forest.

// Each example needs a part of it.
#![allow(dead_code)]

use std::convert::Infallible;

use withdrawal_watch::{
    Attribution, Drawer, Forest, NotJudged, Refused, ScoringStrategy, Site, StoreError, Verdict,
    Withdrawal,
};

/// The invented month; the example `record` writes it.
pub const MONTH: &str = include_str!("../month.txt");

/// A point is the last four amounts.
pub const SHINGLE: usize = 4;

/// What is known of a drawer beforehand.
#[derive(Clone, Copy)]
pub struct About {
    pub name: &'static str,
    pub drug: &'static str,
    /// The amount that is usually taken, and by how much it usually changes.
    pub usual: f32,
    pub change: f32,
    pub strategy: ScoringStrategy,
    pub auto_adjust: bool,
}

const HEIGHT: ScoringStrategy = ScoringStrategy::ExpectedInverseHeight;
const DISTANCE: ScoringStrategy = ScoringStrategy::Distance;

pub const DRAWERS: [About; 5] = [
    about("A", "morphine", 2.0, 1.0, DISTANCE, false),
    about("B", "fentanyl", 2.0, 1.0, DISTANCE, false),
    about("C", "oxycodone", 4.0, 1.0, DISTANCE, true),
    about("D", "ketamine", 3.0, 1.0, HEIGHT, false),
    about("E", "midazolam", 5.0, 4.0, HEIGHT, false),
];

const fn about(
    name: &'static str,
    drug: &'static str,
    usual: f32,
    change: f32,
    strategy: ScoringStrategy,
    auto_adjust: bool,
) -> About {
    About {
        name,
        drug,
        usual,
        change,
        strategy,
        auto_adjust,
    }
}

/// A stand-in for a random cut forest: it remembers the last points and measures how far a point is
/// from their mean, and an eighth besides for each amount. Until it has eight points it gives the
/// score 0.
#[derive(Clone, Default)]
pub struct Memory {
    points: Vec<[f32; SHINGLE]>,
}

impl Memory {
    const READY: usize = 8;
    const MOST: usize = 60;

    pub fn update(&mut self, point: [f32; SHINGLE]) {
        if self.points.len() == Memory::MOST {
            self.points.remove(0);
        }
        self.points.push(point);
    }

    fn mean(&self) -> [f32; SHINGLE] {
        let n = self.points.len() as f32;
        std::array::from_fn(|k| self.points.iter().map(|p| p[k]).sum::<f32>() / n)
    }

    fn distance(&self, point: &[f32]) -> Attribution {
        if self.points.len() < Memory::READY {
            return Attribution {
                high: vec![0.0; point.len()],
                low: vec![0.0; point.len()],
            };
        }
        let far: Vec<f64> = point
            .iter()
            .zip(self.mean())
            .map(|(x, usual)| (x - usual).into())
            .collect();
        Attribution {
            high: far.iter().map(|x| x.max(0.0) + 0.125).collect(),
            low: far.iter().map(|x| (-x).max(0.0)).collect(),
        }
    }
}

impl Forest for Memory {
    type Error = Infallible;

    fn score(&self, point: &[f32]) -> Result<f64, Infallible> {
        let Attribution { high, low } = self.distance(point);
        let far = high.iter().chain(&low).sum::<f64>();
        // A score by height is about 1 where nothing is unusual.
        let ready = self.points.len() >= Memory::READY;
        Ok(if ready { 0.75 + far / 16.0 } else { 0.0 })
    }

    fn attribution(&self, point: &[f32]) -> Result<Attribution, Infallible> {
        Ok(self.distance(point))
    }

    fn density_interpolant(&self, point: &[f32]) -> Result<Attribution, Infallible> {
        Ok(self.distance(point))
    }

    /// All that it remembers.
    fn near_neighbor_list(&self, _point: &[f32], _: usize) -> Result<Vec<f32>, Infallible> {
        Ok(self.points.concat())
    }

    fn conditional_field(
        &self,
        _positions: &[usize],
        _point: &[f32],
        _centrality: f64,
        _project: bool,
        _max_number: usize,
    ) -> Result<Vec<f32>, Infallible> {
        Ok(self.mean().to_vec())
    }
}

/// One line of the recorded month. A spoiled export has no amount.
#[derive(Clone, Copy, Debug, PartialEq)]
pub struct Line<'a> {
    pub day: u32,
    pub time: &'a str,
    pub drawer: &'a str,
    pub amount: Option<f32>,
}

impl<'a> Line<'a> {
    fn of(text: &'a str) -> Option<Line<'a>> {
        let mut words = text.split_whitespace();
        let line = Line {
            day: words.next()?.parse().ok()?,
            time: words.next()?,
            drawer: words.next()?,
            amount: match words.next()? {
                "spoiled" => None,
                number => Some(number.parse().ok()?),
            },
        };
        words.next().is_none().then_some(line)
    }

    /// Where it stands in the month, in days.
    pub fn moment(&self) -> f64 {
        let part = |k: usize| -> f64 {
            let number = self.time.split(':').nth(k);
            number.and_then(|n| n.parse().ok()).unwrap_or(0.0)
        };
        f64::from(self.day - 1) + (part(0) + part(1) / 60.0) / 24.0
    }
}

/// The lines of a recorded month. A line that cannot be read is named.
pub fn lines(month: &str) -> Result<Vec<Line<'_>>, String> {
    let numbered = month.lines().enumerate();
    numbered
        .filter(|(_, text)| !text.starts_with('#'))
        .map(|(k, text)| Line::of(text).ok_or_else(|| format!("line {}: {text}", k + 1)))
        .collect()
}

/// What was said of a withdrawal.
pub type Said = Result<Verdict, NotJudged<Infallible>>;

/// A drawer's forest and its last amounts.
#[derive(Clone)]
pub struct Watched {
    pub about: About,
    pub forest: Memory,
    pub point: [f32; SHINGLE],
}

impl Watched {
    pub fn new(about: About) -> Watched {
        Watched {
            about,
            forest: Memory::default(),
            point: [about.usual; SHINGLE],
        }
    }

    /// Has the drawer's next withdrawal judged. One that is refused enters neither the points nor
    /// the forest.
    pub fn judge(
        &mut self,
        amount: Option<f32>,
        values_seen: usize,
        judge: impl FnOnce(&Withdrawal, &Memory) -> Said,
    ) -> Said {
        let mut point = self.point;
        point.rotate_left(1);
        point[SHINGLE - 1] = amount.unwrap_or(f32::NAN);
        let withdrawal = Withdrawal {
            shingle_size: SHINGLE,
            base_dimension: 1,
            scoring_strategy: self.about.strategy,
            values_seen,
            rcf_point: &point,
            scale: &[1.0],
            shift: &[0.0],
            difference_deviations: &[self.about.change],
            ..Withdrawal::default()
        };
        let said = judge(&withdrawal, &self.forest);
        if said.is_ok() {
            self.point = point;
            self.forest.update(point);
        }
        said
    }
}

/// What was said of a withdrawal, and its score where there is one.
pub struct Judged {
    pub said: Said,
    pub score: Option<f32>,
}

/// The ward's drawers, their states in one pool: the first of them is number 1 there, and so on.
#[derive(Clone)]
pub struct Ward {
    pub site: Site,
    pub drawers: Vec<Watched>,
}

impl Ward {
    /// The drawers on the first day.
    pub fn new() -> Result<Ward, Refused> {
        let mut site = Site::new();
        for (number, about) in (1..).zip(DRAWERS) {
            site.open(number, 0.01, about.auto_adjust, 1)?;
        }
        let drawers = DRAWERS.into_iter().map(Watched::new).collect();
        Ok(Ward { site, drawers })
    }

    /// Which of the drawers has this name.
    pub fn place(&self, name: &str) -> Result<usize, String> {
        let known = self.drawers.iter().position(|d| d.about.name == name);
        known.ok_or_else(|| format!("no drawer {name}"))
    }

    /// A drawer as it stands.
    pub fn drawer(&self, place: usize) -> Drawer {
        let drawer = self.site.drawer(place as u32 + 1);
        drawer.expect("a drawer that was opened")
    }

    /// Judges a drawer's next withdrawal.
    pub fn judge(&mut self, place: usize, amount: Option<f32>) -> Judged {
        let values_seen = self.drawer(place).values_seen() + 1;
        let (site, number) = (&mut self.site, place as u32 + 1);
        let said = self.drawers[place].judge(amount, values_seen, |withdrawal, forest| {
            site.judge(number, withdrawal, forest)
        });
        let score = || self.drawer(place).last_descriptor().score;
        let score = said.is_ok().then(score);
        Judged { said, score }
    }

    /// Stores the drawers and reads them back, as a restart does. Forests and points stay.
    pub fn restart(&mut self) -> Result<(), StoreError> {
        self.site = Site::of_bytes(&self.site.to_bytes())?;
        Ok(())
    }
}

/// The arguments of an example, or what it says instead of running: its help, or what is wrong.
pub enum Wanted {
    Run(Vec<String>),
    Help,
    Wrong(String),
}

/// Reads the arguments of an example that takes up to `most`.
pub fn wanted(most: usize) -> Wanted {
    let given: Vec<String> = std::env::args().skip(1).collect();
    if given.iter().any(|word| word == "--help" || word == "-h") {
        return Wanted::Help;
    }
    match given.iter().find(|word| word.starts_with('-')) {
        Some(word) => Wanted::Wrong(format!("no argument {word}; --help says which there are")),
        None if given.len() > most => Wanted::Wrong(format!("more than {most} arguments")),
        None => Wanted::Run(given),
    }
}
