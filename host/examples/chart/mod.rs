//! A drawer's month as an SVG: black and grey, marks by shape.

use std::fmt::Write;

use withdrawal_watch::CorrectionMode;

/// What was said of a reading.
#[derive(Clone, Copy, Debug, PartialEq)]
pub enum Sign {
    Quiet,
    Corrected(CorrectionMode),
    Raised,
    Skipped,
    NotJudged,
}

/// A reading: when, in days from the start, its score and threshold, and what was said.
#[derive(Clone, Copy, Debug)]
pub struct Mark {
    pub moment: f64,
    pub score: f64,
    pub threshold: Option<f64>,
    pub sign: Sign,
}

pub struct Chart {
    pub title: String,
    pub about: String,
    pub marks: Vec<Mark>,
}

const WIDTH: f64 = 1400.0;
const HEIGHT: f64 = 560.0;

/// The plot's edges. Above it is the lane of the modes, below it those of the readings without a
/// score.
const LEFT: f64 = 92.0;
const RIGHT: f64 = WIDTH - 20.0;
const TOP: f64 = 136.0;
const BOTTOM: f64 = HEIGHT - 98.0;

const MODES: f64 = TOP - 12.0;
const MODE_APART: f64 = 12.0;
const SKIPPED: f64 = BOTTOM + 18.0;
const NOT_JUDGED: f64 = BOTTOM + 38.0;
const DAY_NAMES: f64 = BOTTOM + 62.0;

const DAYS: u32 = 30;

/// The marks, each drawn around its own zero, and the styles of lines and text.
const DEFINITIONS: &str = r##"<style>
text { font-family: Helvetica, Arial, sans-serif; font-size: 13px; fill: #000; }
.title { font-size: 20px; font-weight: bold; }
.mode { font-size: 12px; font-weight: bold; text-anchor: middle; }
.middle { text-anchor: middle; }
.end { text-anchor: end; }
.grid { stroke: #ccc; stroke-width: 0.6; }
.axis { stroke: #000; stroke-width: 1.2; fill: none; }
.scores { stroke: #888; stroke-width: 0.8; fill: none; }
.threshold { stroke: #000; stroke-width: 1.4; stroke-dasharray: 7 3; fill: none; }
</style>
<defs>
<circle id="quiet" r="1.9" fill="#000"/>
<path id="corrected" d="M0 -5 L5 0 L0 5 L-5 0 Z" fill="#fff" stroke="#000" stroke-width="1.4"/>
<path id="raised" d="M0 -8 L6.5 5 L-6.5 5 Z" fill="#000" stroke="#fff" stroke-width="0.8"/>
<rect id="skipped" x="-2.6" y="-2.6" width="5.2" height="5.2" fill="#fff" stroke="#000" stroke-width="1.1"/>
<path id="refused" d="M-5 -5 L5 5 M-5 5 L5 -5" stroke="#000" stroke-width="2.2"/>
</defs>
"##;

/// The letter that stands for a mode in the lane above the plot.
fn letter(mode: CorrectionMode) -> char {
    match mode {
        CorrectionMode::AnomalyInShingle => 'S',
        CorrectionMode::Noise => 'N',
        CorrectionMode::ConditionalForecast => 'C',
        CorrectionMode::Forecast => 'F',
        CorrectionMode::DataDrift => 'D',
        _ => '?',
    }
}

const LETTERS: &str = "corrected, its mode above: S anomaly in shingle, N noise, \
    C conditional forecast, F forecast, D data drift";

/// A step of 1, 2 or 5 times a power of ten that cuts `most` into about six.
fn step(most: f64) -> f64 {
    let rough = most / 6.0;
    let power = 10f64.powf(rough.log10().floor());
    let times = [1.0, 2.0, 5.0, 10.0].into_iter();
    let large = |times: &f64| times * power >= rough;
    power * times.clone().find(large).unwrap_or(10.0)
}

fn x(moment: f64) -> f64 {
    LEFT + moment / f64::from(DAYS) * (RIGHT - LEFT)
}

impl Chart {
    /// The largest number on the axis of scores, and the step of its marks.
    fn scale(&self) -> (f64, f64) {
        let scores = self.marks.iter().map(|mark| mark.score);
        let thresholds = self.marks.iter().filter_map(|mark| mark.threshold);
        let finite = scores.chain(thresholds).filter(|x| x.is_finite());
        let most = finite.fold(0.0, f64::max);
        let most = if most > 0.0 { most } else { 1.0 };
        let step = step(most);
        (((most * 1.02) / step).ceil() * step, step)
    }

    /// The whole drawing.
    pub fn svg(&self) -> String {
        let (most, step) = self.scale();
        let y = |score: f64| BOTTOM - score / most * (BOTTOM - TOP);
        let mut out = format!(
            "<svg xmlns=\"http://www.w3.org/2000/svg\" viewBox=\"0 0 {WIDTH} {HEIGHT}\" \
             width=\"{WIDTH}\" height=\"{HEIGHT}\">\n{DEFINITIONS}\
             <rect width=\"{WIDTH}\" height=\"{HEIGHT}\" fill=\"#fff\"/>\n"
        );
        self.head(&mut out);
        axes(&mut out, most, step, y);
        self.lines(&mut out, y);
        self.marks(&mut out, y);
        out.push_str("</svg>\n");
        out
    }

    fn head(&self, out: &mut String) {
        let (title, about) = (&self.title, &self.about);
        text(out, LEFT, 30.0, "title", title);
        text(out, RIGHT, 30.0, "end", about);
        let row = |k: usize| 56.0 + 22.0 * k as f64;
        let mut key = |at: f64, k: usize, id: &str, words: &str| {
            place(out, id, at, row(k) - 4.0);
            text(out, at + 14.0, row(k), "", words);
        };
        key(LEFT + 8.0, 0, "quiet", "score, quiet");
        key(LEFT + 330.0, 0, "raised", "raised: recount the drawer");
        key(LEFT + 590.0, 0, "skipped", "skipped: score 0");
        key(LEFT + 780.0, 0, "refused", "not judged: refused");
        key(LEFT + 8.0, 1, "corrected", LETTERS);
        let (from, to, at) = (LEFT + 140.0, LEFT + 180.0, row(0) - 4.0);
        line(out, "threshold", (from, at), (to, at));
        text(out, to + 8.0, row(0), "", "threshold");
    }

    /// Scores joined, and the threshold that each was held to, in steps.
    fn lines(&self, out: &mut String, y: impl Fn(f64) -> f64) {
        let without = [Sign::NotJudged, Sign::Skipped];
        let scored = self
            .marks
            .iter()
            .filter(|mark| !without.contains(&mark.sign));
        let mut path = String::new();
        for mark in scored {
            let sign = if path.is_empty() { 'M' } else { 'L' };
            put(
                &mut path,
                format_args!("{sign}{:.1} {:.1} ", x(mark.moment), y(mark.score)),
            );
        }
        put(out, format_args!("<path class=\"scores\" d=\"{path}\"/>\n"));
        let mut path = String::new();
        let mut on = false;
        for mark in &self.marks {
            match mark.threshold.filter(|threshold| threshold.is_finite()) {
                Some(threshold) if on => put(
                    &mut path,
                    format_args!("H{:.1} V{:.1} ", x(mark.moment), y(threshold)),
                ),
                Some(threshold) => put(
                    &mut path,
                    format_args!("M{:.1} {:.1} ", x(mark.moment), y(threshold)),
                ),
                None => {}
            }
            on = mark.threshold.is_some_and(f64::is_finite) || (on && mark.threshold.is_none());
        }
        put(
            out,
            format_args!("<path class=\"threshold\" d=\"{path}\"/>\n"),
        );
    }

    /// The small marks first, so that none hides a raised reading.
    fn marks(&self, out: &mut String, y: impl Fn(f64) -> f64) {
        let mut marks = self.marks.clone();
        marks.sort_by_key(|mark| match mark.sign {
            Sign::Quiet => 0,
            Sign::Raised => 2,
            _ => 1,
        });
        let mut lanes = Lanes::default();
        for mark in &marks {
            let (at, score) = (x(mark.moment), y(mark.score));
            match mark.sign {
                Sign::Quiet => place(out, "quiet", at, score),
                Sign::Raised => place(out, "raised", at, score),
                Sign::Skipped => place(out, "skipped", at, SKIPPED),
                Sign::NotJudged => place(out, "refused", at, NOT_JUDGED),
                Sign::Corrected(mode) => {
                    place(out, "corrected", at, score);
                    text(out, at, lanes.free(at), "mode", &letter(mode).to_string());
                }
            }
        }
    }
}

/// Three lanes for the modes' letters; how far each is filled.
#[derive(Default)]
struct Lanes([f64; 3]);

impl Lanes {
    /// The height of the lowest lane with room for a letter; the emptiest one if there is none.
    fn free(&mut self, x: f64) -> f64 {
        let room = (0..3).find(|k| self.0[*k] + MODE_APART <= x);
        let emptiest = (0..3).min_by(|a, b| self.0[*a].total_cmp(&self.0[*b]));
        let lane = room.or(emptiest).unwrap_or(0);
        self.0[lane] = x;
        MODES - MODE_APART * lane as f64
    }
}

fn axes(out: &mut String, most: f64, step: f64, y: impl Fn(f64) -> f64) {
    let digits = (-step.log10().floor()).max(0.0) as usize;
    let steps = (most / step).round() as usize;
    for k in 0..=steps {
        let score = k as f64 * step;
        line(out, "grid", (LEFT, y(score)), (RIGHT, y(score)));
        text(
            out,
            LEFT - 8.0,
            y(score) + 4.0,
            "end",
            &format!("{score:.digits$}"),
        );
    }
    for day in 0..=DAYS {
        let at = x(f64::from(day));
        line(out, "grid", (at, TOP), (at, NOT_JUDGED + 8.0));
        if day < DAYS {
            let middle = x(f64::from(day) + 0.5);
            text(out, middle, DAY_NAMES, "middle", &(day + 1).to_string());
        }
    }
    line(out, "axis", (LEFT, TOP), (LEFT, BOTTOM));
    line(out, "axis", (LEFT, BOTTOM), (RIGHT, BOTTOM));
    text(out, LEFT - 8.0, MODES - 4.0, "end", "mode");
    text(out, LEFT - 8.0, SKIPPED + 4.0, "end", "skipped");
    text(out, LEFT - 8.0, NOT_JUDGED + 4.0, "end", "not judged");
    text(
        out,
        (LEFT + RIGHT) / 2.0,
        DAY_NAMES + 24.0,
        "middle",
        "day of the month",
    );
    let middle = (TOP + BOTTOM) / 2.0;
    put(
        out,
        format_args!(
            "<text class=\"middle\" transform=\"translate(22 {middle}) rotate(-90)\">score</text>\n"
        ),
    );
}

fn put(out: &mut String, what: std::fmt::Arguments) {
    out.write_fmt(what).expect("a string takes any text");
}

fn place(out: &mut String, id: &str, x: f64, y: f64) {
    put(
        out,
        format_args!("<use href=\"#{id}\" x=\"{x:.1}\" y=\"{y:.1}\"/>\n"),
    );
}

fn line(out: &mut String, class: &str, (x1, y1): (f64, f64), (x2, y2): (f64, f64)) {
    put(
        out,
        format_args!("<path class=\"{class}\" d=\"M{x1:.1} {y1:.1} L{x2:.1} {y2:.1}\"/>\n"),
    );
}

fn text(out: &mut String, x: f64, y: f64, class: &str, words: &str) {
    put(
        out,
        format_args!("<text class=\"{class}\" x=\"{x:.1}\" y=\"{y:.1}\">{words}</text>\n"),
    );
}
