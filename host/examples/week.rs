//! Judges the recorded month up to the end of one week, and prints that week as a ward wants to see
//! it: the readings that are raised, corrected or could not be judged, and each drawer's figures and
//! counts. Every night the drawers are stored, and read back in the morning.

mod ward;

use std::fmt::Write;
use std::process::ExitCode;

use ward::{lines, wanted, Judged, Line, Wanted, Ward, Watched, MONTH, SHINGLE};
use withdrawal_watch::Verdict;

const HELP: &str = "\
Judges the recorded month of five drawers up to the end of one week, and prints what was said in it.

    week [DAY]    the week that begins on this day of the month, 1 to 24; 12 if none is given

For each reading that was raised (recount the drawer), corrected (something explains it) or not
judged: its score beside the threshold that it was held to. At the end what each drawer shows after the
week (mean and deviation of its scores so far), its counts, and the range of its scores and thresholds.
";

/// How often each answer came up in the week, and how far scores and thresholds went.
#[derive(Default)]
struct Counts {
    quiet: u32,
    corrected: u32,
    raised: u32,
    skipped: u32,
    refused: u32,
    scores: Range,
    thresholds: Range,
}

/// The smallest and the largest of some numbers.
#[derive(Default)]
struct Range(Option<(f32, f32)>);

impl Range {
    fn add(&mut self, x: f32) {
        let (least, most) = self.0.unwrap_or((x, x));
        self.0 = Some((least.min(x), most.max(x)));
    }

    fn show(&self) -> String {
        match self.0 {
            Some((least, most)) => format!("{least:.2} to {most:.2}"),
            None => "none".to_string(),
        }
    }
}

impl Counts {
    fn add(&mut self, judged: &Judged) {
        let counter = match &judged.said {
            Ok(Verdict::Quiet { .. }) => &mut self.quiet,
            Ok(Verdict::Corrected { .. }) => &mut self.corrected,
            Ok(Verdict::Raised { .. }) => &mut self.raised,
            Ok(Verdict::Skipped) => &mut self.skipped,
            Err(_) => &mut self.refused,
        };
        *counter += 1;
        judged.score.into_iter().for_each(|x| self.scores.add(x));
        if let Some(threshold) = judged.said.as_ref().ok().and_then(Verdict::threshold) {
            self.thresholds.add(threshold);
        }
    }

    fn show(&self) -> String {
        let Counts {
            quiet,
            corrected,
            raised,
            skipped,
            refused,
            scores,
            thresholds,
        } = self;
        let readings = quiet + corrected + raised + skipped + refused;
        format!(
            "{readings} readings: {quiet} quiet, {corrected} corrected, {raised} raised, \
             {skipped} skipped, {refused} not judged; scores {}, thresholds {}",
            scores.show(),
            thresholds.show()
        )
    }
}

/// What the ward is to see of a reading at once.
fn said(watched: &Watched, judged: &Judged) -> Option<String> {
    let score = judged.score.unwrap_or(0.0);
    match &judged.said {
        Ok(Verdict::Raised {
            threshold,
            grade,
            relative_index,
            expected_point,
            ..
        }) => {
            let back = relative_index.unsigned_abs() as usize;
            let row = SHINGLE - 1 - back;
            let which = match back {
                0 => String::new(),
                1 => ", the withdrawal before".to_string(),
                _ => format!(", {back} withdrawals before"),
            };
            Some(format!(
                "recount: score {score:.2} over threshold {threshold:.2}, grade {grade:.2}; \
                 {} taken where {:.1} was expected{which}",
                watched.point[row], expected_point[row]
            ))
        }
        Ok(Verdict::Corrected { threshold, mode }) => Some(format!(
            "corrected: score {score:.2} over threshold {threshold:.2}, {mode:?}"
        )),
        Ok(_) => None,
        Err(why) => Some(format!("not judged, {why}")),
    }
}

/// The line of a reading that the ward is to see.
fn told(ward: &Ward, place: usize, line: &Line, judged: &Judged) -> Option<String> {
    let watched = &ward.drawers[place];
    let (day, time, about) = (line.day, line.time, &watched.about);
    let (name, drug) = (about.name, about.drug);
    let said = said(watched, judged)?;
    Some(format!(
        "{day:2} {time}  drawer {name}  {drug:<9}  {said}\n"
    ))
}

fn report(month: &str, first: u32) -> Result<String, String> {
    let mut out = String::new();
    let mut ward = Ward::new().map_err(|why| why.to_string())?;
    let mut counts: Vec<Counts> = ward.drawers.iter().map(|_| Counts::default()).collect();
    let mut today = 1;
    for line in lines(month)? {
        let place = ward.place(line.drawer)?;
        if line.day >= first + 7 {
            continue;
        }
        if line.day != today {
            ward.restart().map_err(|why| why.to_string())?;
            today = line.day;
        }
        let judged = ward.judge(place, line.amount);
        if line.day >= first {
            counts[place].add(&judged);
            out.extend(told(&ward, place, &line, &judged));
        }
    }
    out.push('\n');
    for (place, (Watched { about, .. }, counts)) in ward.drawers.iter().zip(&counts).enumerate() {
        let (name, drug, shown) = (about.name, about.drug, counts.show());
        let drawer = ward.drawer(place);
        writeln!(out, "drawer {name}  {drug:<9}  {drawer:.2}; {shown}").expect("a string");
    }
    Ok(out)
}

/// The day that the arguments name.
fn first_day(given: &[String]) -> Result<u32, String> {
    let Some(word) = given.first() else {
        return Ok(12);
    };
    let day = word.parse().ok().filter(|day| (1..=24).contains(day));
    day.ok_or_else(|| format!("no day from 1 to 24: {word}"))
}

fn main() -> ExitCode {
    let given = match wanted(1) {
        Wanted::Run(given) => first_day(&given),
        Wanted::Help => {
            print!("{HELP}");
            return ExitCode::SUCCESS;
        }
        Wanted::Wrong(why) => Err(why),
    };
    match given.and_then(|first| report(MONTH, first)) {
        Ok(text) => {
            print!("{text}");
            ExitCode::SUCCESS
        }
        Err(why) => {
            eprintln!("week: {why}");
            ExitCode::from(2)
        }
    }
}

#[cfg(test)]
mod tests {
    use super::{first_day, report, MONTH};

    #[test]
    fn prints_the_stored_week() {
        assert_eq!(report(MONTH, 12).unwrap(), include_str!("week.stdout"));
    }

    #[test]
    fn a_drawer_without_scores_says_so() {
        let said = report("1 06:00 A 2\n1 06:10 B spoiled\n", 1).unwrap();
        let shown: Vec<&str> = said.lines().skip(2).map(|line| &line[21..50]).collect();
        assert_eq!(shown[0], "no scores yet; 1 readings: 0 ");
        assert_eq!(shown[1], "no scores yet; 1 readings: 0 ");
        assert_eq!(shown[2], "no scores yet; 0 readings: 0 ");
    }

    #[test]
    fn a_line_that_lacks_its_amount_is_named() {
        assert_eq!(report("1 06:00 A", 1), Err("line 1: 1 06:00 A".to_string()));
    }

    #[test]
    fn a_day_out_of_the_month_is_named() {
        assert_eq!(first_day(&[]), Ok(12));
        for word in ["0", "25", "x"] {
            let why = format!("no day from 1 to 24: {word}");
            assert_eq!(first_day(&[word.to_string()]), Err(why));
        }
    }
}
