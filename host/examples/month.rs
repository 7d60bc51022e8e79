//! Judges the recorded month and draws each drawer: one SVG with its scores, the thresholds beside
//! them and what was said. Marks differ by shape, so that a print without colour can be read.

mod chart;
mod ward;

use std::fs;
use std::path::Path;
use std::process::ExitCode;

use chart::{Chart, Mark};
use ward::{lines, wanted, Judged, Wanted, Ward, MONTH};
use withdrawal_watch::{ScoringStrategy, Verdict};

const HELP: &str = "\
Judges the recorded month of five drawers and draws one SVG for each.

    month [FOLDER]    where drawer_A.svg to drawer_E.svg are written; the current folder if none

A drawing has the score of every withdrawal, the threshold that it was held to, raised and corrected
readings with their mode, and those that were skipped or not judged. A browser shows it.
";

/// What is drawn of a reading.
fn mark(moment: f64, judged: &Judged) -> Mark {
    let score = judged.score.map_or(0.0, f64::from);
    let threshold = judged.said.as_ref().ok().and_then(Verdict::threshold);
    let sign = match &judged.said {
        Ok(Verdict::Quiet { .. }) => chart::Sign::Quiet,
        Ok(Verdict::Corrected { mode, .. }) => chart::Sign::Corrected(*mode),
        Ok(Verdict::Raised { .. }) => chart::Sign::Raised,
        Ok(Verdict::Skipped) => chart::Sign::Skipped,
        Err(_) => chart::Sign::NotJudged,
    };
    Mark {
        moment,
        score,
        threshold: threshold.map(f64::from),
        sign,
    }
}

/// One chart a drawer, in the ward's order, with the drawer's name.
fn charts(month: &str) -> Result<Vec<(&'static str, Chart)>, String> {
    let mut ward = Ward::new().map_err(|why| why.to_string())?;
    let mut charts: Vec<Chart> = Vec::new();
    for drawer in &ward.drawers {
        let about = drawer.about;
        let strategy = match about.strategy {
            ScoringStrategy::ExpectedInverseHeight => "EXPECTED_INVERSE_HEIGHT",
            ScoringStrategy::Distance => "DISTANCE",
        };
        let adjust = if about.auto_adjust { "on" } else { "off" };
        charts.push(Chart {
            title: format!("Drawer {}: {}", about.name, about.drug),
            about: format!("{strategy}, auto adjust {adjust}"),
            marks: Vec::new(),
        });
    }
    for line in lines(month)? {
        let place = ward.place(line.drawer)?;
        let judged = ward.judge(place, line.amount);
        charts[place].marks.push(mark(line.moment(), &judged));
    }
    let names = ward.drawers.iter().map(|drawer| drawer.about.name);
    Ok(names.zip(charts).collect())
}

fn write(folder: &Path) -> Result<(), String> {
    for (name, chart) in charts(MONTH)? {
        let file = folder.join(format!("drawer_{name}.svg"));
        fs::write(&file, chart.svg()).map_err(|why| format!("{}: {why}", file.display()))?;
        println!("{}", file.display());
    }
    Ok(())
}

fn main() -> ExitCode {
    let folder = match wanted(1) {
        Wanted::Run(given) => Ok(given.first().map_or(".".to_string(), String::clone)),
        Wanted::Help => {
            print!("{HELP}");
            return ExitCode::SUCCESS;
        }
        Wanted::Wrong(why) => Err(why),
    };
    match folder.and_then(|folder| write(Path::new(&folder))) {
        Ok(()) => ExitCode::SUCCESS,
        Err(why) => {
            eprintln!("month: {why}");
            ExitCode::from(2)
        }
    }
}

#[cfg(test)]
mod tests {
    use super::chart::Sign;
    use super::{charts, MONTH};
    use withdrawal_watch::CorrectionMode;

    /// Every kind of answer comes up in the month, and is drawn as often as it was given, once more
    /// in the legend.
    #[test]
    fn every_answer_is_drawn() {
        let mut seen = [0; 5];
        for (name, chart) in charts(MONTH).unwrap() {
            let svg = chart.svg();
            let kinds: [fn(&Sign) -> bool; 5] = [
                |sign| matches!(sign, Sign::Quiet),
                |sign| matches!(sign, Sign::Corrected(_)),
                |sign| matches!(sign, Sign::Raised),
                |sign| matches!(sign, Sign::Skipped),
                |sign| matches!(sign, Sign::NotJudged),
            ];
            let names = ["quiet", "corrected", "raised", "skipped", "refused"];
            for (k, (is, word)) in kinds.iter().zip(names).enumerate() {
                let given = chart.marks.iter().filter(|mark| is(&mark.sign)).count();
                let drawn = svg.matches(&format!("href=\"#{word}\"")).count();
                assert_eq!(drawn, given + 1, "{word} of drawer {name}");
                seen[k] += given;
            }
            assert_eq!(chart.marks.len(), 180);
        }
        assert!(seen.iter().all(|count| *count > 0), "{seen:?}");
    }

    #[test]
    fn three_modes_come_up() {
        let all = charts(MONTH).unwrap();
        for mode in [
            CorrectionMode::AnomalyInShingle,
            CorrectionMode::Forecast,
            CorrectionMode::DataDrift,
        ] {
            let mut marks = all.iter().flat_map(|(_, chart)| &chart.marks);
            assert!(marks.any(|mark| matches!(mark.sign, Sign::Corrected(m) if m == mode)));
        }
    }
}
