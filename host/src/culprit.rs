//! Which list, length or number a refusal is about, in plain words. The library decides; what it was
//! given is looked at again only to say why.

use crate::reading::Reading;
use crate::records::{self, DRAWERS, POOL_BYTES, POOL_RECORDS};
use crate::refusal::{Refusal, Refused};
use crate::state::{self, LARGEST_SEEN, STATE_BYTES};
use crate::words::grouped;

/// The most neighbours that a reading lends.
const NEIGHBOURS: usize = 256;

/// How many numbers, as words.
fn numbers(n: usize) -> String {
    let unit = if n == 1 { "number" } else { "numbers" };
    format!("{} {unit}", grouped(n))
}

/// What refused a construction: its discount or its base.
pub fn of_new(refusal: Refusal, discount: f64, base_dimension: usize) -> Refused {
    let about = match refusal {
        Refusal::Discount => format!("discount: {discount}, not at least 0 and below 1"),
        Refusal::Range => base(base_dimension),
        _ => refusal.reason().to_string(),
    };
    Refused::new(refusal, about)
}

/// What refused a setting.
pub fn of_setting(refusal: Refusal, name: &str, value: f32) -> Refused {
    let about = match refusal {
        Refusal::Horizon => format!("{name}: {value}, not 0 to 1"),
        _ => refusal.reason().to_string(),
    };
    Refused::new(refusal, about)
}

/// What refused bytes as a pool's.
pub fn of_pool(refusal: Refusal, bytes: &[u8]) -> Refused {
    let broken = records::broken_rule(bytes);
    Refused::new(refusal, broken.unwrap_or(refusal.reason().to_string()))
}

/// What refused a call on a drawer of a pool: its number, whether it is there, or that there is no
/// record for it.
pub fn of_drawer(refusal: Refusal, pool: &[u8; POOL_BYTES], drawer: u32) -> Refused {
    let wrong = match refusal {
        Refusal::Full => format!("where all {POOL_RECORDS} records are used"),
        Refusal::Drawer if !DRAWERS.contains(&drawer) => "not 1 to 65,535".to_string(),
        Refusal::Drawer if records::state_of(pool, drawer).is_some() => "there already".to_string(),
        Refusal::Drawer => "not in the pool".to_string(),
        _ => return of_pool(refusal, pool),
    };
    let about = format!("drawer: {}, {wrong}", grouped(drawer as usize));
    Refused::new(refusal, about)
}

/// What refused a reading.
pub fn of_reading(refusal: Refusal, r: &Reading, bytes: &[u8; STATE_BYTES]) -> Refused {
    let about = match refusal {
        Refusal::Range => own_base(r, bytes),
        Refusal::Count => count(bytes),
        _ => None,
    };
    match about {
        Some(about) => Refused::new(refusal, about),
        None => of_lists(refusal, r),
    }
}

/// What refused a call on some of a reading's lists, all others of which are sound.
pub fn of_lists(refusal: Refusal, r: &Reading) -> Refused {
    let about = match refusal {
        Refusal::Range => sizes(r.shingle_size, r.base_dimension),
        Refusal::Length => lengths(r),
        Refusal::NotFinite => not_finite(r),
        Refusal::ValuesSeen => Some(values_seen(r)),
        _ => None,
    };
    Refused::new(refusal, about.unwrap_or(refusal.reason().to_string()))
}

/// What refused a call on some of a reading's lists with a gap of its own.
pub fn of_gap(refusal: Refusal, r: &Reading) -> Refused {
    if refusal == Refusal::ValuesSeen {
        return Refused::new(refusal, "gap: 0, not 1 or more".to_string());
    }
    of_lists(refusal, r)
}

/// What refused a call on some of a reading's lists from a row's start on.
pub fn of_start(refusal: Refusal, r: &Reading, position: usize) -> Refused {
    if refusal == Refusal::Length && lengths(r).is_none() {
        let most = grouped(r.dimension().saturating_sub(r.base_dimension));
        let about = format!("position: {}, not 0 to {most}", grouped(position));
        return Refused::new(refusal, about);
    }
    of_lists(refusal, r)
}

fn base(base_dimension: usize) -> String {
    format!("base_dimension: {}, not 1 to 16", grouped(base_dimension))
}

/// Sizes out of their ranges.
fn sizes(shingle_size: usize, base_dimension: usize) -> Option<String> {
    if !(1..=64).contains(&shingle_size) {
        let size = grouped(shingle_size);
        return Some(format!("shingle_size: {size}, not 1 to 64"));
    }
    (!(1..=16).contains(&base_dimension)).then(|| base(base_dimension))
}

/// A base within its range that is not the state's.
fn own_base(r: &Reading, bytes: &[u8; STATE_BYTES]) -> Option<String> {
    let (given, own) = (r.base_dimension, state::base_dimension(bytes));
    let sound = sizes(r.shingle_size, given).is_none();
    (sound && given != own).then(|| format!("base_dimension: {given}, where the watch has {own}"))
}

fn length(name: &str, len: usize, wanted: usize) -> Option<String> {
    (len != wanted).then(|| format!("{name}: {}, not {}", numbers(len), grouped(wanted)))
}

/// The lists of f32 that are as long as the point, and those as long as a row.
fn singles<'a>(r: &Reading<'a>) -> Vec<(&'static str, &'a [f32], bool)> {
    let mut lists = vec![
        ("rcf_point", r.rcf_point, true),
        ("scale", r.scale, false),
        ("shift", r.shift, false),
        ("difference_deviations", r.difference_deviations, false),
        ("median", r.median, true),
    ];
    if let Some(anomaly) = r.last_descriptor.last_anomaly {
        lists.extend([
            (
                "last_anomaly.expected_rcf_point",
                anomaly.expected_rcf_point,
                true,
            ),
            (
                "last_anomaly.anomalous_rcf_point",
                anomaly.anomalous_rcf_point,
                true,
            ),
        ]);
    }
    lists
}

fn doubles<'a>(r: &Reading<'a>) -> [(&'static str, &'a [f64]); 4] {
    [
        ("attribution.high", r.attribution.high),
        ("attribution.low", r.attribution.low),
        ("expected_attribution.high", r.expected_attribution.high),
        ("expected_attribution.low", r.expected_attribution.low),
    ]
}

fn lengths(r: &Reading) -> Option<String> {
    let d = r.dimension();
    let single = singles(r).into_iter().find_map(|(name, list, whole)| {
        length(name, list.len(), if whole { d } else { r.base_dimension })
    });
    single
        .or_else(|| {
            doubles(r)
                .into_iter()
                .find_map(|(name, list)| length(name, list.len(), d))
        })
        .or_else(|| neighbours(r.neighbours.len(), d))
}

fn neighbours(len: usize, d: usize) -> Option<String> {
    if len % d.max(1) != 0 {
        let size = grouped(d);
        return Some(format!(
            "neighbours: {}, not a multiple of {size}",
            numbers(len)
        ));
    }
    let points = len / d.max(1);
    (points > NEIGHBOURS).then(|| {
        format!(
            "neighbours: {} points, more than {NEIGHBOURS}",
            grouped(points)
        )
    })
}

fn not_finite(r: &Reading) -> Option<String> {
    let say =
        |name: &str, x: f64| (!x.is_finite()).then(|| format!("{name}: {x}, not a finite number"));
    let at = |name: &str, k: usize, x: f64| say(&format!("{name}[{k}]"), x);
    let last = &r.last_descriptor;
    let mut alone = vec![
        ("score", r.score),
        ("corrected_score", r.corrected_score),
        ("last_descriptor.score", last.score),
        ("last_descriptor.threshold", last.threshold),
    ];
    alone.extend(last.last_anomaly.map(|a| ("last_anomaly.score", a.score)));
    let mut lists = singles(r);
    lists.push(("neighbours", r.neighbours, true));
    let first = alone.into_iter().find_map(|(name, x)| say(name, x.into()));
    let single = || {
        lists.into_iter().find_map(|(name, list, _)| {
            let mut each = list.iter().enumerate();
            each.find_map(|(k, x)| at(name, k, (*x).into()))
        })
    };
    let double = || {
        doubles(r).into_iter().find_map(|(name, list)| {
            let mut each = list.iter().enumerate();
            each.find_map(|(k, x)| at(name, k, *x))
        })
    };
    first.or_else(single).or_else(double)
}

fn values_seen(r: &Reading) -> String {
    let seen = grouped(r.values_seen);
    match r.last_descriptor.last_anomaly {
        Some(anomaly) if (1..=LARGEST_SEEN).contains(&r.values_seen) => format!(
            "values_seen: {seen}, not later than the last anomaly's {}",
            grouped(anomaly.values_seen)
        ),
        _ => format!("values_seen: {seen}, not 1 to {}", grouped(LARGEST_SEEN)),
    }
}

fn count(bytes: &[u8; STATE_BYTES]) -> Option<String> {
    let (name, value) = state::counts(bytes)
        .into_iter()
        .find(|(_, value)| !(0..=state::LARGEST_COUNT).contains(value))?;
    let value = usize::try_from(value).map_or(value.to_string(), grouped);
    Some(format!("{name}: {value}, not 0 to 16,777,215"))
}
