//! Stored drawers and sites: a restart changes nothing, and bytes that are not whole are an error.

#[path = "../examples/ward/mod.rs"]
mod ward;

use ward::{lines, About, Said, Ward, Watched, DRAWERS, MONTH};
use withdrawal_watch::{Drawer, Site, StoreError, Verdict, STORE_VERSION};

/// What was said of each withdrawal of one drawer, as far as it can be compared.
type AllSaid = Vec<Result<Verdict, String>>;

/// A drawer of the ward by itself.
#[derive(Clone)]
struct Alone {
    watched: Watched,
    drawer: Drawer,
}

impl Alone {
    fn new(about: About) -> Alone {
        Alone {
            watched: Watched::new(about),
            drawer: Drawer::new(0.01, about.auto_adjust, 1).expect("a sound discount and base"),
        }
    }

    fn judge(&mut self, amount: Option<f32>) -> Said {
        let Alone { watched, drawer } = self;
        let values_seen = drawer.values_seen() + 1;
        watched.judge(amount, values_seen, |withdrawal, forest| {
            drawer.judge(withdrawal, forest)
        })
    }
}

fn amounts(name: &str) -> Vec<Option<f32>> {
    let all = lines(MONTH).expect("a sound month");
    let own = all.iter().filter(|line| line.drawer == name);
    own.map(|line| line.amount).collect()
}

fn judge(alone: &mut Alone, amounts: &[Option<f32>]) -> AllSaid {
    let judged = amounts.iter().map(|amount| alone.judge(*amount));
    judged
        .map(|said| said.map_err(|why| why.to_string()))
        .collect()
}

/// Each drawer's month, cut at every reading: what comes after a restart is what would have come.
#[test]
fn a_restart_at_every_reading() {
    for about in DRAWERS {
        let amounts = amounts(about.name);
        assert_eq!(amounts.len(), 180);
        let mut whole = Alone::new(about);
        let said = judge(&mut whole, &amounts);
        let mut first = Alone::new(about);
        for cut in 0..=amounts.len() {
            let stored = first.drawer.to_bytes();
            let mut again = first.clone();
            again.drawer = Drawer::of_bytes(&stored).unwrap();
            assert_eq!(again.drawer.to_bytes(), stored);
            assert_eq!(judge(&mut again, &amounts[cut..]), said[cut..]);
            assert_eq!(again.drawer.to_bytes(), whole.drawer.to_bytes());
            if let Some(amount) = amounts.get(cut) {
                first.judge(*amount).ok();
            }
        }
    }
}

/// Drawer B in the middle of the month, stored when new drawers had z 3: it keeps that, and what is
/// said of the other half, and stored after it, is what was said and stored then.
#[test]
fn a_drawer_stored_with_z_3() {
    let about = DRAWERS[1];
    let amounts = amounts(about.name);
    let mut alone = Alone::new(about);
    judge(&mut alone, &amounts[..90]);
    alone.drawer = Drawer::of_bytes(include_bytes!("stored/drawer_b.bin")).unwrap();
    let said = judge(&mut alone, &amounts[90..]);
    let lines: String = said.iter().map(|said| format!("{said:?}\n")).collect();
    assert_eq!(lines, include_str!("stored/drawer_b.txt"));
    let after = include_bytes!("stored/drawer_b_after.bin");
    assert_eq!(alone.drawer.to_bytes(), after);
    assert_eq!(alone.drawer.state_bytes()[145..149], 3f32.to_le_bytes());
}

/// A drawer with an anomaly, and its bytes.
fn stored() -> Vec<u8> {
    let mut alone = Alone::new(DRAWERS[2]);
    judge(&mut alone, &amounts("C"));
    assert!(alone.drawer.last_anomaly().is_some());
    alone.drawer.to_bytes()
}

fn error(bytes: &[u8]) -> StoreError {
    Drawer::of_bytes(bytes).unwrap_err()
}

#[test]
fn short_and_long_stores() {
    let bytes = stored();
    assert!(Drawer::of_bytes(&bytes).is_ok());
    for cut in 0..bytes.len() {
        let found = cut;
        let why = error(&bytes[..cut]);
        assert!(
            matches!(why, StoreError::Length { found: n, .. } if n == found),
            "{cut}: {why}"
        );
    }
    for more in 1..100 {
        let mut long = bytes.clone();
        long.resize(bytes.len() + more, 0);
        let (found, wanted) = (long.len(), bytes.len());
        assert_eq!(error(&long), StoreError::Length { found, wanted });
    }
}

/// Every byte counts: one that is changed is found.
#[test]
fn damaged_stores() {
    let bytes = stored();
    for at in 0..bytes.len() {
        for change in [0x01, 0x80, 0xff] {
            let mut other = bytes.clone();
            other[at] ^= change;
            let why = error(&other);
            match at {
                0..=7 => assert_eq!(why, StoreError::NotADrawer),
                8..=11 => assert!(matches!(why, StoreError::Version { .. })),
                12..=15 => assert!(matches!(why, StoreError::Length { .. })),
                _ => assert_eq!(why, StoreError::Damaged),
            }
        }
    }
}

/// CRC-32, so that a store can be changed and still be whole.
fn sealed(mut bytes: Vec<u8>) -> Vec<u8> {
    let end = bytes.len() - 4;
    let crc = bytes[..end].iter().fold(u32::MAX, |crc, byte| {
        (0..8).fold(crc ^ u32::from(*byte), |crc, _| {
            (crc >> 1) ^ (0xedb8_8320 & 0u32.wrapping_sub(crc & 1))
        })
    });
    bytes[end..].copy_from_slice(&(!crc).to_le_bytes());
    bytes
}

/// Numbers that no drawer has, in bytes whose checksum is right.
#[test]
fn impossible_stores() {
    let bytes = stored();
    let state = 16;
    let kept = state + 1310;
    let put = |at: usize, new: &[u8]| {
        let mut other = bytes.clone();
        other[at..at + new.len()].copy_from_slice(new);
        error(&sealed(other)).to_string()
    };
    let infinite = f32::INFINITY.to_le_bytes();
    let cases = [
        (
            8,
            &7u32.to_le_bytes()[..],
            "version 7, where this program reads 1",
        ),
        (kept, &[2], "no drawer has this strategy"),
        (kept + 1, &infinite, "no drawer has this score"),
        (kept + 5, &infinite, "no drawer has this threshold"),
        (kept + 9, &[0xff; 8], "no drawer has this values_seen"),
        (
            kept + 17,
            &2000u32.to_le_bytes(),
            "no drawer has this dimension",
        ),
        (kept + 17, &8u32.to_le_bytes(), "no drawer has this length"),
        (kept + 17, &0u32.to_le_bytes(), "no drawer has this length"),
        (
            kept + 21,
            &1i32.to_le_bytes(),
            "no drawer has this relative index",
        ),
        (kept + 41, &infinite, "no drawer has this point"),
        (state + 149, &[2], "its state gets refusal 2: "),
        (state + 154, &[17], "its state gets refusal 2: "),
    ];
    for (at, new, why) in cases {
        let said = put(at, new);
        assert!(said.starts_with(&format!("store: {why}")), "{said}");
    }
    assert_eq!(STORE_VERSION, 1);
}

/// A drawer whose counts are used up comes back, and is refused as it was.
#[test]
fn a_drawer_that_can_count_no_more() {
    let mut bytes = stored();
    bytes[16 + 48..16 + 52].copy_from_slice(&16_777_216i32.to_le_bytes());
    let mut alone = Alone::new(DRAWERS[2]);
    alone.drawer = Drawer::of_bytes(&sealed(bytes)).unwrap();
    let why = alone.judge(Some(4.0)).unwrap_err();
    assert_eq!(
        why.to_string(),
        "refusal 6: count of the primary statistic: 16,777,216, not 0 to 16,777,215"
    );
}

/// No bytes at all make a panic.
#[test]
fn any_bytes() {
    let bytes = stored();
    let mut n = 1u64;
    for _ in 0..2_000 {
        let mut other = bytes.clone();
        for _ in 0..4 {
            n = n
                .wrapping_mul(6364136223846793005)
                .wrapping_add(1442695040888963407);
            let at = 16 + (n >> 33) as usize % (other.len() - 16);
            other[at] = (n >> 24) as u8;
        }
        if let Ok(drawer) = Drawer::of_bytes(&sealed(other)) {
            let mut alone = Alone::new(DRAWERS[2]);
            alone.drawer = drawer;
            for _ in 0..5 {
                alone.judge(Some(9.0)).ok();
            }
        }
    }
}

/// The ward's month in one pool, restarted after every fifth withdrawal: each drawer says what it would
/// say by itself, and keeps the same.
#[test]
fn a_ward_restarted_again_and_again() {
    let mut ward = Ward::new().unwrap();
    let mut alone: Vec<Alone> = DRAWERS.into_iter().map(Alone::new).collect();
    for (k, line) in lines(MONTH).unwrap().iter().enumerate() {
        let place = ward.place(line.drawer).unwrap();
        if k % 5 == 0 {
            ward.restart().unwrap();
        }
        let said = ward.judge(place, line.amount).said;
        assert_eq!(said, alone[place].judge(line.amount), "withdrawal {k}");
    }
    for (place, Alone { drawer, .. }) in alone.iter().enumerate() {
        assert_eq!(ward.drawer(place).to_bytes(), drawer.to_bytes());
    }
}

/// A ward after its month, three of whose drawers have an anomaly and one a z factor of 3.
fn stored_site() -> Vec<u8> {
    let mut ward = Ward::new().unwrap();
    ward.site.set_z_factor(1, 3.0).unwrap();
    for line in lines(MONTH).unwrap() {
        let place = ward.place(line.drawer).unwrap();
        ward.judge(place, line.amount).said.ok();
    }
    ward.site.to_bytes()
}

fn site_error(bytes: Vec<u8>) -> String {
    Site::of_bytes(&bytes).unwrap_err().to_string()
}

#[test]
fn short_long_and_damaged_sites() {
    let bytes = stored_site();
    let n = bytes.len();
    assert_eq!(Site::of_bytes(&bytes).unwrap().to_bytes(), bytes);
    for cut in [0, 7, 8, 15, 16, 61_491, 61_492, n - 1] {
        let why = site_error(bytes[..cut].to_vec());
        assert!(
            why.starts_with(&format!("store: {cut} bytes, not ")),
            "{why}"
        );
    }
    assert_eq!(
        site_error([&bytes[..], &[0]].concat()),
        format!("store: {} bytes, not {n}", n + 1)
    );
    for at in (0..n).step_by(97) {
        let mut other = bytes.clone();
        other[at] ^= 0x10;
        assert!(Site::of_bytes(&other).is_err(), "{at}");
    }
    assert_eq!(site_error(stored()), "store: these bytes are no site's");
    assert_eq!(error(&bytes), StoreError::NotADrawer);
}

/// Numbers that no site has, in bytes whose checksum is right.
#[test]
fn impossible_sites() {
    let bytes = stored_site();
    let (pool, kept) = (16, 16 + 61_472);
    let put = |at: usize, new: &[u8]| {
        let mut other = bytes.clone();
        other[at..at + new.len()].copy_from_slice(new);
        site_error(sealed(other))
    };
    let record = pool + 32;
    let cases = [
        (
            pool,
            &[4][..],
            "its pool gets refusal 13: count: 4, where the used chain's length is 5",
        ),
        (
            record + 4,
            &[0],
            "its pool gets refusal 13: record 1: drawer 0, not 1 to 65,535",
        ),
        (record + 8 + 154, &[17], "its state gets refusal 2: "),
        (kept, &[2], "no drawer has this strategy"),
        (kept + 9, &[0xff; 8], "no drawer has this values_seen"),
        (
            kept + 17,
            &2000u32.to_le_bytes(),
            "no drawer has this dimension",
        ),
    ];
    for (at, new, why) in cases {
        let said = put(at, new);
        assert!(said.starts_with(&format!("store: {why}")), "{said}");
    }
    // One drawer's part cut off, and the length put right.
    let mut cut = bytes[..kept + 25].to_vec();
    let length = cut.len() as u32;
    cut[12..16].copy_from_slice(&length.to_le_bytes());
    assert_eq!(site_error(sealed(cut)), "store: no drawer has this length");
}
