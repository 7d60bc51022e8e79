//! Builds those of the library's archives that are missing or older than a crate they are made of,
//! and tells the linker where they are.

use std::fs::{self, OpenOptions};
use std::io::{self, Write};
use std::path::{Path, PathBuf};
use std::process::{Command, ExitCode};
use std::time::SystemTime;

const ARCHIVES: [&str; 7] = [
    "c_interface",
    "c_chain",
    "c_calls",
    "c_judging",
    "pool_drawers",
    "pool_settings",
    "pool_judging",
];

/// When a file, or the newest file below a folder, was last changed.
fn changed(path: &Path) -> io::Result<SystemTime> {
    let about = path.metadata()?;
    let mut newest = about.modified()?;
    if about.is_dir() {
        for entry in path.read_dir()? {
            newest = newest.max(changed(&entry?.path())?);
        }
    }
    Ok(newest)
}

/// A crate and all that it is built on, by the lines of crates.txt.
fn parts(list: &str, name: &str) -> Vec<String> {
    let mut all = vec![name.to_string()];
    let mut k = 0;
    while k < all.len() {
        let line = list
            .lines()
            .find(|text| text.split([' ', ':']).next() == Some(&*all[k]));
        let needs = line
            .and_then(|text| text.split_once(':'))
            .map(|(_, needs)| needs);
        for need in needs.unwrap_or_default().split_whitespace() {
            if !all.iter().any(|have| have == need) {
                all.push(need.to_string());
            }
        }
        k += 1;
    }
    all
}

/// When the newest source of an archive was last changed. The kit's own crates have none here.
fn sources(root: &Path, list: &str, name: &str) -> io::Result<SystemTime> {
    let mut newest = SystemTime::UNIX_EPOCH;
    for part in parts(list, name) {
        for kind in ["src", "specs", "proofs"] {
            let folder = root.join("crates").join(&part).join(kind);
            if folder.exists() {
                newest = newest.max(changed(&folder)?);
            }
        }
    }
    Ok(newest)
}

/// Tells whoever waits what takes so long. Cargo holds a build script's output back, so this goes to
/// the terminal, if there is one.
fn tell(line: &str) {
    if let Ok(mut terminal) = OpenOptions::new().write(true).open("/dev/tty") {
        writeln!(terminal, "{line}").ok();
    }
}

/// Proves and builds one archive. What that prints is shown only where it fails.
fn build(root: &Path, name: &str) -> Result<(), String> {
    let run = Command::new("sh")
        .args(["tools/archives", name])
        .current_dir(root)
        .output();
    match run {
        Ok(done) if done.status.success() => Ok(()),
        Ok(done) => Err(format!(
            "`tools/archives {name}` failed ({}):\n{}{}",
            done.status,
            String::from_utf8_lossy(&done.stdout),
            String::from_utf8_lossy(&done.stderr),
        )),
        Err(why) => Err(format!(
            "`tools/archives {name}` could not be started: {why}"
        )),
    }
}

/// Builds an archive that is missing or older than its sources. `place` is its place among all.
fn provide(root: &Path, list: &str, place: usize, name: &str) -> Result<(), String> {
    let archive = root.join(format!("target/staticlib/lib{name}.a"));
    println!("cargo:rerun-if-changed={}", archive.display());
    let newest = sources(root, list, &format!("{name}_c"))
        .map_err(|why| format!("sources of {name}: {why}"))?;
    if changed(&archive).is_ok_and(|made| made >= newest) {
        return Ok(());
    }
    tell(&format!(
        "     Proving lib{name}.a, {place} of {}: half a minute, minutes if crates below it are not proved",
        ARCHIVES.len()
    ));
    build(root, name)?;
    if archive.exists() {
        return Ok(());
    }
    Err(format!(
        "`tools/archives {name}` wrote no {}",
        archive.display()
    ))
}

fn run() -> Result<(), String> {
    let here = std::env::var("CARGO_MANIFEST_DIR").map_err(|why| why.to_string())?;
    let root = PathBuf::from(here).join("..");
    let listed = root.join("crates.txt");
    for changing in ["crates", "crates.txt"] {
        println!("cargo:rerun-if-changed={}", root.join(changing).display());
    }
    let list = fs::read_to_string(&listed).map_err(|why| format!("{}: {why}", listed.display()))?;
    for (k, name) in ARCHIVES.into_iter().enumerate() {
        provide(&root, &list, k + 1, name)?;
    }
    let folder = root.join("target/staticlib");
    println!("cargo:rustc-link-search=native={}", folder.display());
    Ok(())
}

fn main() -> ExitCode {
    match run() {
        Ok(()) => ExitCode::SUCCESS,
        Err(why) => {
            eprintln!("{why}");
            ExitCode::FAILURE
        }
    }
}
