//! The program in the repository's README.md is the example `thousand`, and a project of one's own,
//! outside the repository, is built from it and judges a thousand readings.

use std::fs;
use std::path::{Path, PathBuf};
use std::process::Command;

const README: &str = include_str!("../../README.md");
const PROGRAM: &str = include_str!("../examples/thousand.rs");

/// What the program prints.
const PRINTED: &str = "\
withdrawal 300: recount, 12 taken where 3 was expected
withdrawal 600: recount, 12 taken where 3 was expected
withdrawal 900: recount, 12 taken where 3 was expected
1000 withdrawals, 3 to recount
";

/// The lines between the first pair of fences that `start` opens.
fn block(text: &str, start: &str) -> Vec<String> {
    text.lines()
        .skip_while(|line| *line != start)
        .skip(1)
        .take_while(|line| *line != "```")
        .map(str::to_string)
        .collect()
}

#[test]
fn readme_has_the_program() {
    let program: Vec<&str> = PROGRAM.lines().collect();
    assert_eq!(block(README, "```rust"), program);
}

/// Under sixty lines.
#[test]
fn the_forest_is_short() {
    let lines: Vec<&str> = PROGRAM.lines().collect();
    let start = lines
        .iter()
        .position(|line| line.starts_with("impl Forest"));
    let start = start.expect("a forest");
    let length = lines[start..].iter().position(|line| *line == "}");
    assert!(length.expect("its end") < 60);
}

/// A folder that is removed with all that is in it.
struct Scratch(PathBuf);

impl Drop for Scratch {
    fn drop(&mut self) {
        fs::remove_dir_all(&self.0).ok();
    }
}

#[test]
fn a_project_outside_the_repository() {
    let host = env!("CARGO_MANIFEST_DIR");
    let folder = std::env::temp_dir().join(format!("withdrawal_watch_{}", std::process::id()));
    assert!(!folder.starts_with(Path::new(host).join("..")));
    let scratch = Scratch(folder);
    let folder = &scratch.0;
    fs::create_dir_all(folder.join("src")).expect("a folder for the project");
    let manifest = format!(
        "[package]\nname = \"outside\"\nversion = \"0.1.0\"\nedition = \"2021\"\n\n\
         [dependencies]\nwithdrawal_watch = {{ path = {host:?} }}\n\n[workspace]\n"
    );
    fs::write(folder.join("Cargo.toml"), manifest).expect("a manifest");
    fs::write(folder.join("src/main.rs"), PROGRAM).expect("a program");
    let run = Command::new(env!("CARGO"))
        .args(["run", "--offline", "--quiet"])
        .current_dir(folder)
        .env("CARGO_TARGET_DIR", folder.join("target"))
        .output()
        .expect("cargo");
    let said = String::from_utf8_lossy(&run.stderr);
    assert!(run.status.success(), "{said}");
    assert_eq!(String::from_utf8_lossy(&run.stdout), PRINTED);
}
