//! Programs in C that judge readings over the header, compiled and run where there is a C compiler.

use std::path::Path;
use std::process::Command;

/// What the program on one drawer prints.
const JUDGED: &str = "\
no scores yet
score 1.25: quiet, threshold 1.5
score 1.75: raised, threshold 1.5, grade 1, row 0, 2 expected, attribution 1.5
mean 1.55, deviation 0.244949
score 1.75: refusal 5
state kept
";

/// What the program on a pool prints.
const POOLED: &str = "\
lay out: answer 0
open 7: answer 0
open 8: answer 0
open 9: answer 0
list: answer 0, 9 8 7
judge 8: answer 0, kind 0
judge 7: answer 0, kind 3
judge 6: answer 11, kind 0
open 8: answer 11
horizon of 8: answer 7
short pool: answer 13
pool kept
remove 8: answer 0
list: answer 0, 9 7
";

/// The first of these compilers that starts.
fn compiler() -> Option<String> {
    let named = std::env::var("CC").ok();
    let usual = ["cc", "gcc", "clang"].map(str::to_string);
    named.into_iter().chain(usual).find(|name| {
        let run = Command::new(name).arg("--version").output();
        run.is_ok_and(|done| done.status.success())
    })
}

/// Compiles a program with the archives whose functions it calls, and runs it.
fn prints(name: &str, called: &[&str], printed: &str) {
    let Some(compiler) = compiler() else {
        eprintln!("no C compiler at hand: the program {name} is not tried");
        return;
    };
    let host = Path::new(env!("CARGO_MANIFEST_DIR"));
    let program = Path::new(env!("CARGO_TARGET_TMPDIR")).join(name);
    let archives = host.join("../target/staticlib");
    let built = Command::new(&compiler)
        .args(["-std=c99", "-pedantic", "-Wall", "-Wextra", "-Werror"])
        .arg("-I")
        .arg(host.join("include"))
        .arg(host.join(format!("tests/c/{name}.c")))
        .args(
            called
                .iter()
                .map(|name| archives.join(format!("lib{name}.a"))),
        )
        .arg("-o")
        .arg(&program)
        .output()
        .expect("the compiler starts");
    let said = String::from_utf8_lossy(&built.stderr);
    assert!(built.status.success(), "{compiler}: {said}");
    let run = Command::new(&program).output().expect("the program starts");
    assert!(run.status.success());
    assert_eq!(String::from_utf8_lossy(&run.stdout), printed);
}

#[test]
fn one_drawer_in_c() {
    prints("judge", &["c_interface", "c_chain", "c_judging"], JUDGED);
}

#[test]
fn a_pool_in_c() {
    let called = [
        "c_interface",
        "pool_drawers",
        "pool_settings",
        "pool_judging",
    ];
    prints("pool", &called, POOLED);
}
