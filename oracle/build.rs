//! Tells the linker where `run` has put our static libraries.

use std::env;
use std::path::Path;

const ARCHIVES: [&str; 7] = [
    "c_interface",
    "c_chain",
    "c_calls",
    "c_judging",
    "pool_drawers",
    "pool_settings",
    "pool_judging",
];

fn main() {
    let here = env::var("CARGO_MANIFEST_DIR").expect("cargo names the folder");
    let folder = Path::new(&here).join("../target/staticlib");
    println!("cargo:rustc-link-search=native={}", folder.display());
    for archive in ARCHIVES {
        let file = folder.join(format!("lib{archive}.a"));
        println!("cargo:rerun-if-changed={}", file.display());
    }
}
