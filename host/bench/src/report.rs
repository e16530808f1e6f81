//! What the run prints.
use std::fs;

/// What is compared, on which machine, and how each side was compiled.
pub fn head() {
    let cpu = fs::read_to_string("/proc/cpuinfo").unwrap_or_default();
    let model = cpu
        .lines()
        .find(|l| l.starts_with("model name") || l.starts_with("CPU part"))
        .and_then(|l| l.split(": ").nth(1))
        .unwrap_or("unknown");
    println!("machine: {} ({model})", std::env::consts::ARCH);
    println!("proved:  the archive of crates/cabinet_c, compiled by the Rattle toolchain at -O3, each function called as C calls it");
    println!("plain:   the crate plain, compiled by rustc at opt-level 3; neither has an index");
    println!("the least of several rounds, the two sides in turn; rooms, records and spaces are cleared first on both sides");
    println!();
}

pub fn line(what: &str, a: &str, b: &str, ratio: &str) {
    println!("{what:<24} {a:>12} {b:>12} {ratio:>8}");
}

/// One line of the table.
pub fn compare(what: &str, proved: f64, plain: f64) {
    line(what, &format!("{proved:.1}"), &format!("{plain:.1}"), &format!("{:.2}", proved / plain));
}
