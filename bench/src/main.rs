//! Ours and the crate's text side by side on the same inputs: best of several, as ratios.
//!
//!     bench [--quick] [copies | codecs | tables ...]
//!     bench [--quick] before    (with the feature of that name alone: see tools/bench-before)
//!
//! A ratio above 1 says how many times as fast ours is. Every call of ours checks its whole table first; the crate
//! has no such check, and its types carry an interned number where the published crate computes a SHA-256 each time
//! a value is built. Answers are compared before anything is timed.

mod codecs;
mod copies;
mod copy_bits;
mod measure;
mod subjects;
mod tables;
#[cfg(feature = "before")]
mod two_archives;

use measure::Effort;

fn main() {
    let words: Vec<String> = std::env::args().skip(1).collect();
    let quick = words.iter().any(|word| word == "--quick");
    let wanted: Vec<&String> = words.iter().filter(|word| *word != "--quick").collect();
    #[cfg(feature = "before")]
    if wanted == ["before"] {
        println!("machine: {}", machine());
        return two_archives::run(Effort::new(quick));
    }
    if let Some(other) = wanted.iter().find(|word| !["copies", "codecs", "tables"].contains(&word.as_str())) {
        eprintln!("bench: no such part: {other}");
        std::process::exit(2);
    }
    let wants = |part: &str| wanted.is_empty() || wanted.iter().any(|word| *word == part);
    println!("machine: {}", machine());
    let effort = Effort::new(quick);
    if wants("codecs") {
        codecs::run(effort);
    }
    if wants("tables") {
        tables::run(effort);
    }
    if wants("copies") {
        copies::run(effort);
    }
}

/// The processor's name, if the system tells it.
fn machine() -> String {
    let told = std::fs::read_to_string("/proc/cpuinfo").unwrap_or_default();
    let name =
        told.lines().find_map(|line| line.strip_prefix("model name")).map(|rest| rest.trim_matches([' ', '\t', ':']));
    format!("{}, {}", name.unwrap_or("unnamed processor"), std::env::consts::ARCH)
}
