//! The differential run: every call of the port, asked of the archive, of the model and of the crate's text.
//!
//!     differential [--quick] [--model-only] [--seed N] [SWEEP...]
//!
//! Prints for each call how many comparisons were made and how many differed, then the listed differences that were
//! met, then how many types and records were held to least compact lengths. The exit status is 1 if anything differed
//! beyond the list, or if a whole run never compared a call or a least compact length.

mod lengths;
mod run;
mod sweeps;

#[cfg(feature = "archive")]
mod archive;

use oracle::agreement::Listed;
use oracle::library::{Call, Library};
use run::Run;
use std::time::Instant;

/// What the command line asks for.
struct Asked {
    quick: bool,
    model_only: bool,
    seed: u64,
    only: Vec<String>,
}

fn asked() -> Asked {
    let mut asked = Asked { quick: false, model_only: !cfg!(feature = "archive"), seed: 1, only: Vec::new() };
    let mut words = std::env::args().skip(1);
    while let Some(word) = words.next() {
        match word.as_str() {
            "--quick" => asked.quick = true,
            "--model-only" => asked.model_only = true,
            "--seed" => asked.seed = words.next().and_then(|n| n.parse().ok()).expect("--seed takes a number"),
            name if sweeps::ALL.iter().any(|sweep| sweep.name == name) => asked.only.push(word),
            other => {
                eprintln!("differential: no such word: {other}");
                std::process::exit(2);
            }
        }
    }
    asked
}

#[cfg(feature = "archive")]
fn the_archive() -> Option<&'static dyn Library> {
    Some(&archive::Archive)
}

#[cfg(not(feature = "archive"))]
fn the_archive() -> Option<&'static dyn Library> {
    None
}

fn main() {
    let asked = asked();
    // The crate panics where the port refuses; those panics are answers here, not news.
    std::panic::set_hook(Box::new(|_| {}));
    let outcome = std::thread::Builder::new().stack_size(256 << 20).spawn(move || whole_run(&asked));
    let sound = match outcome.expect("a thread").join() {
        Ok(sound) => sound,
        Err(panic) => {
            let said = panic.downcast_ref::<String>().map(String::as_str);
            let said = said.or(panic.downcast_ref::<&str>().copied());
            println!("differential: the run itself panicked: {}", said.unwrap_or("without a word"));
            false
        }
    };
    std::process::exit(if sound { 0 } else { 1 });
}

fn whole_run(asked: &Asked) -> bool {
    let archive = if asked.model_only { None } else { the_archive() };
    let mut run = Run::new(archive);
    println!(
        "differential: {} against the model, and the model against the crate's text; seed {}",
        if archive.is_some() { "the archive" } else { "no archive" },
        asked.seed
    );
    assert!(oracle::published::lists_are_consistent(), "the stand-in's lists name the types built by the rules");
    let size = sweeps::Size { quick: asked.quick, seed: asked.seed };
    for sweep in sweeps::ALL {
        if !asked.only.is_empty() && !asked.only.iter().any(|name| name == sweep.name) {
            continue;
        }
        let before: u64 = run.tallies.iter().map(|t| t.accepted + t.refused.iter().sum::<u64>()).sum();
        let start = Instant::now();
        (sweep.run)(&mut run, &size);
        let after: u64 = run.tallies.iter().map(|t| t.accepted + t.refused.iter().sum::<u64>()).sum();
        let seconds = start.elapsed().as_secs_f64();
        println!("sweep {:13} {:>10} requests in {seconds:6.1} s: {}", sweep.name, after - before, sweep.what);
    }
    report(&run, asked)
}

/// Prints the counts. True if all is well.
fn report(run: &Run, asked: &Asked) -> bool {
    println!();
    println!(
        "{:24} {:>10} {:>8} {:>10} {:>8} {:>10}  refusals by number",
        "call", "archive", "differ", "text", "differ", "accepted"
    );
    let mut sound = run.model_faults == 0;
    let (mut archive, mut text) = (0, 0);
    for call in Call::ALL {
        let t = &run.tallies[call.number()];
        let refusals: Vec<String> = (1..10)
            .filter(|number| t.refused[*number] > 0)
            .map(|number| format!("{number}:{}", t.refused[number]))
            .collect();
        println!(
            "{:24} {:>10} {:>8} {:>10} {:>8} {:>10}  {}",
            call.name(),
            t.archive,
            t.archive_differs,
            t.text,
            t.text_differs,
            t.accepted,
            refusals.join(" ")
        );
        archive += t.archive;
        text += t.text;
        sound &= t.archive_differs == 0 && t.text_differs == 0;
        let never = t.archive == 0 && run.asks_the_archive() && asked.only.is_empty();
        if never {
            println!("    never compared: {}", call.name());
            sound = false;
        }
    }
    println!();
    for listed in Listed::ALL {
        println!("listed: {} ({} times)", listed.title(), run.listed[listed as usize]);
    }
    let lengths = &run.lengths;
    println!(
        "least compact lengths: {} held to the type's structure, {} records held between least and width, {} types held to \
         their shortest record",
        lengths.facts, lengths.records, lengths.reached
    );
    if asked.only.is_empty() && [lengths.facts, lengths.records, lengths.reached].contains(&0) {
        println!("    never compared");
        sound = false;
    }
    println!("model against definitions: {} faults", run.model_faults);
    println!("compared: {archive} answers of the archive, {text} of the crate's text");
    println!("{}", if sound { "no difference beyond the list" } else { "DIFFERENCES BEYOND THE LIST" });
    sound
}
