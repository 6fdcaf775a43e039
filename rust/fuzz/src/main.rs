//! `linkinfo_fuzz SECONDS SEED FILE..`: mutates the lists of the files, and gives each to every
//! call of the crate. The results must agree with one another and, with the feature `archive`, with
//! those of the C library. The script `rust/fuzz/run` builds and runs it.

#[cfg(feature = "archive")]
mod archive;
mod itself;
mod random;
mod strings;

use itself::Seen;
use random::Random;
use std::panic::{AssertUnwindSafe, catch_unwind};
use std::process::ExitCode;
use std::time::{Duration, Instant};

fn compare(random: &mut Random, bytes: &[u8], second: &[u8]) -> Seen {
    #[cfg(feature = "archive")]
    archive::compare(random, bytes, second);
    itself::compare(random, bytes, second)
}

struct Totals {
    cases: u64,
    accepted: u64,
    equivalent: u64,
}

/// Tries lists until the time is over, and returns the two lists of the first difference.
fn run(time: Duration, seed: u64, seeds: &[Vec<u8>]) -> (Totals, Option<[Vec<u8>; 2]>) {
    let start = Instant::now();
    let mut random = Random::new(seed);
    let mut totals = Totals {
        cases: 0,
        accepted: 0,
        equivalent: 0,
    };
    let mut before = Vec::new();
    while totals.cases % 256 != 0 || start.elapsed() < time {
        let bytes = strings::any(&mut random, seeds);
        let second = strings::second(&mut random, &bytes, &before);
        let compared = AssertUnwindSafe(|| compare(&mut random, &bytes, &second));
        let Ok(seen) = catch_unwind(compared) else {
            return (totals, Some([bytes, second]));
        };
        totals.cases += 1;
        totals.accepted += u64::from(seen.is_accepted);
        totals.equivalent += u64::from(seen.is_equivalent);
        before = bytes;
    }
    (totals, None)
}

fn main() -> ExitCode {
    let arguments: Vec<String> = std::env::args().skip(1).collect();
    let [seconds, seed, files @ ..] = arguments.as_slice() else {
        eprintln!("usage: linkinfo_fuzz SECONDS SEED FILE..");
        return ExitCode::FAILURE;
    };
    let seconds = seconds.parse().expect("a number of seconds");
    let seed = seed.parse().expect("a number as the seed");
    let mut seeds = vec![Vec::new()];
    for file in files {
        seeds.extend(strings::of_text(
            &std::fs::read_to_string(file).expect("a file of text"),
        ));
    }
    assert!(seeds.len() > 50, "the files have lists in hex");
    let (totals, different) = run(Duration::from_secs(seconds), seed, &seeds);
    if let Some([first, second]) = different {
        let (first, second) = (strings::to_hex(&first), strings::to_hex(&second));
        println!(
            "rust/fuzz: FAILED at case {} of seed {seed}: {first} {second}",
            totals.cases
        );
        return ExitCode::FAILURE;
    }
    println!(
        "rust/fuzz: {} lists of {} seeds: {} accepted, {} equivalent to other bytes{}",
        totals.cases,
        seeds.len(),
        totals.accepted,
        totals.equivalent,
        if cfg!(feature = "archive") {
            ", compared with the C library"
        } else {
            ""
        },
    );
    ExitCode::SUCCESS
}
