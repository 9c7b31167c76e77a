//! Calls every export of both archives with arbitrary bytes for a while and compares all that each
//! call leaves with the reference.
//!
//! `soak [SECONDS [SEED]]`: 60 seconds from a seed by the clock, unless said otherwise. The first
//! difference ends it, with the seed from which the very same call comes first again.

mod bundles;
mod desk;
mod made_up;
mod probe;
mod sessions;

use compare::random::Random;
use std::panic::catch_unwind;
use std::process::exit;
use std::time::{Duration, Instant, SystemTime};

/// An export's name and one call of it with arbitrary bytes, which panics if the sides differ.
type Trial = (&'static str, fn(&mut Random));

/// The trials of every export.
fn trials() -> Vec<Trial> {
    [&probe::TRIALS[..], &bundles::TRIALS, &desk::TRIALS].concat()
}

/// A number from the command line, if it is there.
fn argument(at: usize) -> Option<u64> {
    let word = std::env::args().nth(at)?;
    Some(word.parse().expect("usage: soak [SECONDS [SEED]]"))
}

/// A seed that another run does not have.
fn seed_by_the_clock() -> u64 {
    let since = SystemTime::UNIX_EPOCH.elapsed().expect("a clock past 1970");
    since.as_nanos() as u64
}

/// Makes calls until the time is over and counts them; each call has a seed of its own.
fn soaked(trials: &[Trial], time: Duration, first_seed: u64) -> Vec<u64> {
    let (start, mut counts) = (Instant::now(), vec![0; trials.len()]);
    let mut seed = first_seed;
    while start.elapsed() < time {
        let chosen = Random::new(seed).below(trials.len());
        let (export, trial) = trials[chosen];
        if catch_unwind(|| trial(&mut Random::new(!seed))).is_err() {
            println!("{export} differs: see it again by `soak 1 {seed}`");
            exit(1);
        }
        counts[chosen] += 1;
        seed = seed.wrapping_add(1);
    }
    counts
}

fn main() {
    let time = Duration::from_secs(argument(1).unwrap_or(60));
    let seed = argument(2).unwrap_or_else(seed_by_the_clock);
    // Said before the first call: one that ends the program leaves no other trace.
    println!("{} seconds from seed {seed}", time.as_secs());
    let trials = trials();
    let counts = soaked(&trials, time, seed);
    let each = trials.iter().zip(&counts);
    let each: Vec<String> = each
        .map(|((name, _), count)| format!("{name} {count}"))
        .collect();
    println!("compared: {}; 0 differ", each.join(", "));
}
