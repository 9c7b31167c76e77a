//! Prints how long the library's calls take, then how many instructions a permutation takes.
//!
//! `bench` prints both tables. `bench --count MAKER RUNS` makes that many runs of one maker's
//! permutation and prints nothing: the second table starts it under callgrind.

mod bundles;
mod ciphers;
mod counting;
mod hashes;
mod messages;
mod openssl;
mod permutation;
mod sessions;
mod table;

use table::Row;

/// Every row of the first table, each made by a function of its own.
fn rows() -> Vec<Row> {
    [
        permutation::rows(),
        hashes::rows(),
        sessions::rows(),
        ciphers::rows(),
        bundles::rows(),
    ]
    .into_iter()
    .flatten()
    .collect()
}

fn main() {
    let words: Vec<String> = std::env::args().skip(1).collect();
    match words.iter().map(String::as_str).collect::<Vec<_>>()[..] {
        [] => {
            table::print(&table::measured(rows()));
            println!();
            counting::print(&permutation::rows());
        }
        ["--count", maker, runs] => counting::run(permutation::rows(), maker, runs),
        _ => panic!("usage: bench, or bench --count MAKER RUNS"),
    }
}
