//! How many instructions a permutation takes, by callgrind over this same program.

use crate::table::{print_lines, Row};
use std::process::Command;

/// Two lengths of run; their difference is free of what the program does to start.
const FEW: u64 = 1;
const MANY: u64 = 3;

/// Makes so many runs of one maker's row, for callgrind to watch.
pub fn run(rows: Vec<Row>, maker: &str, runs: &str) {
    let mut row = rows
        .into_iter()
        .find(|row| row.maker.label() == maker)
        .expect("no such maker");
    let run = row.run.as_mut().expect("that maker is not installed");
    (0..runs.parse::<u64>().expect("runs are a number")).for_each(|_| run());
}

/// Prints the instructions of one permutation for each maker, if valgrind is installed.
pub fn print(rows: &[Row]) {
    if Command::new("valgrind").arg("--version").output().is_err() {
        return println!("instructions/permutation: valgrind is not installed");
    }
    let mut lines = vec![["by", "instructions/permutation"].map(str::to_string)];
    for row in rows {
        let count = match row.run {
            Some(_) => format!("{:.1}", instructions_per_call(row)),
            None => "not installed".to_string(),
        };
        lines.push([row.by(), count]);
    }
    print_lines(&lines, &[1]);
    println!("callgrind, difference of {MANY} runs and {FEW}");
}

/// The instructions of one call, from two runs of different length.
fn instructions_per_call(row: &Row) -> f64 {
    let difference = instructions(row, MANY) - instructions(row, FEW);
    difference as f64 / ((MANY - FEW) * row.calls) as f64
}

/// All instructions of this program when it makes so many runs of a row.
fn instructions(row: &Row, runs: u64) -> u64 {
    let program = std::env::current_exe().expect("the path of this program");
    let output = Command::new("valgrind")
        .args(["--tool=callgrind", "--callgrind-out-file=/dev/null"])
        .arg(program)
        .args(["--count", row.maker.label(), &runs.to_string()])
        .output()
        .expect("valgrind starts");
    let report = String::from_utf8_lossy(&output.stderr);
    let line = report.lines().find(|line| line.contains("Collected"));
    let count = line.and_then(|line| line.split_whitespace().last());
    count
        .and_then(|count| count.parse().ok())
        .expect("callgrind's total")
}
