//! Rows, their measurement by turns in one process, and the printed table.

use std::time::{Duration, Instant};

/// How long the rows are run by turns; of each row the shortest run counts.
const BUDGET: Duration = Duration::from_secs(20);

/// The job that the others are held to, block by block.
pub const PERMUTATION: &str = "permutation";

/// Who does a row's job.
#[derive(Clone, Copy, PartialEq)]
pub enum Maker {
    Library,
    Reference,
    Clang,
    Gcc,
    OpenSsl,
}

impl Maker {
    /// The maker as the tables name it.
    pub fn label(self) -> &'static str {
        match self {
            Maker::Library => "this library",
            Maker::Reference => "reference in Rust",
            Maker::Clang => "plain C, clang -O3",
            Maker::Gcc => "plain C, gcc -O3",
            Maker::OpenSsl => "OpenSSL",
        }
    }

    /// Whether the maker is one of the two C compilers.
    fn is_plain_c(self) -> bool {
        matches!(self, Maker::Clang | Maker::Gcc)
    }
}

/// One line of the table before it is measured.
pub struct Row {
    /// What is done. Rows of one job are compared with each other.
    pub job: String,
    /// Who does it.
    pub maker: Maker,
    /// How the measurement is taken, where that needs a word after the maker's name.
    pub note: &'static str,
    /// Calls in one run.
    pub calls: u64,
    /// Permutations in one call, 0 for a cipher that has none.
    pub blocks: u64,
    /// Message bytes in one call, 0 if that has no meaning.
    pub bytes: u64,
    /// Makes one run; nothing if its maker is not installed.
    pub run: Option<Box<dyn FnMut()>>,
}

impl Row {
    /// Who does the job, and how it is measured.
    pub fn by(&self) -> String {
        format!("{}{}", self.maker.label(), self.note)
    }
}

/// A row with the nanoseconds that its shortest run took for one call.
pub struct Measured {
    row: Row,
    nanoseconds: Option<f64>,
}

/// Runs all rows by turns, so that a slow spell of the machine meets each of them alike.
pub fn measured(rows: Vec<Row>) -> Vec<Measured> {
    let untimed = |row| Measured {
        row,
        nanoseconds: None,
    };
    let mut all: Vec<Measured> = rows.into_iter().map(untimed).collect();
    let start = Instant::now();
    while start.elapsed() < BUDGET {
        all.iter_mut().for_each(take_turn);
    }
    all
}

/// Makes two runs of a row, the first of which warms the caches for the second, and keeps a time
/// that is the shortest so far.
fn take_turn(measured: &mut Measured) {
    if let Some(run) = &mut measured.row.run {
        for _ in 0..2 {
            let start = Instant::now();
            run();
            let time = start.elapsed().as_nanos() as f64 / measured.row.calls as f64;
            let shortest = measured.nanoseconds.map_or(time, |known| known.min(time));
            measured.nanoseconds = Some(shortest);
        }
    }
}

impl Measured {
    /// Nanoseconds for each permutation that a call makes.
    fn per_block(&self) -> Option<f64> {
        let blocks = self.row.blocks as f64;
        self.nanoseconds
            .filter(|_| blocks > 0.0)
            .map(|time| time / blocks)
    }

    /// Millions of message bytes in a second.
    fn speed(&self) -> Option<f64> {
        let bytes = self.row.bytes as f64;
        self.nanoseconds
            .filter(|_| bytes > 0.0)
            .map(|time| 1000.0 * bytes / time)
    }

    /// This row's time for a call over the best time that the chosen makers have for its job.
    fn against(&self, all: &[Measured], chosen: impl Fn(Maker) -> bool) -> Option<f64> {
        let rivals = all
            .iter()
            .filter(|m| m.row.job == self.row.job && chosen(m.row.maker));
        let best = rivals
            .filter_map(|m| m.nanoseconds)
            .min_by(f64::total_cmp)?;
        Some(self.nanoseconds? / best)
    }

    /// Whether this is a row of the library's own.
    fn is_library(&self) -> bool {
        self.row.maker == Maker::Library
    }

    /// This row's time for a block over the library's time for a bare permutation.
    fn against_permutation(&self, all: &[Measured]) -> Option<f64> {
        let mut library = all.iter().filter(|m| m.is_library());
        let bare = library.find(|m| m.row.job == PERMUTATION)?.per_block()?;
        let own = self.per_block().filter(|_| self.is_library());
        own.map(|time| time / bare)
    }

    /// The cells of this row's line.
    fn cells(&self, all: &[Measured]) -> [String; 8] {
        let time = match self.nanoseconds {
            Some(time) => format!("{time:.1}"),
            None => "not installed".to_string(),
        };
        [
            self.row.job.clone(),
            self.row.by(),
            time,
            cell(self.per_block(), 1),
            cell(self.speed(), 1),
            cell(self.against(all, Maker::is_plain_c), 3),
            cell(self.against_permutation(all), 3),
            cell(self.against(all, |maker| maker == Maker::OpenSsl), 3),
        ]
    }
}

/// A number as a cell, or a dash where it has no meaning.
fn cell(number: Option<f64>, digits: usize) -> String {
    number.map_or("-".to_string(), |number| format!("{number:.digits$}"))
}

/// Prints all measured rows as one aligned table.
pub fn print(all: &[Measured]) {
    let titles = [
        "job",
        "by",
        "ns/call",
        "ns/block",
        "MB/s",
        "to plain C",
        "to permutation",
        "to OpenSSL",
    ];
    let mut lines = vec![titles.map(str::to_string)];
    lines.extend(all.iter().map(|measured| measured.cells(all)));
    print_lines(&lines, &[2, 3, 4, 5, 6, 7]);
    println!("shortest of many runs of each row, taken by turns in one process");
}

/// Prints lines of cells in columns; the columns named in `right` hold numbers.
pub fn print_lines<const N: usize>(lines: &[[String; N]], right: &[usize]) {
    let widths: [usize; N] =
        std::array::from_fn(|i| lines.iter().map(|line| line[i].len()).max().unwrap_or(0));
    for line in lines {
        let padded: Vec<String> = (0..N)
            .map(|i| match right.contains(&i) {
                true => format!("{:>1$}", line[i], widths[i]),
                false => format!("{:<1$}", line[i], widths[i]),
            })
            .collect();
        println!("{}", padded.join("  ").trim_end());
    }
}
