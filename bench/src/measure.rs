//! One line of the output: proved and plain on the same work. Its rounds are timed, by turns; or the calls
//! are made once for callgrind to count, where that is asked for.

use crate::count;
use std::fmt::Debug;
use std::hint::black_box;
use std::time::Instant;

const ROUNDS: usize = 31;
/// A round repeats its work until it takes at least this long in plain Rust.
const ROUND_SECONDS: f64 = 0.02;

/// Lines below one header: who is measured, and the unit of how much work there is.
pub struct Lines {
    sides: [&'static str; 2],
    unit: &'static str,
}

/// What a line says besides its figures.
pub struct Line<'a> {
    pub name: &'a str,
    /// One sentence: what the first does, what the second does, and on what input.
    pub sentence: &'a str,
    /// How many of which pieces all the work is.
    pub pieces: (usize, &'a str),
}

impl Lines {
    /// Prints the names of the columns.
    pub fn new(unit: &'static str) -> Lines {
        Lines::of(["proved", "plain"], unit)
    }

    /// The same, where others than proved and plain are measured.
    pub fn of(sides: [&'static str; 2], unit: &'static str) -> Lines {
        if !count::is_asked_for() {
            let [first, second] = sides.map(|side| format!("{side} ms"));
            println!(
                "{:<26}{first:>12}{second:>12}{:>10}{:>10}{unit:>10}",
                "name", "medians", "minima"
            );
        }
        Lines { sides, unit }
    }

    /// Prints one line: the median round of each, per run through all the work, and both ratios; or makes
    /// the calls that are counted.
    pub fn measure<Piece, Outcome: PartialEq + Debug>(
        &self,
        line: &Line<'_>,
        work: &[Piece],
        proved: impl Fn(&Piece) -> Outcome,
        plain: impl Fn(&Piece) -> Outcome,
        amount: impl Fn(&Piece, &Outcome) -> u64,
    ) {
        if !count::takes(line.name) {
            return;
        }
        let mut total = 0;
        for piece in work {
            let outcome = plain(piece);
            assert_eq!(proved(piece), outcome, "{}: both give the same", line.name);
            total += amount(piece, &outcome);
        }
        if count::is_asked_for() {
            let runs: [&dyn Fn(); 2] = [&|| run(work, &proved), &|| run(work, &plain)];
            for (side, run) in self.sides.iter().zip(runs) {
                count::count(&[line.name, side, self.unit], work.len(), total, run);
            }
        } else {
            self.print(line, times(work, proved, plain), total);
        }
    }

    /// Prints one line of the rounds of each.
    pub fn print(&self, line: &Line<'_>, mut times: [Vec<f64>; 2], total: u64) {
        for list in &mut times {
            list.sort_by(f64::total_cmp);
        }
        let [first, second] = times.each_ref().map(|list| list[list.len() / 2]);
        let [first_ms, second_ms] = [first, second].map(|seconds| seconds * 1_000.0);
        let of_medians = first / second;
        let of_minima = times[0][0] / times[1][0];
        let Line { name, sentence, .. } = line;
        println!(
            "{name:<26}{first_ms:>12.4}{second_ms:>12.4}{of_medians:>10.2}{of_minima:>10.2}{total:>10}"
        );
        let (count, piece) = line.pieces;
        for (side, seconds) in self.sides.iter().zip([first, second]) {
            let each = seconds / count as f64;
            let (time, rate) = (each * 1e6, 1.0 / each);
            println!("    {side}: {time:.3} µs a {piece}, {rate:.0} {piece}s a second");
        }
        println!("    {sentence}");
    }
}

/// The rounds of each, in seconds per run through all the work.
fn times<Piece, Outcome>(
    work: &[Piece],
    proved: impl Fn(&Piece) -> Outcome,
    plain: impl Fn(&Piece) -> Outcome,
) -> [Vec<f64>; 2] {
    let once = seconds(work, &plain, 1);
    let repeats = (ROUND_SECONDS / once).ceil().max(1.0) as usize;
    let mut times = [Vec::new(), Vec::new()];
    for round in 0..ROUNDS {
        // Who goes first changes from round to round.
        for turn in [round % 2, 1 - round % 2] {
            times[turn].push(match turn {
                0 => seconds(work, &proved, repeats),
                _ => seconds(work, &plain, repeats),
            });
        }
    }
    times
}

/// The time of one run through all the work, over a number of runs.
fn seconds<Piece, Outcome>(
    work: &[Piece],
    call: &impl Fn(&Piece) -> Outcome,
    repeats: usize,
) -> f64 {
    let start = Instant::now();
    for _ in 0..repeats {
        run(work, call);
    }
    start.elapsed().as_secs_f64() / repeats as f64
}

/// One call for each piece of the work.
fn run<Piece, Outcome>(work: &[Piece], call: &impl Fn(&Piece) -> Outcome) {
    for piece in work {
        black_box(call(black_box(piece)));
    }
}
