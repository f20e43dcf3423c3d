//! Drawings and the check, measured:
//!
//! - draw: rows near a sphere, which take more moves than others, with a budget of 10,000; and readings of 900
//!   points.
//! - uniform: 32 sets of rows with each coordinate uniform in -4,000 to 4,000, drawn to Settled.
//! - longest known: the set of 256x8 that takes the most moves of all that were tried, drawn to Settled.
//!
//! `bench sets FOLDER` writes the sets of these lines to files for `bench/peers`.

use crate::measure::{Line, Lines};
use crate::plain;
use crate::random::{CLUSTERS, Random};
use std::fmt::Write;
use std::path::{Path, PathBuf};

const BUDGET: u32 = 10_000;
/// Every drawing here ends Settled within it.
const LARGEST_BUDGET: u32 = 1_000_000;
const ROWS: usize = 256;
const CHANNELS: usize = 8;
const POINTS: usize = 900;
const UNIFORM_SETS: usize = 32;
const UNIFORM_SEED: u64 = 22;
/// Found among some thousands of seeds and widths of clusters.
const LONGEST_SEED: u64 = 50;
const LONGEST_MOVES: u32 = 113_382;
const LONGEST: &str = "longest known";
/// The first argument with which this program writes the sets, and does nothing else.
const SETS: &str = "sets";

/// A reference set, the budget of its drawing, and weights where it is checked.
struct Work {
    places: Vec<i32>,
    m: usize,
    n: usize,
    budget: u32,
    weights: Vec<u32>,
}

/// The figures of a call, with its centre and weights.
type Outcome = (plain::Figures, [i64; CHANNELS], [u32; ROWS]);

/// The sets of one line, and what they are.
struct Sets {
    name: String,
    input: String,
    work: Vec<Work>,
}

pub fn measure_drawings(random: &mut Random) {
    let lines = Lines::new("moves");
    for Sets { name, input, work } in all_sets(random) {
        let sentence = format!(
            "The proved draw against plain Rust that makes the same moves, X carried, two passes a move, on {input}."
        );
        let line = Line {
            name: &name,
            sentence: &sentence,
            pieces: (work.len(), "drawing"),
        };
        let moves = |work: &Work, outcome: &Outcome| {
            assert!(outcome.0.settled || work.budget < LARGEST_BUDGET);
            assert!(name != LONGEST || outcome.0.moves == LONGEST_MOVES);
            moves(outcome)
        };
        lines.measure(&line, &work, proved_draw, plain_draw, moves);
    }
    let mut work = Work::new((256, 8), BUDGET, || random.row_near_sphere(8));
    work.weights = weights_cut_short(&work);
    let line = Line {
        name: "check 256x8",
        sentence: "The proved check of the weights of a drawing cut short after 100 moves against plain Rust that \
                   computes X, both passes and L of them, on 256 rows of 8 channels near a sphere.",
        pieces: (1, "check"),
    };
    let moves = |_: &Work, outcome: &Outcome| moves(outcome);
    lines.measure(&line, &[work], proved_check, plain_check, moves);
}

fn moves(outcome: &Outcome) -> u64 {
    outcome.0.moves.into()
}

/// The sets of all drawings. Those that came later have seeds of their own.
fn all_sets(random: &mut Random) -> Vec<Sets> {
    let mut all: Vec<Sets> = [(256, 8), (256, 2), (20, 4)]
        .map(|(m, n)| Sets {
            name: format!("draw {m}x{n}"),
            input: format!("{m} rows of {n} channels near a sphere, budget 10,000"),
            work: vec![Work::new((m, n), BUDGET, || random.row_near_sphere(n))],
        })
        .into();
    all.push(Sets {
        name: "draw 60x4, 900 points".into(),
        input: "900 sets of 60 readings of 4 channels, most of them near their mean".into(),
        work: works(POINTS, (60, 4), || random.row_of_readings(4)),
    });
    let mut random = Random(UNIFORM_SEED);
    for (m, n) in [(256, 8), (256, 2), (60, 4), (20, 4)] {
        all.push(Sets {
            name: format!("uniform {m}x{n}"),
            input: format!("32 sets of {m} uniform rows of {n} channels, each drawn to Settled"),
            work: works(UNIFORM_SETS, (m, n), || random.uniform_row(n)),
        });
    }
    all.push(longest_known());
    all
}

fn works(sets: usize, size: (usize, usize), mut row: impl FnMut() -> Vec<i32>) -> Vec<Work> {
    (0..sets)
        .map(|_| Work::new(size, LARGEST_BUDGET, &mut row))
        .collect()
}

fn longest_known() -> Sets {
    let mut random = Random(LONGEST_SEED);
    let mut clusters = (0..CLUSTERS).cycle();
    let row = || random.row_of_cluster(CHANNELS, clusters.next().expect("one of eight"));
    Sets {
        name: LONGEST.into(),
        input: "256 rows of 8 channels in eight narrow clusters, drawn to Settled".into(),
        work: works(1, (ROWS, CHANNELS), row),
    }
}

impl Work {
    fn new((m, n): (usize, usize), budget: u32, mut row: impl FnMut() -> Vec<i32>) -> Work {
        Work {
            places: (0..m).flat_map(|_| row()).collect(),
            m,
            n,
            budget,
            weights: Vec::new(),
        }
    }
}

/// The weights of a drawing of 100 moves.
fn weights_cut_short(work: &Work) -> Vec<u32> {
    let (mut centre, mut weights) = ([0; CHANNELS], vec![0; work.m]);
    let drawn = plain::draw(
        &work.places,
        (work.m, work.n),
        100,
        &mut centre,
        &mut weights,
    );
    drawn.expect("within limits");
    weights
}

/// The folder that the sets are to be written to, where that is asked for.
pub fn folder_of_sets() -> Option<PathBuf> {
    let mut arguments = std::env::args_os().skip(1);
    let first = arguments.next()?;
    (first == SETS).then(|| arguments.next().expect("a folder").into())
}

/// Writes a file for each line: m, n, the budget and how many sets; then of each set the moves, M and L of its
/// drawing, and its rows.
pub fn write_sets(folder: &Path) {
    for Sets { name, work, .. } in all_sets(&mut Random(1)) {
        let Work { m, n, budget, .. } = work[0];
        let mut text = format!("{m} {n} {budget} {}\n", work.len());
        for work in &work {
            add_set(&mut text, work).expect("a string takes every text");
        }
        let name: String = name.replace(", ", "-").replace(' ', "-");
        let file = folder.join(format!("{name}.sets"));
        std::fs::write(&file, text).expect("a folder that can be written to");
    }
}

fn add_set(text: &mut String, work: &Work) -> std::fmt::Result {
    let figures = plain_draw(work).0;
    let plain::Figures {
        scaled_squared_radius,
        scaled_lower_bound,
        moves,
        ..
    } = figures;
    writeln!(text, "{moves} {scaled_squared_radius} {scaled_lower_bound}")?;
    for row in work.places.chunks_exact(work.n) {
        let row: Vec<String> = row.iter().map(i32::to_string).collect();
        writeln!(text, "{}", row.join(" "))?;
    }
    Ok(())
}

fn plain_draw(work: &Work) -> Outcome {
    let (mut centre, mut weights) = ([0; CHANNELS], [0; ROWS]);
    let size = (work.m, work.n);
    let figures = plain::draw(&work.places, size, work.budget, &mut centre, &mut weights);
    (figures.expect("within limits"), centre, weights)
}

fn plain_check(work: &Work) -> Outcome {
    let mut centre = [0; CHANNELS];
    let figures = plain::check(&work.places, (work.m, work.n), &work.weights, &mut centre);
    (figures.expect("within limits"), centre, [0; ROWS])
}

fn proved_draw(work: &Work) -> Outcome {
    let (mut centre, mut weights) = ([0; CHANNELS], [0; ROWS]);
    let Work { places, m, n, .. } = work;
    let answer = cundarivo::draw_into(places, *m, *n, work.budget, &mut centre, &mut weights);
    assert_eq!(answer.number, 0);
    let figures = plain::Figures {
        settled: answer.settled == 1,
        moves: answer.moves,
        scaled_squared_radius: answer.scaled_squared_radius,
        scaled_lower_bound: answer.scaled_lower_bound,
    };
    (figures, centre, weights)
}

fn proved_check(work: &Work) -> Outcome {
    let mut centre = [0; CHANNELS];
    let Work { places, m, n, .. } = work;
    let answer = cundarivo::check_into(places, *m, *n, &work.weights, &mut centre);
    assert_eq!(answer.number, 0);
    let figures = plain::Figures {
        settled: answer.settled == 1,
        moves: 0,
        scaled_squared_radius: answer.scaled_squared_radius,
        scaled_lower_bound: answer.scaled_lower_bound,
    };
    (figures, centre, [0; ROWS])
}
