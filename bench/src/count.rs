//! The lines that are measured, and the calls that callgrind counts for `bench/instructions`: `bench only START`
//! measures the lines whose name starts so, `bench count` makes the calls of all lines to count but of those that
//! start processes, and `bench count START` those of the lines whose name starts so.

use std::env;
use std::hint::black_box;

/// The first argument with which this program makes the calls to count, and measures nothing.
const COUNT: &str = "count";
/// The first argument with which it measures some lines.
const ONLY: &str = "only";

pub fn is_asked_for() -> bool {
    first_is(COUNT)
}

/// Whether a line of this name is measured or counted.
pub fn takes(name: &str) -> bool {
    start().is_none_or(|start| name.starts_with(&start))
}

/// Whether a line whose name starts with one of these words may be.
pub fn may_take(words: &[&str]) -> bool {
    let agree = |start: String| {
        let mut words = words.iter();
        words.any(|word| start.starts_with(word) || word.starts_with(&start))
    };
    start().is_none_or(agree)
}

/// Whether lines that start processes are measured too.
pub fn takes_processes() -> bool {
    !first_is(COUNT) && !first_is(ONLY)
}

fn start() -> Option<String> {
    env::args().nth(2).filter(|_| !takes_processes())
}

fn first_is(word: &str) -> bool {
    env::args().nth(1).is_some_and(|first| first == word)
}

/// Makes the calls, and prints what was counted: the words, the calls and the amount of work.
pub fn count(words: &[&str; 3], calls: usize, amount: u64, run: &dyn Fn()) {
    counted_calls(run);
    let [name, side, unit] = words;
    println!("{name}\t{side}\t{calls}\t{amount}\t{unit}");
}

/// Callgrind collects within this function, which it knows by its name, and writes a total each time it ends.
#[unsafe(no_mangle)]
#[inline(never)]
fn counted_calls(run: &dyn Fn()) {
    run();
    // Without it the call would be a jump, and this function would not end.
    black_box(());
}
