//! The proved library timed against plain Rust: the same input, the same work, the same run. The
//! rounds of both alternate. The times are those of the median round, and the ratio of proved to
//! plain is given of the medians and of the minima. Below each line a sentence says what it compares.
//!
//! `bench/instructions` counts the instructions of each line; `bench/peers/run` times drawings against CGAL and
//! plain C; `cargo test` holds the plain readers of reference texts against the proved one on damaged texts.

mod bytes;
mod charts;
mod count;
mod drawings;
mod mark;
mod measure;
mod memory;
mod plain;
mod plain_redraw;
mod random;
mod reader;
mod reader_pass;
mod readings;
mod record;
mod record_fields;
mod record_pass;
mod records;
mod redraw;
mod reference;
mod reference_fields;
mod reference_pass;
mod references;
mod texts;
mod trial;
mod trials;
mod verdict;

use random::Random;

fn main() {
    if let Some(folder) = redraw::folder_to_redraw() {
        plain_redraw::redraw(&folder);
        return;
    }
    if let Some(folder) = drawings::folder_of_sets() {
        drawings::write_sets(&folder);
        return;
    }
    if let Some(model) = processor_model().filter(|_| !count::is_asked_for()) {
        println!("{model}");
    }
    measure_calls();
    if count::takes_processes() {
        redraw::measure_redraw(&mut Random(1));
        memory::measure_memory();
    }
}

/// Lines of one kind, by the words that their names start with.
type Group = (&'static [&'static str], fn(&mut Random));

/// Each has a source of numbers of its own, so that it can be left out.
const GROUPS: [Group; 7] = [
    (
        &["draw", "uniform", "longest", "check"],
        drawings::measure_drawings,
    ),
    (&["read", "label"], texts::measure_texts),
    (&["judge", "measure"], readings::measure_readings),
    (&["write record", "read record"], records::measure_records),
    (&["chart", "panel"], charts::measure_charts),
    (&["write", "plain"], references::measure_references),
    (&["trial", "alerts"], trials::measure_trials),
];

fn measure_calls() {
    for (words, measure) in GROUPS {
        if count::may_take(words) {
            measure(&mut Random(1));
        }
    }
}

/// The line of the processor's model, where the system tells it.
fn processor_model() -> Option<String> {
    let text = std::fs::read_to_string("/proc/cpuinfo").ok()?;
    let line = text.lines().find(|line| line.starts_with("model name"))?;
    Some(line.to_string())
}
