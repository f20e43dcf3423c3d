//! The stored texts: each program and its command print the stored output, byte for byte, whether the last
//! text comes whole or in pieces.

use outside::programs::refusals_in;
use outside::random::Random;
use programs::call::{WAYS, run_in_pieces};
use programs::folder::Folder;
use programs::{EXAMPLES, PROGRAMS, example, kinds, month, texts};
use std::collections::BTreeSet;
use std::path::{Path, PathBuf};
use std::time::Duration;

const LEAST_CASES: usize = 45;
/// Of all programs together.
const LEAST: usize = 300;
/// Texts up to this length come in pieces of 1 to 7 bytes, longer ones in larger pieces.
const SMALL: usize = 1_000;
const PIECES: usize = 150;
const PAUSE: Duration = Duration::from_micros(100);
const SEED: u64 = 8;

struct Case {
    name: String,
    texts: Vec<Vec<u8>>,
    output: Vec<u8>,
}

/// The stored cases of a program and those of the examples.
fn cases(name: &str) -> Vec<Case> {
    let mut cases = stored(name);
    match name {
        "alerts" => cases.push(of_month()),
        _ => cases.extend(EXAMPLES.map(|point| of_example(name, point))),
    }
    cases
}

/// Each output has as many texts beside it as the program takes, and there is no other file.
fn stored(name: &str) -> Vec<Case> {
    let folder = Path::new(env!("CARGO_MANIFEST_DIR"))
        .join("stored")
        .join(name);
    let entries = std::fs::read_dir(folder).expect("stored cases");
    let paths: Vec<PathBuf> = entries
        .map(|entry| entry.expect("an entry").path())
        .collect();
    let outputs = paths
        .iter()
        .filter(|path| path.extension().is_some_and(|kind| kind == "out"));
    let cases: Vec<Case> = outputs.map(|output| read_case(name, output)).collect();
    assert_eq!(paths.len(), (texts(name) + 1) * cases.len(), "{name}");
    assert!(cases.len() >= LEAST_CASES, "{name} has {}", cases.len());
    cases
}

fn read_case(name: &str, output: &Path) -> Case {
    let read = |path: &Path| {
        std::fs::read(path).unwrap_or_else(|error| panic!("{}: {error}", path.display()))
    };
    Case {
        name: output.display().to_string(),
        texts: kinds(name)
            .iter()
            .map(|kind| read(&output.with_extension(kind)))
            .collect(),
        output: read(output),
    }
}

fn of_example(name: &str, point: &str) -> Case {
    let texts = kinds(name).iter().map(|kind| example(point, kind));
    Case {
        name: format!("{point} in examples"),
        texts: texts.collect(),
        output: match name {
            "draw" => example(point, "env"),
            "verify" => b"OK\n".to_vec(),
            "panel" => example(point, "panel"),
            "plain" => example(point, "plain"),
            _ => example(point, "verdicts"),
        },
    }
}

/// The example of `alerts`: settings tried on the readings of a month.
fn of_month() -> Case {
    Case {
        name: "a month in examples".to_string(),
        texts: month().to_vec(),
        output: example("purified-water", "alerts"),
    }
}

/// The command's status is the one that stands for the output.
#[test]
fn whole() {
    let mut compared = 0;
    for name in PROGRAMS {
        for case in cases(name) {
            println!("{name} on {}", case.name);
            let folder = Folder::new();
            let files = folder.write_texts(&case.texts);
            for way in WAYS {
                way.assert_answer(&way.run(name, &files), name, &case.output);
            }
            compared += 1;
        }
    }
    assert!(compared >= LEAST, "{compared} cases");
}

#[test]
fn in_pieces() {
    let mut random = Random::new(SEED);
    for name in PROGRAMS {
        for case in cases(name) {
            println!("{name} on {}", case.name);
            let largest = match case.texts.last().expect("a text").len() {
                0..=SMALL => 7,
                length => 2 * length / PIECES,
            };
            for way in WAYS {
                let size = || 1 + random.index(largest);
                let ended = run_in_pieces(way, name, &case.texts, PAUSE, size);
                way.assert_answer(&ended, name, &case.output);
            }
        }
    }
}

/// The numbers of the refusals that a program can print.
fn refusals(name: &str) -> &'static [u32] {
    match name {
        "draw" | "plain" => &[1, 2, 3, 4, 5, 6],
        "judge" => &[1, 2, 3, 4, 5, 6, 10, 11, 12],
        "alerts" => &[1, 2, 3, 4, 5, 6, 11, 12, 14],
        _ => &[1, 2, 3, 4, 5, 6, 11, 12],
    }
}

#[test]
fn every_refusal_is_stored() {
    for name in PROGRAMS {
        let met: BTreeSet<u32> = stored(name)
            .iter()
            .flat_map(|case| refusals_in(&case.output))
            .collect();
        assert!(met.iter().eq(refusals(name)), "{name}: {met:?}");
    }
}
