//! The stored cases of the programs, which the tests of the built programs run: every output is what
//! the outside implementation prints of the texts beside it.

use outside::programs::{PROGRAMS, Program, Texts, refusals_in};
use outside::reference::TEXT_LIMIT;
use outside::stored_programs::{OUTPUT, ends, texts};
use std::collections::BTreeSet;
use std::fs;
use std::path::{Path, PathBuf};

const LEAST_CASES: usize = 45;

fn folder(program: Program) -> PathBuf {
    let stored = Path::new(env!("CARGO_MANIFEST_DIR")).join("../programs/stored");
    stored.join(program.name())
}

fn files(program: Program) -> BTreeSet<PathBuf> {
    let entries = fs::read_dir(folder(program)).expect("stored cases");
    entries
        .map(|entry| entry.expect("an entry").path())
        .collect()
}

fn content(path: &Path) -> Vec<u8> {
    fs::read(path).unwrap_or_else(|error| panic!("{}: {error}", path.display()))
}

struct Case {
    name: String,
    texts: Texts,
    output: Vec<u8>,
}

/// The cases of a program, by their outputs.
fn cases(program: Program) -> Vec<Case> {
    let outputs = files(program).into_iter();
    let outputs = outputs.filter(|path| path.extension().is_some_and(|kind| kind == OUTPUT));
    let case = |output: PathBuf| Case {
        name: output.display().to_string(),
        texts: texts(program, &output).expect("the texts of a case"),
        output: content(&output),
    };
    outputs.map(case).collect()
}

#[test]
fn every_output_is_that_of_the_outside_implementation() {
    for program in PROGRAMS {
        for Case {
            name,
            texts,
            output,
        } in cases(program)
        {
            assert!(program.run(&texts) == output, "{name}");
        }
    }
}

#[test]
fn there_are_enough_cases_and_no_two_alike() {
    for program in PROGRAMS {
        let cases = cases(program);
        assert!(cases.len() >= LEAST_CASES, "{program:?}: {}", cases.len());
        let different: BTreeSet<&Texts> = cases.iter().map(|case| &case.texts).collect();
        assert_eq!(different.len(), cases.len(), "{program:?}");
    }
}

/// Each file is a text that the program takes, or the output of a case.
#[test]
fn every_file_belongs_to_a_case() {
    for program in PROGRAMS {
        let kinds = ends(program);
        for path in files(program) {
            let kind = path.extension().and_then(|kind| kind.to_str());
            let kind = kind.expect("a kind of file");
            assert!(kind == OUTPUT || kinds.contains(&kind), "{path:?}");
            assert!(path.with_extension(OUTPUT).exists(), "{path:?}");
        }
    }
}

#[test]
fn every_refusal_is_stored() {
    for program in PROGRAMS {
        let outputs = cases(program).into_iter().map(|case| case.output);
        let met: BTreeSet<u32> = outputs.flat_map(|output| refusals_in(&output)).collect();
        assert!(met.iter().eq(program.refusals()), "{program:?}: {met:?}");
    }
}

/// The lengths at the limit and one above it stand in each place of a text.
#[test]
fn texts_at_the_limit_and_above_are_stored() {
    for program in PROGRAMS {
        let cases = cases(program);
        for place in 0..program.texts() {
            for length in [TEXT_LIMIT, TEXT_LIMIT + 1] {
                let stored = |case: &Case| case.texts[place].len() == length;
                assert!(cases.iter().any(stored), "{program:?}: {place}, {length}");
            }
        }
    }
}
