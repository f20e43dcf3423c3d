//! `./test` lets no variable of its caller reach a test. The `rt` that it finds here writes down its
//! variables and fails.

use programs::process::{command, end};
use programs::repository::{BUILDS, Repository};
use programs::root;
use std::collections::BTreeSet;

const WRITES_VARIABLES: &str = "#!/bin/sh\nenv > \"${0%/*}/../variables\"\nexit 1\n";

/// What reaches the tools, and what the shell sets on its way.
const KEPT: [&str; 6] = [
    "PATH",
    "HOME",
    "USER",
    "TMPDIR",
    "CARGO_HOME",
    "RUSTUP_HOME",
];
const SET: [&str; 4] = ["PWD", "OLDPWD", "SHLVL", "_"];

/// Variables by which a caller could weaken a test, functions of the shell and a bad name among them.
const OTHERS: [&str; 17] = [
    "CUNDARIVO_SEED",
    "CUNDARIVO_SETS",
    "SEED",
    "RUSTFLAGS",
    "RUSTC_WRAPPER",
    "CARGO_TARGET_DIR",
    "CARGO_TARGET_X86_64_UNKNOWN_LINUX_GNU_RUNNER",
    "CARGO_BUILD_RUSTFLAGS",
    "RUST_TEST_THREADS",
    "RUST_TEST_SHUFFLE",
    "RT_JOBS",
    "RATTLE_HOME",
    "BASH_FUNC_rt%%",
    "BASH_FUNC_env%%",
    "BASH_FUNC_exec%%",
    "LC_ALL",
    "bad-name",
];

#[test]
fn no_variable_of_the_caller_reaches_a_test() {
    let repository = Repository::new(WRITES_VARIABLES, BUILDS);
    let mut command = command(root().join("test"));
    let path = std::env::var("PATH").expect("a path");
    let path = format!("{}:{path}", repository.path().join("path").display());
    command.env("PATH", path).env("USER", "somebody");
    for name in OTHERS {
        command.env(name, "() { exit 0; }");
    }
    // A file that a shell runs first.
    let first = repository.folder.write("first", "exit 0\n");
    let ended = end(command.env("BASH_ENV", first), b"");
    assert!(
        ended.text().ends_with("FAILED: rt version\n"),
        "{}",
        ended.text()
    );
    assert_eq!(ended.status, 1);
    let variables = String::from_utf8(repository.folder.read("variables")).expect("a text");
    let names = variables.lines().filter_map(|line| line.split_once('='));
    let names: BTreeSet<&str> = names.map(|(name, _)| name).collect();
    let known = KEPT.into_iter().chain(SET).collect();
    assert!(names.is_subset(&known), "{names:?}");
    assert!(names.contains("PATH") && names.contains("USER"));
    assert!(variables.contains("USER=somebody\n"));
}

/// The word by which it starts anew, from a caller with a variable more, and any other word.
#[test]
fn a_word_does_not_spare_it_the_start_anew() {
    let repository = Repository::new(WRITES_VARIABLES, BUILDS);
    for (word, line) in [
        ("clean", "FAILED: the variable CUNDARIVO_SEED is set\n"),
        ("quick", "FAILED: it takes --changed or no argument\n"),
    ] {
        let mut command = command(root().join("test"));
        command.env_clear().env("CUNDARIVO_SEED", "5").arg(word);
        let path = std::env::var("PATH").expect("a path");
        let ended = end(command.env("PATH", path), b"");
        assert_eq!((ended.text(), ended.status), (line, 1));
    }
    assert!(!repository.folder.has("variables"));
}
