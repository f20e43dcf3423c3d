//! `./test --changed` tries the edits of the crates that changed since a run passed and of those that
//! cite them, and tests the packages in two chains beside each other. The whole gate ends as `rt ci` did.
//! The `rt` and `cargo` here write down what they are asked and do nothing else.

use programs::folder::Folder;
use programs::process::{Ended, command, end, redirected, spawn, write_to_run};
use programs::repository::{copy_to_run, set_mode};
use programs::root;
use programs::system::{make_fifo, terminate};
use std::fs::File;
use std::io::{ErrorKind, Read};
use std::os::unix::fs::OpenOptionsExt;
use std::process::{Command, Stdio};
use std::thread;
use std::time::{Duration, Instant};

/// Writes down its arguments; as the whole prover it says what `told` has and that 7 passed, as a program it prints what its
/// argument names. Fails where a line of the file `broken` says so, and changes a source where one called `meddling` is there.
const RT: &str = "#!/bin/sh\nfolder=\"${0%/*}/..\"\necho \"rt $*\" >> \"$folder/asked\"\n\
    if [ \"$1\" = ci ]; then cat \"$folder/told\"; echo \"7 passed, 0 failed\"; fi\n\
    ! grep -qxF -e \"$*\" \"$folder/broken\" 2>/dev/null || exit 1\n\
    if [ \"$1\" = run ]; then cat \"$3\"; fi\n\
    if [ -e \"$folder/meddling\" ]; then echo >> \"$folder/crates/top/src/lib.rt\"; fi\n";

/// What `rt ci` tells of edits, before and after their numbers.
const TOLD: [&str; 2] = [
    "rt: ok; handles allowed: none; must-fail edits: ",
    "; done in this run: 2 of the 5 proofs\n",
];

/// Writes down the package whose folder it runs in, its arguments and what its input is; prints two lines,
/// between which the other side has time for one; fails where a line of `broken` says so. In the packages
/// that `waiting` names it and what it starts keep the fifo `alive` open for a minute.
const CARGO: &str = "#!/bin/sh\nfolder=$(realpath \"${0%/*}/..\")\npackage=${PWD#\"$folder/\"}\n\
    if grep -qxF -e \"$package\" \"$folder/waiting\" 2>/dev/null; then\n\
    exec 3> \"$folder/alive\"; time=60; fi\n\
    echo \"$package: $(readlink /proc/self/fd/0)\" >> \"$folder/inputs\"\n\
    echo \"$package: $*\" >> \"$folder/asked\"\n\
    echo \"begin $package\"; sleep \"${time:-0.02}\"; echo \"end $package\" >&2\n\
    ! grep -qxF -e \"$package: $*\" \"$folder/broken\" 2>/dev/null\n";

const TESTS: &str = "test --offline --release --quiet";
/// The chain of packages that are tested beside `LONG`, in their order.
const OTHERS: [&str; 4] = ["tests/outside", "tests/programs", "bindings/rust", "cli"];
const LONG: &str = "tests/differential";

/// Do the same, in the folder of the project: the command, and what makes the archive.
const COMMAND: &str = "#!/bin/sh\necho \"./envelope $*\" >> asked\n\
    ! grep -qxF -e \"$*\" broken 2>/dev/null\n";
const ARCHIVE: &str = "#!/bin/sh\necho \"bindings/archive $1\" >> asked\n\
    ! grep -qxF -e \"archive $1\" broken 2>/dev/null\n";

/// Four crates: `above` cites `below`, `top` cites `above`, and `alone` none. `above` has no edits, `top` is a static library, and
/// `alone` a program.
const CRATES: &str =
    "# One over the other\nbelow:\nabove: below\ntop staticlib: above\n\n# Another\nalone:\n";

struct Project {
    folder: Folder,
}

impl Project {
    fn new() -> Project {
        let project = Project {
            folder: Folder::new(),
        };
        let folder = &project.folder;
        copy_to_run(&root().join("test"), &folder.path().join("test"));
        folder.write("crates.txt", CRATES);
        for name in ["below", "above", "top"] {
            folder.write(format!("crates/{name}/src/lib.rt"), "// A crate.\n");
        }
        for (name, content) in [
            ("src/main.rt", "// A crate.\n"),
            ("args", "text\n"),
            ("data/text", "printed\n"),
            ("stdin", ""),
            ("stdout", "printed\n"),
        ] {
            folder.write(format!("crates/alone/{name}"), content);
        }
        folder.write("told", TOLD.concat().replace(": ;", ": 5 refused;"));
        for name in ["below", "top", "alone"] {
            folder.write(format!("crates/{name}/must-fail/wrong.edit"), "");
        }
        for (name, content) in [
            ("path/rt", RT),
            ("path/cargo", CARGO),
            ("envelope", COMMAND),
            ("bindings/archive", ARCHIVE),
            ("bindings/c/test", "#!/bin/sh\n"),
        ] {
            let file = write_to_run(|| folder.write(name, content));
            set_mode(&file, 0o755);
        }
        for package in ["tests/documents", "bench", LONG].iter().chain(&OTHERS) {
            folder.write(format!("{package}/Cargo.toml"), "");
        }
        project
    }

    /// `./test` with these words, which tells its messages in its output.
    fn command(&self, words: &[&str]) -> Command {
        let path = std::env::var("PATH").expect("a path");
        let path = format!("{}:{path}", self.folder.path().join("path").display());
        let mut test = command(self.folder.path().join("test"));
        let mut command = redirected("2>&1", test.args(words));
        command.env("PATH", path);
        command
    }

    fn run(&self) -> Ended {
        end(&mut self.command(&["--changed"]), b"")
    }

    /// What the stand-ins wrote down.
    fn asked(&self) -> String {
        String::from_utf8(self.folder.read("asked")).expect("a text")
    }

    /// What `--changed` asks of the prover about edits, where it passes.
    fn tried(&self) -> String {
        self.folder.write("asked", "");
        let ended = self.run();
        let last = ended.text().lines().last().expect("a line");
        assert!(
            last.ends_with("'./test' is the whole gate"),
            "{}",
            ended.text()
        );
        assert!(!last.contains("0 failed"));
        assert_eq!(ended.status, 0);
        let asked = self.asked();
        let first = format!("rt version\ntests/documents: {TESTS}\nrt all check\n");
        assert!(asked.starts_with(&first), "{asked}");
        let built = "rt run -- data/text\nbindings/archive \n./envelope --version\n";
        let (_, tested) = asked.split_once(built).expect("a library");
        assert_packages_tested(tested);
        let lines = asked.lines();
        let named: Vec<&str> = lines
            .filter_map(|line| line.strip_prefix("rt must-fail "))
            .collect();
        named.join("; ")
    }

    fn change(&self, name: &str, content: &str) {
        self.folder.write(format!("crates/{name}"), content);
    }
}

/// Asserts that after the build each package is tested once, those of a chain in their order, and that
/// the bench is built at the end.
fn assert_packages_tested(asked: &str) {
    let (long, others): (Vec<&str>, Vec<&str>) =
        asked.lines().partition(|line| line.starts_with(LONG));
    assert_eq!(long, [format!("{LONG}: {TESTS}")]);
    let mut chain = OTHERS.map(|package| format!("{package}: {TESTS}")).to_vec();
    chain.push("bench: build --offline --release --quiet".to_string());
    assert_eq!(others, chain);
    let last = chain.last().expect("a line");
    assert!(asked.ends_with(&format!("{last}\n")), "{asked}");
}

#[test]
fn the_edits_of_what_changed_and_of_what_cites_it_are_tried() {
    let project = Project::new();
    assert_eq!(project.tried(), "below top alone");
    assert_eq!(project.tried(), "");
    project.change("below/src/lib.rt", "// Another.\n");
    assert_eq!(project.tried(), "below");
    project.change("above/src/lib.rt", "// Another.\n");
    assert_eq!(project.tried(), "top");
    project.change("alone/must-fail/more.edit", "");
    assert_eq!(project.tried(), "alone");
    project.change("alone/out/alone", "built");
    assert_eq!(project.tried(), "");
    project.change("top/specs/New.antt", "");
    assert_eq!(project.tried(), "top");
    project.folder.write(
        "crates.txt",
        CRATES.replace("lib: above", "lib: below above"),
    );
    assert_eq!(project.tried(), "top");
    assert_eq!(project.tried(), "");
}

#[test]
fn what_failed_is_tried_again() {
    let project = Project::new();
    assert_eq!(project.tried(), "below top alone");
    project.change("alone/src/main.rt", "// Another.\n");
    for broken in [
        "version",
        "all check",
        "must-fail alone",
        "run -- data/text",
        "archive ",
        "--version",
        "tests/documents: test --offline --release --quiet",
        "cli: test --offline --release --quiet",
        "bench: build --offline --release --quiet",
    ] {
        project.folder.write("broken", broken);
        let ended = project.run();
        assert_eq!(ended.status, 1, "{broken}");
        assert!(
            ended
                .text()
                .lines()
                .last()
                .is_some_and(|line| line.starts_with("FAILED: "))
        );
    }
    project.folder.write("broken", "nothing");
    assert_eq!(project.tried(), "alone");
}

#[test]
fn a_program_that_prints_something_else_fails() {
    let project = Project::new();
    project.change("alone/stdout", "other\n");
    let ended = project.run();
    assert!(
        ended.text().ends_with("\nFAILED: rt run alone\n"),
        "{}",
        ended.text()
    );
    assert_eq!(ended.status, 1);
}

/// Its folder would be proved by nothing.
#[test]
fn a_crate_that_is_not_listed_fails() {
    let project = Project::new();
    for name in ["al", "alone_", "lon"] {
        project.change(&format!("{name}/src/lib.rt"), "");
        let ended = project.run();
        let line = format!("FAILED: crate {name} is not listed in crates.txt\n");
        assert_eq!((ended.text(), ended.status), (line.as_str(), 1));
        std::fs::remove_dir_all(project.folder.path().join("crates").join(name)).expect("a folder");
    }
}

/// What is written to a source while the tests run has not passed.
#[test]
fn a_source_that_changes_under_the_tests_fails_them() {
    let project = Project::new();
    project.folder.write("meddling", "");
    let ended = project.run();
    let last = "FAILED: the sources changed while they were tested\n";
    assert!(ended.text().ends_with(last), "{}", ended.text());
    assert_eq!(ended.status, 1);
    assert!(!project.folder.has("target/test/passed"));
}

/// Asserts that what these packages printed stands there in this order, and nothing of another.
fn assert_printed(ended: &Ended, packages: &[&str]) {
    let both = packages
        .iter()
        .flat_map(|package| [format!("begin {package}"), format!("end {package}")]);
    let sides = |line: &&str| {
        let words = line.split_once(' ');
        let package = words.filter(|(word, _)| ["begin", "end"].contains(word));
        package.is_some_and(|(_, package)| package == LONG || OTHERS.contains(&package))
    };
    let printed = ended.text().lines().filter(sides);
    assert!(printed.eq(both), "{}", ended.text());
}

/// A side that fails is named, both where both fail, and hides nothing of the other.
#[test]
fn what_fails_on_either_side_is_named_at_the_end() {
    let project = Project::new();
    let whole = [&[LONG][..], &OTHERS].concat();
    for (broken, last, printed) in [
        (vec![], None, &whole[..]),
        (vec![LONG], Some("cargo test in tests/differential"), &whole),
        (vec!["cli"], Some("cargo test in cli"), &whole),
        (
            vec!["tests/programs"],
            Some("cargo test in tests/programs"),
            &whole[..3],
        ),
        (
            vec![LONG, "tests/outside"],
            Some("cargo test in tests/differential, cargo test in tests/outside"),
            &whole[..2],
        ),
    ] {
        let lines = broken.iter().map(|package| format!("{package}: {TESTS}\n"));
        project.folder.write("broken", lines.collect::<String>());
        let ended = project.run();
        assert_printed(&ended, printed);
        let begins = "== tests/differential beside tests/outside tests/programs bindings/rust cli,";
        assert_eq!(ended.text().matches(begins).count(), 1);
        match last {
            Some(name) => {
                let last = format!("\nFAILED: {name}\n");
                assert!(ended.text().ends_with(&last), "{}", ended.text());
                assert_eq!(ended.status, 1);
            }
            None => assert_eq!(ended.status, 0, "{}", ended.text()),
        }
    }
}

const O_NONBLOCK: i32 = 0o4000;

fn wait_for(mut holds: impl FnMut() -> bool) {
    let began = Instant::now();
    while !holds() {
        assert!(began.elapsed() < Duration::from_secs(20), "nothing happens");
        thread::sleep(Duration::from_millis(1));
    }
}

/// The prover's last line is that of the whole gate, which tests the same packages, each on no input.
#[test]
fn the_whole_gate_ends_as_the_prover_did() {
    let project = Project::new();
    let ended = end(&mut project.command(&[]), b"");
    assert!(
        ended.text().ends_with("\n7 passed, 0 failed\n"),
        "{}",
        ended.text()
    );
    assert_eq!(ended.status, 0);
    let asked = project.asked();
    let built = "rt ci\nbindings/archive --after\n./envelope --version\n";
    let (_, tested) = asked.split_once(built).expect("a library");
    assert_packages_tested(tested);
    let inputs = String::from_utf8(project.folder.read("inputs")).expect("a text");
    for package in OTHERS.iter().chain(&[LONG]) {
        let none = format!("{package}: /dev/null\n");
        assert_eq!(inputs.matches(&none).count(), 1, "{inputs}");
    }
}

/// Edits that cannot be applied fail the gate, and so does a prover that does not say how many there are.
#[test]
fn bad_edits_fail_the_whole_gate() {
    let project = Project::new();
    let [before, after] = TOLD;
    for (edits, passes) in [
        ("5 refused", true),
        ("5 refused, 1 of them only by a limit", true),
        ("5 refused, 0 bad", true),
        ("5 refused, 1 bad", false),
        ("5 refused, 1 of them only by a limit, 20 bad", false),
    ] {
        project
            .folder
            .write("told", format!("{before}{edits}{after}"));
        let ended = end(&mut project.command(&[]), b"");
        let last = ended.text().lines().last().expect("a line");
        let begins = ["FAILED: rt ci has bad edits: ", "7 passed, 0 failed"][usize::from(passes)];
        assert!(last.starts_with(begins), "{last}");
        assert_eq!(ended.status, i32::from(!passes));
    }
    project.folder.write("told", "");
    let ended = end(&mut project.command(&[]), b"");
    let last = "\nFAILED: rt ci has no line rt: ok\n";
    assert!(ended.text().ends_with(last), "{}", ended.text());
}

/// Libraries that `rt ci` left would stand in the way of those of its next run; those that a check left stay.
#[test]
fn the_whole_gate_takes_away_what_rt_ci_left() {
    let project = Project::new();
    project.change("below/out/rlib/below.rlib/format", "");
    project.change("above/out/rlib/above.rlib/format", "");
    project.change("above/out/rlib/stamp", "");
    project.change("alone/out/alone", "");
    assert_eq!(end(&mut project.command(&[]), b"").status, 0);
    for (name, stays) in [
        ("below/out/rlib", false),
        ("above/out/rlib/above.rlib/format", true),
        ("alone/out/alone", true),
    ] {
        assert_eq!(
            project.folder.has(&format!("crates/{name}")),
            stays,
            "{name}"
        );
    }
}

/// Neither side nor what it started outlives it: then nobody has the fifo open.
#[test]
fn a_killed_test_leaves_nothing_that_runs() {
    let project = Project::new();
    let folder = &project.folder;
    folder.write("asked", "");
    folder.write("waiting", format!("{LONG}\n{}\n", OTHERS[0]));
    let alive = folder.path().join("alive");
    make_fifo(&alive);
    let mut options = File::options();
    let opened = options.read(true).custom_flags(O_NONBLOCK).open(alive);
    let mut alive = opened.expect("a fifo");
    let mut command = project.command(&["--changed"]);
    let printed = File::create(folder.path().join("printed")).expect("a file");
    let mut child = spawn(command.stdin(Stdio::null()).stdout(printed));
    let mut nobody = || match alive.read(&mut [0]) {
        Ok(count) => count == 0,
        Err(error) => {
            assert_eq!(error.kind(), ErrorKind::WouldBlock);
            false
        }
    };
    wait_for(|| {
        let asked = project.asked();
        [LONG, OTHERS[0]]
            .iter()
            .all(|package| asked.contains(package))
    });
    assert!(!nobody(), "both sides run");
    terminate(&child);
    assert_eq!(child.wait().expect("an ended child").code(), Some(1));
    wait_for(&mut nobody);
    assert!(!project.asked().contains(OTHERS[1]));
    let printed = String::from_utf8(folder.read("printed")).expect("a text");
    assert!(
        printed.ends_with("\nFAILED: it was told to end\n"),
        "{printed}"
    );
}
