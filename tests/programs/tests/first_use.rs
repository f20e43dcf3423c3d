//! What `./envelope` proves and builds, and when: in a folder of its own, with an `rt` and a `cargo` on the
//! path that write down what they are asked.

use programs::folder::Folder;
use programs::process::{Ended, command, end, spawn};
use programs::repository::{ARCHIVE, BUILDS, PROVES, Repository, SOURCES, set_mode};
use programs::system::{kill_group, run_without_privileges};
use std::fs::{self, File};
use std::os::unix::fs::{chown, symlink};
use std::os::unix::process::CommandExt;
use std::path::Path;
use std::process::{Child, Stdio};
use std::thread;
use std::time::{Duration, Instant, SystemTime};

const PROGRAM: &str = "cli/target/release/envelope";

/// Asserts that a start builds, or does not, and that the next one does not.
fn assert_builds(repository: &Repository, builds: bool, why: &str) {
    let before = repository.runs();
    repository.assert_runs();
    let now = before + usize::from(builds);
    assert_eq!(repository.runs(), now, "{why}");
    repository.run().assert_printed("draw.input\n", 0);
    assert_eq!(repository.runs(), now, "{why}");
}

#[test]
fn the_first_start_builds_and_the_second_does_not() {
    let repository = Repository::new(PROVES, BUILDS);
    let first = repository.assert_runs();
    let progress = "envelope: proving and building, which may take minutes\n\
                    proving\nbuilding\n";
    assert_eq!(first.messages, progress);
    for _ in 0..3 {
        repository.run().assert_printed("draw.input\n", 0);
    }
    assert_eq!(repository.runs(), 1);
    assert_eq!(repository.folder.names().len(), 8);
}

#[test]
fn other_contents_build_again() {
    let repository = Repository::built();
    for name in SOURCES {
        repository.folder.write(name, "other\n");
        assert_builds(&repository, true, name);
        repository.folder.write(name, "other, and longer\n");
        assert_builds(&repository, true, name);
    }
    for new in [
        "crates/new/specs/New.antt",
        "crates/cundarivo_c/must-fail/a b\n.edit",
        "bindings/c/new.h",
        "cli/.cargo/config.toml",
        "cli/src/target/mod.rs",
    ] {
        repository.folder.write(new, "");
        assert_builds(&repository, true, new);
        fs::remove_file(repository.path().join(new)).expect("a file of ours");
        assert_builds(&repository, true, new);
    }
    let [from, to] =
        ["lib.rs", "moved.rs"].map(|name| repository.path().join("bindings/rust/src").join(name));
    fs::rename(from, to).expect("a file of ours");
    assert_builds(&repository, true, "another name");
}

/// The archive is that of the crates alone, and is made again where it is not the one that was made.
#[test]
fn only_other_crates_and_another_archive_prove_again() {
    let repository = Repository::built();
    assert_eq!(repository.proofs(), 1);
    let mut proofs = 1;
    for name in SOURCES {
        repository.folder.write(name, "other\n");
        assert_builds(&repository, true, name);
        proofs += usize::from(name.starts_with("crates"));
        assert_eq!(repository.proofs(), proofs, "{name}");
    }
    for name in ["libcundarivo.a", "contents"] {
        for other in [None, Some(""), Some("other\n")] {
            let path = repository.path().join("target/staticlib").join(name);
            match other {
                Some(content) => fs::write(path, content).expect("a file of ours"),
                None => fs::remove_file(path).expect("a file of ours"),
            }
            repository
                .folder
                .write("cli/src/main.rs", format!("{name}, {other:?}\n"));
            assert_builds(&repository, true, name);
            proofs += 1;
            assert_eq!(repository.proofs(), proofs, "{name}");
            assert_eq!(
                repository.folder.read("target/staticlib/libcundarivo.a"),
                b"archive\n"
            );
        }
    }
}

/// As long as the old one, and with its time of modification, as a copy that keeps its times has it.
#[test]
fn other_contents_of_the_same_size_and_time_build_again() {
    let repository = Repository::new(PROVES, BUILDS);
    SOURCES.iter().for_each(|name| make_old(&repository, name));
    repository.assert_runs();
    for name in SOURCES {
        repository.folder.write(name, "FIRST\n");
        make_old(&repository, name);
        assert_builds(&repository, true, name);
        repository.folder.write("other", "First\n");
        make_old(&repository, "other");
        let [other, source] = ["other", name].map(|name| repository.path().join(name));
        fs::rename(other, source).expect("a file of ours");
        assert_builds(&repository, true, name);
    }
}

fn make_old(repository: &Repository, name: &str) {
    let file = File::options()
        .write(true)
        .open(repository.path().join(name));
    let file = file.expect("a file");
    file.set_modified(SystemTime::UNIX_EPOCH)
        .expect("a file of ours");
}

/// Written right behind a start, so that the time of change may be counted in the same step.
#[test]
fn a_change_at_once_builds_again() {
    let repository = Repository::new(PROVES, BUILDS);
    for round in 0..20 {
        repository
            .folder
            .write("crates.txt", format!("{:06}\n", 2 * round));
        let child = start(&repository);
        wait_for(|| repository.folder.has("runs"));
        assert!(child.wait_with_output().expect("an end").status.success());
        let text = format!("{:06}\n", 2 * round + 1);
        repository.folder.write("crates.txt", text);
        assert_builds(&repository, true, "at once");
    }
}

#[test]
fn other_times_and_what_is_no_source_build_nothing() {
    let repository = Repository::built();
    for name in SOURCES {
        make_old(&repository, name);
        assert_builds(&repository, false, name);
        repository.folder.write(name, "first\n");
        assert_builds(&repository, false, name);
        repository.folder.write("other", "first\n");
        let [other, source] = ["other", name].map(|name| repository.path().join(name));
        fs::rename(other, source).expect("a file of ours");
        assert_builds(&repository, false, name);
    }
    for name in [
        "cli/target/release/deps/x",
        "bindings/rust/target/x",
        "target/x",
        "README.md",
        "tests/x",
    ] {
        repository.folder.write(name, "");
        assert_builds(&repository, false, name);
    }
}

/// There every time of change is another.
#[test]
fn a_copy_of_a_built_repository_builds_nothing() {
    let repository = Repository::built();
    let folder = Folder::new();
    let copy = folder.path().join("copy");
    let mut copying = command("cp");
    copying.arg("-a").arg(repository.path()).arg(&copy);
    end(&mut copying, b"").assert_printed("", 0);
    let mut copied = command(copy.join("envelope"));
    end(copied.arg("draw").env("PATH", "/none"), b"input\n").assert_printed("draw.input\n", 0);
}

#[test]
fn a_program_that_is_not_the_one_built_is_built_again() {
    let repository = Repository::built();
    let program = repository.path().join(PROGRAM);
    let content = fs::read(&program).expect("a program");
    fs::remove_file(&program).expect("a file of ours");
    assert_builds(&repository, true, "removed");
    for other in [
        &b""[..],
        &content[..content.len() - 1],
        b"#!/bin/sh\necho not proved\n",
        &vec![b'#'; content.len()],
    ] {
        repository.write_executable(PROGRAM, other);
        assert_builds(&repository, true, "written");
        repository.write_executable("other", other);
        fs::rename(repository.path().join("other"), &program).expect("a file of ours");
        assert_builds(&repository, true, "moved");
    }
    repository.write_executable(PROGRAM, content);
    assert_builds(&repository, false, "the same");
    set_mode(&program, 0o644);
    assert_builds(&repository, true, "no leave to run it");
}

#[test]
fn damaged_stamps_build_again_or_look_again() {
    let repository = Repository::built();
    let stamps = repository.path().join("target/envelope");
    fs::remove_file(stamps.join("list")).expect("a stamp");
    assert_builds(&repository, false, "no list");
    fs::write(stamps.join("list"), "").expect("a stamp");
    assert_builds(&repository, false, "an empty list");
    fs::write(stamps.join("contents"), "").expect("a stamp");
    fs::remove_file(stamps.join("list")).expect("a stamp");
    assert_builds(&repository, true, "empty contents");
    fs::remove_dir_all(&stamps).expect("the stamps");
    assert_builds(&repository, true, "no stamps");
}

/// A tool that once, while it runs, does this in the repository's folder.
fn meddling(tool: &str, with: &str) -> String {
    let once = format!("[ -e meddled ] || {{ >meddled; {with}; }}");
    format!("{tool}cd \"${{0%/*}}/..\"\n{once}\n")
}

/// What was proved may be the source as it was before. It builds again at once, and also where the old
/// contents come back before the end.
#[test]
fn a_source_that_changes_during_a_build_builds_again() {
    for change in [
        "echo changed >> crates/cundarivo_c/src/lib.rt",
        "echo changed >> cli/src/main.rs",
        "echo > crates/new.rt",
        "rm crates.txt; echo > crates.txt",
        "echo changed > crates.txt; sleep 0.05; echo first > crates.txt",
    ] {
        for (rt, cargo) in [
            (meddling(PROVES, change), BUILDS.to_string()),
            (PROVES.to_string(), meddling(BUILDS, change)),
        ] {
            let repository = Repository::new(&rt, &cargo);
            let ended = repository.assert_runs();
            let words = "envelope: the sources have changed meanwhile\n";
            assert!(ended.messages.contains(words), "{}", ended.messages);
            assert_eq!(repository.runs(), 2, "{change}");
            repository.run().assert_printed("draw.input\n", 0);
        }
    }
}

#[test]
fn sources_that_change_again_and_again_end_in_2() {
    let changes = format!("{PROVES}echo changed >> crates.txt\n");
    let repository = Repository::new(&changes, BUILDS);
    for round in 1..=2 {
        let ended = repository.run();
        assert_eq!((ended.text(), ended.status), ("", 2));
        let words = "envelope: the sources change again and again\n";
        assert!(ended.messages.ends_with(words), "{}", ended.messages);
        assert_eq!(repository.runs(), 3 * round);
    }
}

fn start(repository: &Repository) -> Child {
    let mut command = repository.command("draw");
    let command = command.stdin(Stdio::null()).process_group(0);
    let command = command.stdout(Stdio::piped()).stderr(Stdio::piped());
    spawn(command)
}

fn wait_for(holds: impl Fn() -> bool) {
    let began = Instant::now();
    while !holds() {
        assert!(began.elapsed() < Duration::from_secs(20), "nothing happens");
        thread::sleep(Duration::from_millis(1));
    }
}

#[test]
fn starts_at_the_same_time_build_once() {
    let slow = PROVES.replace("cat\n", "cat; sleep 2\n");
    let repository = Repository::new(&slow, BUILDS);
    let children = [0; 4].map(|_| start(&repository));
    let mut waited = 0;
    for child in children {
        let ended = child.wait_with_output().expect("a script that ends");
        let messages = String::from_utf8(ended.stderr).expect("messages in UTF-8");
        assert_eq!(
            (ended.stdout, ended.status.code()),
            (b"draw.".to_vec(), Some(0))
        );
        waited += usize::from(
            messages == "envelope: waiting for another start, which proves and builds\n",
        );
    }
    assert_eq!((waited, repository.runs()), (3, 1));
}

/// A prover that tells when it runs and goes on when it may.
const WAITS: &str = "#!/bin/sh\ncd ../..; echo \"rt $*\" >> runs\n\
    if [ ! -e waited ]; then >waited; while [ ! -e go ]; do sleep 0.01; done; fi\n\
    mkdir -p crates/cundarivo_c/out; echo archive > crates/cundarivo_c/out/libcundarivo_c.a\n";

#[test]
fn a_killed_start_leaves_nothing_that_runs() {
    let repository = Repository::new(WAITS, BUILDS);
    let mut child = start(&repository);
    wait_for(|| repository.folder.has("waited"));
    assert!(kill_group(&mut child));
    fs::remove_file(repository.path().join("runs")).expect("a file of ours");
    assert!(!repository.folder.has(PROGRAM));
    repository.assert_runs();
    assert_eq!(repository.runs(), 1);
}

/// What it began goes on without the start that is killed, and the next start waits for it.
#[test]
fn a_start_waits_for_what_a_killed_one_left_running() {
    let repository = Repository::new(WAITS, BUILDS);
    let mut child = start(&repository);
    wait_for(|| repository.folder.has("waited"));
    child.kill().expect("a child of ours");
    child.wait().expect("an ended child");
    let next = start(&repository);
    thread::sleep(Duration::from_millis(200));
    assert_eq!(repository.folder.read("runs"), ARCHIVE.as_bytes());
    repository.folder.write("go", "");
    assert!(next.wait_with_output().expect("an end").status.success());
    assert_eq!(repository.runs(), 1);
}

/// A step of a build that fails: `rt lib`, which may have made an archive or say that it has, and `cargo build`, which may say that it
/// has built something.
#[test]
fn what_is_not_proved_and_built_does_not_run() {
    let refuses = format!("{PROVES}exit 1\n");
    let fails = format!("{BUILDS}exit 1\n");
    for (rt, cargo, words) in [
        (refuses.as_str(), BUILDS, "not proved"),
        ("#!/bin/sh\n", BUILDS, "not proved"),
        (PROVES, &fails, "cargo build has failed"),
        (PROVES, "#!/bin/sh\n", "cargo build has not built "),
    ] {
        let repository = Repository::built();
        repository.write_executable("path/rt", rt);
        repository.write_executable("path/cargo", cargo);
        repository.folder.write("crates.txt", "other\n");
        for _ in 0..2 {
            let ended = repository.run();
            assert_eq!((ended.text(), ended.status), ("", 2));
            let last = ended.messages.lines().last().expect("a line");
            assert!(last.starts_with(&format!("envelope: {words}")), "{last}");
        }
        repository.write_executable("path/rt", PROVES);
        repository.write_executable("path/cargo", BUILDS);
        repository.assert_runs();
    }
}

/// Only a privileged user can give a file to somebody else.
#[test]
fn settings_of_a_stranger_in_a_folder_above_are_not_built_with() {
    for name in [".cargo/config.toml", ".cargo/config", "rust-toolchain.toml"] {
        let repository = Repository::new(PROVES, BUILDS);
        let file = repository.folder.write(name, "");
        if chown(&file, Some(65_534), None).is_err() {
            println!("left out: no file can be given to another user");
            return;
        }
        repository.run().assert_failed("are somebody else's");
        assert!(!repository.folder.has("runs"), "{name}");
        chown(&file, Some(0), None).expect("a file of ours");
        repository.assert_runs();
    }
}

/// The proof that failed took nothing away from the sources that were built before.
#[test]
fn sources_taken_back_run_at_once() {
    let repository = Repository::built();
    repository.write_executable("path/rt", "#!/bin/sh\nexit 1\n");
    repository.folder.write("crates.txt", "other\n");
    repository.run().assert_failed("envelope: not proved");
    repository.folder.write("crates.txt", "first\n");
    repository.run().assert_printed("draw.input\n", 0);
}

fn without(tool: &str, path: &str) -> Ended {
    let repository = Repository::new(PROVES, BUILDS);
    let tool = repository.path().join("path").join(tool);
    fs::remove_file(tool).expect("a file of ours");
    let path = path.replace(
        "PATH",
        repository.path().join("path").to_str().expect("a path"),
    );
    let mut command = repository.command("draw");
    let ended = end(
        command.env("PATH", path).current_dir(repository.path()),
        b"",
    );
    assert!(!repository.folder.has("runs"));
    ended
}

#[test]
fn no_rt_and_no_cargo_end_in_2() {
    for path in ["PATH", "PATH:/usr/bin:/bin", "/none:PATH:"] {
        for tool in ["rt", "cargo"] {
            let line = format!(
                "envelope: it must be proved and built first, and there is no {tool} on the PATH"
            );
            without(tool, path).assert_told(&line, 2);
        }
    }
}

/// The tools stand in the caller's folder, or in one that is named from there.
#[test]
fn relative_and_empty_entries_of_the_path_are_no_part_of_it() {
    for path in [
        "path",
        "./path",
        "",
        ":",
        "path:",
        ":path",
        "path:/none",
        "/none:path:.",
        "~",
    ] {
        let repository = Repository::new(PROVES, BUILDS);
        for tool in ["rt", "cargo"] {
            repository.write_executable(tool, PROVES);
        }
        let mut command = repository.command("draw");
        let command = command.env("PATH", path).current_dir(repository.path());
        let line = "envelope: it must be proved and built first, and there is no rt on the PATH";
        end(command, b"").assert_told(line, 2);
        assert!(!repository.folder.has("runs"));
    }
}

/// What reaches the tools, and what the shell that each of them is here sets on its way.
const KEPT: [&str; 9] = [
    "PATH",
    "HOME",
    "USER",
    "TMPDIR",
    "CARGO_HOME",
    "RUSTUP_HOME",
    "PWD",
    "OLDPWD",
    "SHLVL",
];

#[test]
fn no_other_variable_reaches_a_build() {
    let writes = "env >> \"${0%/*}/../variables\"\n";
    let repository = Repository::new(&format!("{PROVES}{writes}"), &format!("{BUILDS}{writes}"));
    let mut command = repository.command("draw");
    let path = std::env::var("PATH").expect("a path");
    let tools = repository.path().join("path").display().to_string();
    command.env("PATH", format!("path::{tools}:.:{path}"));
    for name in [
        "RUSTFLAGS",
        "CARGO_ENCODED_RUSTFLAGS",
        "CARGO_TARGET_DIR",
        "CARGO_BUILD_TARGET",
        "RUSTC_WRAPPER",
        "RUSTC",
        "RT_JOBS",
        "RATTLE_HOME",
        "LD_LIBRARY_PATH",
        "LD_BIND_NOW",
        "BASH_ENV",
        "ENV",
        "BASH_FUNC_env%%",
        "LC_ALL",
        "MAKEFLAGS",
        "CC",
        "IFS",
    ] {
        command.env(name, "() { exit 0; }");
    }
    let ended = end(command.env("USER", "somebody"), b"input\n");
    assert_eq!((ended.text(), ended.status), ("draw.input\n", 0));
    let variables = String::from_utf8(repository.folder.read("variables")).expect("a text");
    for line in variables.lines() {
        let (name, value) = line.split_once('=').expect("a variable");
        assert!(KEPT.contains(&name) || name == "_", "{line}");
        assert!(
            name != "PATH" || value == format!("{tools}:{path}"),
            "{line}"
        );
        assert!(name != "USER" || value == "somebody", "{line}");
    }
    assert_eq!(variables.matches("USER=").count(), 2);
}

/// Every folder and file below this one, without leave to write.
fn make_read_only(path: &Path) {
    if path.is_dir() {
        for entry in fs::read_dir(path).expect("a folder") {
            make_read_only(&entry.expect("an entry").path());
        }
    }
    let runs = path.is_dir() || path.ends_with("envelope");
    set_mode(path, if runs { 0o555 } else { 0o444 });
}

/// Nobody of the tests has leave to write there, also where a time of change is another.
#[test]
fn a_built_repository_that_cannot_be_written_runs() {
    let repository = Repository::built();
    make_read_only(repository.path());
    let run = || {
        let mut command = repository.command("draw");
        run_without_privileges(&mut command);
        end(&mut command, b"input\n")
    };
    run().assert_printed("draw.input\n", 0);
    run().assert_printed("draw.input\n", 0);
    let list = repository.path().join("target/envelope/list");
    let before = fs::read(&list).expect("a stamp");
    set_mode(&repository.path().join("crates.txt"), 0o644);
    run().assert_printed("draw.input\n", 0);
    assert_eq!(fs::read(&list).expect("a stamp"), before);
    repository.folder.write("crates.txt", "other\n");
    let line = "envelope: cannot write in target/envelope of the repository";
    run().assert_told(line, 2);
    let line = "envelope: cannot write in target of the repository";
    let [target, stamps] = ["target", "target/envelope"].map(|name| repository.path().join(name));
    set_mode(&stamps, 0o000);
    run().assert_told(line, 2);
    for folder in [repository.path(), &target, &stamps] {
        set_mode(folder, 0o755);
    }
    fs::remove_dir_all(target).expect("a folder of ours");
    set_mode(repository.path(), 0o555);
    run().assert_told(line, 2);
    set_mode(repository.path(), 0o755);
    let mut opening = command("chmod");
    end(opening.args(["-R", "u+w"]).arg(repository.path()), b"").assert_printed("", 0);
}

/// A limit on the size of files keeps the stamps from being written, and a built program still runs.
#[test]
fn a_limit_on_the_size_of_files_ends_nothing() {
    let repository = Repository::built();
    make_old(&repository, "crates.txt");
    let mut shell = command("bash");
    shell.args(["-c", "ulimit -f 0; exec \"$@\"", "bash"]);
    shell.arg(repository.path().join("envelope")).arg("draw");
    end(&mut shell, b"input\n").assert_printed("draw.input\n", 0);
    assert_builds(&repository, false, "after the limit");
}

/// What a link leads to counts, wherever it is; one that leads nowhere, as an editor leaves it, does not.
#[test]
fn links_are_followed() {
    let repository = Repository::built();
    let outside = Folder::new();
    let [one, other] = ["one", "other"].map(|name| outside.write(name, name));
    let link = repository.path().join("cli/src/link.rs");
    symlink(&one, &link).expect("a link");
    assert_builds(&repository, true, "a new link");
    outside.write("one", "two");
    assert_builds(&repository, true, "behind the link");
    fs::remove_file(&link).expect("a link of ours");
    symlink(other, &link).expect("a link");
    assert_builds(&repository, true, "to another file");
    symlink("nowhere", repository.path().join("cli/src/.#main.rs")).expect("a link");
    assert_builds(&repository, false, "to nowhere");
    symlink("..", repository.path().join("crates/cundarivo_c/loop")).expect("a link");
    let ended = repository.run();
    assert_eq!((ended.text(), ended.status), ("", 2));
    let words = "envelope: cannot list the sources\n";
    assert!(ended.messages.ends_with(words), "{}", ended.messages);
}

#[test]
fn sources_that_are_not_there_end_in_2() {
    let repository = Repository::built();
    fs::remove_file(repository.path().join("crates.txt")).expect("a file of ours");
    let ended = repository.run();
    assert_eq!((ended.text(), ended.status), ("", 2));
    let words = "envelope: cannot list the sources\n";
    assert!(ended.messages.ends_with(words), "{}", ended.messages);
    assert_eq!(repository.runs(), 1);
}
