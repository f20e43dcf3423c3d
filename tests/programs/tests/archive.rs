//! `bindings/archive` takes the libraries that `rt ci` has left where each is of that run, else what `rt lib` proves. The `rt` and the
//! compiler here write down what they are asked.

use programs::folder::Folder;
use programs::process::{Ended, command, end, write_to_run};
use programs::repository::{copy_to_run, set_mode};
use programs::root;
use std::fs::{self, File};
use std::time::{Duration, SystemTime};

/// Says where the kit is, or makes an archive as after a proof.
const RT: &str = "#!/bin/sh\nfolder=$(realpath \"${0%/*}/..\")\n\
    if [ \"$1\" = doc ]; then echo \"$folder/kit/START-HERE.md\"; exit; fi\n\
    echo \"rt $*\" >> \"$folder/asked\"\nmkdir -p out; echo proved > out/libcundarivo_c.a\n";

/// The compiler makes an archive of libraries that are there.
const RATTLE: &str = "#!/bin/sh\nfolder=$(realpath \"${0%/*}/../..\")\n\
    for word; do echo \"$word\"; done >> \"$folder/words\"; echo \"rattle $1\" >> \"$folder/asked\"\n\
    [ -d ../low/out/rlib/low.rlib ] && [ -d ../high/out/rlib/high.rlib ] || exit 1\n\
    mkdir -p out; echo left > out/libcundarivo_c.a\n";

struct Project {
    folder: Folder,
}

impl Project {
    /// One in which `rt ci` began at `begun`, and left two libraries.
    fn new() -> Project {
        let project = Project {
            folder: Folder::new(),
        };
        let folder = &project.folder;
        let list = "low:\nhigh: low\ncundarivo_c staticlib: low high\n";
        folder.write("crates.txt", list);
        for name in ["low", "high", "cundarivo_c"] {
            folder.write(format!("crates/{name}/src/lib.rt"), "first\n");
        }
        for script in ["bindings/archive", "bindings/sources.sh"] {
            let copy = folder.write(script, "");
            copy_to_run(&root().join(script), &copy);
        }
        for (name, content) in [("path/rt", RT), ("kit/bin/rattle", RATTLE)] {
            let file = write_to_run(|| folder.write(name, content));
            set_mode(&file, 0o755);
        }
        folder.write("begun", "");
        project.set_time("begun", 1);
        for name in ["low", "high"] {
            folder.write(format!("crates/{name}/out/rlib/{name}.rlib/format"), "");
        }
        project
    }

    /// Gives a file or folder a time of modification some seconds past a time of old.
    fn set_time(&self, name: &str, seconds: u64) {
        let file = File::open(self.folder.path().join(name)).expect("a file");
        let time = SystemTime::UNIX_EPOCH + Duration::from_secs(seconds);
        file.set_modified(time).expect("a file of ours");
    }

    fn run(&self, words: &[&str]) -> Ended {
        let path = std::env::var("PATH").expect("a path");
        let path = format!("{}:{path}", self.folder.path().join("path").display());
        let mut command = command(self.folder.path().join("bindings/archive"));
        command.args(words).current_dir(self.folder.path());
        end(command.env("PATH", path), b"")
    }

    /// Asserts what it asks for, and of which the archive is then.
    fn assert_made(&self, words: &[&str], asked: &str, content: &str) {
        self.folder.write("asked", "");
        let ended = self.run(words);
        assert_eq!((ended.text(), ended.status), ("", 0), "{}", ended.messages);
        assert_eq!(self.folder.read("asked"), asked.as_bytes());
        let archive = self.folder.read("target/staticlib/libcundarivo.a");
        assert_eq!(archive, content.as_bytes());
    }
}

const AFTER: [&str; 2] = ["--after", "begun"];

#[test]
fn libraries_of_the_run_are_not_proved_again() {
    let project = Project::new();
    project.assert_made(&AFTER, "rattle build\n", "left\n");
    let words = String::from_utf8(project.folder.read("words")).expect("a text");
    for library in [
        "--extern\nlow=../low/out/rlib/low.rlib\n--extern\nhigh=../high/out/rlib/high.rlib\n",
        "-L\ndependency=../../crates/high/out/rlib\n-L\ndependency=../../crates/low/out/rlib\n",
    ] {
        assert!(words.contains(library), "{words}");
    }
    project.assert_made(&AFTER, "", "left\n");
    project.assert_made(&[], "", "left\n");
}

/// Such as a check left before that run, which are put back after it: what they were made of may have changed since.
#[test]
fn libraries_of_before_the_run_are_not_taken() {
    for old in ["crates/low/out/rlib/low.rlib", "crates/low/out/rlib/stamp"] {
        let project = Project::new();
        project.folder.write("crates/low/out/rlib/stamp", "");
        project.set_time(old, 0);
        project.assert_made(&AFTER, "rt lib\n", "proved\n");
    }
}

#[test]
fn what_was_not_left_is_proved() {
    let project = Project::new();
    fs::remove_dir_all(project.folder.path().join("crates/low/out")).expect("a folder of ours");
    project.assert_made(&AFTER, "rattle build\nrt lib\n", "proved\n");
    let project = Project::new();
    project.assert_made(&[], "rt lib\n", "proved\n");
}

#[test]
fn an_archive_of_other_crates_is_made_again() {
    let project = Project::new();
    project.assert_made(&[], "rt lib\n", "proved\n");
    project.folder.write("crates/low/src/lib.rt", "other\n");
    project.assert_made(&[], "rt lib\n", "proved\n");
    project.assert_made(&[], "", "proved\n");
    project.folder.write("crates/low/out/kept", "");
    project.assert_made(&[], "", "proved\n");
    project
        .folder
        .write("target/staticlib/libcundarivo.a", "other\n");
    project.assert_made(&[], "rt lib\n", "proved\n");
}

/// Nobody knows which of its two texts was proved, also where the first one is back at the end.
#[test]
fn a_source_that_changes_meanwhile_leaves_no_stamp() {
    let project = Project::new();
    let change = "echo other > ../low/src/lib.rt; sleep 0.05; echo first > ../low/src/lib.rt\n";
    let rt = write_to_run(|| project.folder.write("path/rt", format!("{RT}{change}")));
    set_mode(&rt, 0o755);
    for _ in 0..2 {
        project.assert_made(&[], "rt lib\n", "proved\n");
    }
}

#[test]
fn what_fails_leaves_no_archive_that_counts() {
    let project = Project::new();
    project.assert_made(&[], "rt lib\n", "proved\n");
    project.folder.write("crates/low/src/lib.rt", "other\n");
    for (rt, why) in [
        (
            "#!/bin/sh\nexit 1\n",
            "rt lib in crates/cundarivo_c has failed",
        ),
        (
            "#!/bin/sh\n",
            "rt lib has not made crates/cundarivo_c/out/libcundarivo_c.a",
        ),
    ] {
        let file = write_to_run(|| project.folder.write("path/rt", rt));
        set_mode(&file, 0o755);
        let ended = project.run(&[]);
        let line = format!("bindings/archive: FAILED: {why}\n");
        assert_eq!((ended.messages, ended.status), (line, 1));
        assert!(!project.folder.has("target/staticlib/contents"));
    }
    for words in [&["--after"][..], &["all"], &["--after", "begun", "more"]] {
        let ended = project.run(words);
        let line = "bindings/archive: FAILED: it takes --after FILE or no argument\n";
        assert_eq!((ended.messages.as_str(), ended.status), (line, 1));
    }
}
