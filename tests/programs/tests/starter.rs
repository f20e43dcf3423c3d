//! `./envelope` where the program is built: nothing that the caller names is run in its place, and words,
//! streams, folder and status are handed over as they are.

use programs::folder::Folder;
use programs::process::{Ended, command, end, redirected};
use programs::repository::{Repository, SOURCES};
use programs::script::{envelope, starter};
use programs::{RECORD, REFERENCE};
use std::ffi::OsStr;
use std::fs::{self, File};
use std::os::unix::ffi::OsStrExt;
use std::os::unix::fs::symlink;
use std::process::Command;
use std::time::SystemTime;

/// What a shell could look up in place of its own tools, some of them words of the shell.
const TOOLS: [&str; 36] = [
    "[",
    "awk",
    "bash",
    "cargo",
    "cat",
    "cd",
    "cmp",
    "command",
    "cut",
    "echo",
    "env",
    "envelope",
    "exec",
    "exit",
    "find",
    "flock",
    "grep",
    "head",
    "kill",
    "ls",
    "mkdir",
    "mktemp",
    "mv",
    "nproc",
    "printf",
    "readlink",
    "rm",
    "rt",
    "sed",
    "set",
    "sh",
    "sha256sum",
    "sleep",
    "sort",
    "test",
    "xargs",
];

/// Writes down that it ran, in the folder where it stands.
const HOSTILE: &str = "#!/bin/bash -p\n: >\"${0%/*}/ran\"\nexit 0\n";

/// A folder of tools that must not run.
fn hostile(repository: &Repository) -> String {
    for tool in TOOLS {
        repository.write_executable(&format!("hostile/{tool}"), HOSTILE);
    }
    let folder = repository.path().join("hostile");
    folder.to_str().expect("a path in UTF-8").to_string()
}

/// Times of change that are other than those stamped, so that the contents are looked at.
fn touch(repository: &Repository) {
    for name in SOURCES {
        let file = File::options()
            .append(true)
            .open(repository.path().join(name));
        let file = file.expect("a file");
        file.set_modified(SystemTime::now())
            .expect("a file of ours");
    }
}

/// Runs it twice: where the times of change are others, and where nothing has changed.
fn run_twice(repository: &Repository, set: impl Fn(&mut Command)) -> [Ended; 2] {
    touch(repository);
    [0; 2].map(|_| {
        let mut command = repository.command("draw");
        set(&mut command);
        end(&mut command, b"input\n")
    })
}

#[test]
fn no_tool_of_the_callers_path_runs() {
    let repository = Repository::built();
    let folder = hostile(&repository);
    let usual = std::env::var("PATH").expect("a path");
    for path in [
        folder.clone(),
        format!("{folder}:{usual}"),
        "hostile".to_string(),
        format!("hostile:.:{usual}"),
        format!(":{usual}"),
        String::new(),
        "/none".to_string(),
    ] {
        for place in ["", "hostile"] {
            let ended = run_twice(&repository, |command| {
                let caller = repository.path().join(place);
                command.env("PATH", &path).current_dir(caller);
            });
            for ended in ended {
                ended.assert_printed("draw.input\n", 0);
            }
        }
    }
    let mut removed = repository.command("draw");
    end(removed.env_remove("PATH"), b"input\n").assert_printed("draw.input\n", 0);
    assert!(!repository.folder.has("hostile/ran"));
    assert_eq!(repository.runs(), 1);
}

/// Options, functions and variables that a shell or a tool takes from its environment, and files that it
/// runs first.
#[test]
fn no_variable_of_the_caller_changes_anything() {
    let repository = Repository::built();
    let first = repository.folder.write("first", "echo first; exit 0\n");
    let first = first.to_str().expect("a path in UTF-8");
    let variables = [
        ("SHELLOPTS", "noexec"),
        ("SHELLOPTS", "errexit:nounset:noglob:xtrace:verbose:posix"),
        ("BASHOPTS", "nullglob:failglob:extdebug"),
        ("BASH_ENV", first),
        ("ENV", first),
        ("POSIXLY_CORRECT", "1"),
        ("POSIX_ME_HARDER", "1"),
        ("BASH_COMPAT", "3.2"),
        ("FUNCNEST", "1"),
        ("EXECIGNORE", "*"),
        ("GLOBIGNORE", "*"),
        ("CDPATH", "/"),
        ("IFS", "/abcdefghijklmnopqrstuvwxyz"),
        ("TMOUT", "0.001"),
        ("PS4", "$(echo traced)"),
        ("BASH_XTRACEFD", "1"),
        ("PROMPT_COMMAND", "exit 0"),
        ("GREP_OPTIONS", "-v"),
        ("LC_ALL", "C.UTF-8"),
        ("LANG", "tr_TR.UTF-8"),
        ("TZ", "/none"),
        ("TMPDIR", "/none"),
        ("HOME", "/none"),
        ("PWD", "/none"),
        ("OLDPWD", "/none"),
        ("root", "/none"),
        ("self", "/none"),
        ("program", "/bin/false"),
        ("stamps", "/none"),
        ("parts", "/none"),
        ("callers_path", "/none"),
        ("UID", "1"),
        ("BASH_SOURCE", "/none"),
        ("BASH_ARGV0", "/none"),
        ("BASH_ARGV", "/none"),
        ("FUNCNAME", "/none"),
        ("DIRSTACK", "/none"),
        ("BASH_CMDS", "/none"),
        ("BASHPID", "1"),
        ("PPID", "1"),
        ("EUID", "1"),
        ("_", "/none"),
        ("0", "/none"),
        ("lock", "1"),
        ("attempt", "9"),
        ("building", "no"),
        ("before", "x"),
        ("MALLOC_PERTURB_", "1"),
    ];
    for (name, value) in variables {
        for ended in run_twice(&repository, |command| {
            command.env(name, value);
        }) {
            assert_eq!(ended.messages, "", "{name}");
            assert_eq!((ended.text(), ended.status), ("draw.input\n", 0), "{name}");
        }
    }
    assert_eq!(repository.runs(), 1);
}

#[test]
fn no_function_of_the_caller_runs() {
    let repository = Repository::built();
    for ended in run_twice(&repository, |command| {
        for tool in TOOLS {
            command.env(
                format!("BASH_FUNC_{tool}%%"),
                "() { echo function; exit 0; }",
            );
        }
    }) {
        ended.assert_printed("draw.input\n", 0);
    }
    assert_eq!(repository.runs(), 1);
}

/// Names of files stay those of the caller's folder.
#[test]
fn it_runs_from_anywhere_and_through_links() {
    let repository = Repository::built();
    let prints = "#!/bin/sh\npwd -P\nprintf '%s.' \"$@\"\n";
    let cargo = format!(
        "#!/bin/sh\ncat >target/release/envelope <<'END'\n{prints}END\nchmod +x target/release/envelope\n"
    );
    repository.write_executable("path/cargo", cargo);
    fs::remove_file(repository.path().join("cli/target/release/envelope")).expect("a file of ours");
    assert_eq!(repository.run().status, 0);
    let folder = Folder::new();
    let script = repository.path().join("envelope");
    symlink(&script, folder.path().join("one")).expect("a link");
    symlink("one", folder.path().join("an other")).expect("a link");
    symlink(repository.path(), folder.path().join("-")).expect("a link");
    symlink(repository.path(), folder.path().join("a\nb")).expect("a link");
    let here = folder.path().canonicalize().expect("a folder");
    let printed = format!("{}\nx.ref.", here.display());
    for name in ["./one", "./an other", "./-/envelope", "a\nb/envelope"] {
        let mut command = command(name);
        command.arg("x.ref").current_dir(folder.path());
        end(&mut command, b"").assert_printed(&printed, 0);
    }
    for (path, name) in [(folder.path(), "one"), (repository.path(), "envelope")] {
        let mut found = command("/usr/bin/env");
        found
            .args([name, "x.ref"])
            .current_dir(folder.path())
            .env("PATH", path);
        end(&mut found, b"").assert_printed(&printed, 0);
    }
    for (name, place) in [
        ("envelope", repository.path()),
        ("../envelope", &repository.path().join("cli")),
    ] {
        let mut read = command("/bin/bash");
        read.args(["-p", name, "x.ref"]).current_dir(place);
        let place = place.canonicalize().expect("a folder");
        end(&mut read, b"").assert_printed(&format!("{}\nx.ref.", place.display()), 0);
    }
}

#[test]
fn words_and_status_are_handed_over_as_they_are() {
    let repository = Repository::built();
    let prints = "#!/bin/sh\nfor word; do printf '%s\\0' \"$word\"; done\nexit 77\n";
    let cargo = format!(
        "#!/bin/sh\ncat >target/release/envelope <<'END'\n{prints}END\nchmod +x target/release/envelope\n"
    );
    repository.write_executable("path/cargo", cargo);
    repository.folder.write("cli/src/main.rs", "other\n");
    assert_eq!(repository.run().status, 77);
    let words: [&[u8]; 13] = [
        b"",
        b"-",
        b"--",
        b"-c",
        b"--norc",
        b"two words",
        b"*",
        b"$HOME",
        b"a\nb",
        b"\n",
        b"\xff\xfe",
        b"'\"\\",
        b"~",
    ];
    let mut command = command(repository.path().join("envelope"));
    command.args(words.map(OsStr::from_bytes));
    let ended = end(&mut command, b"");
    assert_eq!((ended.status, ended.messages.as_str()), (77, ""));
    let printed: Vec<u8> = words
        .iter()
        .flat_map(|word| [word, &b"\0"[..]].concat())
        .collect();
    assert_eq!(ended.output, printed);
}

/// Whether it has to look at the contents, to build, or at nothing: the next pipe takes no place of a closed
/// descriptor.
#[test]
fn closed_descriptors_are_told_and_closed_messages_change_nothing() {
    for state in ["built", "touched", "not built"] {
        for (redirections, told) in [
            ("<&-", Some("standard input: Bad file descriptor")),
            (">&-", Some("standard output: Bad file descriptor")),
            ("<&- >&-", Some("standard input: Bad file descriptor")),
            ("2>&-", None),
            ("2>/dev/full", None),
            ("<&- 2>&-", Some("")),
            (">&- 2>&-", Some("")),
            ("<&- >&- 2>&-", Some("")),
        ] {
            // What builds must be able to write its messages.
            if (state, redirections) == ("not built", "2>/dev/full") {
                continue;
            }
            let repository = Repository::built();
            match state {
                "touched" => touch(&repository),
                "not built" => {
                    repository.folder.write("crates.txt", "other\n");
                }
                _ => {}
            }
            let started = repository.command("draw");
            let mut shell = redirected(redirections, &started);
            let path = started.get_envs().find(|(name, _)| *name == "PATH");
            shell.env("PATH", path.and_then(|(_, value)| value).expect("a path"));
            let ended = end(&mut shell, b"input\n");
            match told {
                None => ended.assert_printed("draw.input\n", 0),
                Some("") => assert_eq!((ended.text(), ended.status), ("", 2)),
                Some(told) => ended.assert_told(&format!("envelope: {told}"), 2),
            }
            let built = told.is_none() && state == "not built";
            assert_eq!(
                repository.runs(),
                1 + usize::from(built),
                "{state}, {redirections}"
            );
        }
    }
}

/// The repository's own: what it starts is the program that the other tests run.
#[test]
fn it_starts_the_program() {
    let folder = Folder::new();
    let reference = folder.write("x.ref", REFERENCE);
    let mut command = command(starter());
    end(command.arg("draw").arg(&reference), b"").assert_printed(RECORD, 0);
    let words = ["draw".as_ref(), reference.as_os_str()];
    envelope(&words, b"").assert_printed(RECORD, 0);
}
