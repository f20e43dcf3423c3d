//! A program run on its texts: by itself, the last one on standard input, and as a command of `envelope`.

use crate::folder::Folder;
use crate::process::{Ended, command, end, end_fed, end_on, written};
use crate::{program, script, texts};
use std::ffi::OsStr;
use std::fs::File;
use std::process::{Command, Stdio};
use std::thread;
use std::time::Duration;

/// The two ways to a program's answer: the program in Rattle, and the command of its name.
#[derive(Clone, Copy, Debug, PartialEq, Eq)]
pub enum Way {
    Program,
    Command,
}

pub const WAYS: [Way; 2] = [Way::Program, Way::Command];

impl Way {
    /// A program with these arguments, which name texts.
    pub fn command<Name: AsRef<OsStr>>(self, name: &str, files: &[Name]) -> Command {
        let mut command = match self {
            Way::Program => command(program(name)),
            Way::Command => {
                let mut command = command(script::path());
                command.arg(name);
                command
            }
        };
        command.args(files);
        command
    }

    /// Runs a program on files. By itself it gets the last of them as standard input, and the command
    /// gets the name of each.
    pub fn run<Name: AsRef<OsStr>>(self, name: &str, files: &[Name]) -> Ended {
        let (last, before) = files.split_last().expect("a text");
        match self {
            Way::Program => {
                let input = File::open(last.as_ref()).expect("a file that can be opened");
                self.run_on(name, before, input)
            }
            Way::Command => end(&mut self.command(name, files), b""),
        }
    }

    /// Runs a program on files before its last text, which is standard input.
    pub fn run_on<Name: AsRef<OsStr>>(
        self,
        name: &str,
        before: &[Name],
        input: impl Into<Stdio>,
    ) -> Ended {
        end_on(&mut self.command(name, before), input)
    }

    /// The name that a message begins with.
    pub fn teller(self, name: &str) -> &str {
        match self {
            Way::Program => name,
            Way::Command => "envelope",
        }
    }

    /// The status of a run that gave no answer: a program has none of its own.
    pub fn failed(self) -> i32 {
        match self {
            Way::Program => 0,
            Way::Command => 2,
        }
    }

    /// The status of a run that printed this.
    pub fn status(self, name: &str, output: &[u8]) -> i32 {
        match self {
            Way::Program => 0,
            Way::Command if refuses_a_text(output) => 1,
            Way::Command if name == "judge" && !all_quiet(output) => 3,
            Way::Command => 0,
        }
    }

    /// Asserts what was printed, with its status. A refusal is said by the command in words too, and of
    /// values below detection that `plain` prints there is a line.
    pub fn assert_answer(self, ended: &Ended, name: &str, output: impl AsRef<[u8]>) {
        let output = output.as_ref();
        assert!(
            ended.output == output,
            "{} bytes in place of {}",
            ended.output.len(),
            output.len()
        );
        assert_eq!(
            ended.status,
            self.status(name, output),
            "{}",
            ended.messages
        );
        if self == Way::Command && has_refusal(name, output) {
            ended.assert_words();
            assert!(!refuses_a_text(output) || !ended.messages.is_empty());
        } else if self == Way::Command && name == "plain" && !ended.messages.is_empty() {
            assert!(notes_below_detection(ended), "{}", ended.messages);
        } else {
            assert_eq!(ended.messages, "");
        }
    }
}

fn lines(output: &[u8]) -> impl Iterator<Item = &[u8]> {
    output.split_inclusive(|&byte| byte == b'\n')
}

/// A reading by itself meets no other refusals than these three, and a text none of them.
fn refuses_a_text(output: &[u8]) -> bool {
    match lines(output).next().unwrap_or_default() {
        b"NO,3,1\n" | b"NO,4,1\n" | b"NO,10,1\n" => false,
        first => first.starts_with(b"NO,"),
    }
}

/// Whether a text or a reading is refused. Behind the heading that `plain` prints, `NO` is a label.
fn has_refusal(name: &str, output: &[u8]) -> bool {
    match name {
        "plain" => refuses_a_text(output),
        _ => lines(output).any(|line| line.starts_with(b"NO,")),
    }
}

/// Whether the only message is that values below detection were printed as plain numbers.
fn notes_below_detection(ended: &Ended) -> bool {
    let mut lines = ended.messages.split_inclusive('\n');
    let first = lines.next().unwrap_or_default();
    let says = first.contains(" below detection ") && first.contains(" on line ");
    first.starts_with("envelope: ") && first.ends_with('\n') && says && lines.next().is_none()
}

fn all_quiet(output: &[u8]) -> bool {
    lines(output).all(|line| line == b"QUIET\n")
}

/// What a program printed of texts, the last of them in one piece.
pub fn run<Text: AsRef<[u8]>>(name: &str, texts: &[Text]) -> Vec<u8> {
    let whole = || usize::MAX;
    let ended = run_in_pieces(Way::Program, name, texts, Duration::ZERO, whole);
    assert_eq!((ended.status, ended.messages.as_str()), (0, ""), "{name}");
    ended.output
}

/// Runs a program on texts, the last of them on standard input in pieces with a pause after each.
pub fn run_in_pieces<Text: AsRef<[u8]>>(
    way: Way,
    name: &str,
    given: &[Text],
    pause: Duration,
    mut size: impl FnMut() -> usize,
) -> Ended {
    assert_eq!(given.len(), texts(name), "texts of {name}");
    let (last, before) = given.split_last().expect("a text");
    let folder = Folder::new();
    let mut command = way.command(name, &folder.write_texts(before));
    end_fed(&mut command, |stdin| {
        let mut rest = last.as_ref();
        while !rest.is_empty() {
            let (piece, behind) = rest.split_at(size().min(rest.len()));
            if !written(stdin, piece) {
                return;
            }
            rest = behind;
            if !pause.is_zero() {
                thread::sleep(pause);
            }
        }
    })
}
