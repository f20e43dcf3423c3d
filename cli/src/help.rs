//! Usage: an overview, and the details of each command.

use crate::arguments::Words;
use crate::failure::Failure;
use crate::output;
use crate::shown;
use crate::status::Status;
use std::ffi::{OsStr, OsString};

struct Command {
    name: &'static str,
    /// The words behind the name.
    words: &'static str,
    /// What it does, in the overview.
    summary: &'static str,
    details: &'static str,
}

const INTRODUCTION: &str = "\
envelope draws alarm envelopes round the reference readings of water loops,
and judges readings by them. Every envelope and verdict comes from proved
calls.
";

const FIRST_EXAMPLE: &str = "\
To begin, in the folder of the repository:

  ./envelope draw examples/purified-water.ref
";

const TEXTS: &str = "\
REF is the file of a reference text, ENV that of a record, READINGS that of
readings, SETTINGS that of alert settings. '-' stands for standard input, and so
does the last text where it is left out (but show without ENV draws REF). It can
be only one of the texts. A name that starts with '-' is written ./NAME, or
comes behind '--'.

A text that is refused is answered by NO, the number of the refusal and the
line at fault (0 where none is), and said in words on standard error. A text
has at most 65,536 bytes, and so have the readings together.
";

const STATUSES: &str = "\
Exit status, for every command:

  0  done; of judge: every reading is quiet
  1  a text is refused
  2  anything else: bad usage, or a file, folder or stream that cannot be read
     or written; a line on standard error says which
  3  of judge: some reading is an alarm or is turned back
";

const COMMANDS: [Command; 11] = [
    Command {
        name: "draw",
        words: "[REF]",
        summary: "the record of a reference text",
        details: "\
Draws the ball round the rows of a reference text, with a budget of 10,000
moves, and prints its record:

  ENV,n,tags           the channels
  C,..                 the centre of each channel, in steps times 65,536
  R,M,L,moves,S or B   squared radius and its floor, which no ball round the
                       rows is below, in square steps times 65,536 squared;
                       moves made; settled, or the budget was used up
  W,row,weight         the rows that carry weight, of 65,536 together

'show' prints the same in units.
",
    },
    Command {
        name: "verify",
        words: "REF [ENV]",
        summary: "whether a record agrees with its reference text",
        details: "\
Prints OK where every figure of the record is what its weights and the rows of
the reference text give. Only the moves are taken as written.
",
    },
    Command {
        name: "panel",
        words: "REF [ENV]",
        summary: "the centre of each channel in whole steps",
        details: "\
Prints a line for each channel of a record that agrees with its reference
text: the tag, and the centre to the nearest whole step, halves away from
zero.
",
    },
    Command {
        name: "judge",
        words: "[--explain] REF ENV [READINGS]",
        summary: "the verdict on each reading",
        details: "\
Prints a line for each reading:

  QUIET           it lies in the ball
  ALARM,excess    it lies outside; the excess is its squared distance less the
                  squared radius, in square steps times 65,536 squared
  NO,number,1     it is turned back; 'envelope refusals' has the numbers

Why readings are turned back is said on standard error, for the first 20 of
them.

With --explain it prints for people instead: the line of each reading, its
label, the verdict, its distance as a share of the radius (100.0% or less
where it is quiet, more where it is an alarm), and the channel that
contributes most with its deviation from the centre. The last line has the
counts. What follows from them is for the shift lead to decide.

Exit status 0 means that every reading is quiet; 3 that some reading is an
alarm or is turned back.
",
    },
    Command {
        name: "alerts",
        words: "REF ENV SETTINGS [READINGS]",
        summary: "what alert settings would have made of recorded readings",
        details: "\
Tries alert settings on recorded readings, for example those of a month, as the
envelope judges them. SETTINGS has 1 to 20 lines

  k,c    an alert is raised by k Alarm verdicts running, and cleared by c Quiet
         verdicts running; both are 1 to 99

Prints a line for each setting, in the order of SETTINGS:

  k,c,raised,passed    the setting; how many alerts it would have raised; how
                       many readings passed while an alert stood, the one that
                       raises it among them, the one that clears it not

and a last line:

  readings,alarm,quiet,turned back    how many readings there are, and how many
                       of them are an Alarm, are Quiet, and are turned back

A reading that is turned back breaks no run, is not among those that passed, and
is counted in the last line alone. 'judge' says which they are, and why.

Exit status 0 means that the settings were tried, whatever they raised. Settings
that are refused are answered by NO,14,0; the line at fault is said on standard
error.
",
    },
    Command {
        name: "plain",
        words: "[REF]",
        summary: "a reference text with every value as a plain number",
        details: "\
Prints the reference text of the table, types and labels of a reference text,
with plain values: one below detection, <v, is printed as the number that it
reads as, half the limit rounded down: <50 and <51 as 25, <1 as 0. How many
there are, and where the first stands, is said on standard error. A text
without them is printed as it is.

What is printed reads as the same table with the same types and labels, so
that 'draw' prints the same record of both. The detection limits are gone from
it: print it to another file, and keep the text that has them.
",
    },
    Command {
        name: "show",
        words: "REF [ENV]",
        summary: "an envelope in units, and the rows that hold it",
        details: "\
Prints the envelope of a record that agrees with its reference text; without
ENV the one that is drawn now, with a budget of 10,000 moves:

- for each channel the centre, the reach of the ball (centre less radius to
  centre plus radius) and the least and largest value of the rows, in units;
- the radius in steps (steps of different channels count alike), the gap (M
  less L, and how much smaller the least radius can be at most), and how the
  drawing ended;
- the rows that carry weight, the heaviest first, with the radius that is
  drawn without each of the first 16. Of more than two rows, one without which
  the radius is less than half is marked: a value of it may be mistyped.
",
    },
    Command {
        name: "redraw",
        words: "DIR..",
        summary: "every reference text of folders, drawn into its record",
        details: "\
Draws every *.ref of each folder into the *.env beside it, with a worker for
each core, and prints a line for each file that says what became of it.
Progress goes to standard error.

A record is replaced whole or not at all: the new one is flushed to disk and
then renamed, also where the run is killed. A record that is the one drawn now
is left alone, and so is that of a refused text. A *.ref or *.env that is a
link, a pipe, a device or a folder is a failure.

A record that was drawn when values below detection counted as 0 is refused by
12 where its figures differ: redraw every folder that has such records once.

A folder is locked during the run; another redraw of it is turned away. The
lock does not reach other hosts: redraw a folder from one host at a time. A
killed run may leave files named .envelope-*, which may be removed when no
redraw runs.

Exit status 2 means that a file failed or a folder has no *.ref, 1 that a text
was refused and nothing failed.
",
    },
    Command {
        name: "types",
        words: "",
        summary: "the channel types with steps, units and ranges",
        details: "\
Prints the channel types: code, tag, name, what a step is, and the least and
the largest value in steps and in units. Texts have whole steps: 228 under TMP
is 22.8 °C.
",
    },
    Command {
        name: "refusals",
        words: "",
        summary: "why texts and readings are refused",
        details: "\
Prints the table of refusals: the number behind NO, and when it is given. The
number behind that one is the line at fault, 0 where none is.
",
    },
    Command {
        name: "help",
        words: "[COMMAND]",
        summary: "this overview, or the details of a command",
        details: "\
Prints an overview, or the details of a command, as --help or -h behind it
does.
'envelope --version' prints the version.
",
    },
];

pub fn print_help(words: &[OsString]) -> Result<Status, Failure> {
    let words = Words::of(words, &[])?;
    match &words.names[..] {
        [] => print(&overview()),
        [name] => print_command(name),
        _ => Err(Failure::usage("help takes one command".to_string())),
    }
}

/// The details of a command, or the overview where the name is an option that stands for a command.
pub fn print_command(name: &OsStr) -> Result<Status, Failure> {
    match COMMANDS.iter().find(|command| name == command.name) {
        Some(command) => print(&details(command)),
        None if ["--help", "-h", "--version"]
            .iter()
            .any(|option| name == *option) =>
        {
            print(&overview())
        }
        None => Err(no_command(name)),
    }
}

pub fn print_version(words: &[OsString]) -> Result<Status, Failure> {
    Words::of(words, &[])?.require_none("--version")?;
    print(concat!("envelope ", env!("CARGO_PKG_VERSION"), "\n"))
}

pub fn no_command(name: &OsStr) -> Failure {
    Failure::usage(format!("there is no command {}", shown::name(name)))
}

/// Whether a command's words ask for its help.
pub fn is_asked_for(words: &[OsString]) -> bool {
    let mut options = words.iter().take_while(|word| *word != "--");
    options.any(|word| word == "--help" || word == "-h")
}

fn print(text: &str) -> Result<Status, Failure> {
    output::print(text.as_bytes())?;
    Ok(Status::Done)
}

/// The usage of a command, by its name.
pub fn usage_of(name: &str) -> String {
    let command = COMMANDS.iter().find(|command| command.name == name);
    command.map_or("envelope help".to_string(), usage)
}

fn usage(command: &Command) -> String {
    let line = format!("envelope {} {}", command.name, command.words);
    line.trim_end().to_string()
}

fn overview() -> String {
    let mut lines = String::new();
    for command in &COMMANDS {
        lines += &format!("  {}\n      {}\n", usage(command), command.summary);
    }
    let version = "  envelope --version\n";
    [
        INTRODUCTION,
        &format!("Usage:\n\n{lines}{version}"),
        FIRST_EXAMPLE,
        TEXTS,
        STATUSES,
    ]
    .join("\n")
}

fn details(command: &Command) -> String {
    format!("Usage: {}\n\n{}", usage(command), command.details)
}

#[cfg(test)]
mod tests {
    use super::{COMMANDS, details, is_asked_for, overview};
    use std::ffi::OsString;

    #[test]
    fn lines_fit_a_terminal_and_end() {
        let texts = COMMANDS.iter().map(details).chain([overview()]);
        for text in texts {
            assert!(text.ends_with('\n') && !text.ends_with("\n\n"));
            for line in text.lines() {
                assert!(line.chars().count() <= 80, "{line}");
                assert_eq!(line.trim_end(), line);
            }
        }
    }

    #[test]
    fn help_is_asked_for_before_two_hyphens() {
        let asked = |words: &[&str]| {
            let words: Vec<OsString> = words.iter().map(OsString::from).collect();
            is_asked_for(&words)
        };
        assert!(asked(&["--help"]));
        assert!(asked(&["x.ref", "-h"]));
        assert!(asked(&["x.ref", "--help", "--"]));
        assert!(!asked(&["--", "--help"]));
        assert!(!asked(&["--", "-h"]));
        assert!(!asked(&["help", "h", "-"]));
    }
}
