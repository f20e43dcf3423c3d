//! The exit status of each command, what `judge` says of readings that are turned back, help, types and
//! version.

use outside::programs::{PROGRAMS as ALL_PROGRAMS, Program};
use outside::random::{Random, count_from_environment, seed_from_environment};
use outside::reference::CHANNEL_TYPES;
use programs::call::Way;
use programs::folder::Folder;
use programs::presented::{assert_printable, cells, steps};
use programs::process::{Ended, end, end_on, redirected};
use programs::script::envelope;
use programs::{
    EXAMPLES, READING, RECORD, REFERENCE, SETTINGS, TEXT_LIMIT, example, kinds, root,
    seeded_texts_of,
};
use std::fs::File;

const SEED: u64 = 1_800;
const INPUTS: u64 = 400;
/// How many readings that are turned back are said in words.
const TOLD: usize = 20;

const QUIET: &str = READING;
const ALARM: &str = "LOOP-1,TOC,3,CND,10\n";
const TURNED_BACK: [&str; 4] = [
    "\n",
    "LOOP-1,TOC,3\n",
    "LOOP-1,TOC,2001,CND,4\n",
    "LOOP-1,PH,3,CND,4\n",
];

/// Every command, as help names it.
const COMMANDS: [&str; 11] = [
    "draw", "verify", "panel", "judge", "alerts", "plain", "show", "redraw", "types", "refusals",
    "help",
];

fn run<Text: AsRef<[u8]>>(words: &[&str], texts: &[Text]) -> Ended {
    let folder = Folder::new();
    let files = folder.write_texts(texts);
    end(Way::Command.command(words[0], &words[1..]).args(files), b"")
}

/// The status of `judge`, with and without the option.
fn status_of_judge(readings: &str) -> i32 {
    let texts = [REFERENCE, RECORD, readings];
    let plain = run(&["judge"], &texts);
    let explained = run(&["judge", "--explain"], &texts);
    assert_eq!(plain.status, explained.status);
    let last = explained.text().lines().last();
    let judgement = match plain.status {
        0 => ": all quiet",
        _ => ": not all quiet",
    };
    assert!(last.is_some_and(|line| line.ends_with(judgement)));
    plain.status
}

#[test]
fn a_day_of_quiet_readings_is_0() {
    assert_eq!(status_of_judge(QUIET), 0);
    assert_eq!(status_of_judge(&QUIET.repeat(1_000)), 0);
}

#[test]
fn a_day_full_of_alarms_is_3() {
    assert_eq!(status_of_judge(ALARM), 3);
    assert_eq!(status_of_judge(&ALARM.repeat(24)), 3);
}

#[test]
fn a_day_of_refused_lines_is_3() {
    for reading in TURNED_BACK {
        assert_eq!(status_of_judge(reading), 3);
        assert_eq!(status_of_judge(&reading.repeat(24)), 3);
    }
    assert_eq!(status_of_judge("LOOP-1,TOC,3,CND,4"), 3);
}

/// One reading among quiet ones, wherever it stands.
#[test]
fn one_reading_that_is_not_quiet_is_3() {
    for reading in TURNED_BACK.iter().chain(&[ALARM]) {
        for before in [0, 1, 23] {
            let quiet = |count| QUIET.repeat(count);
            let readings = quiet(before) + reading + &quiet(23 - before);
            assert_eq!(status_of_judge(&readings), 3, "{reading:?}");
        }
    }
    for point in EXAMPLES {
        let texts = kinds("judge").iter().map(|kind| example(point, kind));
        let texts: Vec<Vec<u8>> = texts.collect();
        assert_eq!(run(&["judge"], &texts).status, 3, "{point}");
    }
}

/// What is printed is what the outside implementation prints, and the status follows from it.
#[test]
fn seeded_texts() {
    let seed = seed_from_environment(SEED);
    let mut random = Random::new(seed);
    let mut met = [0; 4];
    for input in 0..count_from_environment("INPUTS", INPUTS) {
        println!("seed {seed}, input {input}");
        let program = random.pick(&ALL_PROGRAMS);
        let texts = seeded_texts_of(&mut random, program);
        let ended = run(&[&program.name()], &texts);
        let answer = program.run(&texts);
        assert!(ended.output == answer, "seed {seed}, input {input}");
        let status = expected_status(program, &texts, &answer);
        assert_eq!(ended.status, status, "seed {seed}, input {input}");
        let is_said = is_said(program, &texts, &answer);
        assert_eq!(ended.messages.is_empty(), !is_said);
        met[status as usize] += 1;
    }
    assert!(
        met[0] > 50 && met[1] > 50 && met[2] == 0 && met[3] > 10,
        "seed {seed}: {met:?}"
    );
}

/// Whether something is said on standard error: each refusal, and that `plain` prints values below detection.
fn is_said(program: Program, texts: &[Vec<u8>], answer: &[u8]) -> bool {
    if program == Program::Plain {
        return answer.starts_with(b"NO,") || texts[0].contains(&b'<');
    }
    let mut lines = answer.split(|&byte| byte == b'\n');
    lines.any(|line| line.starts_with(b"NO,"))
}

/// The texts before the readings are refused by `verify` too, and readings by their length.
fn expected_status(program: Program, texts: &[Vec<u8>], answer: &[u8]) -> i32 {
    if program != Program::Judge {
        return i32::from(answer.starts_with(b"NO,"));
    }
    let is_refused =
        Program::Verify.run(&texts[..2]) != b"OK\n" || !(1..=TEXT_LIMIT).contains(&texts[2].len());
    let mut lines = answer.split_inclusive(|&byte| byte == b'\n');
    match (is_refused, lines.all(|line| line == b"QUIET\n")) {
        (true, _) => 1,
        (false, true) => 0,
        (false, false) => 3,
    }
}

/// Each by file and line, the first 20 of them, and how many more there are.
#[test]
fn readings_that_are_turned_back_are_said_in_words() {
    for count in [0, 1, TOLD, TOLD + 1, TOLD + 100] {
        let folder = Folder::new();
        for (name, text) in [("r", REFERENCE), ("e", RECORD)] {
            folder.write(name, text);
        }
        let readings = ALARM.to_string() + QUIET + &TURNED_BACK[2].repeat(count);
        folder.write("day 1", &readings);
        let mut command = Way::Command.command("judge", &["r", "e", "day 1"]);
        let ended = end(command.current_dir(folder.path()), b"");
        ended.assert_words();
        let lines: Vec<&str> = ended.messages.lines().collect();
        for (index, lines) in lines.chunks(2).take(TOLD).enumerate() {
            let start = format!("envelope: 'day\\x201', line {}: refused by 4: ", index + 3);
            assert!(lines[0].starts_with(&start), "{}", lines[0]);
            assert!(
                lines[1].starts_with("  ") && lines[1].contains("2001 ppb"),
                "{}",
                lines[1]
            );
        }
        assert_eq!(lines.len(), 2 * count.min(TOLD) + usize::from(count > TOLD));
        if count > TOLD {
            let more = format!("{} more", count - TOLD);
            assert!(lines[2 * TOLD].contains(&more), "{}", lines[2 * TOLD]);
        }
        assert_eq!(ended.text().lines().count(), count + 2);
    }
}

#[test]
fn a_refused_text_is_1() {
    for (words, texts) in [
        (&["draw"][..], &["REF,0\n"][..]),
        (&["plain"], &["REF,0\n"]),
        (&["plain"], &["REF,1,TOC\nA,<5\nB,<0\n"]),
        (&["verify"], &[REFERENCE, "ENV,0\n"]),
        (&["panel"], &[REFERENCE, "ENV,0\n"]),
        (&["show"], &["REF,0\n"]),
        (&["show"], &[REFERENCE, "ENV,0\n"]),
        (&["judge"], &[REFERENCE, RECORD, ""]),
        (&["judge", "--explain"], &[REFERENCE, RECORD, ""]),
        (&["judge"], &[REFERENCE, "ENV,0\n", TURNED_BACK[0]]),
        (&["alerts"], &["REF,0\n", RECORD, SETTINGS, QUIET]),
        (&["alerts"], &[REFERENCE, "ENV,0\n", SETTINGS, QUIET]),
        (&["alerts"], &[REFERENCE, RECORD, "", QUIET]),
        (&["alerts"], &[REFERENCE, RECORD, "1,1", QUIET]),
        (&["alerts"], &[REFERENCE, RECORD, "0,1\n", ""]),
        (&["alerts"], &[REFERENCE, RECORD, SETTINGS, ""]),
    ] {
        let ended = run(words, texts);
        assert_eq!(ended.status, 1, "{words:?}");
        assert!(ended.text().starts_with("NO,"), "{words:?}");
        ended.assert_words();
        assert_eq!(ended.messages.lines().count(), 2, "{words:?}");
    }
}

#[test]
fn bad_usage_is_2() {
    for words in [
        &["nothing"][..],
        &["nothing", "--help"],
        &["Draw"],
        &[""],
        &["--nothing"],
        &["\x1b[31m"],
        &["draw", "a", "b"],
        &["draw", "--explain"],
        &["plain", "a", "b"],
        &["plain", "-", "-"],
        &["plain", "--explain"],
        &["plain", "-x", "a"],
        &["verify"],
        &["judge", "a"],
        &["judge", "--explain", "a"],
        &["judge", "--explained", "a", "b"],
        &["alerts"],
        &["alerts", "a", "b"],
        &["alerts", "a", "b", "c", "d", "e"],
        &["alerts", "a", "b", "-"],
        &["alerts", "a", "b", "-", "-"],
        &["alerts", "--explain", "a", "b", "c", "d"],
        &["show"],
        &["show", "a", "b", "c"],
        &["show", "-", "-"],
        &["show", "-", "/dev/stdin"],
        &["show", "-x"],
        &["types", "a"],
        &["types", "-x"],
        &["help", "nothing"],
        &["help", "draw", "verify"],
        &["help", "-x"],
        &["--version", "a"],
    ] {
        let ended = envelope(words, b"");
        assert_eq!((ended.status, ended.text()), (2, ""), "{words:?}");
        assert!(ended.messages.starts_with("envelope: "), "{words:?}");
        assert_eq!(ended.messages.lines().count(), 1, "{words:?}");
        assert_printable(&ended.messages);
    }
}

#[test]
fn files_that_cannot_be_read_are_2() {
    let folder = Folder::new();
    let files = folder.write_texts(&[REFERENCE, RECORD]);
    let files: Vec<&str> = files
        .iter()
        .map(|file| file.to_str().expect("UTF-8"))
        .collect();
    let here = folder.path().to_str().expect("UTF-8");
    for (words, reason) in [
        (&["show", "missing"][..], "'missing': No such file"),
        (&["plain", "missing"], "'missing': No such file"),
        (&["plain", here], ": Is a directory"),
        (&["show", files[0], "missing"], "'missing': No such file"),
        (&["show", here], ": Is a directory"),
        (
            &["alerts", files[0], files[1], "missing", files[0]],
            "'missing': No such file",
        ),
        (
            &["alerts", files[0], files[1], here, files[0]],
            ": Is a directory",
        ),
        (
            &["judge", "--explain", files[0], files[1], "missing"],
            "'missing': No such file",
        ),
    ] {
        envelope(words, b"").assert_failed(reason);
    }
}

/// Commands that print without a proved program, with what they read from standard input.
fn printing() -> Vec<(Vec<&'static str>, &'static str)> {
    let mut commands = vec![
        (vec!["show", "-"], REFERENCE),
        (vec!["types"], ""),
        (vec!["help"], ""),
        (vec!["--help"], ""),
        (vec![], ""),
        (vec!["--version"], ""),
    ];
    commands.extend(COMMANDS.map(|name| (vec!["help", name], "")));
    commands.extend(COMMANDS.map(|name| (vec![name, "--help"], "")));
    commands
}

#[test]
fn an_output_that_cannot_be_written_is_2() {
    for (words, input) in printing() {
        let mut plain = programs::process::command(programs::script::path());
        plain.args(&words);
        let full = end(&mut redirected(">/dev/full", &plain), input.as_bytes());
        full.assert_failed("standard output: No space left on device");
        let closed = end(&mut redirected(">&-", &plain), input.as_bytes());
        closed.assert_failed("standard output: Bad file descriptor");
        let file = File::open("/dev/null").expect("a file");
        let closed = end_on(&mut redirected("<&-", &plain), file);
        closed.assert_failed("standard input: Bad file descriptor");
    }
    let folder = Folder::new();
    let files = folder.write_texts(&[REFERENCE, RECORD, READING]);
    let mut explain = Way::Command.command("judge", &["--explain"]);
    let full = end(&mut redirected(">/dev/full", explain.args(files)), b"");
    full.assert_failed("standard output: No space left on device");
}

#[test]
fn everything_that_prints_ends_in_0() {
    for (words, input) in printing() {
        let ended = envelope(&words, input.as_bytes());
        assert_eq!((ended.status, &*ended.messages), (0, ""), "{words:?}");
        assert_printable(ended.text());
    }
}

#[test]
fn help_says_how_each_command_is_used() {
    let overview = envelope(&["help"], b"");
    for words in [
        &["--help"][..],
        &["-h"],
        &[],
        &["--help", "--help"],
        &["--version", "--help"],
    ] {
        assert_eq!(envelope(words, b"").text(), overview.text());
    }
    for part in [
        "\n  ./envelope draw examples/purified-water.ref\n",
        "'-' stands for standard input",
        "\n  0  done",
        "\n  1  a text is refused",
        "\n  2  anything else",
        "\n  3  of judge",
        "\n  envelope --version\n",
    ] {
        assert!(overview.text().contains(part), "{part}");
    }
    let listed = overview.text().lines();
    let listed = listed.filter_map(|line| line.strip_prefix("  envelope "));
    let listed: Vec<&str> = listed.filter_map(|line| line.split(' ').next()).collect();
    assert_eq!(listed[..COMMANDS.len()], COMMANDS);
    for name in COMMANDS {
        let ended = envelope(&["help", name], b"");
        let usage = ended.text().lines().next().expect("a line");
        let usage = usage.strip_prefix("Usage: ").expect("usage");
        assert!(overview.text().contains(&format!("\n  {usage}\n")));
        for words in [&[name, "--help"][..], &[name, "a", "--help", "-x"]] {
            assert_eq!(envelope(words, b"").text(), ended.text());
        }
    }
}

/// Behind two hyphens it is a file's name.
#[test]
fn help_behind_two_hyphens_is_a_name() {
    let ended = envelope(&["draw", "--", "--help"], b"");
    ended.assert_told("envelope: '--help': No such file or directory", 2);
}

#[test]
fn help_of_redraw_says_what_an_administrator_must_know() {
    let help = envelope(&["help", "redraw"], b"");
    let words: Vec<&str> = help.text().split_whitespace().collect();
    let text = words.join(" ");
    for part in [
        "every *.ref of each folder into the *.env beside it",
        "a line for each file",
        "flushed",
        "killed",
        "a link, a pipe, a device",
        "does not reach other hosts",
        "one host at a time",
        ".envelope-*",
        "Exit status 2",
    ] {
        assert!(text.contains(part), "{part}");
    }
}

#[test]
fn the_version_is_that_of_the_package() {
    let manifest = std::fs::read_to_string(root().join("cli/Cargo.toml")).expect("a manifest");
    let version = manifest
        .lines()
        .find_map(|line| line.strip_prefix("version = "))
        .expect("a version");
    let printed = format!("envelope {}\n", version.trim_matches('"'));
    envelope(&["--version"], b"").assert_printed(&printed, 0);
}

#[test]
fn the_types_are_those_of_document_01() {
    let ended = envelope(&["types"], b"");
    let stored = root().join("tests/programs/stored-command/types.out");
    let stored = std::fs::read_to_string(stored).expect("a stored output");
    ended.assert_printed(&stored, 0);
    let lines: Vec<&str> = ended.text().lines().skip(1).collect();
    assert_eq!(lines.len(), CHANNEL_TYPES.len());
    for (line, channel) in lines.iter().zip(&CHANNEL_TYPES) {
        let cells = cells(line);
        assert_eq!(cells[..2], [&channel.code.to_string(), channel.tag]);
        assert_eq!(steps(cells[3], channel, 0), [1], "{line}");
        let (low, high) = (channel.low, channel.high);
        assert_eq!(cells[4], format!("{low} to {high}"));
        assert_eq!(steps(cells[5], channel, 0), [low.into(), high.into()]);
    }
}
