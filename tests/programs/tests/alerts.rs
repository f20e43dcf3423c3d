//! `alerts`: alert settings tried on readings, by the program in Rattle and by the command: what is counted,
//! which text is refused first, what the command says of settings that are refused, on the example, on seeded
//! texts and in the face of hostile names and streams.

use outside::programs::Program;
use outside::random::{Random, count_from_environment, seed_from_environment};
use programs::call::{WAYS, Way, run};
use programs::folder::Folder;
use programs::presented::assert_printable;
use programs::process::{Ended, end, redirected, written};
use programs::script::envelope;
use programs::{
    READING, RECORD, REFERENCE, SETTINGS, TEXT_LIMIT, accepted, answer, example, hostile_names,
    month, quoted, root, seeded_texts_of,
};
use std::ffi::OsStr;
use std::os::unix::ffi::OsStrExt;
use std::os::unix::fs::symlink;
use std::path::{Path, PathBuf};

const SEED: u64 = 2_000;
const INPUTS: u64 = 300;

const QUIET: &str = READING;
const ALARM: &str = "LOOP-1,TOC,3,CND,10\n";
const TURNED_BACK: &str = "LOOP-1,TOC,2001,CND,4\n";
const REFUSED: &str = "NO,14,0\n";
const REASON: &str = "refused by 14: alert settings not in form or outside their limits";
const ASKED: &str = "a settings text has 1 to 20 lines k,c, each number 1 to 99";

/// Readings by letters: A an Alarm, Q a Quiet, any other one that is turned back.
fn readings(letters: &str) -> String {
    let reading = |letter| match letter {
        'A' => ALARM,
        'Q' => QUIET,
        _ => TURNED_BACK,
    };
    letters.chars().map(reading).collect()
}

/// Asserts what both print of settings and readings.
fn assert_tried(settings: &str, readings: &str, output: &str) {
    let folder = Folder::new();
    let files = folder.write_texts(&[REFERENCE, RECORD, settings, readings]);
    for way in WAYS {
        way.assert_answer(&way.run("alerts", &files), "alerts", output);
    }
}

#[test]
fn alerts_are_raised_and_cleared_by_runs_of_verdicts() {
    for (letters, settings, output) in [
        ("AAQAQQ", "2,2\n", "2,2,1,4\n6,3,3,0\n"),
        ("AAQAQQ", "1,1\n", "1,1,2,3\n6,3,3,0\n"),
        ("AAQAQQ", "3,1\n", "3,1,0,0\n6,3,3,0\n"),
        ("AAQAQQ", "1,3\n", "1,3,1,6\n6,3,3,0\n"),
        ("A-AQ-AQQ-", "2,2\n", "2,2,1,4\n9,3,3,3\n"),
        (
            "AQAQAQ",
            "1,1\n1,2\n2,1\n",
            "1,1,3,3\n1,2,1,6\n2,1,0,0\n6,3,3,0\n",
        ),
        ("AAAA", "2,1\n2,1\n", "2,1,1,3\n2,1,1,3\n4,4,0,0\n"),
        ("---", "1,1\n", "1,1,0,0\n3,0,0,3\n"),
        ("A", "1,99\n99,1\n", "1,99,1,1\n99,1,0,0\n1,1,0,0\n"),
    ] {
        assert_tried(settings, &readings(letters), output);
    }
}

/// Runs of 99, of one verdict less and of one more.
#[test]
fn the_longest_runs() {
    let runs = |alarms: usize, quiets: usize| ALARM.repeat(alarms) + &QUIET.repeat(quiets) + ALARM;
    for (alarms, quiets, counts) in [
        (98, 99, "99,99,0,0\n198,99,99,0\n"),
        (99, 98, "99,99,1,100\n198,100,98,0\n"),
        (99, 99, "99,99,1,99\n199,100,99,0\n"),
        (100, 100, "99,99,1,100\n201,101,100,0\n"),
    ] {
        assert_tried("99,99\n", &runs(alarms, quiets), counts);
    }
}

/// Every line is a reading, an empty one too, and so is a last piece without byte 10.
#[test]
fn every_line_is_a_reading() {
    for (readings, last) in [
        ("\n".to_string(), "1,0,0,1"),
        ("x".to_string(), "1,0,0,1"),
        (format!("{ALARM}\n{ALARM}"), "3,2,0,1"),
        (format!("{ALARM}{}", ALARM.trim_end()), "2,1,0,1"),
        (format!("{QUIET}{}", QUIET.trim_end()), "2,0,1,1"),
    ] {
        let raised = if last.starts_with("3,2") {
            "1,1"
        } else {
            "0,0"
        };
        let output = format!("2,1,{raised}\n{last}\n");
        assert_tried("2,1\n", &readings, &output);
    }
    let (ends, count) = ("\n".repeat(TEXT_LIMIT), TEXT_LIMIT);
    let settings = "99,99\n".repeat(20);
    let lines = "99,99,0,0\n".repeat(20);
    assert_tried(&settings, &ends, &format!("{lines}{count},0,0,{count}\n"));
}

/// Whatever the settings raise, and whatever the readings are.
#[test]
fn settings_that_were_tried_end_in_0_and_nothing_is_said() {
    for readings in [QUIET, ALARM, TURNED_BACK, "\n", "x"] {
        let folder = Folder::new();
        let files = folder.write_texts(&[REFERENCE, RECORD, SETTINGS, readings]);
        let ended = Way::Command.run("alerts", &files);
        assert_eq!((ended.status, &*ended.messages), (0, ""), "{readings:?}");
        assert!(ended.text().starts_with("1,1,"), "{readings:?}");
    }
}

/// Three settings that differ in what they raise on the readings of a month.
#[test]
fn the_example() {
    let stored = String::from_utf8(example("purified-water", "alerts")).expect("a text");
    let [reference, record, settings, readings] = month();
    let names = ["ref", "env", "settings"].map(|kind| format!("purified-water.{kind}"));
    let mut command = Way::Command.command("alerts", &names);
    command.arg("purified-water-month.readings");
    let ended = end(command.current_dir(root().join("examples")), b"");
    ended.assert_printed(&stored, 0);
    let texts = [&reference, &record, &settings, &readings];
    assert_eq!(run("alerts", &texts), stored.as_bytes());
    let lines: Vec<&str> = stored.lines().collect();
    let raised = |line: &str| {
        line.split(',')
            .nth(2)
            .and_then(|raised| raised.parse().ok())
    };
    let raised: Vec<u32> = lines[..3].iter().filter_map(|line| raised(line)).collect();
    assert!(
        raised[0] > 2 * raised[1] && raised[1] > raised[2] && raised[2] == 1,
        "{raised:?}"
    );
    assert!(readings.len() <= TEXT_LIMIT);
    assert_last_counts_verdicts(lines[3], &run("judge", &[&reference, &record, &readings]));
}

/// Asserts that a last line counts the lines that `judge` prints.
fn assert_last_counts_verdicts(last: &str, verdicts: &[u8]) {
    let verdicts = std::str::from_utf8(verdicts).expect("verdicts");
    let count = |start: &str| {
        let lines = verdicts.lines().filter(|line| line.starts_with(start));
        lines.count()
    };
    let counts = ["", "ALARM", "QUIET", "NO"].map(count);
    let [readings, alarms, quiets, turned_back] = counts;
    assert_eq!(readings, alarms + quiets + turned_back);
    assert_eq!(last, counts.map(|count| count.to_string()).join(","));
}

/// Each text refused, and with every text behind it refused too.
#[test]
fn the_first_refused_text_is_answered() {
    let refused = ["REF,1,TOC\nA,05\n", "ENV,0\n", "0,1\n", ""];
    let outputs = ["NO,3,2\n", "NO,11,1\n", REFUSED, "NO,1,0\n"];
    for (place, output) in outputs.into_iter().enumerate() {
        let good = [REFERENCE, RECORD, SETTINGS, READING];
        let mut one = good;
        one[place] = refused[place];
        let rest: Vec<&str> = good[..place]
            .iter()
            .chain(&refused[place..])
            .copied()
            .collect();
        for texts in [&one[..], &rest] {
            let folder = Folder::new();
            let files = folder.write_texts(texts);
            for way in WAYS {
                way.assert_answer(&way.run("alerts", &files), "alerts", output);
            }
            let ended = Way::Command.run("alerts", &files);
            let told = quoted(files[place].as_os_str().as_bytes());
            assert!(ended.messages.starts_with(&format!("envelope: {told}")));
            assert_eq!(ended.messages.lines().count(), 2);
        }
    }
    let other = RECORD.replace("2,S", "2,B");
    for (record, readings) in [(&*other, READING), (&other, "")] {
        let folder = Folder::new();
        let files = folder.write_texts(&[REFERENCE, record, "", readings]);
        for way in WAYS {
            way.assert_answer(&way.run("alerts", &files), "alerts", "NO,12,0\n");
        }
    }
}

/// Settings that are refused: the line at fault, 0 where the text is empty, and what is said of it.
fn refused_settings() -> Vec<(String, u32, String)> {
    let k = "k, the Alarm verdicts running that raise an alert,";
    let c = "c, the Quiet verdicts running that clear it,";
    let fields = "and 2 are asked for, k and c";
    let blanks = "there are no blanks in a line";
    let no_end = "the line has no line end: each line ends in byte 10, the last one too";
    let lines = |count: usize| SETTINGS.repeat(count / 2);
    let cases = [
        ("", 0, format!("the settings are empty: {ASKED}")),
        ("0,1\n", 1, format!("{k} is '0': it is 1 to 99")),
        ("100,1\n", 1, format!("{k} is '100': it is 1 to 99")),
        ("1,0\n", 1, format!("{c} is '0': it is 1 to 99")),
        ("1,100\n", 1, format!("{c} is '100': it is 1 to 99")),
        ("1,1\n-1,1\n", 2, format!("{k} is '-1': it is 1 to 99")),
        (
            "1,1\n1,1\n01,1\n",
            3,
            format!("{k} is '01', which has leading zeros: it is written without them"),
        ),
        (
            "1,+1\n",
            1,
            format!("{c} is '+1', which has a plus sign: a number above 0 has no sign"),
        ),
        (
            "1, 1\n",
            1,
            format!("{c} is '\\x201', which starts with a blank: {blanks}"),
        ),
        ("1,\n", 1, format!("{c} is '', which is empty")),
        ("k,c\n1,1\n", 1, format!("{k} is 'k', which is no number")),
        ("1\n", 1, format!("the line has 1 field, {fields}")),
        ("1,1,1\n", 1, format!("the line has 3 fields, {fields}")),
        (
            "1,1,,\n",
            1,
            "the line ends in 2 commas too many: 2 fields are asked for, k and c".to_string(),
        ),
        (
            "1,1\r\n",
            1,
            "the line has a Windows line end (bytes 13 and 10): save the text with Unix line ends \
             (byte 10 alone)"
                .to_string(),
        ),
        (
            "\n",
            1,
            "the last line is empty: remove it, each line is a setting".to_string(),
        ),
        (
            "1,1\n\n1,1\n",
            2,
            "the line is empty: remove it, each line is a setting".to_string(),
        ),
        ("1,1", 1, no_end.to_string()),
        ("1,1\n99,99", 2, no_end.to_string()),
        ("1,1\n0,99", 2, format!("{k} is '0': it is 1 to 99")),
    ];
    let cases = cases.map(|(settings, line, hint)| (settings.to_string(), line, hint));
    let many = [
        (
            lines(20) + "1,1",
            format!("this would be setting 21: {ASKED}"),
        ),
        (lines(22), format!("this would be setting 21: {ASKED}")),
        (
            lines(2 * TEXT_LIMIT),
            format!("this would be setting 21: {ASKED}"),
        ),
        (
            lines(20) + "\n",
            format!("the line is empty, where a setting past the last would stand: {ASKED}"),
        ),
    ];
    let many = many.map(|(settings, hint)| (settings, 21, hint));
    cases.into_iter().chain(many).collect()
}

/// By name and line, also where the readings would be refused too, and from standard input.
#[test]
fn refused_settings_are_said_in_words() {
    for (settings, line, hint) in refused_settings() {
        let place = match line {
            0 => String::new(),
            line => format!(", line {line}"),
        };
        for readings in [READING, ""] {
            let folder = Folder::new();
            let files = folder.write_texts(&[REFERENCE, RECORD, &settings, readings]);
            Way::Program
                .run("alerts", &files)
                .assert_printed(REFUSED, 0);
            let name = quoted(files[2].as_os_str().as_bytes());
            let from_file = Way::Command.run("alerts", &files);
            let mut words = files;
            words[2] = PathBuf::from("-");
            let mut command = Way::Command.command("alerts", &words);
            let from_input = end(&mut command, settings.as_bytes());
            for (ended, name) in [(from_file, &*name), (from_input, "standard input")] {
                assert_eq!((ended.text(), ended.status), (REFUSED, 1), "{settings:?}");
                let told = format!("envelope: {name}{place}: {REASON}\n  {hint}\n");
                assert_eq!(ended.messages, told);
            }
        }
    }
}

/// Whole and damaged texts: both print what the outside implementation does, a refusal of settings is said
/// with its line, and the last line counts the lines that `judge` prints.
#[test]
fn seeded_texts() {
    let seed = seed_from_environment(SEED);
    let mut random = Random::new(seed);
    let [mut tried, mut refused, mut said] = [0; 3];
    let inputs = count_from_environment("INPUTS", INPUTS);
    for input in 0..inputs {
        println!("seed {seed}, input {input}");
        let texts = seeded_texts_of(&mut random, Program::Alerts);
        let output = Program::Alerts.run(&texts);
        let folder = Folder::new();
        let files = folder.write_texts(&texts);
        for way in WAYS {
            way.assert_answer(&way.run("alerts", &files), "alerts", &output);
        }
        if output == REFUSED.as_bytes() {
            assert_line_at_fault(&files, &texts);
            said += 1;
        } else if output.starts_with(b"NO,") {
            refused += 1;
        } else {
            let judged = [&texts[0], &texts[1], &texts[3]];
            let printed = String::from_utf8(output).expect("an output in ASCII");
            let last = printed.lines().last().expect("a line");
            assert_last_counts_verdicts(last, &run("judge", &judged));
            tried += 1;
        }
    }
    let met = [tried, refused, said];
    let least = (inputs / 20) as usize;
    assert!(
        met.iter().all(|&count| count > least),
        "seed {seed}: {met:?}"
    );
}

/// Asserts that the lines before the one that is said are settings, and that with it they are none.
fn assert_line_at_fault(files: &[PathBuf], texts: &[Vec<u8>]) {
    let ended = Way::Command.run("alerts", files);
    let told = format!("envelope: {}", quoted(files[2].as_os_str().as_bytes()));
    let rest = ended.messages.strip_prefix(&told).expect("a refused text");
    let Some(rest) = rest.strip_prefix(", line ") else {
        assert!(texts[2].is_empty() && rest.starts_with(": "));
        return;
    };
    let (line, rest) = rest.split_once(": ").expect("a line");
    assert!(rest.starts_with(REASON), "{rest}");
    let line: usize = line.parse().expect("a number");
    let lines: Vec<&[u8]> = texts[2].split_inclusive(|&byte| byte == b'\n').collect();
    let of_first = |count: usize| {
        let mut texts = texts.to_vec();
        texts[2] = lines[..count].concat();
        Program::Alerts.run(&texts)
    };
    assert_eq!(of_first(line), REFUSED.as_bytes());
    assert!(line == 1 || of_first(line - 1) != REFUSED.as_bytes());
}

/// Runs the command in a folder on settings of this name beside accepted texts.
fn run_in(folder: &Folder, settings: &Path) -> Ended {
    let words = ["--", "x.ref", "x.env"].map(Path::new);
    let mut command = Way::Command.command("alerts", &words);
    command.args([settings, Path::new("x.readings")]);
    end(command.current_dir(folder.path()), b"")
}

const OTHERS: [(&str, &str); 3] = [
    ("x.ref", REFERENCE),
    ("x.env", RECORD),
    ("x.readings", READING),
];

/// A folder with the texts of `alerts`, the settings aside.
fn without_settings() -> Folder {
    let folder = Folder::new();
    for (name, text) in OTHERS {
        folder.write(name, text);
    }
    folder
}

/// The name is a stranger's: it ends no line of ours, and no control byte reaches a terminal.
#[test]
fn a_hostile_name_is_told_in_one_line() {
    for name in hostile_names() {
        let folder = without_settings();
        let name = Path::new(OsStr::from_bytes(&name));
        let told = quoted(name.as_os_str().as_bytes());
        let missing = format!("envelope: {told}: No such file or directory");
        run_in(&folder, name).assert_told(&missing, 2);
        folder.write(name, SETTINGS);
        run_in(&folder, name).assert_printed(answer("alerts"), 0);
        folder.write(name, "1,1\n2,2");
        let ended = run_in(&folder, name);
        assert_eq!((ended.text(), ended.status), (REFUSED, 1));
        let hint = "the line has no line end: each line ends in byte 10, the last one too";
        let said = format!("envelope: {told}, line 2: {REASON}\n  {hint}\n");
        assert_eq!(ended.messages, said);
        assert_printable(&ended.messages);
    }
}

#[test]
fn settings_from_links_and_pipes_are_read_and_nothing_is_written() {
    let folder = without_settings();
    let file = folder.write("x.settings", SETTINGS);
    symlink("x.settings", folder.path().join("link")).expect("a link");
    std::fs::hard_link(&file, folder.path().join("hard")).expect("a link");
    let before = folder.names();
    for name in ["x.settings", "link", "hard", "./link"] {
        run_in(&folder, Path::new(name)).assert_printed(answer("alerts"), 0);
    }
    assert_eq!(folder.names(), before);
    for (name, text) in OTHERS.iter().chain(&[("x.settings", SETTINGS)]) {
        assert_eq!(folder.read(name), text.as_bytes(), "{name}");
    }
    for way in WAYS {
        for (settings, output) in [(SETTINGS, answer("alerts")), ("1,1\n1", REFUSED)] {
            let folder = Folder::new();
            let mut files = folder.write_texts(&accepted("alerts"));
            let (fifo, writer) =
                folder.write_fifo("fifo", move |pipe| written(pipe, settings.as_bytes()));
            files[2] = fifo;
            way.assert_answer(&way.run("alerts", &files), "alerts", output);
            assert!(writer.join().expect("a writer that ends"));
        }
    }
}

/// A device that gives nothing is an empty text; what cannot be read is none.
#[test]
fn settings_that_are_no_file() {
    let folder = without_settings();
    let empty = run_in(&folder, Path::new("/dev/null"));
    assert_eq!((empty.text(), empty.status), (REFUSED, 1));
    let said = format!("envelope: '/dev/null': {REASON}\n  the settings are empty: {ASKED}\n");
    assert_eq!(empty.messages, said);
    for (name, reason) in [
        (".", "Is a directory"),
        ("x.ref/", "Not a directory"),
        ("missing", "No such file or directory"),
    ] {
        let line = format!("envelope: '{name}': {reason}");
        run_in(&folder, Path::new(name)).assert_told(&line, 2);
    }
}

/// Where the answer is not printed, that alone is told.
#[test]
fn nothing_is_said_of_settings_whose_answer_is_not_printed() {
    for settings in [SETTINGS, "1,1\n0,1\n"] {
        for (redirections, reason) in [
            (">/dev/full", "No space left on device"),
            (">&-", "Bad file descriptor"),
        ] {
            let folder = Folder::new();
            let files = folder.write_texts(&[REFERENCE, RECORD, settings, READING]);
            let command = Way::Command.command("alerts", &files);
            let ended = end(&mut redirected(redirections, &command), b"");
            ended.assert_told(&format!("envelope: standard output: {reason}"), 2);
        }
    }
}

/// Messages that cannot be written change neither the answer nor the status.
#[test]
fn words_that_cannot_be_written_change_nothing() {
    for redirections in ["2>/dev/full", "2>&-", "2</dev/null"] {
        let folder = Folder::new();
        let files = folder.write_texts(&[REFERENCE, RECORD, "1,1\n0,1\n", READING]);
        let command = Way::Command.command("alerts", &files);
        let ended = end(&mut redirected(redirections, &command), b"");
        ended.assert_printed(REFUSED, 1);
    }
}

#[test]
fn help_says_what_each_number_of_a_line_is() {
    let help = envelope(&["alerts", "--help"], b"");
    assert_eq!((help.status, &*help.messages), (0, ""));
    assert_eq!(help.text(), envelope(&["help", "alerts"], b"").text());
    let words: Vec<&str> = help.text().split_whitespace().collect();
    let text = words.join(" ");
    for part in [
        "Usage: envelope alerts REF ENV SETTINGS [READINGS]",
        "1 to 20 lines k,c an alert is raised by k Alarm verdicts running, and cleared by c Quiet \
         verdicts running; both are 1 to 99",
        "k,c,raised,passed the setting; how many alerts it would have raised; how many readings \
         passed while an alert stood",
        "readings,alarm,quiet,turned back how many readings there are",
        "breaks no run",
        "NO,14,0",
        "Exit status 0 means that the settings were tried",
    ] {
        assert!(text.contains(part), "{part}");
    }
}
