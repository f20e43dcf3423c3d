//! The command with the programs: where it takes the texts from, what it prints, its exit statuses and
//! its help.

use programs::call::Way;
use programs::folder::Folder;
use programs::process::{Ended, command, end, end_on};
use programs::script::{envelope, path};
use programs::{
    EXAMPLES, PROGRAMS, READING, RECORD, REFERENCE, SETTINGS, TEXT_LIMIT, WITH_FILES, accepted,
    answer, example, kinds, month, refusal_of_size, texts,
};
use std::ffi::OsStr;
use std::fs::File;
use std::io::{Seek, SeekFrom, Write};
use std::os::fd::OwnedFd;
use std::os::unix::ffi::OsStrExt;
use std::os::unix::fs::OpenOptionsExt;
use std::os::unix::net::UnixStream;
use std::path::PathBuf;
use std::process::Stdio;

fn assert_ends<Text: AsRef<[u8]>>(name: &str, texts: &[Text], output: &str, status: i32) {
    let folder = Folder::new();
    let ended = Way::Command.run(name, &folder.write_texts(texts));
    Way::Command.assert_answer(&ended, name, output);
    assert_eq!(ended.status, status);
}

#[test]
fn accepted_texts_end_in_0() {
    for name in PROGRAMS {
        assert_ends(name, &accepted(name), answer(name), 0);
    }
}

#[test]
fn refused_texts_end_in_1() {
    for name in PROGRAMS {
        for (reference, output) in [
            ("", "NO,1,0\n"),
            ("REF,0\n", "NO,2,1\n"),
            ("REF,1,TOC\nA,05\n", "NO,3,2\n"),
            ("REF,1,TOC\nA,2001\n", "NO,4,2\n"),
            ("REF,1,TOC\nA,1\nA,2\n", "NO,5,3\n"),
            ("REF,1,TOC\n", "NO,6,2\n"),
        ] {
            let mut texts = accepted(name);
            texts[0] = reference.into();
            assert_ends(name, &texts, output, 1);
        }
    }
    let other = RECORD.replace("2,S", "2,B");
    for name in WITH_FILES {
        for (record, output) in [
            ("", "NO,1,0\n"),
            ("ENV,0\n", "NO,11,1\n"),
            (&other, "NO,12,0\n"),
        ] {
            let mut texts = accepted(name);
            texts[1] = record.into();
            assert_ends(name, &texts, output, 1);
        }
    }
    let long = READING.repeat(TEXT_LIMIT / READING.len() + 1);
    for readings in ["", &long] {
        assert_ends("judge", &[REFERENCE, RECORD, readings], "NO,1,0\n", 1);
        let texts = [REFERENCE, RECORD, SETTINGS, readings];
        assert_ends("alerts", &texts, "NO,1,0\n", 1);
    }
    for settings in ["", "1,1", "0,1\n", "1,100\n", &long] {
        let texts = [REFERENCE, RECORD, settings, READING];
        assert_ends("alerts", &texts, "NO,14,0\n", 1);
    }
}

/// A reading that is refused is a verdict, also where it is the first or the only one.
#[test]
fn refused_readings_end_in_3() {
    for (reading, verdict) in [
        ("\n", "NO,3,1\n"),
        ("A,TOC,2001,CND,4\n", "NO,4,1\n"),
        ("A,PH,480,CND,4\n", "NO,10,1\n"),
    ] {
        assert_ends("judge", &[REFERENCE, RECORD, reading], verdict, 3);
        let readings = format!("{reading}{READING}");
        let verdicts = format!("{verdict}QUIET\n");
        assert_ends("judge", &[REFERENCE, RECORD, &readings], &verdicts, 3);
        let readings = format!("{READING}{reading}");
        let verdicts = format!("QUIET\n{verdict}");
        assert_ends("judge", &[REFERENCE, RECORD, &readings], &verdicts, 3);
    }
}

/// Wherever it is among others that are quiet. Its distance is 6, the radius 5.
#[test]
fn an_alarm_ends_in_3() {
    let (alarm, verdict) = ("X,TOC,9,CND,4\n", "ALARM,47244640256\n");
    for place in 0..3 {
        let (mut readings, mut verdicts) = ([READING; 3], ["QUIET\n"; 3]);
        (readings[place], verdicts[place]) = (alarm, verdict);
        let texts = [REFERENCE, RECORD, &readings.concat()];
        assert_ends("judge", &texts, &verdicts.concat(), 3);
    }
    let quiet = "QUIET\n".repeat(3);
    assert_ends("judge", &[REFERENCE, RECORD, &READING.repeat(3)], &quiet, 0);
}

#[test]
fn the_longest_output_is_passed_on_whole() {
    let readings = "\n".repeat(TEXT_LIMIT);
    let verdicts = "NO,3,1\n".repeat(TEXT_LIMIT);
    assert_ends("judge", &[REFERENCE, RECORD, &readings], &verdicts, 3);
}

#[test]
fn the_examples_give_what_stands_beside_them() {
    for point in EXAMPLES {
        let [reference, plain, record, readings, panel, verdicts] =
            ["ref", "plain", "env", "readings", "panel", "verdicts"]
                .map(|kind| String::from_utf8(example(point, kind)).expect("a text"));
        assert_ends("draw", &[&reference], &record, 0);
        assert_ends("plain", &[&reference], &plain, 0);
        assert_ends("verify", &[&reference, &record], "OK\n", 0);
        assert_ends("panel", &[&reference, &record], &panel, 0);
        assert_ends("judge", &[&reference, &record, &readings], &verdicts, 3);
        for word in ["QUIET", "ALARM,", "NO,3,1", "NO,4,1", "NO,10,1"] {
            assert!(verdicts.contains(word), "{point} has no {word}");
        }
    }
    let alerts = String::from_utf8(example("purified-water", "alerts")).expect("a text");
    assert_ends("alerts", &month(), &alerts, 0);
}

/// What stands for standard input.
const INPUTS: [&str; 4] = ["-", "/dev/stdin", "/dev/fd/0", "/proc/self/fd/0"];

/// Runs a program for each of its texts with that one on standard input: by `-` or another name of it, by
/// each of them behind `--`, and where it is the last also by leaving it out. `see` is told its kind.
fn from_standard_input(
    mut input: impl FnMut(&[u8]) -> Stdio,
    mut see: impl FnMut(&str, &str, Ended),
) {
    for name in PROGRAMS {
        let folder = Folder::new();
        for place in 0..texts(name) {
            let mut files = folder.write_texts(&accepted(name));
            let mut ways = Vec::new();
            for input in INPUTS {
                files[place] = PathBuf::from(input);
                let behind = [PathBuf::from("--")].into_iter().chain(files.clone());
                ways.extend([files.clone(), behind.collect()]);
            }
            if place + 1 == texts(name) {
                ways.push(files[..place].to_vec());
            }
            for words in ways {
                let input = input(&accepted(name)[place]);
                let ended = end_on(&mut Way::Command.command(name, &words), input);
                see(name, kinds(name)[place], ended);
            }
        }
    }
}

fn assert_answered(name: &str, _: &str, ended: Ended) {
    ended.assert_printed(answer(name), 0);
}

#[test]
fn any_text_is_read_from_a_pipe() {
    let pipe = |text: &[u8]| {
        let (reader, mut writer) = std::io::pipe().expect("a pipe");
        writer.write_all(text).expect("a pipe with room");
        Stdio::from(reader)
    };
    from_standard_input(pipe, assert_answered);
}

#[test]
fn any_text_is_read_from_a_socket() {
    let socket = |text: &[u8]| {
        let (mut here, there) = UnixStream::pair().expect("two sockets");
        here.write_all(text).expect("a socket with room");
        Stdio::from(OwnedFd::from(there))
    };
    from_standard_input(socket, assert_answered);
}

/// What stands before that place is no part of the text.
#[test]
fn any_text_is_read_from_a_place_within_a_file() {
    let folder = Folder::new();
    let file = |text: &[u8]| {
        let before = b"another text\n";
        let path = folder.write("file", [before, text].concat());
        let mut file = File::open(path).expect("a file");
        file.seek(SeekFrom::Start(before.len() as u64))
            .expect("a place");
        Stdio::from(file)
    };
    from_standard_input(file, assert_answered);
}

#[test]
fn a_fifo_whose_writer_has_gone_is_an_empty_text() {
    const O_NONBLOCK: i32 = 0o4000;
    let folder = Folder::new();
    programs::system::make_fifo(&folder.path().join("fifo"));
    let fifo = |_: &[u8]| {
        let mut options = File::options();
        let options = options.read(true).custom_flags(O_NONBLOCK);
        Stdio::from(options.open(folder.path().join("fifo")).expect("a fifo"))
    };
    from_standard_input(fifo, |name, kind, ended| {
        Way::Command.assert_answer(&ended, name, refusal_of_size(kind));
    });
}

/// The file of that name is `./-`.
#[test]
fn a_hyphen_is_standard_input_also_behind_two() {
    let folder = Folder::new();
    folder.write("-", REFERENCE);
    for name in ["draw", "plain"] {
        let run = |words: &[&str]| {
            let mut command = Way::Command.command(name, words);
            end(command.current_dir(folder.path()), b"REF,0\n")
        };
        for words in [&["-"][..], &["--", "-"], &["-", "--"], &["--"], &[]] {
            Way::Command.assert_answer(&run(words), name, "NO,2,1\n");
        }
        for words in [&["./-"][..], &["--", "./-"]] {
            run(words).assert_printed(answer(name), 0);
        }
        run(&["--", "--"]).assert_told("envelope: '--': No such file or directory", 2);
    }
}

#[test]
fn standard_input_for_two_texts_is_bad_usage() {
    for words in [
        &["verify", "-"][..],
        &["verify", "-", "-"],
        &["panel", "-"],
        &["panel", "-", "-"],
        &["judge", "-", "x.env"],
        &["judge", "x.ref", "-"],
        &["judge", "-", "x.env", "-"],
        &["judge", "x.ref", "-", "-"],
        &["judge", "-", "-", "x.readings"],
        &["judge", "-", "-", "-"],
        &["judge", "--", "-", "-"],
        &["verify", "/dev/stdin"],
        &["panel", "-", "/proc/self/fd/0"],
        &["judge", "/dev/fd/0", "-", "x.readings"],
        &["judge", "x.ref", "/dev/stdin", "/dev/stdin"],
        &["alerts", "-", "x.env", "x.settings"],
        &["alerts", "x.ref", "x.env", "-"],
        &["alerts", "x.ref", "-", "-", "x.readings"],
        &["alerts", "x.ref", "x.env", "-", "-"],
        &["alerts", "x.ref", "x.env", "/dev/fd/0", "/dev/stdin"],
    ] {
        let line = format!(
            "envelope: standard input can be only one of the texts of {}; see 'envelope help'",
            words[0]
        );
        envelope(words, REFERENCE.as_bytes()).assert_told(&line, 2);
    }
}

#[test]
fn a_word_of_any_bytes_is_told_on_one_line() {
    let line = "envelope: there is no command 'dr\\x0aow'; see 'envelope help'";
    envelope(&["dr\now"], b"").assert_told(line, 2);
    let word = OsStr::from_bytes(b"\x1b]0;title\x07\xff\\");
    let line = "envelope: there is no command '\\x1b]0;title\\x07\\xff\\x5c'; see 'envelope help'";
    envelope(&[word], b"").assert_told(line, 2);
}

#[test]
fn too_few_and_too_many_texts_are_bad_usage() {
    let judge = "judge [--explain] REF ENV [READINGS]";
    let alerts = "alerts REF ENV SETTINGS [READINGS]";
    for (words, count, usage) in [
        (&["draw", "a", "b"][..], "many", "draw [REF]"),
        (&["draw", "-", "-"], "many", "draw [REF]"),
        (&["draw", "--", "a", "b"], "many", "draw [REF]"),
        (&["plain", "a", "b"], "many", "plain [REF]"),
        (&["plain", "-", "-"], "many", "plain [REF]"),
        (&["plain", "--", "a", "b"], "many", "plain [REF]"),
        (&["verify"], "few", "verify REF [ENV]"),
        (&["verify", "--"], "few", "verify REF [ENV]"),
        (&["verify", "a", "b", "c"], "many", "verify REF [ENV]"),
        (&["panel"], "few", "panel REF [ENV]"),
        (&["panel", "a", "b", ""], "many", "panel REF [ENV]"),
        (&["judge"], "few", judge),
        (&["judge", "a"], "few", judge),
        (&["judge", "-"], "few", judge),
        (&["judge", "a", "b", "c", "d"], "many", judge),
        (&["alerts"], "few", alerts),
        (&["alerts", "a", "b"], "few", alerts),
        (&["alerts", "-", "--", "-"], "few", alerts),
        (&["alerts", "a", "b", "c", "d", "e"], "many", alerts),
        (&["show"], "few", "show REF [ENV]"),
        (&["show", "a", "b", "c"], "many", "show REF [ENV]"),
    ] {
        let name = words[0];
        let line = format!("envelope: too {count} texts for {name}; usage: envelope {usage}");
        envelope(words, REFERENCE.as_bytes()).assert_told(&line, 2);
    }
}

/// Also where the number of texts is wrong, and where a file has that name.
#[test]
fn an_option_is_bad_usage() {
    let folder = Folder::new();
    for (option, shown) in [
        ("-x", "-x"),
        ("--halp", "--halp"),
        ("---", "---"),
        ("-two words", "-two\\x20words"),
        ("-\n", "-\\x0a"),
    ] {
        folder.write(option, REFERENCE);
        for name in PROGRAMS {
            for words in [&[name, option][..], &[name, "a", "b", option, "d"]] {
                let mut command = command(path());
                command.args(words).current_dir(folder.path());
                let line = format!(
                    "envelope: there is no option '{shown}'; for a file of that name put -- before it"
                );
                end(&mut command, REFERENCE.as_bytes()).assert_told(&line, 2);
            }
        }
    }
}

#[test]
fn an_unknown_command_is_bad_usage() {
    envelope(&["drow"], b"").assert_failed("no command 'drow'");
    envelope(&[""], b"").assert_failed("no command ''");
    envelope(&["--", "draw"], b"").assert_failed("no command '--'");
}

/// A newcomer's first command draws an envelope.
#[test]
fn help_names_every_command_and_status() {
    let [long, word, nothing] =
        [vec!["--help"], vec!["help"], vec![]].map(|words| envelope(&words, b""));
    assert_eq!((long.status, word.status, nothing.status), (0, 0, 0));
    for words in [
        "envelope draw [REF]\n",
        "envelope verify REF [ENV]\n",
        "envelope panel REF [ENV]\n",
        "envelope judge ",
        "envelope alerts REF ENV SETTINGS [READINGS]\n",
        "envelope plain [REF]\n",
        "envelope redraw ",
        "envelope show REF [ENV]\n",
        "envelope types\n",
        "envelope refusals\n",
        "Exit status",
        "standard input",
        "'--'",
    ] {
        assert!(long.text().contains(words), "help does not say {words}");
    }
    assert_eq!(long.text(), word.text());
    assert_eq!(long.text(), nothing.text());
    let first = long.text().lines().find(|line| line.contains("./envelope"));
    let words: Vec<&str> = first.expect("a command").split_whitespace().collect();
    assert_eq!(words, ["./envelope", "draw", "examples/purified-water.ref"]);
}

/// What the loader and a shell take from the environment does not reach a program that is linked
/// statically, and no temporary file is needed.
#[test]
fn the_environment_changes_nothing() {
    let folder = Folder::new();
    let record = folder.write("x.env", RECORD);
    let library = folder.write("library.so", "no library");
    let library = library.to_str().expect("a path in UTF-8");
    for (name, value) in [
        ("LD_PRELOAD", library),
        ("LD_LIBRARY_PATH", "."),
        ("LD_AUDIT", library),
        ("PATH", "."),
        ("PATH", ""),
        ("TMPDIR", "/none"),
        ("HOME", "/none"),
        ("LC_ALL", "no such locale"),
        ("RUST_BACKTRACE", "full"),
        ("RUST_MIN_STACK", "1"),
    ] {
        let mut command = Way::Command.command("verify", &["-".as_ref(), record.as_path()]);
        end(command.env(name, value), REFERENCE.as_bytes()).assert_printed("OK\n", 0);
    }
    let mut command = Way::Command.command("verify", &["-".as_ref(), record.as_path()]);
    end(command.env_clear(), REFERENCE.as_bytes()).assert_printed("OK\n", 0);
}
