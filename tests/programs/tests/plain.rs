//! `plain`: the text of the same rows with plain values, which is drawn as the text itself and printed again
//! as it is; and what the command says of values below detection, on the examples, on seeded texts and in the
//! face of hostile names and streams.

use outside::programs::Program;
use outside::random::{Random, count_from_environment, seed_from_environment};
use outside::reference::{self, CHANNEL_TYPES, Reference};
use programs::call::{WAYS, Way};
use programs::folder::Folder;
use programs::presented::assert_printable;
use programs::process::{Ended, command, end, redirected};
use programs::script::{envelope, path};
use programs::{
    EXAMPLES, RECORD, REFERENCE, example, hostile_names, quoted, root, seeded_texts_of,
};
use std::os::unix::ffi::OsStrExt;
use std::os::unix::fs::symlink;
use std::path::Path;

const SEED: u64 = 1_900;
const INPUTS: u64 = 400;

/// The rows of document 01's example, with values below detection that read as its numbers.
const BELOW: &str = "REF,2,TOC,CND\nA,0,0\nB,<13,<1\nC,<1,<16\n";
const NOTE: &str = "4 values below detection are printed as plain numbers, the first on line 3: \
                    value 1 (TOC), '<13', as 6";

/// What the command says of an accepted text with this name: nothing where no value is below detection.
fn note(told: &str, text: &[u8], read: &Reference) -> String {
    let text = std::str::from_utf8(text).expect("an accepted text");
    let mut lines = text.lines().map(|line| line.split(','));
    let tags: Vec<&str> = lines.next().expect("a heading").skip(2).collect();
    let mut below = Vec::new();
    for (row, fields) in lines.enumerate() {
        for (channel, field) in fields.skip(1).enumerate() {
            if field.starts_with('<') {
                below.push((row, channel, field));
            }
        }
    }
    let Some(&(row, channel, field)) = below.first() else {
        return String::new();
    };
    let values = match below.len() {
        1 => "1 value below detection is printed as a plain number,".to_string(),
        count => format!("{count} values below detection are printed as plain numbers, the first"),
    };
    let (line, place, tag) = (row + 2, channel + 1, tags[channel]);
    let number = read.rows[row].values[channel];
    format!(
        "envelope: {told}: {values} on line {line}: value {place} ({tag}), '{field}', as {number}\n"
    )
}

/// Asserts what both print of a text in a file, and what the command says of it. Gives whether it says
/// something.
fn assert_plain(text: &[u8]) -> bool {
    let folder = Folder::new();
    let files = folder.write_texts(&[text]);
    let told = quoted(files[0].as_os_str().as_bytes());
    let read = reference::read(text).expect("an accepted text");
    let note = note(&told, text, &read);
    for way in WAYS {
        let ended = way.run("plain", &files);
        assert!(ended.output == outside::programs::plain(text), "{way:?}");
        let messages = match way {
            Way::Program => "",
            Way::Command => &note,
        };
        assert_eq!((ended.messages.as_str(), ended.status), (messages, 0));
    }
    assert_eq!(folder.read(&files[0]), text);
    !note.is_empty()
}

#[test]
fn the_examples() {
    let noted = EXAMPLES.map(|point| assert_plain(&example(point, "ref")));
    assert_eq!(noted, [true, true, false]);
    for (point, told) in EXAMPLES.iter().zip([
        "2 values below detection are printed as plain numbers, the first on line 6: value 1 (TOC), \
         '<10', as 5",
        "7 values below detection are printed as plain numbers, the first on line 4: value 1 (TOC), \
         '<5', as 2",
        "",
    ]) {
        let mut command = Way::Command.command("plain", &[format!("{point}.ref")]);
        let ended = end(command.current_dir(root().join("examples")), b"");
        let told = match told {
            "" => String::new(),
            told => format!("envelope: '{point}.ref': {told}\n"),
        };
        assert_eq!((ended.messages, ended.status), (told, 0));
        assert_eq!(ended.output, example(point, "plain"));
    }
}

/// Nothing is said of a text that has plain values already.
#[test]
fn what_it_prints_it_prints_again() {
    let texts = EXAMPLES.map(|point| example(point, "ref"));
    for text in texts.iter().map(Vec::as_slice).chain([BELOW.as_bytes()]) {
        let printed = envelope(&["plain"], text);
        for way in WAYS {
            let again = end(&mut way.command::<&str>("plain", &[]), &printed.output);
            again.assert_printed(printed.text(), 0);
        }
    }
}

#[test]
fn what_it_prints_is_drawn_as_the_text() {
    for point in EXAMPLES {
        let printed = envelope(&["plain"], &example(point, "ref"));
        let record = String::from_utf8(example(point, "env")).expect("a record");
        envelope(&["draw"], &printed.output).assert_printed(&record, 0);
    }
    let printed = envelope(&["plain"], BELOW.as_bytes());
    assert_eq!(printed.text(), REFERENCE);
    envelope(&["draw"], &printed.output).assert_printed(RECORD, 0);
}

/// As an analyst writes it, with the line on values below detection beside the record.
#[test]
fn its_output_is_the_input_of_other_commands_in_a_pipe() {
    let folder = Folder::new();
    folder.write("x.ref", BELOW);
    folder.write("x.env", RECORD);
    for (rest, output) in [
        ("draw", RECORD),
        ("draw -", RECORD),
        ("plain", REFERENCE),
        ("verify - x.env", "OK\n"),
        ("panel - x.env", "TOC,3\nCND,4\n"),
    ] {
        let script = format!("set -o pipefail; \"$0\" plain x.ref | \"$0\" {rest}");
        let mut shell = command("bash");
        shell.args(["-c", &script]).arg(path());
        let ended = end(shell.current_dir(folder.path()), b"");
        assert_eq!((ended.text(), ended.status), (output, 0), "{rest}");
        assert_eq!(ended.messages, format!("envelope: 'x.ref': {NOTE}\n"));
    }
}

/// The least and the largest limit of every type, and the places of a row and of rows.
#[test]
fn every_value_below_detection_is_plain() {
    for channel in &CHANNEL_TYPES {
        for limit in [1, 2, 9, 10, 99, 100, channel.high - 1, channel.high] {
            let text = format!("REF,1,{}\nA,<{limit}\n", channel.tag);
            assert!(assert_plain(text.as_bytes()), "{text}");
        }
        let text = format!("REF,1,{}\nA,{}\n", channel.tag, channel.high);
        assert!(!assert_plain(text.as_bytes()), "{text}");
    }
    let tags = CHANNEL_TYPES.map(|channel| channel.tag).join(",");
    for row in (0..256).step_by(15) {
        let mut fields = vec!["0".to_string(); 256 * 8];
        fields[8 * row + row % 8] = "<7".to_string();
        assert!(assert_plain(rows(&tags, &fields).as_bytes()), "row {row}");
    }
}

/// Labels that are words of answers, and of texts.
#[test]
fn a_label_is_printed_whatever_it_says() {
    for label in [
        "NO",
        "OK",
        "REF",
        "ENV",
        "W",
        "0",
        "-",
        "-0",
        "007",
        "A-",
        "LABEL-OF-12B",
    ] {
        for (value, is_noted) in [("1", false), ("<1", true)] {
            let text = format!("REF,2,TOC,PH\n{label},{value},1\n");
            assert_eq!(assert_plain(text.as_bytes()), is_noted, "{text}");
        }
    }
}

/// A text of rows of eight fields each.
fn rows(tags: &str, fields: &[String]) -> String {
    let rows = fields.chunks(8).enumerate();
    let row = |(row, fields): (usize, &[String])| format!("POINT-{row:06},{}\n", fields.join(","));
    format!("REF,8,{tags}\n") + &rows.map(row).collect::<String>()
}

#[test]
fn the_largest_text_of_values_below_detection_is_printed_whole() {
    let text = rows(&["ORP"; 8].join(","), &vec!["<2000".to_string(); 2_048]);
    assert!(assert_plain(text.as_bytes()));
    let ended = envelope(&["plain"], text.as_bytes());
    let start = "envelope: standard input: 2048 values below detection ";
    assert!(ended.messages.starts_with(start), "{}", ended.messages);
    let longest = rows(&["ORP"; 8].join(","), &vec!["-2000".to_string(); 2_048]);
    assert!(!assert_plain(longest.as_bytes()));
}

/// Whole and damaged texts: both print what the outside implementation reads, or its refusal, in words as
/// `draw` tells it.
#[test]
fn seeded_texts() {
    let seed = seed_from_environment(SEED);
    let mut random = Random::new(seed);
    let [mut refused, mut noted, mut silent] = [0; 3];
    let inputs = count_from_environment("INPUTS", INPUTS);
    for input in 0..inputs {
        println!("seed {seed}, input {input}");
        let texts = seeded_texts_of(&mut random, Program::Plain);
        match reference::read(&texts[0]) {
            Err(_) => {
                assert_refused(&texts[0]);
                refused += 1;
            }
            Ok(_) if assert_plain(&texts[0]) => noted += 1,
            Ok(_) => silent += 1,
        }
    }
    let met = [refused, noted, silent];
    let least = (inputs / 20) as usize;
    assert!(
        met.iter().all(|&count| count > least),
        "seed {seed}: {met:?}"
    );
}

/// Asserts that a text is refused by both as by `draw`, and told alike.
fn assert_refused(text: &[u8]) {
    let drawn = envelope(&["draw"], text);
    let refusal = Program::Plain.run(&[text.to_vec()]);
    let plain = envelope(&["plain"], text);
    Way::Command.assert_answer(&plain, "plain", &refusal);
    assert_eq!(plain.messages, drawn.messages);
    let alone = end(&mut Way::Program.command::<&str>("plain", &[]), text);
    Way::Program.assert_answer(&alone, "plain", &refusal);
}

/// A refused text has no values that were printed, whatever stands before the line at fault.
#[test]
fn nothing_is_said_of_values_below_detection_in_a_refused_text() {
    for (row, number) in [("D,05,1\n", 3), ("D,<2001,1\n", 4), ("A,1,1\n", 5)] {
        let text = format!("{BELOW}{row}");
        let ended = envelope(&["plain"], text.as_bytes());
        assert_eq!(
            (&*ended.text(), ended.status),
            (&*format!("NO,{number},5\n"), 1)
        );
        assert_eq!(ended.messages.lines().count(), 2);
        assert!(
            !ended.messages.contains("plain number"),
            "{}",
            ended.messages
        );
        assert_refused(text.as_bytes());
    }
}

/// Runs the command in a folder on a file of it.
fn run_in(folder: &Folder, name: &Path) -> Ended {
    let words = [Path::new("--"), name];
    let mut command = Way::Command.command("plain", &words);
    end(command.current_dir(folder.path()), b"")
}

/// The name is a stranger's: it ends no line of ours, and no control byte reaches a terminal.
#[test]
fn a_hostile_name_is_told_in_one_line() {
    for name in hostile_names() {
        let folder = Folder::new();
        let name = Path::new(std::ffi::OsStr::from_bytes(&name));
        folder.write(name, BELOW);
        let ended = run_in(&folder, name);
        assert_eq!((ended.text(), ended.status), (REFERENCE, 0));
        let told = quoted(name.as_os_str().as_bytes());
        assert_eq!(ended.messages, format!("envelope: {told}: {NOTE}\n"));
        assert_printable(&ended.messages);
    }
}

#[test]
fn links_and_pipes_are_read_and_nothing_is_written() {
    let folder = Folder::new();
    let file = folder.write("x.ref", BELOW);
    symlink("x.ref", folder.path().join("link")).expect("a link");
    std::fs::hard_link(&file, folder.path().join("hard")).expect("a link");
    let (_, writer) = folder.write_fifo("fifo", |pipe| {
        programs::process::written(pipe, BELOW.as_bytes())
    });
    let before = folder.names();
    for name in ["x.ref", "link", "hard", "fifo"] {
        let ended = run_in(&folder, Path::new(name));
        assert_eq!((ended.text(), ended.status), (REFERENCE, 0), "{name}");
        assert_eq!(ended.messages, format!("envelope: '{name}': {NOTE}\n"));
    }
    assert!(writer.join().expect("a writer that ends"));
    assert_eq!(
        (folder.names(), folder.read("x.ref")),
        (before, BELOW.into())
    );
}

/// Where the text is not printed, that alone is told.
#[test]
fn nothing_is_said_of_values_that_are_not_printed() {
    for (redirections, reason) in [
        (">/dev/full", "No space left on device"),
        (">&-", "Bad file descriptor"),
    ] {
        let command = Way::Command.command::<&str>("plain", &[]);
        let ended = end(&mut redirected(redirections, &command), BELOW.as_bytes());
        ended.assert_told(&format!("envelope: standard output: {reason}"), 2);
    }
}

#[test]
fn help_says_what_becomes_of_values_below_detection() {
    let help = envelope(&["plain", "--help"], b"");
    assert_eq!((help.status, &*help.messages), (0, ""));
    assert_eq!(help.text(), envelope(&["help", "plain"], b"").text());
    let words: Vec<&str> = help.text().split_whitespace().collect();
    let text = words.join(" ");
    for part in [
        "Usage: envelope plain [REF]",
        "below detection, <v, is printed as the number that it reads as",
        "half the limit rounded down: <50 and <51 as 25, <1 as 0",
        "on standard error",
        "the same table with the same types and labels",
        "The detection limits are gone",
    ] {
        assert!(text.contains(part), "{part}");
    }
}

#[test]
fn help_says_that_records_drawn_with_zeros_are_redrawn() {
    let help = envelope(&["help", "redraw"], b"");
    let words: Vec<&str> = help.text().split_whitespace().collect();
    let told = "A record that was drawn when values below detection counted as 0 is refused by 12 where its \
                figures differ: redraw every folder that has such records once.";
    assert!(words.join(" ").contains(told));
}
