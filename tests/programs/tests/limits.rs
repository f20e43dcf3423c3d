//! Texts at and above the limit in each place, from files and from pipes; endless texts; and the longest
//! output.

use programs::call::{WAYS, Way};
use programs::folder::Folder;
use programs::process::{Ended, end_fed, end_on, within_memory, write_endless, write_single_bytes};
use programs::{
    PROGRAMS, READING, RECORD, REFERENCE, SETTINGS, TEXT_LIMIT, accepted, kinds, refusal_of_size,
    texts,
};
use std::fs::File;
use std::io::Seek;
use std::path::PathBuf;
use std::process::{Command, Stdio};

/// Several times what any program reads.
const MEGABYTES: usize = 3 << 20;
/// What a pipe holds that nobody has read.
const PIPE: usize = 65_536;

/// What is printed of a text in a place that is too long.
fn too_long(name: &str, place: usize) -> &'static str {
    refusal_of_size(kinds(name)[place])
}

/// A text of so many bytes for a place, and what is printed of it where that is within the limit: a
/// reference text that a missing last byte would make one out of form (3), a record out of form, settings
/// that are too many, and readings whose number is that of the bytes.
fn filled(name: &str, place: usize, length: usize) -> (Vec<u8>, String) {
    match kinds(name)[place] {
        "ref" => {
            let digits = "1".repeat(length - 13);
            let text = format!("REF,1,TOC\nA,{digits}\n");
            (text.into_bytes(), "NO,4,2\n".to_string())
        }
        "env" => {
            let rest = "W,1,65536\n".bytes().cycle();
            let text: Vec<u8> = RECORD.bytes().chain(rest).take(length).collect();
            (text, "NO,11,6\n".to_string())
        }
        "settings" => {
            let text: Vec<u8> = SETTINGS.bytes().cycle().take(length).collect();
            (text, "NO,14,0\n".to_string())
        }
        _ => (vec![b'\n'; length], of_turned_back(name, length)),
    }
}

/// What is printed of so many readings that are turned back.
fn of_turned_back(name: &str, count: usize) -> String {
    match name {
        "alerts" => format!("1,1,0,0\n2,3,0,0\n{count},0,0,{count}\n"),
        _ => "NO,3,1\n".repeat(count),
    }
}

/// The texts of a program with one of so many bytes, and what is printed of them.
fn with_filled(name: &str, place: usize, length: usize) -> (Vec<Vec<u8>>, String) {
    let (text, output) = filled(name, place, length);
    let mut texts = accepted(name);
    texts[place] = text;
    match length <= TEXT_LIMIT {
        true => (texts, output),
        false => (texts, too_long(name, place).to_string()),
    }
}

/// Tries texts at the limit and above in each place.
fn at_the_limit(mut try_texts: impl FnMut(Way, &str, usize, &[Vec<u8>]) -> Ended) {
    for name in PROGRAMS {
        for place in 0..texts(name) {
            for length in [TEXT_LIMIT, TEXT_LIMIT + 1] {
                let (texts, output) = with_filled(name, place, length);
                for way in WAYS {
                    way.assert_answer(&try_texts(way, name, place, &texts), name, &output);
                }
            }
        }
    }
}

#[test]
fn a_text_at_the_limit_is_read_and_one_above_refused_from_a_file() {
    at_the_limit(|way, name, _, texts| {
        let folder = Folder::new();
        way.run(name, &folder.write_texts(texts))
    });
}

/// A fifo stands for the text in its place.
#[test]
fn a_text_at_the_limit_is_read_and_one_above_refused_from_a_named_pipe_in_single_bytes() {
    at_the_limit(|way, name, place, texts| {
        let folder = Folder::new();
        let mut files = folder.write_texts(texts);
        let text = texts[place].clone();
        let (fifo, writer) = folder.write_fifo("fifo", move |pipe| write_single_bytes(pipe, &text));
        files[place] = fifo;
        let ended = way.run(name, &files);
        writer.join().expect("a writer that ends");
        ended
    });
}

#[test]
fn a_text_at_the_limit_is_read_and_one_above_refused_from_standard_input_in_single_bytes() {
    at_the_limit(|way, name, place, texts| {
        let folder = Folder::new();
        let files = folder.write_texts(texts);
        match with_standard_input(way, name, place, &files) {
            Some(mut command) => end_fed(&mut command, |pipe| {
                write_single_bytes(pipe, &texts[place]);
            }),
            None => way.run(name, &files),
        }
    });
}

/// Asserts what is printed of texts in files.
fn assert_both_print<Text: AsRef<[u8]>>(name: &str, texts: &[Text], output: &str) {
    let folder = Folder::new();
    let files = folder.write_texts(texts);
    for way in WAYS {
        way.assert_answer(&way.run(name, &files), name, output);
    }
}

#[test]
fn a_text_far_above_the_limit_is_refused() {
    for name in PROGRAMS {
        for place in 0..texts(name) {
            for length in [TEXT_LIMIT + 2, 2 * TEXT_LIMIT, MEGABYTES] {
                let (texts, output) = with_filled(name, place, length);
                assert_eq!(output, too_long(name, place));
                assert_both_print(name, &texts, &output);
            }
        }
    }
}

/// What follows a refused text changes nothing, whatever its length.
#[test]
fn a_refusal_of_an_earlier_text_stands() {
    let long = "A,0\n".repeat(MEGABYTES / 4);
    let refused = "REF,1,TOC\nA,2001\n";
    assert_both_print("verify", &[refused, &long], "NO,4,2\n");
    assert_both_print("panel", &[refused, &long], "NO,4,2\n");
    assert_both_print("judge", &[refused, &long, &long], "NO,4,2\n");
    assert_both_print("judge", &[REFERENCE, "ENV,0\n", &long], "NO,11,1\n");
    let alerts = |texts: &[&str], output| assert_both_print("alerts", texts, output);
    alerts(&[refused, &long, &long, &long], "NO,4,2\n");
    alerts(&[REFERENCE, "ENV,0\n", &long, &long], "NO,11,1\n");
    alerts(&[REFERENCE, RECORD, "0,1\n", &long], "NO,14,0\n");
}

/// Runs a program on texts of which one is at another path.
fn with_path(name: &str, place: usize, path: PathBuf, way: Way) -> Ended {
    let folder = Folder::new();
    let mut files = folder.write_texts(&accepted(name));
    files[place] = path;
    let (last, before) = files.split_last().expect("a text");
    match way {
        Way::Program => {
            let input = File::open(last).expect("a file that can be opened");
            end_on(&mut within_memory(&way.command(name, before)), input)
        }
        Way::Command => end_on(
            &mut within_memory(&way.command(name, &files)),
            Stdio::null(),
        ),
    }
}

/// Asserts what becomes of the same bytes again and again from a fifo, and that most stay unread.
fn assert_endless_refused(way: Way, name: &str, place: usize, repeated: &str) {
    let folder = Folder::new();
    let repeated = repeated.to_string();
    let (fifo, writer) =
        folder.write_fifo("fifo", move |pipe| write_endless(pipe, repeated.as_bytes()));
    let ended = with_path(name, place, fifo, way);
    way.assert_answer(&ended, name, too_long(name, place));
    let taken = writer.join().expect("a writer that ends");
    assert!(taken <= TEXT_LIMIT + 1 + PIPE, "{name} took {taken} bytes");
}

#[test]
fn an_endless_named_pipe_is_refused() {
    for name in PROGRAMS {
        for (place, way) in (0..texts(name)).flat_map(|place| WAYS.map(|way| (place, way))) {
            assert_endless_refused(way, name, place, &READING.repeat(500));
            assert_endless_refused(way, name, place, &"\n".repeat(10_000));
            assert_endless_refused(way, name, place, &"\0".repeat(10_000));
        }
    }
}

#[test]
fn an_endless_device_is_refused() {
    for name in PROGRAMS {
        for place in 0..texts(name) {
            for way in WAYS {
                let ended = with_path(name, place, PathBuf::from("/dev/zero"), way);
                way.assert_answer(&ended, name, too_long(name, place));
            }
        }
    }
}

/// A program with one of its texts on standard input and the others in files; by itself it takes only the
/// last one from there.
fn with_standard_input(way: Way, name: &str, place: usize, files: &[PathBuf]) -> Option<Command> {
    if place + 1 == files.len() {
        return Some(way.command(name, &files[..place]));
    }
    let mut words = files.to_vec();
    words[place] = PathBuf::from("-");
    match way {
        Way::Program => None,
        Way::Command => Some(way.command(name, &words)),
    }
}

/// `yes` ends when nobody reads what it writes.
#[test]
fn an_endless_standard_input_is_refused() {
    for name in PROGRAMS {
        let folder = Folder::new();
        let files = folder.write_texts(&accepted(name));
        for (place, way) in (0..texts(name)).flat_map(|place| WAYS.map(|way| (place, way))) {
            let Some(command) = with_standard_input(way, name, place, &files) else {
                continue;
            };
            let mut command = within_memory(&command);
            let yes = Command::new("yes").stdout(Stdio::piped()).spawn();
            let mut yes = yes.expect("a command that runs");
            let input = yes.stdout.take().expect("a pipe");
            let ended = end_on(&mut command, input);
            way.assert_answer(&ended, name, too_long(name, place));
            drop(command);
            yes.wait().expect("a command that ends");
        }
    }
}

#[test]
fn the_longest_output_is_printed_whole() {
    let line_ends = "\n".repeat(TEXT_LIMIT);
    let output = "NO,3,1\n".repeat(TEXT_LIMIT);
    assert_both_print("judge", &[REFERENCE, RECORD, &line_ends], &output);
}

/// What is behind the bytes that are read stays for the next reader of the same input.
#[test]
fn no_more_than_the_limit_and_one_byte_is_read() {
    let folder = Folder::new();
    let path = folder.write("long", vec![b'7'; MEGABYTES]);
    for name in PROGRAMS {
        let files = folder.write_texts(&accepted(name));
        for way in WAYS {
            let mut input = File::open(&path).expect("a file");
            let shared = input.try_clone().expect("a descriptor");
            let last = texts(name) - 1;
            let ended = way.run_on(name, &files[..last], shared);
            way.assert_answer(&ended, name, too_long(name, last));
            let position = input.stream_position();
            assert_eq!(position.expect("a position"), TEXT_LIMIT as u64 + 1);
        }
    }
}
