//! The command at a terminal: what it waits for is told, and `redraw` shows a bar that it takes away.

use programs::call::Way;
use programs::folder::Folder;
use programs::process::{command, end_on};
use programs::script::path;
use programs::system::open_terminal;
use programs::{PROGRAMS, REFERENCE, accepted, answer};
use std::fs::File;
use std::io::{Read, Write};
use std::process::Stdio;
use std::thread;

/// The byte that ends what is typed, at the start of a line.
const END_OF_INPUT: &str = "\x04";

#[test]
fn a_last_text_that_is_typed_is_asked_for() {
    for name in PROGRAMS {
        let (mut person, program) = open_terminal();
        let (folder, mut texts) = (Folder::new(), accepted(name));
        let last = texts.pop().expect("a text");
        let typed = [&last, END_OF_INPUT.as_bytes()].concat();
        person.write_all(&typed).expect("a terminal");
        let files = folder.write_texts(&texts);
        let ended = end_on(&mut Way::Command.command(name, &files), program);
        assert_eq!(
            ended.messages,
            "envelope: reading standard input; Ctrl-D ends it\n"
        );
        assert_eq!((ended.text(), ended.status), (answer(name), 0));
    }
}

/// Everything that is written to a terminal until nobody has it open.
fn read_all(mut person: File) -> Vec<u8> {
    let mut shown = Vec::new();
    let mut piece = [0; 4_096];
    // The last read fails where the other end is closed.
    while let Ok(count @ 1..) = person.read(&mut piece) {
        shown.extend_from_slice(&piece[..count]);
    }
    shown
}

#[test]
fn redraw_shows_a_bar_without_control_sequences_and_takes_it_away() {
    let folder = Folder::new();
    let count = 3_000;
    for number in 0..count {
        folder.write(format!("{number}.ref"), REFERENCE);
    }
    let (person, program) = open_terminal();
    let shown = thread::spawn(move || read_all(person));
    let mut redraw = command(path());
    redraw.arg("redraw").arg(folder.path());
    redraw.stdin(Stdio::null()).stdout(Stdio::null());
    let status = redraw.stderr(program).status().expect("a run");
    drop(redraw);
    assert_eq!(status.code(), Some(0));
    let shown = String::from_utf8(shown.join().expect("a terminal")).expect("text");
    assert!(shown.contains(&format!("of {count}")), "{shown:?}");
    assert!(shown.contains("\r[#"), "{shown:?}");
    let printable = |byte: u8| (32..127).contains(&byte) || byte == b'\r';
    assert!(shown.bytes().all(printable), "{shown:?}");
    let last = shown.trim_end_matches('\r').rsplit('\r').next();
    assert!(last.is_some_and(|line| line.trim().is_empty()), "{shown:?}");
}
