//! `envelope redraw` of a folder of 900 reference texts of 60 rows and 4 channels, end to end, against plain
//! Rust that does the same, a process each: with no records there, with all of them there and unchanged, and with every text
//! changed. With CUNDARIVO_FILES in the environment, a folder of as many small texts besides.

use crate::measure::{Line, Lines};
use crate::random::Random;
use std::fs;
use std::path::{Path, PathBuf};
use std::process::Command;
use std::time::Instant;

/// The first argument with which this program redraws a folder in plain Rust, and does nothing else.
const PLAIN: &str = "plain-redraw";
const FILES: usize = 900;
const ROWS: usize = 60;
const ROUNDS: usize = 11;
/// Rows and rounds of a folder of many texts.
const SMALL_ROWS: usize = 5;
const FEW_ROUNDS: usize = 3;
/// What is timed of a folder, and what records are there.
const KINDS: [(&str, &str); 3] = [
    ("new", "with no record there"),
    ("unchanged", "with every record there and up to date"),
    ("changed", "with every record that of an earlier text"),
];

pub fn measure_redraw(random: &mut Random) {
    let lines = Lines::new("files");
    measure_folder(&lines, "redraw", random, (FILES, ROWS), ROUNDS);
    if let Some(files) = files_asked_for() {
        let sizes = [files / 10, files].map(|files| (files, SMALL_ROWS));
        for size in sizes {
            measure_folder(&lines, "small texts", random, size, FEW_ROUNDS);
        }
    }
}

fn files_asked_for() -> Option<usize> {
    let files = std::env::var("CUNDARIVO_FILES").ok()?;
    Some(files.parse().expect("CUNDARIVO_FILES is a whole number"))
}

fn measure_folder(
    lines: &Lines,
    name: &str,
    random: &mut Random,
    size: (usize, usize),
    rounds: usize,
) {
    let folders = ["proved", "plain"].map(new_folder);
    let mut times = [0; 3].map(|_| [Vec::new(), Vec::new()]);
    for round in 0..rounds {
        let texts = [random.clone(), Random(round as u64 + 1)];
        // Who goes first changes from round to round.
        for turn in [round % 2, 1 - round % 2] {
            let redraw = [proved as fn(&Path), plain][turn];
            let folder = &folders[turn];
            let mut time = |kind: usize| times[kind][turn].push(seconds(redraw, folder));
            remove_records(folder, size.0);
            write_texts(folder, &mut texts[0].clone(), size);
            time(0);
            time(1);
            write_texts(folder, &mut texts[1].clone(), size);
            time(2);
        }
        assert_same_records(&folders, size.0);
    }
    for (kind, times) in KINDS.iter().zip(times) {
        print_kind(lines, name, kind, times, size);
    }
    for folder in folders {
        fs::remove_dir_all(folder).expect("a folder of ours");
    }
}

fn print_kind(
    lines: &Lines,
    name: &str,
    (kind, records): &(&str, &str),
    times: [Vec<f64>; 2],
    (files, rows): (usize, usize),
) {
    let sentence = format!(
        "The process `envelope redraw` against a process in plain Rust that locks, reads, draws, writes and flushes \
         the same, on {files} reference texts of {rows} rows and 4 channels, {records}."
    );
    let line = Line {
        name: &format!("{name}, {kind}"),
        sentence: &sentence,
        pieces: (files, "file"),
    };
    lines.print(&line, times, files as u64);
}

fn new_folder(name: &str) -> PathBuf {
    let name = format!("cundarivo-bench-{}-{name}", std::process::id());
    let folder = std::env::temp_dir().join(name);
    fs::create_dir(&folder).expect("a new folder");
    folder
}

/// The writes are over, on disk too, when the time is taken.
fn write_texts(folder: &Path, random: &mut Random, (files, rows): (usize, usize)) {
    for file in 0..files {
        let mut text = String::from("REF,4,TOC,CND,FLW,TC\n");
        for row in 1..=rows {
            let values = random.row_of_readings(4);
            let values: Vec<String> = values.iter().map(i32::to_string).collect();
            text += &format!("ROW-{row},{}\n", values.join(","));
        }
        fs::write(folder.join(format!("{file}.ref")), text).expect("a file of ours");
    }
    let flushed = Command::new("sync").arg("-f").arg(folder).status();
    assert!(flushed.expect("sync runs").success());
    std::thread::sleep(std::time::Duration::from_millis(50));
}

fn remove_records(folder: &Path, files: usize) {
    for file in 0..files {
        // There may be none yet.
        let _ = fs::remove_file(record(folder, file));
    }
}

fn record(folder: &Path, file: usize) -> PathBuf {
    folder.join(format!("{file}.env"))
}

fn assert_same_records(folders: &[PathBuf; 2], files: usize) {
    for file in 0..files {
        let [proved, plain] = folders
            .each_ref()
            .map(|folder| fs::read(record(folder, file)));
        let (proved, plain) = (proved.expect("a record"), plain.expect("a record"));
        assert_eq!(proved, plain, "both draw the same of {file}.ref");
    }
}

fn seconds(redraw: impl Fn(&Path), folder: &Path) -> f64 {
    let start = Instant::now();
    redraw(folder);
    start.elapsed().as_secs_f64()
}

fn proved(folder: &Path) {
    let program = Path::new(env!("CARGO_MANIFEST_DIR")).join("../cli/target/release/envelope");
    assert!(program.exists(), "build it first: ./envelope --version");
    end(Command::new(program).arg("redraw").arg(folder));
}

fn plain(folder: &Path) {
    let program = std::env::current_exe().expect("this program");
    end(Command::new(program).arg(PLAIN).arg(folder));
}

/// Runs a command to its end, and takes what it tells.
fn end(command: &mut Command) {
    let ended = command.output().expect("a program that runs");
    let messages = String::from_utf8_lossy(&ended.stderr);
    assert!(ended.status.success(), "{messages}");
}

/// The folder that this process is to redraw in plain Rust, where it is one of those that are timed.
pub fn folder_to_redraw() -> Option<PathBuf> {
    let mut arguments = std::env::args_os().skip(1);
    let first = arguments.next()?;
    (first == PLAIN).then(|| arguments.next().expect("a folder").into())
}
