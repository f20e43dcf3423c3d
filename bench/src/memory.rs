//! The peak of each program's resident memory, read at its first write: the pipe that it writes to is
//! full, so that the program waits there.

use std::io::{PipeReader, Read, Write, pipe};
use std::path::{Path, PathBuf};
use std::process::{Child, Command, Stdio};
use std::time::Duration;
use std::{env, fs, process, thread};

const TEXT_LIMIT: usize = 65_536;
/// What a pipe holds.
const PIPE: usize = 65_536;
const REFERENCE: &str = "REF,2,TOC,CND\nA,0,0\nB,6,0\nC,0,8\n";
const RECORD: &str = "ENV,2,TOC,CND\nC,196608,262144\nR,107374182400,107374182400,2,S\n\
                      W,2,32768\nW,3,32768\n";
const PAUSE: Duration = Duration::from_millis(5);

pub fn measure_memory() {
    println!("{:<26}{:>12}{:>12}", "name", "peak KiB", "bytes");
    println!(
        "    The peak resident memory of each proved program on its largest input, compared with nothing."
    );
    let [heading, row] = [",ORP,CND", ",-1999,<3999"].map(|channels| channels.repeat(4));
    let row = |number: usize| format!("POINT-{number:06}{row}\n");
    let rows: String = (0..256).map(row).collect();
    let largest = format!("REF,8{heading}\n{rows}");
    let line_ends = "\n".repeat(TEXT_LIMIT);
    let settings = "99,99\n".repeat(cundarivo::SETTINGS);
    let record = String::from_utf8(cundarivo::programs::draw(largest.as_bytes()));
    let verified = [largest.as_str(), &record.expect("a record in ASCII")];
    for (name, texts) in [
        ("draw", &verified[..1]),
        ("plain", &verified[..1]),
        ("verify", &verified),
        ("panel", &verified),
        ("judge", &[REFERENCE, RECORD, &line_ends]),
        ("alerts", &[REFERENCE, RECORD, &settings, &line_ends]),
    ] {
        let (peak, bytes) = (peak_kibibytes(name, texts), texts.concat().len());
        println!("{name:<26}{peak:>12}{bytes:>12}");
    }
}

/// Each text but the last is a file, and the last one comes on standard input.
fn peak_kibibytes(name: &str, texts: &[&str]) -> usize {
    let (last, before) = texts.split_last().expect("a text");
    let folder = env::temp_dir().join(format!("cundarivo-memory-{}", process::id()));
    fs::create_dir(&folder).expect("a new folder");
    let write = |(place, text): (usize, &&str)| {
        let file = folder.join(place.to_string());
        fs::write(&file, text).expect("a new file");
        file
    };
    let files: Vec<PathBuf> = before.iter().enumerate().map(write).collect();
    let (child, output) = start(name, &files);
    let peak = peak_at_first_write(child, output, last.as_bytes());
    fs::remove_dir_all(&folder).expect("a folder of ours");
    peak
}

fn peak_at_first_write(mut child: Child, output: PipeReader, input: &[u8]) -> usize {
    let mut stdin = child.stdin.take().expect("a pipe");
    stdin.write_all(input).expect("a program that reads");
    drop(stdin);
    // It has no more to wait for than the full pipe.
    while status(&child, "State:") != "S" {
        thread::sleep(PAUSE);
    }
    thread::sleep(PAUSE);
    let peak = status(&child, "VmHWM:").parse().expect("a number");
    let mut rest = Vec::new();
    (&output).read_to_end(&mut rest).expect("output");
    assert!(rest.len() > PIPE, "the program prints something");
    assert!(child.wait().expect("a program that ends").success());
    peak
}

/// A program that writes to a full pipe.
fn start(name: &str, files: &[PathBuf]) -> (Child, PipeReader) {
    let (reader, mut writer) = pipe().expect("a pipe");
    writer.write_all(&[0; PIPE]).expect("a pipe with room");
    let crates = Path::new(env!("CARGO_MANIFEST_DIR")).join("../crates");
    let mut command = Command::new(crates.join(name).join("out").join(name));
    command.args(files).stdin(Stdio::piped()).stdout(writer);
    let child = command.spawn().expect("a program that runs");
    (child, reader)
}

/// The first word behind a name in the system's account of a process.
fn status(child: &Child, name: &str) -> String {
    let text = fs::read_to_string(format!("/proc/{}/status", child.id())).expect("a process");
    let line = text.lines().find_map(|line| line.strip_prefix(name));
    let word = line.and_then(|line| line.split_whitespace().next());
    word.expect("a line of that name").to_string()
}
