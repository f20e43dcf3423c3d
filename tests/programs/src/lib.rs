//! What the tests of the built programs share. `rt ci` leaves each program in the folder `out` of its crate.
//!
//! - `process`: running a command to its end on input, whole, in pieces or endless.
//! - `call`: running a program on its texts, by itself and as a command of `envelope`.
//! - `system`: calls of the system that the standard library has not: fifos, pipes that are not ready,
//!   peak memory, kills, another user.
//! - `folder`: temporary folders.
//! - `presented`: what the command prints for people, read back.
//! - `redrawn`: what `redraw` told of the files of a folder.
//! - `script`: running the program that `./envelope` starts.
//! - `repository`: `./envelope` in a folder of its own, with other tools and another program.

pub mod call;
pub mod folder;
pub mod presented;
pub mod process;
pub mod redrawn;
pub mod repository;
pub mod script;
pub mod system;

use outside::program_inputs::Source;
use outside::programs::Program;
use outside::random::Random;
use std::path::{Path, PathBuf};

pub const PROGRAMS: [&str; 6] = ["draw", "verify", "panel", "judge", "plain", "alerts"];
/// Those that take files before their last text.
pub const WITH_FILES: [&str; 4] = ["verify", "panel", "judge", "alerts"];
/// The most bytes of a text.
pub const TEXT_LIMIT: usize = 65_536;
/// The three sampling points of `examples`.
pub const EXAMPLES: [&str; 3] = ["purified-water", "water-for-injection", "chilled-brine"];

/// The texts of document 01's example: its centre is (3, 4) and its radius is 5.
pub const REFERENCE: &str = "REF,2,TOC,CND\nA,0,0\nB,6,0\nC,0,8\n";
pub const RECORD: &str = "ENV,2,TOC,CND\nC,196608,262144\nR,107374182400,107374182400,2,S\n\
                          W,2,32768\nW,3,32768\n";
/// Rows that are those of the example where values below detection count as 0. They count as half, which gives
/// another ball: beside these rows the example's record is one that was drawn with zeros.
pub const BELOW_DETECTION: &str = "REF,2,TOC,CND\nA,0,0\nB,6,<4\nC,<4,8\n";
/// What the command says of such a record, besides its name.
pub const DRAWN_WITH_ZEROS: &str = "refused by 12: record that disagrees with the rows\n  \
    the record agrees with these rows where each value below detection counts as 0, as in earlier \
    records; such a value now counts as half its limit, rounded down: draw the record again from this \
    reference text\n";
/// A reading of its centre.
pub const READING: &str = "LOOP-1,TOC,3,CND,4\n";
pub const SETTINGS: &str = "1,1\n2,3\n";

/// The repository's folder.
pub fn root() -> PathBuf {
    let package = Path::new(env!("CARGO_MANIFEST_DIR"));
    package.join("../..").canonicalize().expect("the root")
}

/// Where a program has been built.
pub fn program(name: &str) -> PathBuf {
    let path = root().join("crates").join(name).join("out").join(name);
    assert!(path.exists(), "build it first: rt ci");
    path
}

/// A file of `examples`.
pub fn example(name: &str, kind: &str) -> Vec<u8> {
    let path = root().join("examples").join(format!("{name}.{kind}"));
    std::fs::read(&path).unwrap_or_else(|error| panic!("{}: {error}", path.display()))
}

/// The texts of `alerts` in `examples`: settings, and readings of a month.
pub fn month() -> [Vec<u8>; 4] {
    let of_point = ["ref", "env", "settings"].map(|kind| example("purified-water", kind));
    let [reference, record, settings] = of_point;
    let readings = example("purified-water-month", "readings");
    [reference, record, settings, readings]
}

/// The kinds of a program's texts in their order, which are the ends of the names of stored files too.
pub fn kinds(name: &str) -> &'static [&'static str] {
    match name {
        "draw" | "plain" => &["ref"],
        "judge" => &["ref", "env", "readings"],
        "alerts" => &["ref", "env", "settings", "readings"],
        _ => &["ref", "env"],
    }
}

/// How many texts a program takes.
pub fn texts(name: &str) -> usize {
    kinds(name).len()
}

/// Texts that a program accepts.
pub fn accepted(name: &str) -> Vec<Vec<u8>> {
    let text = |kind: &&str| match *kind {
        "ref" => REFERENCE,
        "env" => RECORD,
        "settings" => SETTINGS,
        _ => READING,
    };
    let texts = kinds(name).iter().map(text);
    texts.map(Vec::from).collect()
}

/// Texts of a program, whole as often as changed.
pub fn seeded_texts_of(random: &mut Random, program: Program) -> Vec<Vec<u8>> {
    let source = Source::new(random);
    match random.once_in(2) {
        true => source.whole(random, program),
        false => source.changed(random, program).0,
    }
}

/// What a program prints of texts that it accepts.
pub fn answer(name: &str) -> &'static str {
    match name {
        "draw" => RECORD,
        "verify" => "OK\n",
        "panel" => "TOC,3\nCND,4\n",
        "plain" => REFERENCE,
        "alerts" => "1,1,0,0\n2,3,0,0\n1,0,1,0\n",
        _ => "QUIET\n",
    }
}

/// What a program prints of an empty text of a kind, and of one that is too long.
pub fn refusal_of_size(kind: &str) -> &'static str {
    match kind {
        "settings" => "NO,14,0\n",
        _ => "NO,1,0\n",
    }
}

/// Names that a stranger could give to a file: control bytes, line ends, words of our own, and a long one.
pub fn hostile_names() -> Vec<Vec<u8>> {
    let names: [&[u8]; 9] = [
        b"\x1b[31m\n\\.ref",
        b"envelope: 'x.ref': 0 values",
        b"\xff\xfe",
        b"\x07",
        b"-x",
        b"--help",
        b"'",
        b"two words",
        &[b'n'; 255],
    ];
    names.map(Vec::from).to_vec()
}

/// A name as the programs print it in their messages.
pub fn quoted(name: &[u8]) -> String {
    let byte = |&byte: &u8| match byte {
        b'\\' => "\\x5c".to_string(),
        33..=126 => char::from(byte).to_string(),
        _ => format!("\\x{byte:02x}"),
    };
    let shown: String = name.iter().take(60).map(byte).collect();
    let more = if name.len() > 60 { "..." } else { "" };
    format!("'{shown}'{more}")
}
