//! `judge --explain`: each line against the outside implementation and the inequalities that its share and
//! its deviation must meet, on the examples, on seeded texts and at the edge of the ball.

use outside::program_inputs::Source;
use outside::programs::Program;
use outside::random::{Random, count_from_environment, seed_from_environment};
use outside::reading_texts::of_rows;
use outside::readings::{self, EnvelopeFigures, Verdict};
use outside::records::{self, TypedRows};
use outside::reference;
use outside::sets::Set;
use outside::texts::Draft;
use programs::call::Way;
use programs::folder::Folder;
use programs::presented::{
    assert_nearest, assert_printable, cells, channel_name, farthest, types, whole,
};
use programs::process::{Ended, end};
use programs::{EXAMPLES, READING, RECORD, REFERENCE, TEXT_LIMIT, example, kinds, root};
use std::path::Path;

const SEED: u64 = 18;
const INPUTS: u64 = 300;

fn run<Text: AsRef<[u8]>>(option: &[&str], texts: &[Text]) -> Ended {
    let folder = Folder::new();
    let files = folder.write_texts(texts);
    let mut command = Way::Command.command("judge", option);
    end(command.args(files), b"")
}

fn explain<Text: AsRef<[u8]>>(texts: &[Text]) -> Ended {
    run(&["--explain"], texts)
}

/// The figures of an accepted record.
fn figures(reference: &[u8], record: &[u8]) -> EnvelopeFigures {
    let reference = reference::read(reference).expect("an accepted text");
    let set = Set {
        places: reference.table(),
        m: reference.rows.len(),
        n: reference.types.len(),
    };
    let types = reference.types;
    let envelope = records::read(&TypedRows { set, types }, record);
    envelope.expect("an accepted record").figures
}

fn verdict_word(verdict: &Result<Verdict, outside::rules::Refusal>) -> &'static str {
    match verdict {
        Ok(Verdict::Quiet) => "quiet",
        Ok(Verdict::Alarm { .. }) => "ALARM",
        Err(_) => "TURNED BACK",
    }
}

/// Asserts that a printed share is the root of s/M in tenths of a percent, rounded down for Quiet and up
/// for Alarm.
fn assert_share(share: &str, verdict: Verdict, distance: i128, radius: i128) {
    if radius == 0 {
        assert_eq!(share, "radius is 0");
        return;
    }
    let tenths = whole(share.strip_suffix('%').expect("a percent"), 1);
    let square = |number: i128| number * number * radius;
    let scaled = 1_000_000 * distance;
    let (is_rounded, is_apart) = match verdict {
        Verdict::Quiet => (
            square(tenths) <= scaled && scaled < square(tenths + 1),
            tenths <= 1_000,
        ),
        Verdict::Alarm { .. } => (
            square(tenths - 1) < scaled && scaled <= square(tenths),
            tenths > 1_000,
        ),
    };
    assert!(is_rounded && is_apart, "{share} of {distance}/{radius}");
}

/// Asserts a line, and gives the word of its verdict.
fn assert_line(
    figures: &EnvelopeFigures,
    number: usize,
    reading: &[u8],
    line: &str,
) -> &'static str {
    let verdict = readings::judge(figures, reading);
    let cells = cells(line);
    let word = verdict_word(&verdict);
    assert_eq!((cells[0], cells[2]), (&*number.to_string(), word), "{line}");
    let verdict = match verdict {
        Ok(verdict) => verdict,
        Err(refusal) => {
            let start = format!("refused by {}: ", refusal.number);
            assert!(cells[3].starts_with(&start), "{line}");
            return word;
        }
    };
    let types = types(&figures.types[..figures.n]);
    let row = readings::read(reading, &types).expect("an accepted reading");
    let centre = figures.scaled_centre[..figures.n].iter();
    let centre: Vec<i128> = centre.map(|&place| place.into()).collect();
    let distance = readings::scaled_squared_distance(&row, &centre);
    assert_share(
        cells[3],
        verdict,
        distance,
        figures.scaled_squared_radius.into(),
    );
    let (channel, place) = farthest(&row, &centre);
    assert_eq!(cells[4], channel_name(&types, channel), "{line}");
    assert_nearest(cells[5], &types[channel], place, 65_536);
    assert!(cells[5].starts_with(['+', '-']), "{line}");
    let label = reading.split(|&byte| byte == b',').next();
    assert_eq!(Some(cells[1].as_bytes()), label);
    assert!(line.chars().count() <= 80, "{line}");
    word
}

/// Asserts the whole output and the status, and gives the counts of quiet, alarm and turned back.
fn assert_explained(texts: &[Vec<u8>], ended: &Ended) -> [usize; 3] {
    assert_eq!(ended.messages, "");
    assert_printable(ended.text());
    let figures = figures(&texts[0], &texts[1]);
    let readings: Vec<&[u8]> = texts[2].split_inclusive(|&byte| byte == b'\n').collect();
    let lines: Vec<&str> = ended.text().lines().collect();
    assert_eq!(lines.len(), readings.len() + 2, "{}", ended.text());
    assert!(lines[0].trim_start().starts_with("line  label"));
    let mut counts = [0; 3];
    for (index, reading) in readings.iter().enumerate() {
        let word = assert_line(&figures, index + 1, reading, lines[index + 1]);
        let place = ["quiet", "ALARM", "TURNED BACK"]
            .iter()
            .position(|&other| other == word);
        counts[place.expect("a verdict")] += 1;
    }
    assert_eq!(lines[readings.len() + 1], last_line(counts));
    let all_quiet = counts[0] == readings.len();
    assert_eq!(ended.status, if all_quiet { 0 } else { 3 });
    counts
}

fn last_line([quiet, alarms, turned_back]: [usize; 3]) -> String {
    let all = quiet + alarms + turned_back;
    let readings = if all == 1 { "reading" } else { "readings" };
    let word = if alarms == 1 { "alarm" } else { "alarms" };
    let judgement = if quiet == all {
        "all quiet"
    } else {
        "not all quiet"
    };
    format!(
        "{all} {readings}: {quiet} quiet, {alarms} {word}, {turned_back} turned back: {judgement}"
    )
}

fn texts_of_example(point: &str) -> Vec<Vec<u8>> {
    let texts = kinds("judge").iter().map(|kind| example(point, kind));
    texts.collect()
}

#[test]
fn the_examples() {
    for point in EXAMPLES {
        let texts = texts_of_example(point);
        let counts = assert_explained(&texts, &explain(&texts));
        assert!(counts.iter().all(|&count| count > 0), "{point}: {counts:?}");
    }
}

/// The reasons of readings that are turned back are not stored.
#[test]
fn the_stored_lines_of_the_examples() {
    let cut = |line: &str| match line.split_once("TURNED BACK") {
        Some((before, _)) => format!("{before}TURNED BACK\n"),
        None => format!("{line}\n"),
    };
    for point in EXAMPLES {
        let path = root().join(format!("tests/programs/stored-command/explain/{point}.out"));
        let stored = std::fs::read_to_string(&path).expect("a stored output");
        let printed = explain(&texts_of_example(point));
        let lines: String = printed.text().lines().map(cut).collect();
        assert_eq!(lines, stored, "{point}");
    }
}

#[test]
fn seeded_texts() {
    let seed = seed_from_environment(SEED);
    let mut random = Random::new(seed);
    let mut sums = [0; 3];
    let mut repeated = false;
    for input in 0..count_from_environment("INPUTS", INPUTS) {
        let source = Source::new(&mut random);
        let mut texts = source.whole(&mut random, Program::Judge);
        // Damage can leave no byte of the readings, or too many.
        let reading = &of_rows(&source.reference)[0];
        texts[2].truncate(TEXT_LIMIT - reading.len());
        texts[2].extend(reading);
        println!("seed {seed}, input {input}");
        let counts = assert_explained(&texts, &explain(&texts));
        for (sum, count) in sums.iter_mut().zip(counts) {
            *sum += count;
        }
        let types = &source.reference.types;
        repeated |= (1..types.len()).any(|place| types[..place].contains(&types[place]));
    }
    assert!(
        repeated && sums.iter().all(|&sum| sum > 100),
        "seed {seed}: {sums:?}"
    );
}

#[test]
fn the_fullest_reference_text_and_readings() {
    let mut random = Random::new(SEED);
    let reference = Draft::new(&mut random, 256, 8);
    let record = outside::programs::draw(&reference.bytes());
    let readings = of_rows(&reference).concat();
    let texts = vec![reference.bytes(), record, readings];
    let [quiet, alarms, turned_back] = assert_explained(&texts, &explain(&texts));
    assert_eq!([quiet, alarms, turned_back], [256, 0, 0]);
}

/// As many readings as there can be.
#[test]
fn every_byte_a_reading() {
    let readings = "\n".repeat(TEXT_LIMIT);
    let ended = explain(&[REFERENCE, RECORD, &readings]);
    let last = last_line([0, 0, TEXT_LIMIT]);
    assert_eq!(ended.text().lines().count(), TEXT_LIMIT + 2);
    assert_eq!(
        (ended.text().lines().last(), ended.status),
        (Some(&*last), 3)
    );
}

/// The rows 0 and 1 of TMP with weights 65,535 and 1: the reading 1 is on the edge, with s = M, and -1 lies
/// outside by less than a thousandth of a percent.
#[test]
fn at_the_edge_of_the_ball() {
    let record = "ENV,1,TMP\nC,1\nR,4294836225,65535,0,B\nW,1,65535\nW,2,1\n";
    let readings = "ON,TMP,1\nIN,TMP,0\nOUT,TMP,-1\n";
    let texts = ["REF,1,TMP\nA,0\nB,1\n", record, readings];
    let ended = explain(&texts);
    assert_explained(&texts.map(|text| text.as_bytes().to_vec()), &ended);
    let shares: Vec<&str> = ended.text().lines().skip(1).take(3).collect();
    let shares: Vec<&str> = shares.iter().map(|line| cells(line)[3]).collect();
    assert_eq!(shares, ["100.0%", "0.0%", "100.1%"]);
}

/// A ball of one point: of one row, and of equal rows.
#[test]
fn a_radius_of_0_is_said_in_words() {
    let record = "ENV,2,ORP,ORP\nC,-458752,196608\nR,0,0,0,S\nW,1,65536\n";
    for rows in ["A,-7,3\n", "A,-7,3\nB,-7,3\nC,-7,3\n"] {
        let reference = format!("REF,2,ORP,ORP\n{rows}");
        let readings = "ON,ORP,-7,ORP,3\nOFF,ORP,-7,ORP,4\n";
        let texts = [&*reference, record, readings].map(|text| text.as_bytes().to_vec());
        let ended = explain(&texts);
        assert_eq!(assert_explained(&texts, &ended), [1, 1, 0]);
        assert!(!ended.text().contains('%'), "{}", ended.text());
        assert!(ended.text().contains("ORP (2)  +1.0 mV\n"));
    }
}

/// Whatever stands in a line that is turned back, no byte of it reaches a terminal as it is.
#[test]
fn labels_of_strangers_are_escaped() {
    let labels: [(&[u8], &str); 8] = [
        (b"\x1b[31mRED", "\\x1b[31mRED"),
        (b"", "''"),
        (b" ", "\\x20"),
        (b"a\\b", "a\\x5cb"),
        (b"\xc2\xb5\x00\xff", "\\xc2\\xb5\\x00\\xff"),
        (b"\rQUIET", "\\x0dQUIET"),
        (b"abcdefghijkl", "abcdefghijkl"),
        (b"ABCDEFGHIJKLM", "ABCDEFGHIJKL..."),
    ];
    let mut readings = Vec::new();
    for (label, _) in labels {
        readings.extend([label, b",TOC,3,CND,4\n"].concat());
    }
    readings.extend(b"NO-COMMA\n\xef\xbb\xbfBOM".iter());
    let ended = explain(&[REFERENCE.as_bytes(), RECORD.as_bytes(), &readings]);
    assert_printable(ended.text());
    let lines: Vec<&str> = ended.text().lines().collect();
    let shown = labels.map(|(_, shown)| shown);
    let shown = shown.iter().chain(&["NO-COMMA", "\\xef\\xbb\\xbfBOM"]);
    for (line, label) in lines[1..].iter().zip(shown) {
        assert_eq!(cells(line)[1..3], [*label, "TURNED BACK"]);
    }
    assert_eq!(lines.len(), 12);
    assert_eq!(ended.status, 3);
}

/// Where a text is refused it is as without the option.
#[test]
fn a_refused_text_is_answered_as_without_it() {
    let long = READING.repeat(TEXT_LIMIT / READING.len() + 1);
    let disagreeing = RECORD.replace("2,S", "2,B");
    for (texts, answer) in [
        (["", RECORD, READING], "NO,1,0\n"),
        (["REF,0\n", RECORD, READING], "NO,2,1\n"),
        ([REFERENCE, "ENV,0\n", READING], "NO,11,1\n"),
        ([REFERENCE, &disagreeing, READING], "NO,12,0\n"),
        ([REFERENCE, RECORD, ""], "NO,1,0\n"),
        ([REFERENCE, RECORD, &long], "NO,1,0\n"),
    ] {
        let (explained, plain) = (explain(&texts), run(&[], &texts));
        assert_eq!((explained.text(), explained.status), (answer, 1));
        assert_eq!((plain.text(), plain.status), (answer, 1));
        for ended in [explained, plain] {
            ended.assert_words();
            assert_eq!(ended.messages.lines().count(), 2, "a reason and a hint");
        }
    }
}

/// The option stands anywhere before two hyphens; behind them it is a file's name.
#[test]
fn the_option_stands_anywhere() {
    let folder = Folder::new();
    for (name, text) in [("r", REFERENCE), ("e", RECORD), ("--explain", READING)] {
        folder.write(Path::new(name), text);
    }
    let run = |words: &[&str]| {
        let mut command = Way::Command.command("judge", words);
        end(command.current_dir(folder.path()), READING.as_bytes())
    };
    for words in [
        ["--explain", "r", "e", "-"],
        ["r", "--explain", "e", "-"],
        ["r", "e", "-", "--explain"],
    ] {
        assert!(run(&words).text().ends_with(": all quiet\n"));
    }
    run(&["r", "e", "--", "--explain"]).assert_printed("QUIET\n", 0);
}
