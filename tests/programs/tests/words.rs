//! Refusals in words: what the command says of what analysts write, of damaged records and readings, and of
//! hostile bytes. Beside each fixture, `NAME.said` has the status, standard output, and behind `--` the
//! whole standard error.

use outside::drawn_as_0::in_each_place;
use outside::program_inputs::Source;
use outside::random::{Random, count_from_environment, seed_from_environment};
use programs::folder::Folder;
use programs::process::{Ended, command, end};
use programs::script::{envelope, path};
use programs::{
    BELOW_DETECTION, DRAWN_WITH_ZEROS, READING, RECORD, REFERENCE, SETTINGS, TEXT_LIMIT, accepted,
};
use std::path::{Path, PathBuf};

/// The fixtures that are accepted, of which nothing is said.
const ACCEPTED: [&str; 5] = [
    "degrees-instead-of-tenths-in-one-row.ref",
    "good.ref",
    "one-value-in-tens-of-steps.ref",
    "swap-tmp-orp-headings.ref",
    "swapped-columns-toc-cnd-headings.ref",
];
const REFUSED: usize = 50;
const SEED: u64 = 300;
const INPUTS: u64 = 150;
/// Each answer is met in at least one of so many.
const INPUT_SHARE: u64 = 15;
const READINGS: [&str; 2] = ["crlf.readings", "day.readings"];
/// The most bytes of a line on standard error: a name of 60 bytes as `\xHH` and a hint of 400.
const LINE_LIMIT: usize = 700;
const WINDOWS: &str = "the line has a Windows line end (bytes 13 and 10): save the text with Unix line ends \
                       (byte 10 alone)";

fn fixtures() -> PathBuf {
    Path::new(env!("CARGO_MANIFEST_DIR")).join("fixtures/analyst")
}

/// The names of the fixtures with this ending, sorted.
fn named(ending: &str) -> Vec<String> {
    let entries = std::fs::read_dir(fixtures()).expect("the fixtures");
    let name = |entry: std::io::Result<std::fs::DirEntry>| {
        let name = entry.expect("an entry").file_name();
        name.into_string().expect("a name in UTF-8")
    };
    let mut names: Vec<String> = entries
        .map(name)
        .filter(|name| name.ends_with(ending))
        .collect();
    names.sort();
    names
}

/// Runs the command in the folder of the fixtures, so that it tells their names alone.
fn in_fixtures(words: &[&str], input: &[u8]) -> Ended {
    end(command(path()).args(words).current_dir(fixtures()), input)
}

fn assert_said(name: &str, ended: &Ended) {
    let stored = std::fs::read_to_string(fixtures().join(format!("{name}.said")));
    let said = format!(
        "status {}\n{}--\n{}",
        ended.status,
        ended.text(),
        ended.messages
    );
    assert_eq!(said, stored.expect("what is said of the fixture"), "{name}");
}

#[test]
fn reference_texts_of_analysts() {
    let names = named(".ref");
    assert_eq!(names.len(), ACCEPTED.len() + REFUSED);
    for name in &names {
        let ended = in_fixtures(&["draw", name], b"");
        assert_said(name, &ended);
        let accepted = ACCEPTED.contains(&name.as_str());
        assert_eq!(ended.status, i32::from(!accepted), "{name}");
        assert_eq!(
            ended.messages.lines().count(),
            if accepted { 0 } else { 2 },
            "{name}"
        );
    }
}

/// `plain` refuses the same texts and says the same of each; what it prints of the others is drawn alike.
#[test]
fn reference_texts_of_analysts_written_plain() {
    let mut refused = 0;
    for name in named(".ref") {
        let [drawn, plain] = ["draw", "plain"].map(|command| in_fixtures(&[command, &name], b""));
        assert_eq!(plain.status, drawn.status, "{name}");
        if ACCEPTED.contains(&name.as_str()) {
            envelope(&["draw"], &plain.output).assert_printed(drawn.text(), 0);
        } else {
            assert_eq!(plain.text(), drawn.text(), "{name}");
            assert_eq!(plain.messages, drawn.messages, "{name}");
            refused += 1;
        }
    }
    assert_eq!(refused, REFUSED);
}

#[test]
fn readings_of_analysts() {
    let record = in_fixtures(&["draw", "good.ref"], b"").output;
    assert_eq!(named(".readings"), READINGS);
    for name in READINGS {
        let ended = in_fixtures(&["judge", "good.ref", "-", name], &record);
        assert_eq!(ended.status, 3);
        assert_said(name, &ended);
    }
}

/// Nothing else lies among what is said.
#[test]
fn every_fixture_has_what_is_said() {
    let mut names = [named(".ref"), named(".readings")].concat();
    names.sort();
    let mut said: Vec<String> = named(".said");
    said.iter_mut()
        .for_each(|name| name.truncate(name.len() - 5));
    said.sort();
    assert_eq!(said, names);
}

/// A refused text is told alike by every command that reads it, standard input by its own name.
#[test]
fn every_command_tells_a_refused_text() {
    let reference = "REF,1,TOC\nA,05\n";
    let folder = Folder::new();
    folder.write("x.ref", reference);
    for words in [
        &["draw", "x.ref"][..],
        &["draw", "-"],
        &["plain", "x.ref"],
        &["plain", "-"],
        &["verify", "x.ref", "-"],
        &["panel", "-", "x.ref"],
        &["judge", "x.ref", "-", "x.ref"],
        &["alerts", "x.ref", "x.ref", "-", "x.ref"],
        &["alerts", "-", "x.ref", "x.ref", "x.ref"],
    ] {
        let mut command = command(path());
        let ended = end(
            command.args(words).current_dir(folder.path()),
            reference.as_bytes(),
        );
        assert_eq!((ended.status, ended.text()), (1, "NO,3,2\n"));
        let name = if words[1] == "-" {
            "standard input"
        } else {
            "'x.ref'"
        };
        let hint = "value 1 (TOC), '05', has leading zeros: without them it is 5";
        let told = format!("envelope: {name}, line 2: refused by 3: line not in form\n  {hint}\n");
        assert_eq!(ended.messages, told);
    }
}

/// Asserts what is told of a record beside the rows of document 01's example.
fn assert_record(record: &str, refusal: (u32, u32), hint: &str) {
    assert_record_beside(REFERENCE, record, refusal, hint);
}

fn assert_record_beside(reference: &str, record: &str, (number, line): (u32, u32), hint: &str) {
    let folder = Folder::new();
    let reference = folder.write("x.ref", reference);
    let words = ["verify".as_ref(), reference.as_os_str()];
    let ended = envelope(&words, record.as_bytes());
    assert_eq!(ended.text(), format!("NO,{number},{line}\n"), "{record:?}");
    assert_eq!(ended.status, 1);
    let told = match number {
        11 => format!("standard input, line {line}: refused by 11: record not in form"),
        _ => "standard input: refused by 12: record that disagrees with the rows".to_string(),
    };
    let told = format!("envelope: {told}\n  {hint}\n");
    assert_eq!(ended.messages, told, "{record:?}");
}

/// What is asked for in a line of the record.
fn asked(line: u32) -> &'static str {
    match line {
        2 => "line 2 is C and 2 numbers, the centre",
        3 => "line 3 is R, squared radius, floor, moves and the letter S or B",
        _ => "each line from 4 on is W, a row of 1 to 256 above the one before, and its weight",
    }
}

/// Edits of the record that are not in form, each with its line and what is seen there.
const RECORD_EDITS: [(&str, &str, u32, &str); 15] = [
    (
        "C,196608",
        "D,196608",
        2,
        "the line starts with 'D' in place of C",
    ),
    ("C,196608", "C", 2, "the line has 2 fields in place of 3"),
    (
        "196608",
        "3.0",
        2,
        "the field '3.0' has a decimal point: whole numbers are asked for",
    ),
    ("196608", "", 2, "a field is empty"),
    (
        "196608",
        "19660800000000000000",
        2,
        "a number has 20 digits, and 19 are the most",
    ),
    (",2,S", ",2", 3, "the line has 4 fields in place of 5"),
    (
        ",2,S",
        ",1000001,S",
        3,
        "the moves are '1000001', not 0 to 1,000,000",
    ),
    (",2,S", ",-2,S", 3, "the moves are '-2', not 0 to 1,000,000"),
    (",2,S", ",2,s", 3, "the letter is 's'"),
    ("W,2", "W,0", 4, "the row is '0'"),
    ("W,2", "W,257", 4, "the row is '257'"),
    (
        "2,32768",
        "2,0",
        4,
        "the weight is '0', which is not above 0",
    ),
    (
        "2,32768",
        "2, 1",
        4,
        "the field '\\x201' starts with a blank: there are no blanks in a line",
    ),
    ("W,3", "W,2", 5, "row 2 follows row 2"),
    (
        "W,3",
        "END\nW,3",
        5,
        "the line starts with 'END' in place of W",
    ),
];

#[test]
fn records_with_a_line_not_in_form() {
    for (from, to, line, seen) in RECORD_EDITS {
        let record = RECORD.replacen(from, to, 1);
        assert_ne!(record, RECORD, "{from}");
        assert_record(&record, (11, line), &format!("{seen}; {}", asked(line)));
    }
}

#[test]
fn records_that_end_early_or_late() {
    let lines: Vec<String> = RECORD.lines().map(|line| format!("{line}\n")).collect();
    for line in 2..=4 {
        let start = lines[..line as usize - 1].concat();
        let ends = "the record ends before this line";
        assert_record(&start, (11, line), &format!("{ends}: {}", asked(line)));
        let empty = format!("{start}\n");
        assert_record(
            &empty,
            (11, line),
            &format!("the line is empty: {}", asked(line)),
        );
    }
    let empty = "the line is empty: nothing follows the last W line";
    assert_record(&format!("{RECORD}\n"), (11, 6), empty);
    let end = "the line has no line end: each line ends in byte 10, the last one too";
    assert_record(RECORD.trim_end(), (11, 5), &format!("{end}; {}", asked(5)));
}

/// Records with a faulty heading, and the hints.
const RECORD_HEADINGS: [(&str, &str); 5] = [
    (
        REFERENCE,
        "the line starts with 'REF', as a reference text does; the first line is the heading: \
         ENV, n and n tags",
    ),
    (
        "env,2,TOC,CND\n",
        "'env' has lower-case letters: the word is ENV",
    ),
    ("ENV,3,TOC,CND\n", "n is 3, with 2 tags behind it"),
    ("ENV,2,TOC,CND\r\n", WINDOWS),
    (
        "\u{feff}ENV,2,TOC,CND\n",
        "the line starts with a byte order mark (bytes EF BB BF): save the text as plain ASCII, \
         or as UTF-8 without a mark",
    ),
];

#[test]
fn records_with_a_faulty_heading() {
    for (record, hint) in RECORD_HEADINGS {
        assert_record(record, (11, 1), hint);
    }
}

/// Of the record of document 01's example, so that it disagrees with the rows.
const RECORD_CHANGES: [(&str, &str); 4] = [
    ("C,196608", "C,196609"),
    ("W,2,32768", "W,2,32767"),
    ("W,3", "W,4"),
    (",2,S", ",2,B"),
];
const OTHER_ROWS: &str = "the record does not agree with these rows: it is of others, or was changed; \
                          draw it again from this reference text, or find the one that it is of";

/// Asserts that a record is said to be of other rows, or changed.
fn assert_other_rows(reference: &str, record: &str) {
    assert_record_beside(reference, record, (12, 0), OTHER_ROWS);
}

fn assert_drawn_with_zeros(reference: &str, record: &str) {
    let (_, hint) = DRAWN_WITH_ZEROS.split_once("\n  ").expect("a hint");
    assert_record_beside(reference, record, (12, 0), hint.trim_end());
}

#[test]
fn records_that_disagree() {
    for (from, to) in RECORD_CHANGES {
        assert_other_rows(REFERENCE, &RECORD.replacen(from, to, 1));
    }
    let one = "ENV,1,TOC\nC,196608\nR,107374182400,107374182400,2,S\nW,2,32768\nW,3,32768\n";
    let exchanged = RECORD.replacen("TOC,CND", "CND,TOC", 1);
    let (_, again) = OTHER_ROWS.split_once("; ").expect("what to do");
    for (record, tags) in [(one, "TOC"), (&exchanged, "CND,TOC")] {
        let hint =
            format!("the record has the tags {tags}, and the reference text TOC,CND; {again}");
        for reference in [REFERENCE, BELOW_DETECTION] {
            assert_record_beside(reference, record, (12, 0), &hint);
        }
    }
}

/// By every command that reads a record.
#[test]
fn a_record_drawn_with_zeros() {
    let folder = Folder::new();
    let texts = [
        ("ref", BELOW_DETECTION),
        ("env", RECORD),
        ("settings", SETTINGS),
        ("day", READING),
    ];
    for (name, text) in texts {
        folder.write(name, text);
    }
    for words in [
        &["verify", "ref", "env"][..],
        &["panel", "ref", "env"],
        &["judge", "ref", "env", "day"],
        &["judge", "--explain", "ref", "env", "day"],
        &["alerts", "ref", "env", "settings", "day"],
        &["show", "ref", "env"],
    ] {
        let ended = end(command(path()).args(words).current_dir(folder.path()), b"");
        assert_eq!((ended.status, ended.text()), (1, "NO,12,0\n"), "{words:?}");
        assert_eq!(
            ended.messages,
            format!("envelope: 'env': {DRAWN_WITH_ZEROS}")
        );
    }
}

/// The moves are taken as written, here too.
#[test]
fn the_moves_of_a_record_drawn_with_zeros_are_its_own() {
    let moved = RECORD.replacen(",2,S", ",3,S", 1);
    assert_drawn_with_zeros(BELOW_DETECTION, &moved);
}

#[test]
fn a_record_drawn_with_zeros_of_the_most_values() {
    let rows: String = (0..256)
        .map(|row| format!("POINT-{row:06}{}\n", ",<2000".repeat(8)))
        .collect();
    let tags = ["ORP"; 8].join(",");
    let record = format!("ENV,8,{tags}\nC{}\nR,0,0,0,S\nW,1,65536\n", ",0".repeat(8));
    assert_drawn_with_zeros(&format!("REF,8,{tags}\n{rows}"), &record);
}

#[test]
fn a_record_changed_by_hand_beside_values_below_detection() {
    for (from, to) in RECORD_CHANGES {
        assert_other_rows(BELOW_DETECTION, &RECORD.replacen(from, to, 1));
    }
}

/// Also where they count as 0, and where only some of them do.
#[test]
fn a_record_of_other_rows_beside_values_below_detection() {
    for rows in [
        "A,0,0\nB,7,0\nC,0,8\n",
        "A,0,0\nB,6,2\nC,0,8\n",
        "A,0,0\nB,6,4\nC,4,8\n",
    ] {
        let other = outside::programs::draw(format!("REF,2,TOC,CND\n{rows}").as_bytes());
        let other = String::from_utf8(other).expect("a record");
        assert!(other.starts_with("ENV,"), "{other}");
        assert_other_rows(BELOW_DETECTION, &other);
    }
}

/// There is nothing that could count as 0, or it counts as 0 either way.
#[test]
fn a_record_that_disagrees_beside_plain_values() {
    assert_other_rows("REF,2,TOC,CND\nA,0,0\nB,6,2\nC,2,8\n", RECORD);
    for (from, to) in RECORD_CHANGES {
        assert_other_rows(
            &REFERENCE.replace(",0", ",<1"),
            &RECORD.replacen(from, to, 1),
        );
    }
}

/// A record drawn with zeros, as it is or with another digit.
fn seeded_record(random: &mut Random, zeros: &[u8]) -> Vec<u8> {
    let mut record = outside::programs::draw(zeros);
    if random.once_in(2) {
        let digits = (0..record.len()).filter(|&place| record[place].is_ascii_digit());
        let digits: Vec<usize> = digits.collect();
        record[random.pick(&digits)] = b'0' + random.index(10) as u8;
    }
    record
}

/// The hint is that of zeros exactly where the outside implementation finds the record to agree with these
/// alone.
#[test]
fn seeded_records_drawn_with_zeros() {
    let seed = seed_from_environment(SEED);
    let mut random = Random::new(seed);
    let inputs = count_from_environment("INPUTS", INPUTS);
    let [mut with_zeros, mut others, mut accepted, mut malformed] = [0; 4];
    for input in 0..inputs {
        println!("seed {seed}, input {input}");
        let text = Source::new(&mut random).reference.bytes();
        let zeros = in_each_place(&text, b"0");
        let record = seeded_record(&mut random, &zeros);
        let answers = [&text, &zeros].map(|text| outside::programs::verify(text, &record));
        let text = String::from_utf8(text).expect("a text");
        let record = String::from_utf8(record).expect("a record");
        match answers.each_ref().map(Vec::as_slice) {
            [b"OK\n", _] => accepted += 1,
            [b"NO,12,0\n", b"OK\n"] => {
                assert_drawn_with_zeros(&text, &record);
                with_zeros += 1;
            }
            [b"NO,12,0\n", _] => {
                assert_other_rows(&text, &record);
                others += 1;
            }
            // Not in form: another digit can be a leading zero, or a row that does not rise.
            [answer, _] => {
                assert!(answer.starts_with(b"NO,11,"), "{answer:?}");
                malformed += 1;
            }
        }
    }
    let met = [with_zeros, others, accepted];
    println!("{met:?}, not in form {malformed}");
    let enough = met.iter().all(|&count| count >= inputs / INPUT_SHARE);
    assert!(enough, "seed {seed}: {met:?}");
}

/// Judges readings against document 01's example.
fn judge(readings: &[u8]) -> Ended {
    let folder = Folder::new();
    let reference = folder.write("x.ref", REFERENCE);
    let record = folder.write("x.env", RECORD);
    let words = ["judge".as_ref(), reference.as_os_str(), record.as_os_str()];
    envelope(&words, readings)
}

/// Readings that are refused by 3, and the hints.
const NOT_IN_FORM: [(&str, &str); 14] = [
    ("A,TOC,3,CND,4\r\n", WINDOWS),
    ("\n", "the line is empty: remove it, each line is a reading"),
    (
        " \t\n",
        "the line has only blanks: remove it, each line is a reading",
    ),
    (
        ",,,,\n",
        "the line has only commas: remove it, each line is a reading",
    ),
    (
        "A,3,4\n",
        "the line has 3 fields, and 5 are asked for, a label, then tag and value of 2 channels; \
         behind the label stand values without tags",
    ),
    (
        "TOC,3,CND,4\n",
        "the line has 4 fields, and 5 are asked for, a label, then tag and value of 2 channels; \
         the line starts with the first tag, without a label",
    ),
    (
        "A,TOC,3,CND,0,004\n",
        "the line has 6 fields, and 5 are asked for, a label, then tag and value of 2 channels; \
         '0,004' is two numbers with no tag between them, and a number has no comma",
    ),
    (
        "A,TOC,3,CND,4,\n",
        "the line ends in 1 comma too many: 5 fields are asked for, a label, then tag and value \
         of 2 channels",
    ),
    (
        "REF,2,TOC,CND\n",
        "the line starts with REF, as a heading: readings have none",
    ),
    (
        "# Monday\n",
        "the line starts with '#': a text has no comment lines",
    ),
    (
        "a,TOC,3,CND,4\n",
        "the label 'a' has lower-case letters: a label is 1 to 12 bytes of A-Z, 0-9 and hyphen",
    ),
    (
        "A,TOC,3,CND,0.004\n",
        "value 2 (CND), '0.004', has a decimal point: values are whole numbers of steps of 0.001 \
         µS/cm, and 0.004 µS/cm is 4",
    ),
    (
        "A;TOC;3;CND;4\n",
        "the line has semicolons and no comma: fields are parted by commas, and by nothing else",
    ),
    (
        "A,TOC,3,CND,4",
        "the line has no line end: each line ends in byte 10, the last one too",
    ),
];

/// Readings that are refused by 4.
const OUTSIDE_RANGE: [(&str, &str); 2] = [
    (
        "A,TOC,2001,CND,4\n",
        "value 1 (TOC), 2001, is 2001 ppb; TOC goes from 0 ppb to 2000 ppb (0 to 2000)",
    ),
    (
        "A,TOC,3,CND,<0\n",
        "value 2 (CND), '<0', is outside the range: behind < stands a number from 1 to 4000 (0.001 \
         µS/cm to 4.000 µS/cm)",
    ),
];

/// Readings that are refused by 10.
const OTHER_TAGS: [(&str, &str); 5] = [
    (
        "A,CND,4,TOC,3\n",
        "tag 1 is 'CND', and TOC is expected there: the same tags in another order; a reading is \
         a label, then tag and value of TOC, CND in this order",
    ),
    (
        "A,TOC,3,cnd,4\n",
        "tag 2 is 'cnd', and CND is expected there: tags are in upper case; a reading is a label, \
         then tag and value of TOC, CND in this order",
    ),
    (
        "A,TOC,3,PH,4\n",
        "tag 2 is 'PH', and CND is expected there: a reading is a label, then tag and value of \
         TOC, CND in this order",
    ),
    (
        "A,TOC,3,,4\n",
        "tag 2 is '', and CND is expected there: a reading is a label, then tag and value of TOC, \
         CND in this order",
    ),
    (
        "A,TOC,3, CND,4\n",
        "tag 2 is '\\x20CND', and CND is expected there: the tag starts with a blank, and there \
         are no blanks in a line",
    ),
];

#[test]
fn single_readings() {
    let form = (3, "line not in form", &NOT_IN_FORM[..]);
    let range = (4, "value outside its type's range", &OUTSIDE_RANGE[..]);
    let tag = (10, "tag that is not the envelope's", &OTHER_TAGS[..]);
    for (number, reason, readings) in [form, range, tag] {
        for (reading, hint) in readings {
            let ended = judge(reading.as_bytes());
            assert_eq!(
                (ended.status, ended.text()),
                (3, &*format!("NO,{number},1\n"))
            );
            let start = format!("envelope: standard input, line 1: refused by {number}: {reason}");
            assert_eq!(
                ended.messages,
                format!("{start}\n  {hint}\n"),
                "{reading:?}"
            );
        }
    }
}

/// The first 20 are told with their lines among all readings, and how many more there are.
#[test]
fn many_refused_readings() {
    for (refused, end) in [
        (20, None),
        (
            21,
            Some("envelope: standard input: 1 more reading is refused"),
        ),
        (
            2_000,
            Some("envelope: standard input: 1980 more readings are refused"),
        ),
    ] {
        let readings = "A,TOC,3,CND,4\nA,TOC,3\n".repeat(refused);
        let ended = judge(readings.as_bytes());
        assert_eq!(ended.status, 3);
        assert!(ended.text() == "QUIET\nNO,3,1\n".repeat(refused));
        let told: Vec<&str> = ended.messages.lines().collect();
        assert_eq!(told.len(), 40 + usize::from(end.is_some()));
        for (index, pair) in told[..40].chunks(2).enumerate() {
            let start = format!(
                "envelope: standard input, line {}: refused by 3",
                2 * index + 2
            );
            assert!(
                pair[0].starts_with(&start) && pair[1].starts_with("  "),
                "{pair:?}"
            );
        }
        assert_eq!(told.get(40).copied(), end);
    }
}

/// For a text that is empty or too long it is said which text it is.
#[test]
fn texts_of_no_byte_and_of_too_many() {
    let long = vec![b'A'; TEXT_LIMIT + 1];
    let size = "more than 65,536 bytes";
    for (place, name, is, has) in [
        (0, "the reference text", "is", "has"),
        (1, "the record", "is", "has"),
        (2, "the readings together", "are", "have"),
    ] {
        assert_size(place, b"", &format!("{name} {is} empty"));
        assert_size(place, &long, &format!("{name} {has} {size}"));
    }
}

/// Asserts what is told of texts for `judge`, of which one is refused for its size.
fn assert_size(place: usize, text: &[u8], hint: &str) {
    let mut texts = [REFERENCE, RECORD, READING].map(str::as_bytes);
    texts[place] = text;
    let folder = Folder::new();
    let files = folder.write_texts(&texts);
    let ended = end(command(path()).arg("judge").args(&files), b"");
    assert_eq!((ended.status, ended.text()), (1, "NO,1,0\n"));
    let file = programs::quoted(files[place].as_os_str().as_encoded_bytes());
    let told =
        format!("envelope: {file}: refused by 1: text empty or above 65,536 bytes\n  {hint}\n");
    assert_eq!(ended.messages, told);
}

/// Asserts that every message is of short lines without control bytes.
fn assert_harmless(ended: &Ended) {
    assert!(!ended.messages.is_empty());
    for line in ended.messages.lines() {
        assert!(
            line.starts_with("envelope: ") || line.starts_with("  "),
            "{line:?}"
        );
        assert!(
            line.chars()
                .all(|letter| (' '..='~').contains(&letter) || "°µ".contains(letter)),
            "{line:?}"
        );
        assert!(line.len() <= LINE_LIMIT, "{} bytes: {line:?}", line.len());
    }
}

/// Escape sequences, bytes 0 and above 127 and very long fields, before each field of each text.
#[test]
fn hostile_bytes() {
    let hostile: [&[u8]; 7] = [
        b"\x1b[2J\x1b]0;title\x07",
        b"\0\0\0\0",
        b"\x9b31m\xc2\x9b31m",
        b"\xe2\x80\xae\xef\xbf\xbd",
        &[b'\x1b'; 60_000],
        &[b'9'; 60_000],
        &[b','; 60_000],
    ];
    for (name, place) in [("judge", 0), ("judge", 1), ("judge", 2), ("alerts", 2)] {
        let accepted = accepted(name);
        for (bytes, start) in hostile
            .iter()
            .flat_map(|bytes| field_starts(&accepted[place]).map(move |start| (bytes, start)))
        {
            let mut texts = accepted.clone();
            texts[place].splice(start..start, bytes.iter().copied());
            let folder = Folder::new();
            let files = folder.write_texts(&texts);
            let ended = end(command(path()).arg(name).args(files), b"");
            assert!([1, 3].contains(&ended.status), "{}", ended.messages);
            assert_harmless(&ended);
        }
    }
}

fn field_starts(text: &[u8]) -> impl Iterator<Item = usize> {
    let starts = |&start: &usize| start == 0 || b",\n".contains(&text[start - 1]);
    (0..text.len()).filter(starts)
}

/// The name of a file is a stranger's too.
#[test]
fn a_hostile_name() {
    let folder = Folder::new();
    let name = "\x1b[31m\n\\.ref";
    folder.write(name, "REF,1,TOC\n");
    let ended = end(
        command(path())
            .args(["draw", name])
            .current_dir(folder.path()),
        b"",
    );
    assert_eq!((ended.status, ended.text()), (1, "NO,6,2\n"));
    let told = "envelope: '\\x1b[31m\\x0a\\x5c.ref', line 2: refused by 6: no row, or a 257th\n  \
                no row follows the heading: a reference text has 1 to 256 rows\n";
    assert_eq!(ended.messages, told);
}

#[test]
fn the_table_of_refusals() {
    let ended = envelope(&["refusals"], b"");
    assert_eq!((ended.status, &*ended.messages), (0, ""));
    let numbers: Vec<u32> = ended
        .text()
        .lines()
        .filter_map(|line| line.get(..2)?.trim().parse().ok())
        .collect();
    assert!(numbers.iter().copied().eq(1..=14), "{numbers:?}");
    let alone = ended.text().matches("callers of the library alone").count();
    assert_eq!(alone, 4);
    for words in [&["refusals", "3"][..], &["refusals", "--all"]] {
        envelope(words, b"").assert_failed("envelope: ");
    }
}
