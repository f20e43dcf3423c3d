//! A text that holds other texts, or stands in the place of another, is refused as what it stands for: by
//! the program in Rattle and by the command.

use programs::call::{WAYS, Way, run};
use programs::folder::Folder;
use programs::script::envelope;
use programs::{READING, RECORD, REFERENCE, SETTINGS};

/// The rows 0 and 10, and those of a stranger whose ball is wide.
const HONEST: &str = "REF,1,TOC\nA,0\nB,10\n";
const WIDE: &str = "REF,1,TOC\nA,0\nB,2000\n";
/// A reading inside the wide ball and far outside of the other.
const HIGH: &str = "A,TOC,900\n";

fn record(reference: &str) -> String {
    String::from_utf8(run("draw", &[reference])).expect("a record in ASCII")
}

/// Asserts what a program prints of texts that are refused.
fn assert_refused(name: &str, texts: &[&str], output: &str) {
    let folder = Folder::new();
    let files = folder.write_texts(texts);
    for way in WAYS {
        way.assert_answer(&way.run(name, &files), name, output);
    }
}

/// The stranger's reference text brings a record of its own. Its fourth line is empty.
#[test]
fn an_embedded_record_is_refused_with_its_reference_text() {
    let embedded = format!("{WIDE}\n{}", record(WIDE));
    let honest = record(HONEST);
    assert_refused("judge", &[&embedded, &honest, HIGH], "NO,3,4\n");
    assert_refused("judge", &[&embedded, &record(WIDE), HIGH], "NO,3,4\n");
    for name in ["draw", "plain"] {
        assert_refused(name, &[&embedded], "NO,3,4\n");
    }
    for name in ["verify", "panel"] {
        assert_refused(name, &[&embedded, &honest], "NO,3,4\n");
    }
    let texts = [&embedded, &record(WIDE), SETTINGS, HIGH];
    assert_refused("alerts", &texts, "NO,3,4\n");
}

/// As three texts the honest record disagrees with the wide rows, and alone it judges the reading.
#[test]
fn the_stranger_gains_nothing_without_embedding() {
    assert_refused("judge", &[WIDE, &record(HONEST), HIGH], "NO,12,0\n");
    let alarm = run("judge", &[HONEST, &record(HONEST), HIGH]);
    let excess = 65_536_u64.pow(2) * (895 * 895 - 25);
    assert_eq!(alarm, format!("ALARM,{excess}\n").as_bytes());
    let texts = [WIDE, &record(HONEST), SETTINGS, HIGH];
    assert_refused("alerts", &texts, "NO,12,0\n");
    let tried = run("alerts", &[HONEST, &record(HONEST), SETTINGS, HIGH]);
    assert_eq!(tried, b"1,1,1,1\n2,3,0,0\n1,1,0,0\n");
}

/// Joined texts on standard input are one text: none of them is found by the command.
#[test]
fn joined_texts_are_not_taken_apart() {
    let embedded = format!("{WIDE}\n{}", record(WIDE));
    let joined = format!("{embedded}\n{}\n{HIGH}", record(HONEST));
    let ended = envelope(&["judge"], joined.as_bytes());
    ended.assert_failed(
        "too few texts for judge; usage: envelope judge [--explain] REF ENV [READINGS]",
    );
    for name in ["draw", "plain"] {
        let ended = envelope(&[name], joined.as_bytes());
        Way::Command.assert_answer(&ended, name, "NO,3,4\n");
    }
}

#[test]
fn embedded_readings_are_refused_with_their_text() {
    let reference = format!("{WIDE}\n{}\n{HIGH}", record(WIDE));
    assert_refused("judge", &[&reference, &record(WIDE), HIGH], "NO,3,4\n");
    // The record has five lines.
    let record = format!("{}\n{HIGH}", record(WIDE));
    assert_refused("judge", &[WIDE, &record, HIGH], "NO,11,6\n");
    assert_refused("verify", &[WIDE, &record], "NO,11,6\n");
    assert_refused("panel", &[WIDE, &record], "NO,11,6\n");
}

/// Of texts among the readings each line is a reading, and none is taken for another text.
#[test]
fn texts_embedded_in_the_readings_are_readings() {
    let readings = format!("{HIGH}\n{WIDE}\n{}\n{HIGH}", record(WIDE));
    let folder = Folder::new();
    let files = folder.write_texts(&[WIDE, &record(WIDE), &readings]);
    // Its two lines of a weight have as many fields as a reading, and another tag.
    let (form, tag) = ("NO,3,1\n".repeat(8), "NO,10,1\n".repeat(2));
    let verdicts = format!("QUIET\n{form}{tag}NO,3,1\nQUIET\n");
    for way in WAYS {
        way.assert_answer(&way.run("judge", &files), "judge", &verdicts);
    }
}

/// 2 as the heading, 3 as a row, also as the only one, and 6 as a row too many.
#[test]
fn an_empty_line_in_a_reference_text_is_refused() {
    let rows: String = (0..256).map(|row| format!("R-{row},5\n")).collect();
    for (reference, output) in [
        ("\n".to_string(), "NO,2,1\n"),
        (format!("\n{WIDE}"), "NO,2,1\n"),
        ("REF,1,TOC\n\n".to_string(), "NO,3,2\n"),
        ("REF,1,TOC\n\nA,0\n".to_string(), "NO,3,2\n"),
        ("REF,1,TOC\nA,0\n\nB,1\n".to_string(), "NO,3,3\n"),
        (format!("{WIDE}\n"), "NO,3,4\n"),
        (format!("{WIDE}\n\n"), "NO,3,4\n"),
        (format!("REF,1,TOC\n{rows}\n"), "NO,6,258\n"),
    ] {
        assert_refused("draw", &[&reference], output);
        assert_refused("plain", &[&reference], output);
        assert_refused("verify", &[&reference, RECORD], output);
        assert_refused("panel", &[&reference, RECORD], output);
        assert_refused("judge", &[&reference, RECORD, READING], output);
        let texts = [&reference, RECORD, SETTINGS, READING];
        assert_refused("alerts", &texts, output);
    }
}

/// At its own line of the record: nothing is left out before or behind the record.
#[test]
fn an_empty_line_in_a_record_is_refused() {
    for (record, output) in [
        (format!("\n{RECORD}"), "NO,11,1\n"),
        (RECORD.replacen('\n', "\n\n", 1), "NO,11,2\n"),
        (format!("{RECORD}\n"), "NO,11,6\n"),
    ] {
        assert_refused("verify", &[REFERENCE, &record], output);
        assert_refused("panel", &[REFERENCE, &record], output);
        assert_refused("judge", &[REFERENCE, &record, READING], output);
        let texts = [REFERENCE, &record, SETTINGS, READING];
        assert_refused("alerts", &texts, output);
    }
}

#[test]
fn record_and_reference_text_exchanged_are_refused() {
    assert_refused("draw", &[RECORD], "NO,2,1\n");
    assert_refused("plain", &[RECORD], "NO,2,1\n");
    assert_refused("verify", &[RECORD, REFERENCE], "NO,2,1\n");
    assert_refused("panel", &[RECORD, REFERENCE], "NO,2,1\n");
    assert_refused("judge", &[RECORD, REFERENCE, READING], "NO,2,1\n");
    assert_refused("judge", &[REFERENCE, READING, RECORD], "NO,11,1\n");
    assert_refused("judge", &[READING, RECORD, REFERENCE], "NO,2,1\n");
}

/// Settings in the place of every other text, and every other text in theirs.
#[test]
fn settings_in_another_place_are_refused() {
    for (texts, output) in [
        ([SETTINGS, RECORD, REFERENCE, READING], "NO,2,1\n"),
        ([REFERENCE, SETTINGS, RECORD, READING], "NO,11,1\n"),
        ([REFERENCE, RECORD, REFERENCE, READING], "NO,14,0\n"),
        ([REFERENCE, RECORD, RECORD, READING], "NO,14,0\n"),
        ([REFERENCE, RECORD, READING, SETTINGS], "NO,14,0\n"),
    ] {
        assert_refused("alerts", &texts, output);
    }
    // The last line of what it prints has as many fields as each before it.
    let printed = run("alerts", &[REFERENCE, RECORD, SETTINGS, READING]);
    let printed = String::from_utf8(printed).expect("an output in ASCII");
    let texts = [REFERENCE, RECORD, &printed, READING];
    assert_refused("alerts", &texts, "NO,14,0\n");
}

/// Of settings that bring readings, or a text behind an empty line, nothing is taken.
#[test]
fn texts_embedded_in_the_settings_are_refused() {
    for embedded in [READING, RECORD, REFERENCE, "\n", "\n1,1\n"] {
        let settings = format!("{SETTINGS}{embedded}");
        let texts = [REFERENCE, RECORD, &settings, READING];
        assert_refused("alerts", &texts, "NO,14,0\n");
    }
}

#[test]
fn the_same_file_twice_is_refused_in_the_second_place() {
    let folder = Folder::new();
    let files = folder.write_texts(&[REFERENCE, RECORD, READING]);
    let [reference, record, readings] = [&files[0], &files[1], &files[2]];
    for way in WAYS {
        let refused = |name, files: &[&std::path::PathBuf], output| {
            way.assert_answer(&way.run(name, files), name, output);
        };
        refused("verify", &[reference, reference], "NO,11,1\n");
        refused("panel", &[reference, reference], "NO,11,1\n");
        refused("verify", &[record, record], "NO,2,1\n");
        refused("judge", &[reference, reference, readings], "NO,11,1\n");
        refused("judge", &[reference, reference, reference], "NO,11,1\n");
        refused("judge", &[record, record, record], "NO,2,1\n");
    }
    // Each line of a record is a reading that is not in form.
    for way in WAYS {
        let ended = way.run("judge", &[reference, record, record]);
        way.assert_answer(&ended, "judge", "NO,3,1\n".repeat(5));
    }
}

/// Settings as the readings are readings that are not in form.
#[test]
fn the_same_file_twice_among_the_texts_of_alerts() {
    let folder = Folder::new();
    let files = folder.write_texts(&[REFERENCE, RECORD, SETTINGS, READING]);
    let [reference, record, settings, readings] = [&files[0], &files[1], &files[2], &files[3]];
    for (files, output) in [
        ([reference, reference, settings, readings], "NO,11,1\n"),
        ([record, record, settings, readings], "NO,2,1\n"),
        ([settings, settings, settings, settings], "NO,2,1\n"),
        ([reference, settings, settings, readings], "NO,11,1\n"),
        ([reference, record, record, readings], "NO,14,0\n"),
        ([reference, record, readings, readings], "NO,14,0\n"),
        (
            [reference, record, settings, settings],
            "1,1,0,0\n2,3,0,0\n2,0,0,2\n",
        ),
        (
            [reference, record, settings, record],
            "1,1,0,0\n2,3,0,0\n5,0,0,5\n",
        ),
    ] {
        for way in WAYS {
            way.assert_answer(&way.run("alerts", &files), "alerts", output);
        }
    }
}
