//! The alert trials that document 02 and the list of bad input name, as calls and as runs of the program,
//! with the answers that the rules give, written down by hand.

use crate::known_programs::{KnownInput, REFERENCE};
use crate::known_readings;
use crate::known_records::RECORD;
use crate::programs::Program;
use crate::readings::EnvelopeFigures;
use crate::reference::TEXT_LIMIT;
use crate::rules::Refusal;

/// A trial by name, what is lent to the call, and the answer.
#[derive(Clone, Debug)]
pub struct KnownTrial {
    pub name: &'static str,
    pub figures: EnvelopeFigures,
    /// k, c, k, c and so on.
    pub settings: Vec<u32>,
    pub readings: Vec<u8>,
    pub outcome: Result<Vec<u8>, Refusal>,
}

/// The readings of document 01's record of which these letters say what each is: `A` Alarm, `Q` Quiet; of
/// those turned back `f` has a form, `t` a tag and `r` a value that is refused, `e` is an empty line.
pub fn readings(letters: &str) -> String {
    let line = |letter| match letter {
        'A' => "A,TOC,7,CND,0\n",
        'Q' => "Q,TOC,3,CND,4\n",
        'f' => "F,TOC,03,CND,4\n",
        't' => "T,TOC,3,PH,4\n",
        'r' => "R,TOC,2001,CND,4\n",
        _ => "\n",
    };
    letters.chars().map(line).collect()
}

fn trial(name: &'static str, settings: &[u32], readings: &str, output: &str) -> KnownTrial {
    KnownTrial {
        name,
        figures: known_readings::record(),
        settings: settings.to_vec(),
        readings: readings.into(),
        outcome: Ok(output.into()),
    }
}

/// The readings by their letters.
fn said(name: &'static str, settings: &[u32], letters: &str, output: &str) -> KnownTrial {
    trial(name, settings, &readings(letters), output)
}

fn refused(name: &'static str, settings: &[u32], readings: &str, number: u32) -> KnownTrial {
    KnownTrial {
        outcome: Err(Refusal { number, line: 0 }),
        ..trial(name, settings, readings, "")
    }
}

/// With 9 channels.
fn outside_figures(known: KnownTrial) -> KnownTrial {
    KnownTrial {
        figures: EnvelopeFigures {
            n: 9,
            ..known.figures
        },
        ..known
    }
}

/// Alarms and Quiets in runs, with several settings.
pub fn examples() -> Vec<KnownTrial> {
    let six = "6,3,3,0\n";
    vec![
        said("k_2_c_2", &[2, 2], "AAQAQQ", &format!("2,2,1,4\n{six}")),
        said("k_1_c_1", &[1, 1], "AAQAQQ", &format!("1,1,2,3\n{six}")),
        said("k_1_c_2", &[1, 2], "AAQAQQ", &format!("1,2,1,5\n{six}")),
        said("k_2_c_1", &[2, 1], "AAQAQQ", &format!("2,1,1,1\n{six}")),
        said("k_3_c_3", &[3, 3], "AAQAQQ", &format!("3,3,0,0\n{six}")),
        said(
            "several",
            &[2, 2, 1, 1, 3, 3],
            "AAQAQQ",
            &format!("2,2,1,4\n1,1,2,3\n3,3,0,0\n{six}"),
        ),
        said(
            "equal",
            &[2, 2, 2, 2, 1, 1, 2, 2],
            "AAQAQQ",
            &format!("2,2,1,4\n2,2,1,4\n1,1,2,3\n2,2,1,4\n{six}"),
        ),
        said("one_alarm", &[1, 1], "A", "1,1,1,1\n1,1,0,0\n"),
        said("one_quiet", &[1, 1], "Q", "1,1,0,0\n1,0,1,0\n"),
        said("raised_twice", &[2, 2], "AAQQAA", "2,2,2,3\n6,4,2,0\n"),
        said("never_cleared", &[2, 3], "AAQQAQQ", "2,3,1,6\n7,3,4,0\n"),
        said("raised_once_of_5", &[2, 2], "AAAAA", "2,2,1,4\n5,5,0,0\n"),
        said("quiet_breaks", &[3, 1], "AAQAAQA", "3,1,0,0\n7,5,2,0\n"),
    ]
}

/// Readings that are turned back break no run, and are counted apart.
pub fn turned_back() -> Vec<KnownTrial> {
    let piece = readings("AA").trim_end().to_string();
    vec![
        said("between_alarms", &[2, 1], "AfA", "2,1,1,1\n3,2,0,1\n"),
        said(
            "each_between_alarms",
            &[2, 1],
            "AftreA",
            "2,1,1,1\n6,2,0,4\n",
        ),
        said("between_quiets", &[1, 2], "AQtQA", "1,2,2,3\n5,2,2,1\n"),
        said("under_an_alert", &[1, 1], "ArrrQ", "1,1,1,1\n5,1,1,3\n"),
        said("behind_an_alert", &[1, 1], "Aee", "1,1,1,1\n3,1,0,2\n"),
        said("alone", &[1, 1], "ftre", "1,1,0,0\n4,0,0,4\n"),
        said("empty_line_alone", &[1, 1], "e", "1,1,0,0\n1,0,0,1\n"),
        said("empty_lines_first", &[1, 1], "eeA", "1,1,1,1\n3,1,0,2\n"),
        trial("without_end", &[1, 1], &piece, "1,1,1,1\n2,1,0,1\n"),
        trial(
            "piece_alone",
            &[1, 1],
            "A,TOC,7,CND,0",
            "1,1,0,0\n1,0,0,1\n",
        ),
        trial("byte_0_alone", &[1, 1], "\0", "1,1,0,0\n1,0,0,1\n"),
        trial(
            "carriage_returns",
            &[1, 1],
            &readings("AQA").replace('\n', "\r\n"),
            "1,1,0,0\n3,0,0,3\n",
        ),
    ]
}

/// Runs of 98 to 100 verdicts.
pub fn longest_runs() -> Vec<KnownTrial> {
    let run = |letter: &str, count| readings(&letter.repeat(count));
    let alarms = |name, count, output| trial(name, &[99, 1], &run("A", count), output);
    let quiets = |name, count, output| {
        let readings = readings("A") + &run("Q", count) + &readings("A");
        trial(name, &[1, 99], &readings, output)
    };
    let broken = run("A", 98) + &readings("Q") + &run("A", 98);
    let joined = run("A", 98) + &readings("e") + &run("A", 98);
    vec![
        alarms("alarms_98", 98, "99,1,0,0\n98,98,0,0\n"),
        alarms("alarms_99", 99, "99,1,1,1\n99,99,0,0\n"),
        alarms("alarms_100", 100, "99,1,1,2\n100,100,0,0\n"),
        quiets("quiets_98", 98, "1,99,1,100\n100,2,98,0\n"),
        quiets("quiets_99", 99, "1,99,2,100\n101,2,99,0\n"),
        quiets("quiets_100", 100, "1,99,2,100\n102,2,100,0\n"),
        trial("broken", &[99, 1], &broken, "99,1,0,0\n197,196,1,0\n"),
        trial("joined", &[99, 1], &joined, "99,1,1,98\n197,196,0,1\n"),
    ]
}

/// The list of settings at its limits and outside them.
pub fn settings() -> Vec<KnownTrial> {
    let alarm = readings("A");
    let taken = |name, settings: &[u32], line: &str| {
        trial(name, settings, &alarm, &format!("{line}1,1,0,0\n"))
    };
    let faulty = |name, settings: &[u32]| refused(name, settings, &alarm, 14);
    let behind_19 = |setting: [u32; 2]| [&[1; 38][..], &setting].concat();
    vec![
        taken("k_1", &[1, 50], "1,50,1,1\n"),
        taken("c_1", &[50, 1], "50,1,0,0\n"),
        taken("k_99", &[99, 50], "99,50,0,0\n"),
        taken("c_99", &[50, 99], "50,99,0,0\n"),
        taken("settings_20", &[1; 40], &"1,1,1,1\n".repeat(20)),
        faulty("k_0", &[0, 1]),
        faulty("c_0", &[1, 0]),
        faulty("k_100", &[100, 1]),
        faulty("c_100", &[1, 100]),
        faulty("k_257", &[257, 1]),
        faulty("c_65537", &[1, 65_537]),
        faulty("k_most", &[u32::MAX, 1]),
        faulty("c_most", &[1, u32::MAX]),
        faulty("setting_20_k_0", &behind_19([0, 1])),
        faulty("setting_20_c_100", &behind_19([1, 100])),
        faulty("no_setting", &[]),
        faulty("settings_21", &[1; 42]),
        faulty("settings_1000", &[1; 2_000]),
        faulty("one_number", &[1]),
        faulty("three_numbers", &[1; 3]),
        faulty("numbers_39", &[1; 39]),
        faulty("numbers_41", &[1; 41]),
    ]
}

/// Readings of no byte, of as many as there may be, and of one more.
pub fn lengths() -> Vec<KnownTrial> {
    let (one, settings) = (readings("A").len(), [1, 1, 99, 99]);
    let lines = TEXT_LIMIT / one;
    assert_eq!((one, lines, TEXT_LIMIT % one), (14, 4_681, 2));
    let cut = readings(&"A".repeat(lines)) + "A,";
    let whole = format!("A-{}", readings(&"A".repeat(lines)));
    let alternating = readings(&"AQ".repeat(lines / 2)) + &readings("A") + "\n\n";
    let of_alarms = "1,1,1,4681\n99,99,1,4583\n";
    let [empty, more_empty] = [TEXT_LIMIT, TEXT_LIMIT + 1].map(|count| "\n".repeat(count));
    vec![
        refused("bytes_0", &settings, "", 1),
        trial("bytes_1", &settings, "A", "1,1,0,0\n99,99,0,0\n1,0,0,1\n"),
        trial(
            "bytes_65536",
            &settings,
            &cut,
            &format!("{of_alarms}4682,4681,0,1\n"),
        ),
        refused("bytes_65537", &settings, &format!("{cut}1"), 1),
        trial(
            "whole_lines_65536",
            &settings,
            &whole,
            &format!("{of_alarms}4681,4681,0,0\n"),
        ),
        refused("whole_lines_65537", &settings, &format!("\n{whole}"), 1),
        trial(
            "alternating_65536",
            &settings,
            &alternating,
            "1,1,2341,2341\n99,99,0,0\n4683,2341,2340,2\n",
        ),
        trial(
            "empty_lines_65536",
            &settings,
            &empty,
            "1,1,0,0\n99,99,0,0\n65536,0,0,65536\n",
        ),
        refused("empty_lines_65537", &settings, &more_empty, 1),
        refused("bytes_70000", &settings, &"\n".repeat(70_000), 1),
    ]
}

/// Two faults and more at once: 8, then 14, then 1.
pub fn orders() -> Vec<KnownTrial> {
    let (alarm, longer) = (readings("A"), "\n".repeat(TEXT_LIMIT + 1));
    let outside = |name, settings: &[u32], readings: &str| {
        outside_figures(refused(name, settings, readings, 8))
    };
    vec![
        outside("figures_alone", &[1, 1], &alarm),
        outside("figures_and_k_0", &[0, 1], &alarm),
        outside("figures_and_c_100", &[1, 100], &alarm),
        outside("figures_and_no_setting", &[], &alarm),
        outside("figures_and_odd_list", &[1; 3], &alarm),
        outside("figures_and_settings_21", &[1; 42], &alarm),
        outside("figures_and_no_readings", &[1, 1], ""),
        outside("figures_and_long_readings", &[1, 1], &longer),
        outside("figures_and_both", &[0, 1], ""),
        refused("k_0_and_no_readings", &[0, 1], "", 14),
        refused("no_setting_and_no_readings", &[], "", 14),
        refused("odd_list_and_no_readings", &[1], "", 14),
        refused("settings_21_and_no_readings", &[1; 42], "", 14),
        refused("c_100_and_long_readings", &[1, 100], &longer, 14),
        refused("odd_list_and_long_readings", &[1; 41], &longer, 14),
    ]
}

pub fn all() -> Vec<KnownTrial> {
    [
        examples(),
        turned_back(),
        longest_runs(),
        settings(),
        lengths(),
        orders(),
    ]
    .concat()
}

/// The four texts of the program.
fn run(name: &'static str, texts: [&str; 4], output: &str) -> KnownInput {
    KnownInput {
        name,
        runs: vec![(Program::Alerts, texts.map(Vec::from).into())],
        output: output.into(),
    }
}

/// Settings and readings of document 01's record.
fn printed(name: &'static str, settings: &str, readings: &str, output: &str) -> KnownInput {
    run(name, [REFERENCE, RECORD, settings, readings], output)
}

/// Texts of settings with what is printed of six readings.
pub fn program_settings() -> Vec<KnownInput> {
    let six = readings("AAQAQQ");
    let taken = |name, settings: &str, lines: &str| {
        printed(name, settings, &six, &format!("{lines}6,3,3,0\n"))
    };
    vec![
        taken("one_setting", "2,2\n", "2,2,1,4\n"),
        taken(
            "three_settings",
            "1,1\n2,2\n3,3\n",
            "1,1,2,3\n2,2,1,4\n3,3,0,0\n",
        ),
        taken("equal_settings", "2,2\n2,2\n", "2,2,1,4\n2,2,1,4\n"),
        taken("settings_20", &"2,2\n".repeat(20), &"2,2,1,4\n".repeat(20)),
        taken("k_1", "1,2\n", "1,2,1,5\n"),
        taken("c_1", "2,1\n", "2,1,1,1\n"),
        taken("k_99", "99,2\n", "99,2,0,0\n"),
        taken("c_99", "2,99\n", "2,99,1,5\n"),
        taken("k_10", "10,2\n", "10,2,0,0\n"),
    ]
}

/// Every fault of the text of settings is 14 at line 0.
pub fn program_settings_refused() -> Vec<KnownInput> {
    let six = readings("AAQAQQ");
    let faulty = |name, settings: &str| printed(name, settings, &six, "NO,14,0\n");
    let of_length = |length: usize| {
        let mut text = "1,1\n".repeat(length / 4 + 1);
        text.truncate(length);
        text
    };
    vec![
        faulty("no_byte", ""),
        faulty("line_end_alone", "\n"),
        faulty("k_0", "0,1\n"),
        faulty("c_0", "1,0\n"),
        faulty("k_100", "100,1\n"),
        faulty("c_100", "1,100\n"),
        faulty("second_k_100", "1,1\n100,1\n"),
        faulty("settings_21", &"1,1\n".repeat(21)),
        faulty("leading_0", "01,1\n"),
        faulty("leading_0_of_c", "1,01\n"),
        faulty("three_numbers", "1,1,1\n"),
        faulty("one_number", "1\n"),
        faulty("comma_behind", "1,1,\n"),
        faulty("comma_alone", ",\n"),
        faulty("without_end", "1,1"),
        faulty("last_without_end", "1,1\n2,2"),
        faulty("carriage_return", "1,1\r\n"),
        faulty("blank_before", " 1,1\n"),
        faulty("blank_behind", "1,1 \n"),
        faulty("blank_within", "1, 1\n"),
        faulty("plus", "+1,1\n"),
        faulty("minus", "-1,1\n"),
        faulty("minus_of_c", "1,-1\n"),
        faulty("point", "1.0,1\n"),
        faulty("semicolon", "1;1\n"),
        faulty("letter", "a,1\n"),
        faulty("byte_0", "1,1\0\n"),
        faulty("byte_order_mark", "\u{feff}1,1\n"),
        faulty("empty_line_first", "\n1,1\n"),
        faulty("empty_line_within", "1,1\n\n2,2\n"),
        faulty("empty_line_last", "1,1\n\n"),
        faulty("in_8_bits", "257,1\n"),
        faulty("in_16_bits", "65537,1\n"),
        faulty("in_32_bits", "4294967297,1\n"),
        faulty("in_64_bits", "18446744073709551617,1\n"),
        faulty("bytes_65536", &of_length(TEXT_LIMIT)),
        faulty("bytes_65537", &of_length(TEXT_LIMIT + 1)),
        faulty("bytes_70000", &of_length(70_000)),
        faulty("megabytes", &of_length(3 << 20)),
        faulty("length_wrapped", &of_length(4 + (48 << 16))),
    ]
}

/// What is printed of readings, each line one.
pub fn program_readings() -> Vec<KnownInput> {
    let said = |name, letters: &str, output| printed(name, "2,2\n", &readings(letters), output);
    let lengths = lengths();
    let of_length = |name, own: &str| {
        let known = lengths.iter().find(|known| known.name == own);
        let known = known.expect("a known trial");
        let text = std::str::from_utf8(&known.readings).expect("a text");
        let output = match &known.outcome {
            Ok(output) => String::from_utf8(output.clone()).expect("a text"),
            Err(Refusal { number, line }) => format!("NO,{number},{line}\n"),
        };
        printed(name, "1,1\n99,99\n", text, &output)
    };
    let piece = readings("AA").trim_end().to_string();
    vec![
        said("turned_back_between", "AftreA", "2,2,1,1\n6,2,0,4\n"),
        said("turned_back_under_an_alert", "AAfQQ", "2,2,1,2\n5,2,2,1\n"),
        said("empty_line_alone", "e", "2,2,0,0\n1,0,0,1\n"),
        said("empty_lines", "eAeAe", "2,2,1,1\n5,2,0,3\n"),
        printed("without_end", "1,1\n", &piece, "1,1,1,1\n2,1,0,1\n"),
        printed("piece_alone", "1,1\n", "A", "1,1,0,0\n1,0,0,1\n"),
        printed("no_byte", "1,1\n", "", "NO,1,0\n"),
        of_length("bytes_65536", "bytes_65536"),
        of_length("bytes_65537", "bytes_65537"),
        of_length("bytes_70000", "bytes_70000"),
        of_length("whole_lines_65536", "whole_lines_65536"),
        of_length("alternating_65536", "alternating_65536"),
        of_length("empty_lines_65536", "empty_lines_65536"),
        of_length("empty_lines_65537", "empty_lines_65537"),
        printed("megabytes", "1,1\n", &"\n".repeat(3 << 20), "NO,1,0\n"),
    ]
}

/// Of several refused texts the first is told: reference text, record, settings, readings.
pub fn program_orders() -> Vec<KnownInput> {
    let (heading, form, faulty) = ("REF,9\n", "ENV,9\n", "0,1\n");
    let disagrees = RECORD.replace(",S", ",B");
    let one = readings("A");
    let longer = "\n".repeat(TEXT_LIMIT + 1);
    vec![
        run("reference", [heading, RECORD, "1,1\n", &one], "NO,2,1\n"),
        run("record", [REFERENCE, form, "1,1\n", &one], "NO,11,1\n"),
        run("no_record", [REFERENCE, "", "1,1\n", &one], "NO,1,0\n"),
        run(
            "disagreement",
            [REFERENCE, &disagrees, "1,1\n", &one],
            "NO,12,0\n",
        ),
        run(
            "reference_and_record",
            [heading, form, "1,1\n", &one],
            "NO,2,1\n",
        ),
        run(
            "reference_and_settings",
            [heading, RECORD, faulty, &one],
            "NO,2,1\n",
        ),
        run(
            "record_and_settings",
            [REFERENCE, form, faulty, &one],
            "NO,11,1\n",
        ),
        run(
            "record_and_no_settings",
            [REFERENCE, form, "", &one],
            "NO,11,1\n",
        ),
        run(
            "no_record_and_settings",
            [REFERENCE, "", faulty, &one],
            "NO,1,0\n",
        ),
        run(
            "disagreement_and_settings",
            [REFERENCE, &disagrees, faulty, &one],
            "NO,12,0\n",
        ),
        run(
            "record_and_readings",
            [REFERENCE, form, "1,1\n", ""],
            "NO,11,1\n",
        ),
        printed("settings_and_no_readings", faulty, "", "NO,14,0\n"),
        printed("settings_and_long_readings", faulty, &longer, "NO,14,0\n"),
        printed("no_settings_and_no_readings", "", "", "NO,14,0\n"),
        printed("long_settings_and_no_readings", &longer, "", "NO,14,0\n"),
        run("every_text", [heading, form, faulty, ""], "NO,2,1\n"),
        run("nothing_at_all", [""; 4], "NO,1,0\n"),
        run(
            "settings_and_readings_exchanged",
            [REFERENCE, RECORD, &one, "1,1\n"],
            "NO,14,0\n",
        ),
        run(
            "record_and_settings_exchanged",
            [REFERENCE, "1,1\n", RECORD, &one],
            "NO,11,1\n",
        ),
        printed(
            "settings_as_readings",
            "1,1\n",
            "1,1\n",
            "1,1,0,0\n1,0,0,1\n",
        ),
        printed("readings_as_settings", &one, &one, "NO,14,0\n"),
    ]
}

pub fn programs() -> Vec<KnownInput> {
    [
        program_settings(),
        program_settings_refused(),
        program_readings(),
        program_orders(),
    ]
    .concat()
}
