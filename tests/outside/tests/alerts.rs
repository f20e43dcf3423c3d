//! The outside implementation of alert trials held to outcomes that were written down, to another form
//! of the rule, and to what follows from it.

use outside::alert_trials::{self, Edge};
use outside::alerts::{
    self, ALERT_SETTINGS, Alerts, RUN_LIMIT, SETTING_LIMIT, Said, Setting, TRIAL_BYTES,
};
use outside::known_alerts;
use outside::known_programs::REFERENCE;
use outside::known_readings;
use outside::known_records::RECORD;
use outside::programs;
use outside::random::Random;
use outside::readings::{self, Verdict};
use outside::reference::{TEXT_LENGTH, TEXT_LIMIT};
use outside::rules::{BUFFER_TOO_SHORT, OUTSIDE_LIMITS, Refusal};
use outside::settings_texts::{self, SettingsDamage};
use std::collections::BTreeSet;

const QUIET: &str = "A,TOC,3,CND,4\n";
const ALARM: &str = "A,TOC,7,CND,0\n";

/// What is said of readings: `A` Alarm, `Q` Quiet, `x` turned back.
fn said(letters: &str) -> Vec<Said> {
    let said = |letter| match letter {
        'A' => Said::Alarm,
        'Q' => Said::Quiet,
        _ => Said::TurnedBack,
    };
    letters.chars().map(said).collect()
}

fn setting(k: u32, c: u32) -> Setting {
    Setting::new(k, c).expect("numbers within the limits")
}

/// Alerts raised and readings passed.
fn counts(letters: &str, k: u32, c: u32) -> (usize, usize) {
    let Alerts { raised, passed } = alerts::alerts(&said(letters), setting(k, c));
    (raised, passed)
}

/// What is printed of the readings of document 01's record.
fn tried(settings: &[u32], readings: &str) -> String {
    let output = alerts::try_settings(&known_readings::record(), settings, readings.as_bytes());
    String::from_utf8(output.expect("an accepted call")).expect("a text")
}

#[test]
fn known_trials_hold() {
    let list = known_alerts::all();
    assert!(list.len() >= 75, "{}", list.len());
    for known in list {
        let outcome = alerts::try_settings(&known.figures, &known.settings, &known.readings);
        let shown = outcome
            .as_ref()
            .map(|output| output.escape_ascii().to_string());
        assert!(outcome == known.outcome, "{}: {shown:?}", known.name);
    }
}

#[test]
fn the_example() {
    assert_eq!(counts("AAQAQQ", 2, 2), (1, 4));
    let stands = [false, false, true, true, true, true, false];
    assert_eq!(alerts::standing(&said("AAQAQQ"), setting(2, 2)), stands);
}

#[test]
fn k_1_and_c_1() {
    assert_eq!(counts("AAQAQQ", 1, 1), (2, 3));
    assert_eq!(counts("QQAQA", 1, 1), (2, 2));
    assert_eq!(counts("", 1, 1), (0, 0));
    assert_eq!(counts("A", 1, 1), (1, 1));
    assert_eq!(counts("Q", 1, 1), (0, 0));
}

/// A Quiet breaks a run of Alarms, and an Alarm one of Quiets.
#[test]
fn other_verdicts_break_runs() {
    assert_eq!(counts("AAQA", 3, 1), (0, 0));
    assert_eq!(counts("AAQAA", 3, 9), (0, 0));
    assert_eq!(counts("AAQAAA", 3, 9), (1, 1));
    assert_eq!(counts("AQQAQQ", 1, 3), (1, 6));
    assert_eq!(counts("AQQAQQQ", 1, 3), (1, 6));
    assert_eq!(counts("AQQAQQQA", 1, 3), (2, 7));
}

/// The run that raised an alert raises none again before another that is as long.
#[test]
fn longer_runs_raise_once() {
    assert_eq!(counts("AAAAAA", 2, 2), (1, 5));
    assert_eq!(counts("AAQQAAQQ", 2, 2), (2, 4));
    assert_eq!(counts("AAQAAQAA", 2, 2), (1, 7));
    assert_eq!(counts("AAQQAQQAA", 2, 2), (2, 3));
}

#[test]
fn k_99() {
    for (alarms, raised, passed) in [(98, 0, 0), (99, 1, 1), (100, 1, 2), (200, 1, 102)] {
        assert_eq!(counts(&"A".repeat(alarms), 99, 1), (raised, passed));
    }
    let broken = format!("{}Q{}", "A".repeat(98), "A".repeat(98));
    assert_eq!(counts(&broken, 99, 1), (0, 0));
    assert_eq!(counts(&format!("{broken}A"), 99, 1), (1, 1));
}

#[test]
fn c_99() {
    for (quiet, passed) in [(0, 1), (98, 99), (99, 99), (100, 99)] {
        let letters = format!("A{}", "Q".repeat(quiet));
        assert_eq!(counts(&letters, 1, 99), (1, passed));
        let raised = 1 + usize::from(quiet > 98);
        assert_eq!(counts(&format!("{letters}A"), 1, 99), (raised, passed + 1));
    }
}

/// A reading turned back breaks no run and is not among those passed.
#[test]
fn turned_back_between_verdicts() {
    assert_eq!(counts("AxA", 2, 2), (1, 1));
    assert_eq!(counts("xAxxAx", 2, 2), (1, 1));
    assert_eq!(counts("AAxQxxQxA", 2, 2), (1, 2));
    assert_eq!(counts("AAxQAxQxQ", 2, 2), (1, 4));
    assert_eq!(counts("xxx", 1, 1), (0, 0));
}

#[test]
fn what_is_printed() {
    let settings = [setting(2, 2), setting(1, 1), setting(2, 2), setting(99, 99)];
    let printed = alerts::print(&said("AAxQAQQx"), &settings);
    assert_eq!(printed, b"2,2,1,4\n1,1,2,3\n2,2,1,4\n99,99,0,0\n8,3,3,2\n");
}

/// Each line is a reading, an empty one and a last piece without byte 10 too: both are turned back.
#[test]
fn lines_of_readings() {
    let without_end = ALARM.trim_end();
    assert_eq!(tried(&[1, 1], ALARM), "1,1,1,1\n1,1,0,0\n");
    assert_eq!(tried(&[1, 1], QUIET), "1,1,0,0\n1,0,1,0\n");
    assert_eq!(tried(&[1, 1], without_end), "1,1,0,0\n1,0,0,1\n");
    assert_eq!(tried(&[1, 1], "\n"), "1,1,0,0\n1,0,0,1\n");
    assert_eq!(tried(&[1, 1], "\0"), "1,1,0,0\n1,0,0,1\n");
    let broken = format!("{ALARM}\n\n{ALARM}\n{without_end}");
    assert_eq!(tried(&[2, 1, 3, 1], &broken), "2,1,1,1\n3,1,0,0\n6,2,0,4\n");
    let refused = "a,TOC,3,CND,4\nA,TOC,3,PH,4\nA,TOC,2001,CND,4\n";
    let all = format!("{ALARM}{refused}{ALARM}{QUIET}{refused}");
    assert_eq!(tried(&[2, 1, 2, 2], &all), "2,1,1,1\n2,2,1,2\n9,2,1,6\n");
}

/// The two longest lines, one of a setting and one of the readings: 18 and 24 bytes.
#[test]
fn the_longest_lines() {
    let longest = [setting(99, 99); SETTING_LIMIT];
    let alarms = vec![Said::Alarm; TEXT_LIMIT];
    assert!(alerts::print(&alarms, &longest).len() <= TRIAL_BYTES);
    assert_eq!("99,99,65536,65536\n".len(), 18);
    assert_eq!("65536,65536,65536,65536\n".len(), 24);
    assert_eq!(TRIAL_BYTES, 384);
}

fn refusal(settings: &[u32], readings: &[u8]) -> Option<Refusal> {
    alerts::try_settings(&known_readings::record(), settings, readings).err()
}

#[test]
fn numbers_of_settings() {
    for accepted in [1, 2, 98, 99] {
        assert_eq!(refusal(&[accepted, 1], b"\n"), None);
        assert_eq!(refusal(&[1, accepted], b"\n"), None);
    }
    for refused in [0, 100, 255, 256, 257, 65_537, u32::MAX, u32::MAX - 98] {
        for settings in [[refused, 1], [1, refused], [refused; 2]] {
            assert_eq!(refusal(&settings, b"\n"), Some(ALERT_SETTINGS));
            let behind = [&[1; 38][..], &settings].concat();
            assert_eq!(refusal(&behind, b"\n"), Some(ALERT_SETTINGS));
        }
    }
}

#[test]
fn counts_of_settings() {
    for count in 0..=60 {
        let accepted = count > 0 && count <= 40 && count % 2 == 0;
        let owed = (!accepted).then_some(ALERT_SETTINGS);
        assert_eq!(refusal(&vec![1; count], b"\n"), owed, "{count}");
    }
}

#[test]
fn lengths_of_readings() {
    let longest = vec![b'\n'; TEXT_LIMIT];
    let output = tried(&[1, 1], std::str::from_utf8(&longest).expect("a text"));
    assert_eq!(output, "1,1,0,0\n65536,0,0,65536\n");
    assert_eq!(refusal(&[1, 1], b""), Some(TEXT_LENGTH));
    let longer = vec![b'\n'; TEXT_LIMIT + 1];
    assert_eq!(refusal(&[1, 1], &longer), Some(TEXT_LENGTH));
}

/// 8, then 14, then 1, then 13; refused, the output is as it was.
#[test]
fn order_of_refusals() {
    let mut figures = known_readings::record();
    let call = |figures: &_, settings: &[u32], readings: &[u8], places: usize| {
        let mut output = [b'.'; 20];
        let lent = &mut output[..places];
        let answer = alerts::try_settings_into(figures, settings, readings, lent);
        (answer, output)
    };
    let untouched = [b'.'; 20];
    let quiet = QUIET.as_bytes();
    let answer = call(&figures, &[1, 1], quiet, 16);
    assert_eq!(answer, (Ok(16), *b"1,1,0,0\n1,0,1,0\n...."));
    let short = (Err(BUFFER_TOO_SHORT), untouched);
    assert_eq!(call(&figures, &[1, 1], quiet, 15), short);
    assert_eq!(call(&figures, &[1, 1], quiet, 0), short);
    let empty = (Err(TEXT_LENGTH), untouched);
    assert_eq!(call(&figures, &[1, 1], b"", 0), empty);
    let settings = (Err(ALERT_SETTINGS), untouched);
    assert_eq!(call(&figures, &[1, 1, 1], b"", 0), settings);
    assert_eq!(call(&figures, &[], b"", 20), settings);
    assert_eq!(call(&figures, &[1, 100], quiet, 20), settings);
    figures.n = 9;
    let outside = (Err(OUTSIDE_LIMITS), untouched);
    assert_eq!(call(&figures, &[], b"", 0), outside);
    assert_eq!(call(&figures, &[1, 1], quiet, 20), outside);
}

#[test]
fn texts_of_settings() {
    let read = |text: &str| alerts::read_settings(text.as_bytes());
    assert_eq!(read("2,3\n"), Ok(vec![setting(2, 3)]));
    let three = vec![setting(1, 99), setting(99, 1), setting(1, 99)];
    assert_eq!(read("1,99\n99,1\n1,99\n"), Ok(three));
    let all = [10, 11, 19, 20, 90, 98].map(|number| setting(number, 100 - number));
    assert_eq!(
        read("10,90\n11,89\n19,81\n20,80\n90,10\n98,2\n"),
        Ok(all.into())
    );
    assert_eq!(read(&"7,7\n".repeat(20)), Ok(vec![setting(7, 7); 20]));
    let refused = [
        "",
        "\n",
        "1,1",
        "1,1\n1,1",
        "1,1\n\n",
        "\n1,1\n",
        "1\n",
        "1,\n",
        ",1\n",
        ",\n",
        "1,1,1\n",
        "1,1,\n",
        ",1,1\n",
        "01,1\n",
        "1,01\n",
        "00,1\n",
        "0,1\n",
        "1,0\n",
        "100,1\n",
        "1,100\n",
        "1000,1\n",
        "+1,1\n",
        "1,+1\n",
        "-1,1\n",
        "1,-1\n",
        " 1,1\n",
        "1 ,1\n",
        "1, 1\n",
        "1,1 \n",
        "1,1\r\n",
        "1,1\r",
        "\u{feff}1,1\n",
        "1;1\n",
        "1.0,1\n",
        "a,1\n",
        "1,1\0\n",
        "1\t,1\n",
        "18446744073709551617,1\n",
        "4294967297,1\n",
        "257,1\n",
        "1,1\n1,0\n",
        "0x1,1\n",
        "1e1,1\n",
    ];
    for text in refused {
        assert_eq!(read(text), Err(ALERT_SETTINGS), "{text:?}");
    }
    assert_eq!(read(&"7,7\n".repeat(21)), Err(ALERT_SETTINGS));
    assert_eq!(read(&"7,7\n".repeat(16_385)), Err(ALERT_SETTINGS));
}

/// Every two fields of at most three digits.
#[test]
fn every_number_of_three_digits() {
    let mut accepted = 0;
    for number in 0..1_000 {
        for field in [
            format!("{number}"),
            format!("{number:02}"),
            format!("{number:03}"),
        ] {
            let own = number.to_string() == field && (1..=99).contains(&number);
            for (text, k, c) in [
                (format!("{field},5\n"), number, 5),
                (format!("5,{field}\n"), 5, number),
            ] {
                let read = alerts::read_settings(text.as_bytes());
                let owed = own.then(|| vec![setting(k, c)]);
                assert_eq!(read, owed.ok_or(ALERT_SETTINGS), "{text}");
                accepted += u32::from(own);
            }
        }
    }
    assert_eq!(accepted, 2 * (9 + 90 + 90));
}

#[test]
fn settings_printed_and_read() {
    for k in 1..=RUN_LIMIT {
        for c in 1..=RUN_LIMIT {
            let text = alerts::print_settings(&[setting(c, k), setting(k, c)]);
            let read = alerts::read_settings(&text);
            assert_eq!(read, Ok(vec![setting(c, k), setting(k, c)]));
            assert_eq!(alerts::flat(&read.expect("settings")), [c, k, k, c]);
        }
    }
}

/// The texts in order: reference text, record, settings, readings.
#[test]
fn the_program() {
    let print = |reference: &str, record: &str, settings: &str, readings: &str| {
        let texts = [reference, record, settings, readings].map(str::as_bytes);
        let output = programs::alerts(texts[0], texts[1], texts[2], texts[3]);
        String::from_utf8(output).expect("a text")
    };
    let readings = format!("{ALARM}{ALARM}{QUIET}{ALARM}{QUIET}{QUIET}");
    let printed = print(REFERENCE, RECORD, "2,2\n1,1\n", &readings);
    assert_eq!(printed, "2,2,1,4\n1,1,2,3\n6,3,3,0\n");
    assert_eq!(print(REFERENCE, RECORD, "2,2\n", ""), "NO,1,0\n");
    assert_eq!(print(REFERENCE, RECORD, "2,2", ""), "NO,14,0\n");
    assert_eq!(print(REFERENCE, RECORD, "", &readings), "NO,14,0\n");
    assert_eq!(print(REFERENCE, "ENV,9\n", "", ""), "NO,11,1\n");
    assert_eq!(print(REFERENCE, "", "", ""), "NO,1,0\n");
    assert_eq!(print("REF,9\n", "", "", ""), "NO,2,1\n");
    let above = "1,1\n".repeat(16_385);
    assert!(above.len() > TEXT_LIMIT);
    assert_eq!(print(REFERENCE, RECORD, &above, ""), "NO,14,0\n");
}

/// Whether an alert stands, walking back from the end to the longest prefix whose ending says it.
fn walked_back(verdicts: &[Said], Setting { k, c }: Setting) -> bool {
    let prefixes = (1..=verdicts.len()).rev().map(|length| &verdicts[..length]);
    let says = |prefix: &[Said]| {
        let raises = alerts::ends_in(prefix, Said::Alarm, k);
        let clears = alerts::ends_in(prefix, Said::Quiet, c);
        assert!(!(raises && clears));
        (raises || clears).then_some(raises)
    };
    prefixes.filter_map(says).next().unwrap_or(false)
}

/// The same with a counter for each run.
fn counted(verdicts: &[Said], Setting { k, c }: Setting) -> Alerts {
    let (mut alarms, mut quiet, mut stands) = (0, 0, false);
    let (mut raised, mut passed) = (0, 0);
    for verdict in verdicts {
        match verdict {
            Said::Alarm => (alarms, quiet) = (alarms + 1, 0),
            Said::Quiet => (alarms, quiet) = (0, quiet + 1),
            Said::TurnedBack => continue,
        }
        if !stands && alarms >= k {
            (stands, raised) = (true, raised + 1);
        }
        stands &= quiet < c;
        passed += usize::from(stands);
    }
    Alerts { raised, passed }
}

/// Every list of at most ten verdicts, with every k and c up to 4.
#[test]
fn every_short_list() {
    let mut met = 0;
    for length in 0..=10 {
        for bits in 0..1_u32 << length {
            let verdict = |place: u32| match bits >> place & 1 {
                1 => Said::Alarm,
                _ => Said::Quiet,
            };
            let verdicts: Vec<Said> = (0..length).map(verdict).collect();
            for (k, c) in (1..=4).flat_map(|k| (1..=4).map(move |c| (k, c))) {
                let setting = setting(k, c);
                let prefixes = (0..=verdicts.len()).map(|length| &verdicts[..length]);
                let stands: Vec<bool> = prefixes
                    .map(|prefix| walked_back(prefix, setting))
                    .collect();
                assert_eq!(alerts::standing(&verdicts, setting), stands);
                let alerts = alerts::alerts(&verdicts, setting);
                assert_eq!(alerts, counted(&verdicts, setting));
                met += 1;
            }
        }
    }
    assert_eq!(met, 16 * 2_047);
}

/// What is said of so many readings, in runs of the same.
fn in_runs(random: &mut Random, count: usize) -> Vec<Said> {
    let mut list = Vec::new();
    while list.len() < count {
        let said = random.pick(&[Said::Alarm, Said::Quiet, Said::TurnedBack]);
        let most = random.pick(&[1, 2, 3, 5, 120]);
        list.extend(vec![said; 1 + random.index(most)]);
    }
    list
}

/// Readings that are turned back change no setting's line; the runs bound the alerts.
#[test]
fn what_follows_for_every_list() {
    let random = &mut Random::new(91);
    let (mut raised, mut long) = (0, 0);
    for _ in 0..3_000 {
        let count = random.pick(&[3, 30, 300]);
        let said = in_runs(random, count);
        let verdicts: Vec<Said> = said
            .iter()
            .copied()
            .filter(|&said| said != Said::TurnedBack)
            .collect();
        let most = random.pick(&[4, RUN_LIMIT]);
        let number = |random: &mut Random| 1 + random.below(most.into()) as u32;
        let setting = setting(number(random), number(random));
        let alerts = alerts::alerts(&said, setting);
        assert_eq!(alerts, alerts::alerts(&verdicts, setting));
        assert_eq!(alerts, counted(&said, setting));
        let last = *alerts::standing(&verdicts, setting)
            .last()
            .expect("a prefix");
        assert_eq!(last, walked_back(&verdicts, setting));
        let count = |own| verdicts.iter().filter(|&&said| said == own).count();
        assert!(alerts.raised * setting.k as usize <= count(Said::Alarm));
        let cleared = alerts.raised.saturating_sub(1);
        assert!(cleared * setting.c as usize <= count(Said::Quiet));
        assert!(alerts.raised <= alerts.passed && alerts.passed <= verdicts.len());
        raised += u32::from(alerts.raised > 1);
        long += u32::from(alerts.raised > 0 && setting.k > 50);
    }
    assert!(raised > 300 && long > 50, "{raised}, {long}");
}

/// The readings of an edge have the verdicts by which they are kept.
#[test]
fn readings_at_an_edge() {
    let random = &mut Random::new(92);
    let (mut edges, mut close) = (0, 0);
    for _ in 0..500 {
        let edge = Edge::new(random);
        for line in &edge.quiets {
            let verdict = readings::judge(&edge.figures, line);
            assert_eq!(verdict, Ok(Verdict::Quiet));
        }
        for line in &edge.alarms {
            let verdict = readings::judge(&edge.figures, line);
            let Ok(Verdict::Alarm { excess }) = verdict else {
                panic!("{verdict:?}");
            };
            close += u32::from(excess == 1);
        }
        edges += 1;
    }
    assert!(edges == 500 && close > 20, "{close}");
}

/// Seeded trials are refused as they were made to be, in every combination of faults.
#[test]
fn seeded_trials() {
    let random = &mut Random::new(93);
    let mut met: BTreeSet<Vec<u32>> = BTreeSet::new();
    let mut kinds: BTreeSet<String> = BTreeSet::new();
    for _ in 0..1_500 {
        for call in alert_trials::some(random) {
            let outcome = alerts::try_settings(&call.figures, &call.settings, &call.readings);
            assert!(call.allows(&outcome), "{:?}, {outcome:?}", call.faults);
            if let Ok(output) = outcome {
                assert!(output.len() <= TRIAL_BYTES);
            }
            met.insert(call.faults);
            kinds.extend(call.kinds);
        }
    }
    assert_eq!(met.len(), 8, "{met:?}");
    let owed: BTreeSet<String> = alert_trials::kinds().into_iter().collect();
    assert_eq!(kinds, owed);
}

/// Whole texts of settings are read as they were made; every damage of their own is refused.
#[test]
fn seeded_texts_of_settings() {
    let random = &mut Random::new(94);
    for _ in 0..2_000 {
        let settings = settings_texts::settings(random);
        let text = alerts::print_settings(&settings);
        assert_eq!(alerts::read_settings(&text), Ok(settings));
    }
    for kind in settings_texts::damages() {
        let refused = (0..200).filter(|_| {
            let mut text = settings_texts::whole(random);
            settings_texts::damage(random, &mut text, kind);
            alerts::read_settings(&text).is_err()
        });
        let count = refused.count();
        let own = !matches!(kind, SettingsDamage::Bytes(_));
        assert!(!own || count == 200, "{kind:?}: {count}");
    }
}
