//! The outside implementation of the programs held to outputs that were written down, and to what
//! the rules say of every text.

use outside::drawn_as_0::{self, in_each_place};
use outside::known_programs;
use outside::known_records::RECORD;
use outside::program_inputs::{self, Source};
use outside::programs::{self, PROGRAMS, Program, Texts};
use outside::random::Random;
use outside::reading_texts;
use outside::records::TypedRows;
use outside::reference::{self, TEXT_LIMIT};
use outside::reference_writing::LabelledRows;
use outside::rules::{CHANNEL_LIMIT, ROW_LIMIT};
use outside::texts::Draft;
use std::collections::BTreeSet;

#[test]
fn known_inputs_hold() {
    let list = known_programs::all();
    assert!(list.len() >= 225, "{}", list.len());
    for known in list {
        for (program, texts) in known.runs {
            let output = program.run(&texts);
            let shown = output[..output.len().min(200)].escape_ascii();
            let name = known.name;
            assert!(output == known.output, "{program:?}, {name}: {shown}");
        }
    }
}

/// Document 01: the drawing program prints the record of its reference text.
#[test]
fn the_record_of_document_01() {
    let reference = b"REF,2,TOC,CND\nA,0,0\nB,6,0\nC,0,8\n";
    let record = RECORD.as_bytes();
    assert_eq!(programs::draw(reference), record);
    assert_eq!(programs::verify(reference, record), b"OK\n");
    assert_eq!(programs::panel(reference, record), b"TOC,3\nCND,4\n");
    let readings = b"A,TOC,3,CND,9\nA,TOC,3,CND,10\n";
    let verdicts = programs::judge(reference, record, readings);
    assert_eq!(verdicts, b"QUIET\nALARM,47244640256\n");
}

#[test]
fn known_inputs_reach_every_refusal() {
    for program in PROGRAMS {
        let own = known_programs::all().into_iter();
        let own = own.filter(|known| known.runs.iter().any(|&(runs, _)| runs == program));
        let reached: BTreeSet<u32> = own
            .flat_map(|known| programs::refusals_in(&known.output))
            .collect();
        assert!(reached.iter().eq(program.refusals()), "{reached:?}");
    }
}

/// Values below detection are written as the numbers that they read as.
#[test]
fn a_text_with_values_below_detection() {
    let reference = b"REF,2,TOC,CND\nA,<3,<1\nBC,6,<4000\n";
    let plain = b"REF,2,TOC,CND\nA,1,0\nBC,6,2000\n";
    assert_eq!(programs::plain(reference), plain);
    assert_eq!(programs::plain(plain), plain);
}

/// `plain` prints a text without `<` as it is, and of any text one with the same rows, types and labels,
/// which it prints as it is.
#[test]
fn plain_texts_read_as_the_same_rows() {
    let random = &mut Random::new(78);
    let (mut own, mut other, mut refused) = (0, 0, 0);
    for _ in 0..20_000 {
        let (texts, _) = Source::new(random).changed(random, Program::Plain);
        let output = programs::plain(&texts[0]);
        let Ok(read) = reference::read(&texts[0]) else {
            assert_eq!(output, programs::draw(&texts[0]));
            refused += 1;
            continue;
        };
        let again = reference::read(&output).expect("a written text");
        let rows = LabelledRows::read(&read, &texts[0]);
        assert_eq!(LabelledRows::read(&again, &output), rows);
        assert_eq!(programs::plain(&output), output);
        assert_eq!(output == texts[0], !texts[0].contains(&b'<'));
        own += u32::from(output == texts[0]);
        other += u32::from(output != texts[0]);
    }
    let least = [own, other, refused].into_iter().min();
    assert!(least > Some(500), "{own}, {other}, {refused}");
}

/// A text whose values below detection are all `<1` has the record of that with 0 in their places.
#[test]
fn below_1_is_drawn_as_0() {
    let random = &mut Random::new(20_260_303);
    let mut compared = 0;
    for _ in 0..4_000 {
        let (m, n) = (1 + random.index(8), 1 + random.index(CHANNEL_LIMIT));
        let text = Draft::new(random, m, n).bytes();
        let [ones, zeros] = [&b"<1"[..], b"0"].map(|field| in_each_place(&text, field));
        let record = programs::draw(&ones);
        assert!(record.starts_with(b"ENV,"), "{}", ones.escape_ascii());
        assert_eq!(record, programs::draw(&zeros), "{}", ones.escape_ascii());
        compared += u32::from(ones != zeros);
    }
    assert!(compared > 3_000, "{compared}");
}

/// A record drawn while values below detection read as 0 is kept or refused by 12, and by nothing else. Of
/// a few texts that keep theirs another record is drawn.
#[test]
fn records_drawn_as_0_are_kept_or_refused() {
    let random = &mut Random::new(20_260_304);
    let (mut own, mut other, mut refused) = (0, 0, 0);
    for _ in 0..4_000 {
        let (m, n) = (1 + random.index(8), 1 + random.index(3));
        let text = Draft::new(random, m, n).bytes();
        let zeros = in_each_place(&text, b"0");
        let record = programs::draw(&zeros);
        let drawn = programs::draw(&text);
        match &programs::verify(&text, &record)[..] {
            b"OK\n" if zeros == text => assert_eq!(record, drawn),
            b"OK\n" if record == drawn => own += 1,
            b"OK\n" => other += 1,
            answer => {
                assert_eq!(answer, b"NO,12,0\n", "{}", text.escape_ascii());
                refused += 1;
            }
        }
    }
    let enough = own > 500 && other > 20 && refused > 1_500;
    assert!(enough, "{own}, {other}, {refused}");
}

/// The known records drawn as 0 are those of their texts with 0 in the place of each value below detection.
#[test]
fn known_records_drawn_as_0() {
    for redrawn in drawn_as_0::all() {
        let text = redrawn.reference.as_bytes();
        let zeros = in_each_place(text, b"0");
        assert_ne!(zeros, text, "{}", redrawn.name);
        let name = redrawn.name;
        assert_eq!(
            programs::draw(&zeros),
            redrawn.drawn_as_0.as_bytes(),
            "{name}"
        );
        let rows = TypedRows::read(&reference::read(text).expect("a text within the rules"));
        assert_eq!(rows, redrawn.rows, "{name}");
    }
}

/// Whole texts are accepted, but for single readings.
#[test]
fn whole_texts_are_accepted() {
    let random = &mut Random::new(71);
    let (mut quiet, mut alarms) = (0, 0);
    for _ in 0..2_000 {
        let source = Source::new(random);
        let texts = source.whole(random, Program::Judge);
        let [reference, record, readings] = &texts[..] else {
            panic!("{} texts", texts.len());
        };
        assert!(programs::draw(reference).starts_with(b"ENV,"));
        assert_eq!(programs::verify(reference, record), b"OK\n");
        let shown = programs::panel(reference, record);
        assert_eq!(lines(&shown), source.reference.types.len());
        let output = programs::judge(reference, record, readings);
        let output = String::from_utf8(output).expect("a text");
        quiet += output.matches("QUIET\n").count();
        alarms += output.matches("ALARM,").count();
    }
    assert!(quiet > 1_000 && alarms > 1_000, "{quiet}, {alarms}");
}

fn lines(text: &[u8]) -> usize {
    text.split_inclusive(|&byte| byte == b'\n').count()
}

/// The changed texts of a program reach every refusal that can occur and every change.
#[test]
fn changed_texts_reach_every_refusal() {
    let random = &mut Random::new(72);
    for program in PROGRAMS {
        let mut reached = BTreeSet::new();
        let mut changes = BTreeSet::new();
        for _ in 0..10_000 {
            let source = Source::new(random);
            let (texts, kinds) = source.changed(random, program);
            reached.extend(programs::refusals_in(&program.run(&texts)));
            changes.extend(kinds.into_iter().map(|change| format!("{change:?}")));
        }
        assert!(reached.iter().eq(program.refusals()), "{reached:?}");
        let owed = program_inputs::changes(program);
        assert_eq!(changes.len(), owed.len(), "{program:?}: {changes:?}");
    }
}

/// Known texts of every program, and seeded ones with changes.
fn any_texts(random: &mut Random) -> Vec<(Program, Texts)> {
    let known = known_programs::all().into_iter();
    let mut runs: Vec<(Program, Texts)> = known.flat_map(|known| known.runs).collect();
    for program in PROGRAMS {
        for _ in 0..1_000 {
            let source = Source::new(random);
            runs.push((program, source.changed(random, program).0));
        }
    }
    runs
}

/// What follows the first 65,537 bytes of a text changes no output.
#[test]
fn what_follows_the_limit_changes_nothing() {
    let mut cut = [0; 4];
    for (program, texts) in any_texts(&mut Random::new(73)) {
        let output = program.run(&texts);
        for text in 0..texts.len() {
            if texts[text].len() > TEXT_LIMIT + 1 {
                let mut first = texts.clone();
                first[text].truncate(TEXT_LIMIT + 1);
                assert!(program.run(&first) == output, "{program:?}, {text}");
                cut[text] += 1;
            }
        }
    }
    assert!(cut.iter().all(|&count| count >= 12), "{cut:?}");
}

/// Every program turns a reference text back as `draw` does, whatever the other texts are.
#[test]
fn a_reference_text_is_refused_for_itself() {
    let mut refused = 0;
    for (program, texts) in any_texts(&mut Random::new(75)) {
        let drawn = programs::draw(&texts[0]);
        if drawn.starts_with(b"NO,") {
            assert_eq!(program.run(&texts), drawn, "{program:?}");
            refused += 1;
        }
    }
    assert!(refused > 1_000, "{refused}");
}

/// `judge` and `panel` turn a record back as `verify` does, whatever the readings are.
#[test]
fn a_record_is_refused_for_itself() {
    let mut refused = 0;
    for (program, texts) in any_texts(&mut Random::new(76)) {
        if let [reference, record, ..] = &texts[..] {
            let verified = programs::verify(reference, record);
            if verified != b"OK\n" {
                assert_eq!(program.run(&texts), verified, "{program:?}");
                refused += 1;
            }
        }
    }
    assert!(refused > 1_000, "{refused}");
}

/// An empty line is a fault of any reference text and of any record, with or without a text behind
/// it.
#[test]
fn an_empty_line_is_refused() {
    let random = &mut Random::new(77);
    for _ in 0..2_000 {
        let source = Source::new(random);
        let [reference, record] = [source.reference.bytes(), source.enveloped.text()];
        let readings = reading_texts::of_rows(&source.reference).concat();
        let line = lines(&reference) + 1;
        let number = if line > ROW_LIMIT + 1 { 6 } else { 3 };
        let of_reference = format!("NO,{number},{line}\n").into_bytes();
        let of_record = format!("NO,11,{}\n", lines(&record) + 1).into_bytes();
        for behind in [&b""[..], &record, &readings] {
            let embedding = [&reference[..], behind].join(&b'\n');
            assert_eq!(programs::draw(&embedding), of_reference);
            let verdicts = programs::judge(&embedding, &record, &readings);
            assert_eq!(verdicts, of_reference);
            let embedding = [&record[..], behind].join(&b'\n');
            let verdicts = programs::judge(&reference, &embedding, &readings);
            assert_eq!(verdicts, of_record);
        }
    }
}

/// An output of `judge` has one line for each reading, and at most 7 bytes for each of theirs.
#[test]
fn a_line_for_each_reading() {
    let random = &mut Random::new(74);
    let mut judged = 0;
    for _ in 0..3_000 {
        let texts = Source::new(random).whole(random, Program::Judge);
        let readings = &texts[2];
        if (1..=TEXT_LIMIT).contains(&readings.len()) {
            let output = Program::Judge.run(&texts);
            assert_eq!(lines(&output), lines(readings));
            assert!(output.len() <= 7 * readings.len());
            judged += lines(readings);
        }
    }
    assert!(judged > 8_000, "{judged}");
}
