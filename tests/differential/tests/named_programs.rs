//! Texts of the programs that document 01 names, of every refusal, at every edge of a text, in the
//! place of another and of several megabytes, each by a test of its own.

use cundarivo::programs::{self as product, Call};
use differential::compare_program::{Run, behind};
use differential::named;
use outside::known_alerts;
use outside::known_programs::{self, KnownInput, REFERENCE};
use outside::known_records::RECORD;
use outside::programs::{PROGRAMS, Program, TextKind, Texts};
use outside::random::Random;
use outside::reference::TEXT_LIMIT;
use outside::sets::{self, Shape};
use outside::texts::Draft;

/// A reading of the centre of document 01's record.
const READING: &[u8] = b"LOOP-1,TOC,3,CND,4\n";

/// The product prints what is written down, in every buffer that is long enough, and is refused by 13
/// in shorter ones.
fn holds(list: Vec<KnownInput>, name: &str) {
    let known = list.into_iter().find(|known| known.name == name);
    let known = known.expect("a known input");
    let random = &mut Random::new(81);
    assert!(!known.runs.is_empty());
    for (program, texts) in known.runs {
        let run = Run::new(program, &texts);
        assert!(run.output == known.output, "the outside implementation");
        let length = run.output.len();
        for places in [length, length + 1, length + 40] {
            assert_eq!(run.compare(random, places), 0, "{}", run.shown());
        }
        for places in [0, 1, length - 1] {
            assert_eq!(run.compare(random, places), 13, "{}", run.shown());
        }
        run.compare_wrapper();
    }
}

named!(examples, outside::known_programs::examples:
    draw_record draw_rows_0_10 draw_one_row draw_rows_5_5 verify_record verify_budget_1
    verify_one_row panel_record panel_budget_1 panel_one_row judge_record plain_record plain_below_5
    alerts_record
);

named!(rewritings, outside::known_programs::rewritings:
    zero toc_2000 negative rows_256 tag_twice label_of_12_bytes label_ref label_no below_1 below_2
    below_50 below_51 below_1999 below_2000 below_among_values ends_of_every_range longest
);

named!(halves, outside::known_programs::halves:
    half minus_half minus_one_and_a_half zero highest
);

named!(reference_refusals, outside::known_programs::reference_refusals:
    nothing one_byte heading heading_without_end form row_without_end range label_twice no_row
    row_257 line_of_byte_13 line_of_a_blank
);

named!(reference_empty_lines, outside::known_programs::reference_empty_lines:
    alone nine_alone first behind_heading within twice_within last behind_heading_alone as_row_256
    as_row_257
);

named!(record_refusals, outside::known_programs::record_refusals:
    nothing one_byte form_1 form_2 form_3 form_5 without_end line_of_byte_13 letter tags row_4
    of_other_rows
);

named!(record_empty_lines, outside::known_programs::record_empty_lines:
    alone first within before_weights last then_reading reading_without_it
);

named!(embedded, outside::known_programs::embedded:
    record_in_reference record_and_readings_in_reference readings_in_reference
    own_record_in_reference reference_in_reference record_behind_empty_line_first
    record_without_empty_line readings_in_record record_in_record reference_in_record
);

named!(strangers_balls, outside::known_programs::strangers_balls:
    wide honest wide_record_of_honest_rows honest_record_of_wide_rows
);

named!(exchanged, outside::known_programs::exchanged:
    record_and_reference readings_and_record readings_and_reference each_one_back each_one_on
    reference_twice record_twice reference_as_readings record_as_readings readings_twice
    reference_three_times readings_three_times
);

named!(several_refused, outside::known_programs::several_refused:
    both_headings heading_then_no_record no_reference_then_form nothing_at_all
    form_then_no_readings no_record_then_form disagreement_then_no_readings
);

named!(lengths, outside::known_programs::lengths:
    reference_65536 reference_65537 reference_65536_without_end reference_of_empty_lines_65536
    reference_of_empty_lines_65537 record_65536 record_65537 record_of_empty_lines_65536
    record_of_empty_lines_65537 both_65536 both_65537 heading_then_65537 form_then_65537
);

named!(verdicts, outside::known_programs::verdicts:
    at_the_edge inside below_detection outside farthest tag range form every_verdict
    each_row budget_1
);

named!(readings_below_detection, outside::known_programs::readings_below_detection:
    edges quiet_as_0 alarm_as_0
);

named!(rows_below_detection, outside::known_programs::rows_below_detection:
    drawn verified shown judged tried written
);

named!(drawn_as_0, outside::known_programs::drawn_as_0:
    drawn_as_0_and_kept drawn_as_0_and_kept_beside_another drawn_as_0_and_refused
    drawn_as_0_and_refused_for_a_row_outside
);

named!(drawn_anew, outside::known_programs::drawn_anew:
    drawn_as_0_and_kept drawn_as_0_and_kept_beside_another drawn_as_0_and_refused
    drawn_as_0_and_refused_for_a_row_outside
);

named!(kept_record, outside::known_programs::kept_record: shown judged tried written);

named!(reading_lines, outside::known_programs::reading_lines:
    nothing two_lines empty_line_alone empty_line_first empty_lines_first empty_lines_within
    empty_line_last piece_alone piece_last piece_of_one_byte byte_13 byte_0
);

named!(reading_lengths, outside::known_programs::reading_lengths:
    bytes_65536 bytes_65537 whole_lines_65536 whole_lines_65537 one_line_65536 one_line_65537
    empty_lines_65536 empty_lines_65537
);

named!(large, outside::known_programs::large:
    reference reference_of_rows reference_of_empty_lines record record_of_empty_lines
    heading_before_record readings readings_of_empty_lines form_before_readings every_text
    reference_length_wrapped record_length_wrapped readings_length_wrapped
);

named!(alert_settings, outside::known_alerts::program_settings:
    one_setting three_settings equal_settings settings_20 k_1 c_1 k_99 c_99 k_10
);

named!(alert_settings_refused, outside::known_alerts::program_settings_refused:
    no_byte line_end_alone k_0 c_0 k_100 c_100 second_k_100 settings_21 leading_0 leading_0_of_c
    three_numbers one_number comma_behind comma_alone without_end last_without_end carriage_return
    blank_before blank_behind blank_within plus minus minus_of_c point semicolon letter byte_0
    byte_order_mark empty_line_first empty_line_within empty_line_last in_8_bits in_16_bits in_32_bits
    in_64_bits bytes_65536 bytes_65537 bytes_70000 megabytes length_wrapped
);

named!(alert_readings, outside::known_alerts::program_readings:
    turned_back_between turned_back_under_an_alert empty_line_alone empty_lines without_end piece_alone
    no_byte bytes_65536 bytes_65537 bytes_70000 whole_lines_65536 alternating_65536 empty_lines_65536
    empty_lines_65537 megabytes
);

named!(alert_orders, outside::known_alerts::program_orders:
    reference record no_record disagreement reference_and_record reference_and_settings
    record_and_settings record_and_no_settings no_record_and_settings disagreement_and_settings
    record_and_readings settings_and_no_readings settings_and_long_readings
    no_settings_and_no_readings long_settings_and_no_readings every_text nothing_at_all
    settings_and_readings_exchanged record_and_settings_exchanged settings_as_readings
    readings_as_settings
);

/// An output that fits and one that does not, in numbers.
#[test]
fn answers_in_numbers() {
    let call = Call::Verify {
        reference: b"",
        record: b"",
    };
    let run = |places: usize| {
        let mut output = *b".........";
        let answer = call.answer(&mut output[..places]);
        (answer.number, answer.line, answer.length, output)
    };
    assert_eq!(run(0), (13, 0, 0, *b"........."));
    assert_eq!(run(6), (13, 0, 0, *b"........."));
    assert_eq!(run(7), (0, 0, 7, *b"NO,1,0\n.."));
    assert_eq!(run(9), (0, 0, 7, *b"NO,1,0\n.."));
}

/// Drawings that are not Settled by the last of 10,000 moves, and those that are.
#[test]
fn drawings_of_many_moves() {
    let random = &mut Random::new(85);
    let (mut settled, mut budget) = (0, 0);
    while budget < 8 {
        let set = sets::set(random, Shape::Sphere, 12, 3);
        let reference = Draft::of_set(random, &set).bytes();
        let run = Run::new(Program::Draw, &[reference]);
        assert_eq!(run.compare(random, run.output.len()), 0);
        let output = String::from_utf8(run.output).expect("a text");
        budget += u32::from(output.contains(",10000,B\n"));
        settled += u32::from(output.contains(",S\n"));
    }
    assert!(settled > 8, "{settled}");
}

/// Every output of the examples in buffers of every length from none to one more than its own, and of
/// those around the room that is enough for every output.
#[test]
fn every_length_of_output() {
    let random = &mut Random::new(82);
    let (mut short, mut enough) = (0, 0);
    for (program, texts) in examples_of_each() {
        let run = Run::new(program, &texts);
        let length = run.output.len();
        let enough_for_all = product::OUTPUT_BYTES - 1..=product::OUTPUT_BYTES + 1;
        for places in (0..=length + 1).chain(enough_for_all) {
            let number = run.compare(random, places);
            assert_eq!(number == 13, places < length, "{}", run.shown());
            short += u32::from(number == 13);
            enough += u32::from(number == 0);
        }
    }
    assert!(short > 200 && enough > 20, "{short}, {enough}");
}

fn examples_of_each() -> Vec<(Program, Texts)> {
    let examples = [known_programs::examples(), known_programs::verdicts()].concat();
    let runs: Vec<_> = examples.into_iter().flat_map(|known| known.runs).collect();
    for program in PROGRAMS {
        assert!(runs.iter().any(|&(own, _)| own == program));
    }
    runs
}

/// The texts with one of them replaced.
fn with_text(texts: &[Vec<u8>], place: usize, text: &[u8]) -> Texts {
    let mut changed = texts.to_vec();
    changed[place] = text.to_vec();
    changed
}

/// Every text cut off at each of its bytes, and lengthened by a byte.
#[test]
fn every_length_of_a_text() {
    let random = &mut Random::new(83);
    let mut compared = 0;
    for (program, texts) in examples_of_each() {
        for (place, text) in texts.iter().enumerate() {
            let cut = (0..=text.len()).map(|length| text[..length].to_vec());
            let longer = (0..=u8::MAX).map(|byte| [&text[..], &[byte]].concat());
            for changed in cut.chain(longer) {
                let run = Run::new(program, &with_text(&texts, place, &changed));
                assert_eq!(run.compare(random, run.output.len()), 0);
                compared += 1;
            }
        }
    }
    assert!(compared > 10_000, "{compared}");
}

/// What lies behind each text in memory would change the output, however much of it were read; of
/// settings, whose every fault is told alike, as many whole lines as were read.
#[test]
fn what_lies_behind_a_text_would_change_the_output() {
    let mut tried = 0;
    let examples = known_programs::examples().into_iter();
    for (program, texts) in examples.flat_map(|known| known.runs) {
        for (place, text) in texts.iter().enumerate() {
            let kind = program.kinds()[place];
            let behind = behind(kind);
            let settings = kind == TextKind::Settings;
            let first = if settings { text.len() - 1 } else { 0 };
            let counts = (1..=behind.len()).filter(|&end| !settings || behind[end - 1] == b'\n');
            for end in [first, text.len() - 1, text.len()] {
                let texts = with_text(&texts, place, &text[..end]);
                let output = program.run(&texts);
                for count in counts.clone() {
                    let longer = [&text[..end], &behind[..count]].concat();
                    let other = program.run(&with_text(&texts, place, &longer));
                    assert_ne!(output, other, "{program:?}, text {place}, {count} bytes");
                    tried += 1;
                }
            }
        }
    }
    assert!(tried > 800, "{tried}");
}

/// Texts that lie one behind another in memory are told apart by their lengths alone.
#[test]
fn texts_beside_each_other() {
    let block = [REFERENCE.as_bytes(), RECORD.as_bytes(), READING].concat();
    let (reference, rest) = block.split_at(REFERENCE.len());
    let (record, readings) = rest.split_at(RECORD.len());
    assert_eq!(product::draw(reference), RECORD.as_bytes());
    assert_eq!(product::verify(reference, record), b"OK\n");
    assert_eq!(product::panel(reference, record), b"TOC,3\nCND,4\n");
    assert_eq!(product::judge(reference, record, readings), b"QUIET\n");
    assert_eq!(product::plain(reference), REFERENCE.as_bytes());
    let trial = product::alerts(reference, record, b"1,1\n", readings);
    assert_eq!(trial, b"1,1,0,0\n1,0,1,0\n");
}

/// The same memory lent for several texts.
#[test]
fn the_same_memory_twice() {
    let (reference, record) = (REFERENCE.as_bytes(), RECORD.as_bytes());
    assert_eq!(product::verify(reference, reference), b"NO,11,1\n");
    assert_eq!(product::panel(record, record), b"NO,2,1\n");
    let refused = b"NO,3,1\n";
    assert_eq!(product::judge(reference, record, record), refused.repeat(5));
    assert_eq!(
        product::judge(reference, record, reference),
        refused.repeat(4)
    );
    let settings = b"1,1\n";
    let trial = product::alerts(reference, record, settings, settings);
    assert_eq!(trial, b"1,1,0,0\n1,0,0,1\n");
}

/// What follows the first 65,537 bytes of a text changes no output.
#[test]
fn what_follows_the_limit_changes_nothing() {
    let random = &mut Random::new(84);
    let mut cut = [0; 4];
    for (program, texts) in [known_programs::large(), known_alerts::programs()]
        .concat()
        .into_iter()
        .flat_map(|known| known.runs)
    {
        let output = program.run(&texts);
        for place in 0..texts.len() {
            if let Some(first) = texts[place].get(..TEXT_LIMIT + 1) {
                let run = Run::new(program, &with_text(&texts, place, first));
                assert_eq!(run.output, output, "{}", run.shown());
                assert_eq!(run.compare(random, output.len()), 0);
                cut[place] += 1;
            }
        }
    }
    assert!(cut.iter().all(|&count| count >= 3), "{cut:?}");
}

/// The longest text that `plain` prints fits exactly into the room that is said to be enough for it.
#[test]
fn the_longest_text_written_anew() {
    let known = known_programs::rewritings().into_iter();
    let longest = known.max_by_key(|known| known.output.len());
    let longest = longest.expect("a known input");
    assert_eq!(longest.output.len(), cundarivo::REFERENCE_BYTES);
    let (program, texts) = &longest.runs[0];
    let run = Run::new(*program, texts);
    let random = &mut Random::new(87);
    assert_eq!(run.compare(random, cundarivo::REFERENCE_BYTES), 0);
    assert_eq!(run.compare(random, cundarivo::REFERENCE_BYTES - 1), 13);
}

/// The longest output fits into the room that is said to be enough.
#[test]
fn the_longest_output() {
    let known = known_programs::reading_lengths().into_iter();
    let runs = known.flat_map(|known| known.runs);
    let runs = runs.map(|(program, texts)| Run::new(program, &texts));
    let longest = runs.max_by_key(|run| run.output.len());
    let longest = longest.expect("a known input");
    assert_eq!(longest.output.len(), 7 * TEXT_LIMIT);
    let number = longest.compare(&mut Random::new(86), product::OUTPUT_BYTES);
    assert_eq!(number, 0);
}
