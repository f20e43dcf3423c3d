//! Alert trials that document 02 names, of every refusal and at every edge, each by a test of its own.

use differential::compare_trial::Trial;
use differential::named;
use differential::product::given;
use outside::alerts::TRIAL_BYTES;
use outside::envelopes::{self, FIGURE_FAULTS};
use outside::known_alerts::{self, KnownTrial};
use outside::known_readings;
use outside::random::Random;

/// The product gives the answer that is written down: in every output that is long enough; in shorter ones
/// 13, after every other refusal.
fn holds(list: Vec<KnownTrial>, name: &str) {
    let known = list.into_iter().find(|known| known.name == name);
    let known = known.expect("a known trial");
    let trial = Trial::new(&known.figures, &known.settings, &known.readings);
    assert_eq!(trial.outcome, known.outcome, "the outside implementation");
    let random = &mut Random::new(101);
    let refusal = known.outcome.as_ref().err();
    let number = refusal.map_or(0, |refusal| refusal.number);
    let length = trial.length();
    for places in [length, length + 1, length + 40, TRIAL_BYTES] {
        assert_eq!(trial.compare(random, places), number, "{}", trial.shown());
    }
    for places in [0, 1, length.saturating_sub(1)] {
        let number = if refusal.is_none() { 13 } else { number };
        assert_eq!(trial.compare(random, places), number, "{}", trial.shown());
    }
    let even = known.settings.len() % 2 == 0;
    assert_eq!(trial.compare_wrapper(), even, "{}", trial.shown());
    if refusal.is_none() {
        trial.compare_verdicts();
    }
}

named!(examples, outside::known_alerts::examples:
    k_2_c_2 k_1_c_1 k_1_c_2 k_2_c_1 k_3_c_3 several equal one_alarm one_quiet raised_twice never_cleared
    raised_once_of_5 quiet_breaks
);

named!(turned_back, outside::known_alerts::turned_back:
    between_alarms each_between_alarms between_quiets under_an_alert behind_an_alert alone
    empty_line_alone empty_lines_first without_end piece_alone byte_0_alone carriage_returns
);

named!(longest_runs, outside::known_alerts::longest_runs:
    alarms_98 alarms_99 alarms_100 quiets_98 quiets_99 quiets_100 broken joined
);

named!(settings, outside::known_alerts::settings:
    k_1 c_1 k_99 c_99 settings_20 k_0 c_0 k_100 c_100 k_257 c_65537 k_most c_most setting_20_k_0
    setting_20_c_100 no_setting settings_21 settings_1000 one_number three_numbers numbers_39 numbers_41
);

named!(lengths, outside::known_alerts::lengths:
    bytes_0 bytes_1 bytes_65536 bytes_65537 whole_lines_65536 whole_lines_65537 alternating_65536
    empty_lines_65536 empty_lines_65537 bytes_70000
);

named!(orders, outside::known_alerts::orders:
    figures_alone figures_and_k_0 figures_and_c_100 figures_and_no_setting figures_and_odd_list
    figures_and_settings_21 figures_and_no_readings figures_and_long_readings figures_and_both
    k_0_and_no_readings no_setting_and_no_readings odd_list_and_no_readings settings_21_and_no_readings
    c_100_and_long_readings odd_list_and_long_readings
);

/// Every figure outside its limits is refused by 8, whatever else is refused besides.
#[test]
fn figures_outside_come_first() {
    let random = &mut Random::new(102);
    let alarm = known_alerts::readings("A");
    for fault in FIGURE_FAULTS {
        let mut figures = known_readings::record();
        envelopes::put(random, &mut figures, fault, 1);
        for settings in [&[1, 1][..], &[0, 1], &[1], &[]] {
            for readings in [alarm.as_bytes(), b""] {
                let trial = Trial::new(&figures, settings, readings);
                for places in [0, TRIAL_BYTES] {
                    assert_eq!(trial.compare(random, places), 8, "{fault:?}");
                }
            }
        }
    }
}

/// Every length of the output from none to one more than is filled.
#[test]
fn every_length_of_output() {
    let random = &mut Random::new(103);
    let (mut short, mut enough) = (0, 0);
    for known in [known_alerts::examples(), known_alerts::turned_back()].concat() {
        let trial = Trial::new(&known.figures, &known.settings, &known.readings);
        for places in 0..=trial.length() + 1 {
            let number = trial.compare(random, places);
            assert_eq!(number == 13, places < trial.length(), "{}", trial.shown());
            short += u32::from(number == 13);
            enough += u32::from(number == 0);
        }
    }
    assert!(short > 400 && enough == 50, "{short}, {enough}");
}

/// Every length of a list of settings, of numbers within their limits.
#[test]
fn every_length_of_settings() {
    let random = &mut Random::new(104);
    let readings = known_alerts::readings("AAQAQQ");
    for count in 0..=100 {
        let trial = Trial::new(
            &known_readings::record(),
            &vec![2; count],
            readings.as_bytes(),
        );
        let accepted = (1..=40).contains(&count) && count % 2 == 0;
        let number = trial.compare(random, TRIAL_BYTES);
        assert_eq!(number, if accepted { 0 } else { 14 }, "{count}");
    }
}

/// The room that is said to be enough is that of the longest lines, and the limits are those of the rules.
#[test]
fn limits_of_the_wrapper() {
    assert_eq!(cundarivo::TRIAL_BYTES, TRIAL_BYTES);
    assert_eq!(cundarivo::PROGRAM_ALERTS_BYTES, TRIAL_BYTES);
    assert_eq!(cundarivo::SETTINGS, outside::alerts::SETTING_LIMIT);
    assert_eq!(cundarivo::RUN_MOST, outside::alerts::RUN_LIMIT);
}

/// An accepted trial and a refused one, in numbers.
#[test]
fn answers_in_numbers() {
    let figures = known_readings::record();
    let tried = |settings: &[u32], places: usize| {
        let mut output = *b"....................";
        let answer = cundarivo::try_settings_into(
            given(&figures),
            &figures.types,
            &figures.scaled_centre,
            settings,
            b"A,TOC,7,CND,0\nA,TOC,3,CND,4\nA,TOC,7,CND,0",
            &mut output[..places],
        );
        (answer.number, answer.line, answer.length, output)
    };
    assert_eq!(tried(&[1, 1], 16), (0, 0, 16, *b"1,1,1,1\n3,1,1,1\n...."));
    assert_eq!(tried(&[1, 2], 20), (0, 0, 16, *b"1,2,1,2\n3,1,1,1\n...."));
    assert_eq!(tried(&[1, 1], 15), (13, 0, 0, *b"...................."));
    assert_eq!(tried(&[1, 0], 20), (14, 0, 0, *b"...................."));
}
