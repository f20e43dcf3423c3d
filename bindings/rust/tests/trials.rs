//! Settings of an alert tried on named readings: what is counted, how many settings there may be, and the
//! refusals in their order.

use cundarivo::{
    AlertSetting, Figures, RUN_MOST, SETTINGS, TRIAL_BYTES, draw, programs, try_settings,
    try_settings_into,
};

const TEXT_BYTES: usize = 65_536;

/// The ball round the rows 0 and 10 of TOC: 11 is an Alarm, 5 is Quiet.
fn figures() -> Figures {
    let drawing = draw(&[0, 10], 2, 1, 10_000).expect("within limits");
    drawing.figures(&[1])
}

/// A line for each letter: A for an Alarm, Q for Quiet, any other for a reading that is turned back.
fn recorded(verdicts: &str) -> Vec<u8> {
    let line = |verdict: char| match verdict {
        'A' => "A,TOC,11\n",
        'Q' => "A,TOC,5\n",
        _ => "A,TOC,2001\n",
    };
    verdicts.chars().map(line).collect::<String>().into_bytes()
}

fn setting((k, c): (u32, u32)) -> AlertSetting {
    AlertSetting { k, c }
}

fn tried(settings: &[(u32, u32)], readings: &[u8]) -> Result<String, (u32, u32)> {
    let settings: Vec<AlertSetting> = settings.iter().copied().map(setting).collect();
    match try_settings(&figures(), &settings, readings) {
        Ok(trial) => Ok(String::from_utf8(trial).expect("digits and commas")),
        Err(refusal) => Err((refusal.number, refusal.line)),
    }
}

/// The number, line and length that the library answers, and the output.
fn lent(
    figures: &Figures,
    settings: &[u32],
    readings: &[u8],
    places: usize,
) -> ([usize; 3], Vec<u8>) {
    let mut output = vec![b'.'; places];
    let answer = try_settings_into(
        figures.given(),
        &figures.codes,
        &figures.scaled_centre,
        settings,
        readings,
        &mut output,
    );
    let answer = [answer.number as usize, answer.line as usize, answer.length];
    (answer, output)
}

#[test]
fn alerts_raised_and_readings_passed() {
    let all = [(2, 2), (1, 1), (1, 2), (2, 1), (4, 1), (2, 2)];
    let trial = tried(&all, &recorded("AAQAQQ"));
    let expected = "2,2,1,4\n1,1,2,3\n1,2,1,5\n2,1,1,1\n4,1,0,0\n2,2,1,4\n6,3,3,0\n";
    assert_eq!(trial.as_deref(), Ok(expected));
    // Readings that are turned back change the last line alone.
    let trial = tried(&all, &recorded("xAxAxQxAxxQQx"));
    let expected = expected.replace("6,3,3,0", "13,3,3,7");
    assert_eq!(trial, Ok(expected));
    // An empty line, and a last line without byte 10.
    let trial = tried(&[(1, 1)], b"A,TOC,11\n\nA,TOC,11");
    assert_eq!(trial.as_deref(), Ok("1,1,1,1\n3,1,0,2\n"));
}

#[test]
fn settings_from_none_to_one_too_many() {
    let readings = recorded("AAQ");
    assert_eq!(tried(&[], &readings), Err((14, 0)));
    for count in 1..=SETTINGS {
        let settings: Vec<(u32, u32)> = (1..=count as u32).map(|k| (k, 99)).collect();
        let trial = tried(&settings, &readings).expect("accepted settings");
        let lines: Vec<&str> = trial.lines().collect();
        assert_eq!(lines.len(), count + 1);
        for (line, (k, c)) in lines.iter().zip(settings) {
            let (raised, passed) = [(1, 3), (1, 2)].get(k as usize - 1).unwrap_or(&(0, 0));
            assert_eq!(*line, format!("{k},{c},{raised},{passed}"));
        }
        assert_eq!(lines[count], "3,2,1,0");
    }
    for count in [SETTINGS + 1, 1_000] {
        assert_eq!(tried(&vec![(1, 1); count], &readings), Err((14, 0)));
    }
}

/// Of a part of a list no setting before it or behind it is read.
#[test]
fn parts_of_a_list_of_settings() {
    let mut list = [setting((0, 0)); SETTINGS + 2];
    let inner = 1..=SETTINGS;
    list[inner.clone()].fill(setting((1, 99)));
    let trial = try_settings(&figures(), &list[inner], &recorded("AQ"));
    let expected = "1,99,1,2\n".repeat(SETTINGS) + "2,1,1,0\n";
    assert_eq!(trial.as_deref(), Ok(expected.as_bytes()));
    for part in [0..1, 0..2, SETTINGS..SETTINGS + 2] {
        let refusal = try_settings(&figures(), &list[part], b"\n").unwrap_err();
        assert_eq!((refusal.number, refusal.line), (14, 0));
    }
}

#[test]
fn k_and_c_at_their_bounds() {
    let readings = recorded("A");
    for (number, accepted) in [
        (0, false),
        (1, true),
        (RUN_MOST, true),
        (RUN_MOST + 1, false),
        (u32::MAX, false),
    ] {
        for (k, c) in [(number, 7), (7, number)] {
            let trial = tried(&[(1, 1), (k, c)], &readings);
            let raised = u32::from(k == 1);
            match accepted {
                true => assert_eq!(
                    trial,
                    Ok(format!("1,1,1,1\n{k},{c},{raised},{raised}\n1,1,0,0\n"))
                ),
                false => assert_eq!(trial, Err((14, 0))),
            }
        }
    }
}

/// An alert that is raised by the 99th Alarm and cleared by the 99th Quiet.
#[test]
fn the_longest_runs() {
    let readings = recorded(&["A".repeat(99), "Q".repeat(99), "A".repeat(98)].concat());
    let trial = tried(&[(99, 99)], &readings);
    assert_eq!(trial.as_deref(), Ok("99,99,1,99\n296,197,99,0\n"));
    let readings = recorded(&["A".repeat(99), "Q".repeat(98), "A".repeat(99)].concat());
    let trial = tried(&[(99, 99)], &readings);
    assert_eq!(trial.as_deref(), Ok("99,99,1,198\n296,198,98,0\n"));
}

#[test]
fn refusals_come_in_their_order_and_change_nothing() {
    let good = figures();
    let faulty = Figures {
        n: 9,
        ..good.clone()
    };
    let (readings, long) = (recorded("AQ"), vec![b'\n'; TEXT_BYTES + 1]);
    let refused: [(&Figures, &[u32], &[u8], usize); 9] = [
        (&faulty, &[1, 1], &readings, TRIAL_BYTES),
        (&faulty, &[], b"", 0),
        (&good, &[], b"", 0),
        (&good, &[1, 1, 1], b"", 0),
        (&good, &[0, 1], &long, TRIAL_BYTES),
        (&good, &[1; 2 * SETTINGS + 2], &readings, TRIAL_BYTES),
        (&good, &[1, 1], b"", 0),
        (&good, &[1, 1], &long, TRIAL_BYTES),
        (&good, &[1, 1], &readings, 15),
    ];
    let numbers = [8, 8, 14, 14, 14, 14, 1, 1, 13];
    for ((figures, settings, readings, places), number) in refused.into_iter().zip(numbers) {
        let (answer, output) = lent(figures, settings, readings, places);
        assert_eq!(answer, [number, 0, 0], "{settings:?}");
        assert!(output.iter().all(|&byte| byte == b'.'));
    }
    let (answer, output) = lent(&good, &[1, 1], &readings, 18);
    assert_eq!(answer, [0, 0, 16]);
    assert_eq!(output, b"1,1,1,1\n2,1,1,0\n..");
    // As many bytes as there may be.
    let trial = tried(&[(1, 1)], &long[1..]);
    assert_eq!(trial.as_deref(), Ok("1,1,0,0\n65536,0,0,65536\n"));
}

/// A code or an X too few, and an ending that is neither 0 nor 1.
#[test]
fn figures_outside_their_limits() {
    let figures = figures();
    let mut given = figures.given();
    let mut output = [b'.'; TRIAL_BYTES];
    let readings = recorded("A");
    let (codes, centre) = (&figures.codes[..], &figures.scaled_centre[..]);
    let mut number = |given, codes: &[u8], centre: &[i64]| {
        try_settings_into(given, codes, centre, &[1, 1], &readings, &mut output).number
    };
    assert_eq!(number(given, &[], centre), 8);
    assert_eq!(number(given, codes, &[]), 8);
    assert_eq!(number(given, codes, centre), 0);
    given.settled = 2;
    assert_eq!(number(given, codes, centre), 8);
}

/// What the program prints is what the call writes of the same settings, or the first refusal.
#[test]
fn the_program() {
    let reference = b"REF,1,TOC\nA,0\nB,10\n";
    let record = programs::draw(reference);
    let readings = recorded("AAQxAQQ");
    let program =
        |settings: &[u8], readings: &[u8]| programs::alerts(reference, &record, settings, readings);
    let all: Vec<(u32, u32)> = (0..SETTINGS as u32).map(|k| (1 + 5 * k, 99 - k)).collect();
    let text: String = all.iter().map(|(k, c)| format!("{k},{c}\n")).collect();
    let trial = tried(&all, &readings).expect("accepted settings");
    assert_eq!(program(text.as_bytes(), &readings), trial.as_bytes());

    let (text, long) = (text + "1,1\n", "1,1\n".repeat(20_000));
    for faulty in [
        "", "\n", "1,1", "01,1\n", "1,1,1\n", "0,1\n", "1,100\n", " 1,1\n", "1,1\r\n", "1,1\n\n",
        &text, &long,
    ] {
        assert_eq!(program(faulty.as_bytes(), b""), b"NO,14,0\n", "{faulty:?}");
    }
    assert_eq!(program(b"1,1\n", b""), b"NO,1,0\n");
    assert_eq!(program(b"1,1\n", &vec![b'\n'; TEXT_BYTES + 1]), b"NO,1,0\n");
    let output = programs::alerts(reference, b"", b"", b"");
    assert_eq!(output, b"NO,1,0\n");
    let output = programs::alerts(b"REF\n", b"", b"", b"");
    assert_eq!(output, b"NO,2,1\n");

    let mut output = [b'.'; 18];
    let mut places = |count| {
        programs::alerts_into(
            reference,
            &record,
            b"1,1\n",
            &readings,
            &mut output[..count],
        )
    };
    assert_eq!(places(15).map_err(|refusal| refusal.number), Err(13));
    assert_eq!(places(18), Ok(16));
    assert_eq!(&output, b"1,1,2,3\n7,3,3,1\n..");
}
