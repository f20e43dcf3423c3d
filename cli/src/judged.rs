//! The readings of `judge`: the verdicts of the program, each held against the measured reading and against
//! arithmetic of our own before anything is printed.

use crate::distances::scaled_squared_distance;
use crate::failure::Failure;
use cundarivo::{Figures, Measured, Refusal, Verdict};

/// A reading as it was measured.
#[derive(Debug)]
pub struct Reading<'t> {
    /// Its line, with its byte 10 where it has one.
    pub line: &'t [u8],
    pub measured: Result<Measured, Refusal>,
}

impl Reading<'_> {
    pub fn is_quiet(&self) -> bool {
        let measured = self.measured.as_ref();
        measured.is_ok_and(|measured| measured.verdict == Verdict::Quiet)
    }

    /// What stands before the first comma.
    pub fn first_field(&self) -> &[u8] {
        let line = self.line.strip_suffix(b"\n").unwrap_or(self.line);
        let end = line.iter().position(|&byte| byte == b',');
        &line[..end.unwrap_or(line.len())]
    }
}

/// Every reading of accepted texts, once the whole answer of the program is what they ask for.
pub fn measure_all<'t>(
    figures: &Figures,
    readings: &'t [u8],
    answer: &[u8],
) -> Result<Vec<Reading<'t>>, Failure> {
    let mut verdicts = lines(answer);
    let mut measured_readings = Vec::new();
    for (index, line) in lines(readings).enumerate() {
        let measured = cundarivo::measure(figures, line);
        let verdict = verdicts.next().unwrap_or_default();
        if let Some(fault) = contradiction(figures, &measured, verdict) {
            return Err(Failure::contradiction(&format!(
                "reading {}: {fault}",
                index + 1
            )));
        }
        measured_readings.push(Reading { line, measured });
    }
    match verdicts.next() {
        None => Ok(measured_readings),
        Some(_) => Err(Failure::contradiction("more verdicts than readings")),
    }
}

/// The lines with their bytes 10; a last one can lack it.
fn lines(text: &[u8]) -> impl Iterator<Item = &[u8]> {
    text.split_inclusive(|&byte| byte == b'\n')
}

/// What is wrong with a verdict of the program or with a measured reading, where something is.
fn contradiction(
    figures: &Figures,
    measured: &Result<Measured, Refusal>,
    verdict: &[u8],
) -> Option<&'static str> {
    if !is_verdict(measured, verdict) {
        return Some("the program's verdict is not that of the measured reading");
    }
    let Ok(measured) = measured else {
        return None;
    };
    if measured.values.len() != figures.n {
        return Some("the measured reading has not a value for each channel");
    }
    let distance = scaled_squared_distance(&measured.values, &figures.scaled_centre);
    if distance != i128::from(measured.scaled_squared_distance) {
        return Some("the measured distance is not that of the values");
    }
    match measured.verdict == verdict_on(distance, figures.scaled_squared_radius) {
        true => None,
        false => Some("the verdict is not that of the distance"),
    }
}

/// The verdict that s and M ask for. An excess that no verdict can state is none of an accepted reading.
fn verdict_on(distance: i128, radius: u64) -> Verdict {
    match distance - i128::from(radius) {
        ..=0 => Verdict::Quiet,
        excess => Verdict::Alarm {
            excess: u64::try_from(excess).unwrap_or(0),
        },
    }
}

/// Whether a line of the program's answer says what was measured.
fn is_verdict(measured: &Result<Measured, Refusal>, line: &[u8]) -> bool {
    match measured {
        Ok(measured) => match measured.verdict {
            Verdict::Quiet => line == b"QUIET\n",
            Verdict::Alarm { excess } => line == format!("ALARM,{excess}\n").as_bytes(),
        },
        Err(refusal) => line == format!("NO,{},{}\n", refusal.number, refusal.line).as_bytes(),
    }
}

#[cfg(test)]
mod tests {
    use super::*;
    use cundarivo::Ending;

    const SQUARE: u64 = 65_536 * 65_536;
    const EXCESS: u64 = 11 * SQUARE;

    /// The ball round (0, 0), (6, 0), (0, 8): centre (3, 4), radius 5.
    fn figures() -> Figures {
        Figures {
            n: 2,
            codes: vec![1, 4],
            scaled_centre: vec![196_608, 262_144],
            scaled_squared_radius: 25 * SQUARE,
            scaled_lower_bound: 25 * SQUARE,
            ending: Ending::Settled,
            moves: 2,
        }
    }

    fn measured(verdict: Verdict, distance: u64, values: &[i32]) -> Result<Measured, Refusal> {
        Ok(Measured {
            verdict,
            scaled_squared_distance: distance,
            values: values.to_vec(),
        })
    }

    fn is_contradicted(measured: &Result<Measured, Refusal>, verdict: &str) -> bool {
        contradiction(&figures(), measured, verdict.as_bytes()).is_some()
    }

    #[test]
    fn right_verdicts_stand() {
        let edge = measured(Verdict::Quiet, 25 * SQUARE, &[3, 9]);
        assert!(!is_contradicted(&edge, "QUIET\n"));
        let alarm = Verdict::Alarm { excess: EXCESS };
        let outside = measured(alarm, 36 * SQUARE, &[3, 10]);
        assert!(!is_contradicted(&outside, "ALARM,47244640256\n"));
        let refusal = Err(Refusal { number: 4, line: 1 });
        assert!(!is_contradicted(&refusal, "NO,4,1\n"));
    }

    #[test]
    fn another_verdict_of_the_program_is_contradicted() {
        let quiet = measured(Verdict::Quiet, 25 * SQUARE, &[3, 9]);
        let alarm = Verdict::Alarm { excess: EXCESS };
        let alarm = measured(alarm, 36 * SQUARE, &[3, 10]);
        let refusal = Err(Refusal { number: 4, line: 1 });
        let verdicts = ["", "QUIET", "QUIET\n", "ALARM,47244640256\n", "NO,4,1\n"];
        let others = ["ALARM,47244640255\n", "NO,3,1\n", "NO,4,2\n", "OK\n"];
        for verdict in verdicts.iter().chain(&others) {
            assert_eq!(is_contradicted(&quiet, verdict), *verdict != "QUIET\n");
            let stated = *verdict == "ALARM,47244640256\n";
            assert_eq!(is_contradicted(&alarm, verdict), !stated);
            assert_eq!(is_contradicted(&refusal, verdict), *verdict != "NO,4,1\n");
        }
    }

    /// Both calls give the same wrong verdict.
    #[test]
    fn a_wrong_verdict_is_contradicted_by_the_arithmetic() {
        let quiet_outside = measured(Verdict::Quiet, 36 * SQUARE, &[3, 10]);
        assert!(is_contradicted(&quiet_outside, "QUIET\n"));
        let alarm = |excess| Verdict::Alarm { excess };
        let alarm_inside = measured(alarm(1), 25 * SQUARE, &[3, 9]);
        assert!(is_contradicted(&alarm_inside, "ALARM,1\n"));
        let wrong_excess = measured(alarm(EXCESS + 1), 36 * SQUARE, &[3, 10]);
        assert!(is_contradicted(&wrong_excess, "ALARM,47244640257\n"));
        let no_excess = measured(alarm(0), 25 * SQUARE, &[3, 9]);
        assert!(is_contradicted(&no_excess, "ALARM,0\n"));
    }

    #[test]
    fn a_wrong_distance_or_wrong_values_are_contradicted() {
        let distance = measured(Verdict::Quiet, 24 * SQUARE, &[3, 9]);
        assert!(is_contradicted(&distance, "QUIET\n"));
        let values = measured(Verdict::Quiet, 25 * SQUARE, &[3, 8]);
        assert!(is_contradicted(&values, "QUIET\n"));
        let missing = measured(Verdict::Quiet, 0, &[3]);
        assert!(is_contradicted(&missing, "QUIET\n"));
    }

    #[test]
    fn as_many_verdicts_as_readings() {
        let readings = b"A,TOC,3,CND,9\nA,TOC,3,CND,4\n";
        let held = |answer: &[u8]| measure_all(&figures(), readings, answer).map(|all| all.len());
        assert_eq!(held(b"QUIET\nQUIET\n").ok(), Some(2));
        for answer in ["", "QUIET\n", "QUIET\nQUIET\nQUIET\n", "QUIET\nNO,3,1\n"] {
            let failure = held(answer.as_bytes()).expect_err("a contradiction");
            assert!(failure.line().contains("nothing is answered"), "{answer}");
        }
    }
}
