//! The programs: their texts read, their proved calls made, the output of these printed as it is.

use crate::alerts;
use crate::arguments::Words;
use crate::examined::{Reference, Refused, require_answer};
use crate::explain;
use crate::failure::Failure;
use crate::judged::{self, Reading};
use crate::output;
use crate::plain;
use crate::status::Status;
use crate::texts::Text;
use crate::types;
use crate::words;
use cundarivo::{Figures, programs};
use std::ffi::OsString;

pub fn draw(words: &[OsString]) -> Result<Status, Failure> {
    let [reference] = &read_texts("draw", words)?;
    let answer = programs::draw(&reference.bytes);
    let refused = Reference::read(reference).err();
    conclude(refused, &answer, b"ENV,")
}

pub fn verify(words: &[OsString]) -> Result<Status, Failure> {
    let [reference, record] = &read_texts("verify", words)?;
    let answer = programs::verify(&reference.bytes, &record.bytes);
    let read = read_record(reference, record);
    conclude(read.err(), &answer, b"OK\n")
}

pub fn panel(words: &[OsString]) -> Result<Status, Failure> {
    let [reference, record] = &read_texts("panel", words)?;
    let answer = programs::panel(&reference.bytes, &record.bytes);
    match read_record(reference, record) {
        Ok(figures) => conclude(None, &answer, panel_start(&figures).as_bytes()),
        Err(refused) => conclude(Some(refused), &answer, b""),
    }
}

/// The figures of a record that agrees with a reference text.
fn read_record<'t>(reference: &'t Text, record: &'t Text) -> Result<Figures, Refused<'t>> {
    let read = Reference::read(reference)?;
    Ok(read.record(record)?.figures)
}

/// How the panel of an envelope starts: with the tag of the first channel.
fn panel_start(figures: &Figures) -> String {
    format!("{},", types::of_code(figures.codes[0]).tag)
}

pub fn judge(words: &[OsString]) -> Result<Status, Failure> {
    let words = Words::of(words, &["--explain"])?;
    let [reference, record, readings] = &read_named("judge", &words)?;
    let answer = programs::judge(&reference.bytes, &record.bytes, &readings.bytes);
    let accepted = Reference::read(reference).and_then(|read| {
        let envelope = read.record(record)?;
        read.readings(&envelope.figures, readings)?;
        Ok(envelope.figures)
    });
    let figures = match accepted {
        Ok(figures) => figures,
        Err(refused) => return conclude(Some(refused), &answer, b""),
    };
    let judged = judged::measure_all(&figures, &readings.bytes, &answer)?;
    if words.has("--explain") {
        output::print(explain::explained(&figures, &judged).as_bytes())?;
    } else {
        output::print(&answer)?;
        words::tell_refused_readings(readings, &judged, &figures.codes);
    }
    Ok(match judged.iter().all(Reading::is_quiet) {
        true => Status::Done,
        false => Status::NotAllQuiet,
    })
}

pub fn plain(words: &[OsString]) -> Result<Status, Failure> {
    let [reference] = &read_texts("plain", words)?;
    let answer = programs::plain(&reference.bytes);
    let read = match Reference::read(reference) {
        Ok(read) => read,
        Err(refused) => return conclude(Some(refused), &answer, b""),
    };
    plain::require_same(&read, &answer)?;
    output::print(&answer)?;
    plain::tell_below_detection(&read);
    Ok(Status::Done)
}

pub fn alerts(words: &[OsString]) -> Result<Status, Failure> {
    let [reference, record, settings, readings] = &read_texts("alerts", words)?;
    let try_settings = |settings: &[u8]| {
        programs::alerts(&reference.bytes, &record.bytes, settings, &readings.bytes)
    };
    let answer = try_settings(&settings.bytes);
    let accepted = Reference::read(reference).and_then(|read| {
        let envelope = read.record(record)?;
        read.settings(settings, &answer, try_settings)?;
        read.readings(&envelope.figures, readings)?;
        Ok(envelope.figures)
    });
    let figures = match accepted {
        Ok(figures) => figures,
        Err(refused) => return conclude(Some(refused), &answer, b""),
    };
    let verdicts = programs::judge(&reference.bytes, &record.bytes, &readings.bytes);
    let judged = judged::measure_all(&figures, &readings.bytes, &verdicts)?;
    alerts::require_same(settings, &judged, &answer)?;
    output::print(&answer)?;
    Ok(Status::Done)
}

fn read_texts<const COUNT: usize>(
    command: &str,
    words: &[OsString],
) -> Result<[Text; COUNT], Failure> {
    read_named(command, &Words::of(words, &[])?)
}

fn read_named<const COUNT: usize>(command: &str, words: &Words) -> Result<[Text; COUNT], Failure> {
    let sources = words.texts(command, COUNT)?;
    let texts: Result<Vec<Text>, Failure> = sources.into_iter().map(Text::read).collect();
    Ok(texts?.try_into().expect("as many texts as were asked for"))
}

/// Prints a program's output, once it is what the refusal of a text, or none, asks for.
fn conclude(refused: Option<Refused<'_>>, answer: &[u8], start: &[u8]) -> Result<Status, Failure> {
    let Some(refused) = refused else {
        if !answer.starts_with(start) {
            return Err(Failure::contradiction(
                "every text is accepted, and the program answers otherwise",
            ));
        }
        output::print(answer)?;
        return Ok(Status::Done);
    };
    require_answer(&refused, answer)?;
    refuse(&refused)
}

/// Prints the refusal of a text, and says it in words.
pub fn refuse(refused: &Refused<'_>) -> Result<Status, Failure> {
    output::print(refused.answer().as_bytes())?;
    words::tell_refused(refused);
    Ok(Status::Refused)
}

#[cfg(test)]
mod tests {
    use super::{conclude, panel_start};
    use cundarivo::{Ending, Figures};

    /// Nothing is printed, and the status is not that of an answer.
    #[test]
    fn a_refusal_of_accepted_texts_is_contradicted() {
        let figures = Figures {
            n: 2,
            codes: vec![5, 1],
            scaled_centre: vec![0; 2],
            scaled_squared_radius: 0,
            scaled_lower_bound: 0,
            ending: Ending::Settled,
            moves: 0,
        };
        let panel = panel_start(&figures);
        assert_eq!(panel, "TMP,");
        for start in ["ENV,", "OK\n", &panel] {
            for answer in ["NO,12,0\n", "NO,2,1\n", ""] {
                let concluded = conclude(None, answer.as_bytes(), start.as_bytes());
                let failure = concluded.expect_err("a contradiction");
                assert!(failure.line().contains("the program answers otherwise"));
            }
        }
    }
}
