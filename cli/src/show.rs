//! `show`: an envelope in units, and the rows that hold it.

use crate::arguments::{Words, other_count, require_one_input};
use crate::columns::{Side, aligned};
use crate::distances::{gap_millionths, reach_tenths, scaled_squared_distance};
use crate::examined::Reference;
use crate::failure::Failure;
use crate::output;
use crate::programs::refuse;
use crate::status::Status;
use crate::texts::{Source, Text};
use crate::weighted_rows;
use crate::{types, units};
use cundarivo::{Ending, Envelope, Figures, TOTAL};
use std::ffi::OsString;

/// The budget of `draw`.
pub const BUDGET: u32 = 10_000;

/// An envelope with its reference text.
#[derive(Debug)]
pub struct Shown<'t> {
    pub reference: Reference<'t>,
    pub envelope: Envelope,
    /// The record that the envelope stands in, none where it was drawn for this.
    pub record: Option<&'t Text>,
}

pub fn show(words: &[OsString]) -> Result<Status, Failure> {
    let (text, record) = &read_texts(&Words::of(words, &[])?)?;
    let reference = match Reference::read(text) {
        Ok(reference) => reference,
        Err(refused) => return refuse(&refused),
    };
    let envelope = match record.as_ref().map(|record| reference.record(record)) {
        None => draw(&reference)?,
        Some(Ok(envelope)) => envelope,
        Some(Err(refused)) => return refuse(&refused),
    };
    let shown = Shown {
        reference,
        envelope,
        record: record.as_ref(),
    };
    require_figures(&shown)?;
    output::print(page(&shown)?.as_bytes())?;
    Ok(Status::Done)
}

fn read_texts(words: &Words) -> Result<(Text, Option<Text>), Failure> {
    let sources: Vec<Source> = words.names.iter().map(|word| Source::named(word)).collect();
    require_one_input("show", &sources)?;
    let mut sources = sources.into_iter();
    match (sources.next(), sources.next(), sources.next()) {
        (Some(reference), record, None) => {
            let record = record.map(Text::read);
            Ok((Text::read(reference)?, record.transpose()?))
        }
        (first, ..) => Err(other_count("show", first.is_none())),
    }
}

fn draw(reference: &Reference<'_>) -> Result<Envelope, Failure> {
    let drawing = cundarivo::draw(&reference.table, reference.m, reference.n, BUDGET);
    let drawing = drawing.map_err(|_| not_drawn())?;
    Ok(drawing.envelope(&reference.codes))
}

/// Rows of an accepted text can be drawn.
pub fn not_drawn() -> Failure {
    Failure::contradiction("the rows are accepted, and drawing them is refused")
}

/// Holds the figures against arithmetic of our own.
fn require_figures(shown: &Shown<'_>) -> Result<(), Failure> {
    let figures = &shown.envelope.figures;
    let own = figures_of(&shown.reference, &shown.envelope.weights);
    let centre = figures.scaled_centre.iter().map(|&place| place.into());
    let (radius, bound) = (figures.scaled_squared_radius, figures.scaled_lower_bound);
    let stated = (centre.collect(), radius.into(), bound.into());
    match own == stated && bound <= radius {
        true => Ok(()),
        false => Err(Failure::contradiction(
            "centre, radius or floor are not those of the rows and weights",
        )),
    }
}

/// X, M and L of rows and weights.
fn figures_of(reference: &Reference<'_>, weights: &[u32]) -> (Vec<i128>, i128, i128) {
    let mut centre = vec![0; reference.n];
    let mut squares = 0;
    for (row, &weight) in weights.iter().take(reference.m).enumerate() {
        for (place, &value) in centre.iter_mut().zip(reference.row(row)) {
            let weighted = i128::from(weight) * i128::from(value);
            *place += weighted;
            squares += weighted * i128::from(value);
        }
    }
    let places: Vec<i64> = centre.iter().map(|&place| place as i64).collect();
    let distance = |row| scaled_squared_distance(reference.row(row), &places);
    let radius = (0..reference.m).map(distance).max().unwrap_or(0);
    let square: i128 = centre.iter().map(|place| place * place).sum();
    (centre, radius, i128::from(TOTAL) * squares - square)
}

fn page(shown: &Shown<'_>) -> Result<String, Failure> {
    let sections = [
        origin(shown),
        channels(&shown.reference, &shown.envelope.figures),
        ball(shown),
        weighted_rows::section(shown)?,
    ];
    Ok(sections.join("\n"))
}

fn origin(shown: &Shown<'_>) -> String {
    let Reference { text, m, n, .. } = shown.reference;
    let envelope = match shown.record {
        None => "drawn from it now, with a budget of 10,000 moves".to_string(),
        Some(record) => format!("record {}, which agrees with it", record.told),
    };
    let lines = [
        ("reference text", text.told.clone()),
        ("rows", m.to_string()),
        ("channels", n.to_string()),
        ("envelope", envelope),
    ];
    named_lines(lines)
}

fn named_lines<const COUNT: usize>(lines: [(&str, String); COUNT]) -> String {
    let lines = lines.map(|(name, value)| vec![name.to_string(), value]);
    aligned(&lines, &[Side::Left, Side::Left])
}

fn channels(reference: &Reference<'_>, figures: &Figures) -> String {
    let heading = [
        "channel",
        "",
        "centre",
        "reach of the ball",
        "values of the rows",
    ];
    let mut lines = vec![heading.map(str::to_string).to_vec()];
    for channel in 0..reference.n {
        let kind = types::of_code(reference.codes[channel]);
        let place = figures.scaled_centre[channel];
        let (low, high) = reach_tenths(place, figures.scaled_squared_radius);
        let (least, largest) = extremes(reference, channel);
        lines.push(vec![
            types::channel_name(&reference.codes, channel),
            kind.name.to_string(),
            units::part(kind, place.into(), TOTAL.into()),
            units::between(kind, low, high, 1),
            units::between(kind, least.into(), largest.into(), 0),
        ]);
    }
    aligned(&lines, &[Side::Left; 5])
}

/// The least and the largest value of a channel in the rows.
fn extremes(reference: &Reference<'_>, channel: usize) -> (i32, i32) {
    let values = (0..reference.m).map(|row| reference.row(row)[channel]);
    let extremes = (i32::MAX, i32::MIN);
    values.fold(extremes, |(least, largest), value| {
        (least.min(value), largest.max(value))
    })
}

fn ball(shown: &Shown<'_>) -> String {
    let figures = &shown.envelope.figures;
    let radius = figures.scaled_squared_radius;
    let square = i128::from(TOTAL) * i128::from(TOTAL);
    let squared = units::fraction(radius.into(), square, 0, 1);
    let squared = format!("{squared} square steps (M = {radius})");
    named_lines([
        ("radius", units::radius(radius)),
        ("squared radius", squared),
        ("gap", gap(figures)),
        ("ending", ending(shown)),
    ])
}

fn gap(figures: &Figures) -> String {
    let (radius, bound) = (figures.scaled_squared_radius, figures.scaled_lower_bound);
    let share = units::decimal(gap_millionths(radius, bound) as i128, 4);
    match radius - bound {
        0 => "0 (M - L): no ball round the rows is smaller".to_string(),
        gap => format!("{gap} (M - L): the least radius is smaller by at most {share}%"),
    }
}

fn ending(shown: &Shown<'_>) -> String {
    let figures = &shown.envelope.figures;
    let ending = match figures.ending {
        Ending::Settled => "settled",
        Ending::Budget => "not settled, the budget used up,",
    };
    let stated = match shown.record {
        None => "",
        Some(_) => " (as many as the record states)",
    };
    let word = if figures.moves == 1 { "move" } else { "moves" };
    format!("{ending} after {} {word}{stated}", figures.moves)
}

#[cfg(test)]
mod tests {
    use super::{Reference, Shown, draw, page, require_figures};
    use crate::texts::Text;

    fn text(bytes: &[u8]) -> Text {
        Text {
            told: String::new(),
            bytes: bytes.to_vec(),
        }
    }

    fn drawn(text: &Text) -> Shown<'_> {
        let reference = Reference::read(text).expect("an accepted text");
        Shown {
            envelope: draw(&reference).expect("rows that can be drawn"),
            reference,
            record: None,
        }
    }

    #[test]
    fn figures_that_the_rows_do_not_give_are_contradicted() {
        let text = text(b"REF,2,TOC,CND\nA,0,0\nB,6,0\nC,0,8\n");
        let require = |change: fn(&mut Shown<'_>)| {
            let mut shown = drawn(&text);
            change(&mut shown);
            require_figures(&shown).is_ok()
        };
        assert!(require(|_| {}));
        assert!(!require(
            |shown| shown.envelope.figures.scaled_centre[1] += 1
        ));
        assert!(!require(|shown| shown
            .envelope
            .figures
            .scaled_squared_radius += 1));
        assert!(!require(|shown| shown
            .envelope
            .figures
            .scaled_squared_radius -= 1));
        assert!(!require(|shown| shown
            .envelope
            .figures
            .scaled_lower_bound -= 1));
        assert!(!require(|shown| shown.envelope.weights.swap(0, 1)));
    }

    #[test]
    fn a_ball_of_one_point_divides_nothing_by_0() {
        let text = text(b"REF,1,TMP\nA,-7\nB,-7\n");
        let page = page(&drawn(&text)).expect("a page");
        assert!(page.contains("radius          0.0 steps\n"), "{page}");
        assert!(page.contains("-0.70 to -0.70 °C"), "{page}");
    }
}
