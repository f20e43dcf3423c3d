//! The envelopes that document 01 and the list of bad input name, with the records that are written
//! of them or their refusals, written down by hand.

use crate::known_readings;
use crate::known_records::{
    RECORD, RECORD_BUDGET_0, RECORD_BUDGET_1, ROW_256, all_on_row_256, all_weights, envelope,
    envelope_budget_0, envelope_budget_1, farthest, rows, typed,
};
use crate::readings::EnvelopeFigures;
use crate::records::{Envelope, TypedRows};
use crate::rules::Refusal;

/// An envelope by name, the rows that it is written against, and the answer.
#[derive(Clone, Debug)]
pub struct KnownWriting {
    pub name: &'static str,
    pub envelope: Envelope,
    pub places: Vec<i32>,
    pub m: usize,
    pub outcome: Result<Vec<u8>, Refusal>,
}

/// Against document 01's rows.
fn written(name: &'static str, envelope: Envelope, text: impl Into<Vec<u8>>) -> KnownWriting {
    KnownWriting {
        name,
        envelope,
        places: rows().set.places,
        m: 3,
        outcome: Ok(text.into()),
    }
}

fn refused(name: &'static str, envelope: Envelope, number: u32) -> KnownWriting {
    KnownWriting {
        outcome: Err(Refusal { number, line: 0 }),
        ..written(name, envelope, "")
    }
}

/// Document 01's envelope with a change.
fn changed(change: impl FnOnce(&mut Envelope)) -> Envelope {
    let mut envelope = envelope();
    change(&mut envelope);
    envelope
}

/// Document 01's record and its trial figure.
pub fn examples() -> Vec<KnownWriting> {
    vec![
        written("record", envelope(), RECORD),
        written("budget_1", envelope_budget_1(), RECORD_BUDGET_1),
        written("budget_0", envelope_budget_0(), RECORD_BUDGET_0),
    ]
}

/// Written at the ends of what an envelope can have.
pub fn at_the_limits() -> Vec<KnownWriting> {
    let moves = |name, moves: u32| {
        let text = RECORD.replace(",2,S", &format!(",{moves},S"));
        written(
            name,
            changed(|envelope| envelope.figures.moves = moves),
            text,
        )
    };
    let with_rows = |name, (text, rows, envelope): (String, TypedRows, Envelope)| KnownWriting {
        places: rows.set.places,
        m: rows.set.m,
        ..written(name, envelope, text)
    };
    let row_256 = (
        ROW_256.to_string(),
        typed(&[5; 256], 256, &[1]),
        all_on_row_256(),
    );
    vec![
        moves("moves_1000000", 1_000_000),
        moves("moves_0", 0),
        with_rows("row_256", row_256),
        with_rows("weights_256", all_weights()),
        with_rows("largest_figures", farthest()),
    ]
}

/// Places that are not looked at.
pub fn past_the_counts() -> Vec<KnownWriting> {
    let weights_of = |places: usize| changed(|envelope| envelope.weights.resize(places, 0));
    let mut past = envelope();
    past.figures.types.extend([0, 9, 255]);
    past.figures.scaled_centre.extend([262_144_001, i64::MIN]);
    let mut longer_rows = written("places_past_the_rows", envelope(), RECORD);
    longer_rows.places.extend([4_001, i32::MIN]);
    vec![
        written("weights_of_4_places", weights_of(4), RECORD),
        written("weights_of_256_places", weights_of(256), RECORD),
        written("places_past_the_channels", past, RECORD),
        longer_rows,
    ]
}

/// Figures outside their limits, those of the known readings: 8.
pub fn figures_outside() -> Vec<KnownWriting> {
    known_readings::figures_outside()
        .into_iter()
        .map(|known| {
            refused(
                known.name,
                changed(|envelope| envelope.figures = known.figures),
                8,
            )
        })
        .collect()
}

/// Rows or a weight list outside their limits: 8.
pub fn rows_outside() -> Vec<KnownWriting> {
    let with = |name, change: fn(&mut KnownWriting)| {
        let mut known = refused(name, envelope(), 8);
        change(&mut known);
        known
    };
    vec![
        with("rows_0", |known| known.m = 0),
        with("rows_257", |known| {
            (known.places, known.m) = (vec![0; 514], 257)
        }),
        with("rows_most", |known| known.m = usize::MAX),
        with("product_wraps", |known| known.m = 1 << 63),
        with("rows_short", |known| known.places.truncate(5)),
        with("no_rows", |known| known.places.clear()),
        with("coordinate_above", |known| known.places[5] = 4_001),
        with("coordinate_below", |known| known.places[0] = -4_001),
        with("weights_short", |known| known.envelope.weights.truncate(2)),
        with("no_weights", |known| known.envelope.weights.clear()),
        with("weights_257", |known| known.envelope.weights.resize(257, 0)),
    ]
}

/// Envelopes with a figure that is not the check's: 12.
pub fn other_figures() -> Vec<KnownWriting> {
    let with = |name, change: fn(&mut EnvelopeFigures)| {
        refused(name, changed(|envelope| change(&mut envelope.figures)), 12)
    };
    vec![
        with("centre_above", |figures| figures.scaled_centre[0] += 1),
        with("centre_below", |figures| figures.scaled_centre[1] -= 1),
        with("radius_above", |figures| figures.scaled_squared_radius += 1),
        with("radius_below", |figures| figures.scaled_squared_radius -= 1),
        with("bound_above", |figures| figures.scaled_lower_bound += 1),
        with("bound_below", |figures| figures.scaled_lower_bound -= 1),
        with("ending_differs", |figures| figures.settled = 0),
        with("figures_of_budget_1", |figures| {
            *figures = envelope_budget_1().figures;
        }),
    ]
}

/// Envelopes with weights that are not those of the figures, or above 0 past m: 12.
pub fn other_weights() -> Vec<KnownWriting> {
    let with = |name, weights: &[u32]| {
        refused(
            name,
            changed(|envelope| envelope.weights = weights.to_vec()),
            12,
        )
    };
    let mut of_256 = [0; 256];
    of_256[1..3].fill(32_768);
    of_256[255] = 1;
    vec![
        with("sum_below", &[0, 32_767, 32_768]),
        with("sum_above", &[0, 32_768, 32_769]),
        with("sum_wraps", &[u32::MAX, 32_769, 32_768]),
        with("rows_of_other_weights", &[32_768, 32_768, 0]),
        with("all_zero", &[0, 0, 0]),
        with("weight_past", &[0, 32_768, 32_768, 1]),
        with("weight_past_of_256", &of_256),
        with("weight_moved_past", &[0, 32_768, 0, 32_768]),
    ]
}

/// Outside the limits and in disagreement: 8.
pub fn orders() -> Vec<KnownWriting> {
    let with = |name, change: fn(&mut Envelope)| refused(name, changed(change), 8);
    vec![
        with("limits_before_sum", |envelope| {
            envelope.figures.types[0] = 9;
            envelope.weights[1] = 0;
        }),
        with("limits_before_figures", |envelope| {
            envelope.figures.moves = 1_000_001;
            envelope.figures.scaled_squared_radius = 0;
        }),
        with("weight_list_before_weight_past", |envelope| {
            envelope.weights.resize(257, 1);
        }),
    ]
}

/// Every list.
pub fn all() -> Vec<KnownWriting> {
    [
        examples(),
        at_the_limits(),
        past_the_counts(),
        figures_outside(),
        rows_outside(),
        other_figures(),
        other_weights(),
        orders(),
    ]
    .concat()
}
