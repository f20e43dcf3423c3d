//! The figures of an envelope, refusals and answers, as the product takes and gives them, and a text
//! written by it.

use crate::lent::{Followed, Guarded};
use outside::random::Random;
use outside::readings::{EnvelopeFigures, Verdict};
use outside::records;
use outside::rules::Refusal;

/// What follows the lent slices in memory: a product that read past an end would take it for rows, types
/// and X within their limits.
pub const BEHIND_PLACES: [i32; 9] = [0; 9];
pub const BEHIND_TYPES: [u8; 9] = [1; 9];
const BEHIND_CENTRE: [i64; 9] = [0; 9];

/// The types and X of an envelope, lent to be read.
#[derive(Clone, Debug, PartialEq, Eq)]
pub struct LentFigures {
    pub types: Followed<u8>,
    pub centre: Followed<i64>,
}

impl LentFigures {
    pub fn new(figures: &EnvelopeFigures) -> LentFigures {
        LentFigures {
            types: Followed::new(&figures.types, &BEHIND_TYPES),
            centre: Followed::new(&figures.scaled_centre, &BEHIND_CENTRE),
        }
    }
}

/// The figures as they are given to the library's own calls.
pub fn given(figures: &EnvelopeFigures) -> cundarivo::FiguresGiven {
    cundarivo::FiguresGiven {
        n: figures.n,
        scaled_squared_radius: figures.scaled_squared_radius,
        scaled_lower_bound: figures.scaled_lower_bound,
        settled: figures.settled,
        moves: figures.moves,
    }
}

/// The figures as the wrapper takes them; it takes no other endings than the two.
pub fn owned(figures: &EnvelopeFigures) -> Option<cundarivo::Figures> {
    let ending = match figures.settled {
        0 => cundarivo::Ending::Budget,
        1 => cundarivo::Ending::Settled,
        _ => return None,
    };
    Some(cundarivo::Figures {
        n: figures.n,
        codes: figures.types.clone(),
        scaled_centre: figures.scaled_centre.clone(),
        scaled_squared_radius: figures.scaled_squared_radius,
        scaled_lower_bound: figures.scaled_lower_bound,
        ending,
        moves: figures.moves,
    })
}

/// A refusal as the wrapper gives it.
pub fn refused(refusal: Refusal) -> cundarivo::Refusal {
    cundarivo::Refusal {
        number: refusal.number,
        line: refusal.line,
    }
}

/// A verdict as the wrapper gives it.
pub fn verdict(verdict: Verdict) -> cundarivo::Verdict {
    match verdict {
        Verdict::Quiet => cundarivo::Verdict::Quiet,
        Verdict::Alarm { excess } => cundarivo::Verdict::Alarm {
            excess: narrow(excess),
        },
    }
}

/// A verdict and its excess as the library's own calls give them.
pub fn verdict_in_numbers(verdict: Verdict) -> (u32, u64) {
    match verdict {
        Verdict::Quiet => (1, 0),
        Verdict::Alarm { excess } => (2, narrow(excess)),
    }
}

/// s or an excess in the bits that the product gives it.
pub fn narrow(distance: i128) -> u64 {
    u64::try_from(distance).expect("s is at most its limit")
}

/// Writes through the product into an output of this length, and stops the tests where a number or a place
/// is not that of the answer by the rules, which comes before any output is too short. Gives the answer on
/// which both agree.
pub fn compare_written(
    random: &mut Random,
    length: usize,
    outcome: Result<&[u8], Refusal>,
    write: impl FnOnce(&mut [u8]) -> cundarivo::WrittenAnswer,
    shown: impl Fn() -> String,
) -> Result<usize, Refusal> {
    let output = Guarded::new(length, || random.number() as u8);
    let (mut written, mut owed) = (output.clone(), output);
    let answer = write(written.lent());
    let expected = outcome.and_then(|text| records::place_text(text, owed.lent()));
    let shown = || format!("{length} places, {}", shown());
    assert_eq!(answer, written_in_numbers(expected), "{}", shown());
    assert!(written == owed, "a place differs, {}", shown());
    expected
}

/// The number of an answer: 0 where it is accepted.
pub fn number(answer: Result<usize, Refusal>) -> u32 {
    answer.map_or_else(|refusal| refusal.number, |_| 0)
}

/// The answer to a writing of so many bytes, or its refusal.
fn written_in_numbers(outcome: Result<usize, Refusal>) -> cundarivo::WrittenAnswer {
    let (number, line, length) = match outcome {
        Ok(length) => (0, 0, length),
        Err(refusal) => (refusal.number, refusal.line, 0),
    };
    cundarivo::WrittenAnswer {
        number,
        line,
        length,
    }
}
