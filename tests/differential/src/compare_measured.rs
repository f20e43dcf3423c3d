//! One measured reading through the product and through the outside implementation.

use crate::compare_reading::BEHIND_TEXT;
use crate::lent::{self, Followed, Guarded};
use crate::product::{LentFigures, given, narrow, owned, refused, verdict, verdict_in_numbers};
use outside::random::Random;
use outside::readings::{self, EnvelopeFigures, Measured};
use outside::rules::{self, Refusal};

/// A reading and the figures that it is measured against, in memory, with what both must say of it.
#[derive(Clone, Debug)]
pub struct MeasuredReading {
    figures: EnvelopeFigures,
    lent: LentFigures,
    text: Followed<u8>,
    /// The answer by the rules, before any slice is too short.
    pub outcome: Result<Measured, Refusal>,
}

impl MeasuredReading {
    pub fn new(figures: &EnvelopeFigures, text: &[u8]) -> MeasuredReading {
        MeasuredReading {
            lent: LentFigures::new(figures),
            text: Followed::new(text, BEHIND_TEXT),
            outcome: readings::measure(figures, text),
            figures: figures.clone(),
        }
    }

    /// Measures the reading through both, with values of this length, and stops the tests where they
    /// differ in any number or place, or where the product's own verdict is another. Gives the number
    /// on which both agree.
    pub fn compare(&self, random: &mut Random, length: usize) -> u32 {
        let room = Guarded::new(length, || random.number() as i32);
        let (mut written, mut owed) = (room.clone(), room);
        let (lent, text) = (self.lent.clone(), self.text.clone());
        let answer = cundarivo::measure_into(
            given(&self.figures),
            lent.types.slice(),
            lent.centre.slice(),
            text.slice(),
            written.lent(),
        );
        let expected = in_numbers(self.handed_out(owed.lent()));
        assert_eq!(answer, expected, "{length} values, {}", self.shown());
        assert_eq!(written, owed, "{length} values, {}", self.shown());
        let unchanged = lent == self.lent && text == self.text;
        assert!(unchanged, "a lent place changed, {}", self.shown());
        self.compare_verdict(answer);
        answer.number
    }

    /// The answer by the rules, with the values handed out to these places where there are enough.
    fn handed_out(&self, places: &mut [i32]) -> Result<&Measured, Refusal> {
        let measured = self.outcome.as_ref().map_err(|refusal| *refusal)?;
        rules::hand_out(&measured.values, places)?;
        Ok(measured)
    }

    /// The product judges the reading as it has measured it; where the values have too few places,
    /// it judges it as accepted.
    fn compare_verdict(&self, answer: cundarivo::MeasuredAnswer) {
        let (types, centre) = (self.lent.types.slice(), self.lent.centre.slice());
        let given = given(&self.figures);
        let judged = cundarivo::judge_given(given, types, centre, self.text.slice());
        if answer.number == rules::BUFFER_TOO_SHORT.number {
            assert_eq!(judged.number, 0, "judged, {}", self.shown());
            return;
        }
        let measured = cundarivo::VerdictAnswer {
            number: answer.number,
            line: answer.line,
            verdict: answer.verdict,
            excess: answer.excess,
        };
        assert_eq!(judged, measured, "judged, {}", self.shown());
    }

    /// The same through the wrapper, which answers with values of its own and takes no other endings
    /// than the two.
    pub fn compare_wrapper(&self) {
        let Some(figures) = owned(&self.figures) else {
            return;
        };
        let measured = cundarivo::measure(&figures, self.text.slice());
        let judged = cundarivo::judge(&figures, self.text.slice());
        let own = measured.as_ref().map(|measured| measured.verdict);
        assert_eq!(own.map_err(|refusal| *refusal), judged, "{}", self.shown());
        let owed = match &self.outcome {
            Ok(measured) => Ok(cundarivo::Measured {
                verdict: verdict(measured.verdict),
                scaled_squared_distance: narrow(measured.scaled_squared_distance),
                values: measured.values.clone(),
            }),
            Err(refusal) => Err(refused(*refusal)),
        };
        assert_eq!(measured, owed, "wrapper, {}", self.shown());
    }

    /// The figures and the beginning of the text, for messages.
    pub fn shown(&self) -> String {
        format!("{}, {:?}", lent::shown(self.text.slice()), self.figures)
    }
}

fn in_numbers(outcome: Result<&Measured, Refusal>) -> cundarivo::MeasuredAnswer {
    let (refusal, verdict, scaled_squared_distance) = match outcome {
        Ok(measured) => {
            let s = narrow(measured.scaled_squared_distance);
            (None, verdict_in_numbers(measured.verdict), s)
        }
        Err(refusal) => (Some(refusal), (0, 0), 0),
    };
    let (verdict, excess) = verdict;
    cundarivo::MeasuredAnswer {
        number: refusal.map_or(0, |refusal| refusal.number),
        line: refusal.map_or(0, |refusal| refusal.line),
        verdict,
        excess,
        scaled_squared_distance,
    }
}
