//! One reading through the product and through the outside implementation.

use crate::lent::{self, Followed};
use crate::product::{LentFigures, given, owned, refused, verdict, verdict_in_numbers};
use outside::readings::{self, EnvelopeFigures, Verdict};
use outside::rules::Refusal;

/// What follows the text in memory: a product that read past its end would take it for the text's
/// byte 10.
pub const BEHIND_TEXT: &[u8] = b"\n,TOC,1\n";

/// A reading and the figures that it is judged against, in memory, with what both must say of it.
#[derive(Clone, Debug)]
pub struct Reading {
    figures: EnvelopeFigures,
    lent: LentFigures,
    text: Followed<u8>,
    /// The answer by the rules.
    pub outcome: Result<Verdict, Refusal>,
}

impl Reading {
    pub fn new(figures: &EnvelopeFigures, text: &[u8]) -> Reading {
        Reading {
            lent: LentFigures::new(figures),
            text: Followed::new(text, BEHIND_TEXT),
            outcome: readings::judge(figures, text),
            figures: figures.clone(),
        }
    }

    /// Judges the reading through both, and stops the tests where they differ in number, line,
    /// verdict or excess, or where a lent place has changed.
    pub fn compare(&self) {
        let given = given(&self.figures);
        let (lent, text) = (self.lent.clone(), self.text.clone());
        let (types, centre) = (lent.types.slice(), lent.centre.slice());
        let answer = cundarivo::judge_given(given, types, centre, text.slice());
        assert_eq!(answer, in_numbers(&self.outcome), "{}", self.shown());
        let unchanged = lent == self.lent && text == self.text;
        assert!(unchanged, "a lent place changed, {}", self.shown());
    }

    /// The same through the wrapper, which takes no other endings than the two.
    pub fn compare_wrapper(&self) {
        let Some(figures) = owned(&self.figures) else {
            return;
        };
        let given = cundarivo::judge(&figures, self.text.slice());
        let owed = self.outcome.map(verdict).map_err(refused);
        assert_eq!(given, owed, "wrapper, {}", self.shown());
    }

    /// The figures and the beginning of the text, for messages.
    pub fn shown(&self) -> String {
        format!("{}, {:?}", lent::shown(self.text.slice()), self.figures)
    }
}

fn in_numbers(outcome: &Result<Verdict, Refusal>) -> cundarivo::VerdictAnswer {
    let (number, line, (verdict, excess)) = match *outcome {
        Ok(verdict) => (0, 0, verdict_in_numbers(verdict)),
        Err(refusal) => (refusal.number, refusal.line, (0, 0)),
    };
    cundarivo::VerdictAnswer {
        number,
        line,
        verdict,
        excess,
    }
}
