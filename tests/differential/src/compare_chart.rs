//! One chart and one panel through the product and through the outside implementation. Numbers of
//! binary64 are compared by their bits.

use crate::lent::Guarded;
use crate::product::{LentFigures, given, owned, refused};
use outside::charts::{self, Mark, Point};
use outside::random::Random;
use outside::readings::EnvelopeFigures;
use outside::rules::{self, Refusal};

/// Figures in memory and two channels, with what both must say of them.
#[derive(Clone, Debug)]
pub struct Chart {
    figures: EnvelopeFigures,
    lent: LentFigures,
    channels: (usize, usize),
    /// The answer by the rules, in bits.
    pub outcome: Result<Mark<u64>, Refusal>,
}

impl Chart {
    pub fn new(figures: &EnvelopeFigures, channels: (usize, usize)) -> Chart {
        let (horizontal, vertical) = channels;
        Chart {
            lent: LentFigures::new(figures),
            channels,
            outcome: charts::chart(figures, horizontal, vertical).map(Mark::binary64),
            figures: figures.clone(),
        }
    }

    /// Asks both for the mark, and stops the tests where they differ in a number or a bit, or where
    /// a lent place has changed.
    pub fn compare(&self) {
        let lent = self.lent.clone();
        let (horizontal, vertical) = self.channels;
        let answer = cundarivo::chart_given(
            given(&self.figures),
            lent.types.slice(),
            lent.centre.slice(),
            horizontal,
            vertical,
        );
        let owed = MarkBits::owed(&self.outcome);
        assert_eq!(MarkBits::of(answer), owed, "{}", self.shown());
        assert!(lent == self.lent, "a lent place changed, {}", self.shown());
    }

    /// The same through the wrapper, which takes no other endings than the two.
    pub fn compare_wrapper(&self) {
        let Some(figures) = owned(&self.figures) else {
            return;
        };
        let (horizontal, vertical) = self.channels;
        let answer = cundarivo::chart(&figures, horizontal, vertical).map(bits_of);
        let owed = self.outcome.map_err(refused);
        assert_eq!(answer, owed, "wrapper, {}", self.shown());
    }

    /// The figures and the channels, for messages.
    pub fn shown(&self) -> String {
        format!("channels {:?}, {:?}", self.channels, self.figures)
    }
}

/// The product's answer, with its numbers of binary64 in bits.
#[derive(Clone, Copy, Debug, PartialEq, Eq)]
struct MarkBits {
    number: u32,
    line: u32,
    mark: u32,
    horizontal: u64,
    vertical: u64,
    radius: u64,
}

impl MarkBits {
    fn of(answer: cundarivo::MarkAnswer) -> MarkBits {
        MarkBits {
            number: answer.number,
            line: answer.line,
            mark: answer.mark,
            horizontal: answer.horizontal.to_bits(),
            vertical: answer.vertical.to_bits(),
            radius: answer.radius.to_bits(),
        }
    }

    /// A dot has radius 0, and a refusal has every number 0; the bits of 0 are all 0.
    fn owed(outcome: &Result<Mark<u64>, Refusal>) -> MarkBits {
        let origin = Point {
            horizontal: 0,
            vertical: 0,
        };
        let (number, line, mark, centre, radius) = match *outcome {
            Ok(Mark::Dot(centre)) => (0, 0, 1, centre, 0),
            Ok(Mark::Disc { centre, radius }) => (0, 0, 2, centre, radius),
            Err(refusal) => (refusal.number, refusal.line, 0, origin, 0),
        };
        MarkBits {
            number,
            line,
            mark,
            horizontal: centre.horizontal,
            vertical: centre.vertical,
            radius,
        }
    }
}

fn bits_of(mark: cundarivo::Mark) -> Mark<u64> {
    let point = |point: cundarivo::Point| Point {
        horizontal: point.horizontal,
        vertical: point.vertical,
    };
    let mark = match mark {
        cundarivo::Mark::Dot(centre) => Mark::Dot(point(centre)),
        cundarivo::Mark::Disc { centre, radius } => Mark::Disc {
            centre: point(centre),
            radius,
        },
    };
    mark.map(f64::to_bits)
}

/// Figures in memory, with what both must say that the panel shows.
#[derive(Clone, Debug)]
pub struct Panel {
    figures: EnvelopeFigures,
    lent: LentFigures,
    /// The answer by the rules, before any slice is too short.
    pub outcome: Result<Vec<i32>, Refusal>,
}

impl Panel {
    pub fn new(figures: &EnvelopeFigures) -> Panel {
        Panel {
            lent: LentFigures::new(figures),
            outcome: charts::panel(figures),
            figures: figures.clone(),
        }
    }

    /// Asks both for the panel, with steps of this length, and stops the tests where they differ in
    /// any number or place. Gives the number on which both agree.
    pub fn compare(&self, random: &mut Random, length: usize) -> u32 {
        let room = Guarded::new(length, || random.number() as i32);
        let (mut written, mut owed) = (room.clone(), room);
        let lent = self.lent.clone();
        let (types, centre) = (lent.types.slice(), lent.centre.slice());
        let answer = cundarivo::panel_into(given(&self.figures), types, centre, written.lent());
        let expected = match &self.outcome {
            Ok(shown) => rules::hand_out(shown, owed.lent()),
            Err(refusal) => Err(*refusal),
        };
        let (number, line) = expected.map_or_else(|r| (r.number, r.line), |()| (0, 0));
        let expected = cundarivo::PanelAnswer { number, line };
        assert_eq!(answer, expected, "{length} steps, {}", self.shown());
        assert_eq!(written, owed, "steps, {}", self.shown());
        assert!(lent == self.lent, "a lent place changed, {}", self.shown());
        number
    }

    /// The same through the wrapper, which answers with steps of its own.
    pub fn compare_wrapper(&self) {
        let Some(figures) = owned(&self.figures) else {
            return;
        };
        let shown = cundarivo::panel(&figures);
        let owed = self.outcome.clone().map_err(refused);
        assert_eq!(shown, owed, "wrapper, {}", self.shown());
    }

    /// The figures, for messages.
    pub fn shown(&self) -> String {
        format!("{:?}", self.figures)
    }
}
