//! The marks of charts and the panel, measured: of envelopes of 8 channels, X anywhere within its
//! limits.
//!
//! - disc: M within 2^53 of its limit, so that the root is as long as it can be; against
//!   `u64::isqrt`, the root of binary64, and bisection.
//! - dot: M is 0.
//! - panel: all 8 channels.

use crate::mark::{self, binary64_root, bisected_root, whole_root};
use crate::measure::{Line, Lines};
use crate::random::Random;
use crate::readings::given;
use crate::verdict::{CENTRE_LIMIT, DISTANCE_LIMIT};
use cundarivo::{Ending, Figures, Mark, Refusal};

const CHANNELS: usize = 8;
const CALLS: usize = 256;

struct Work {
    figures: Figures,
    channels: (usize, usize),
}

type Outcome = Result<Mark, Refusal>;

type Plain = fn(&Work) -> Outcome;

/// What the panel shows or the refusal, and the steps.
type Shown = (Result<(), Refusal>, [i32; CHANNELS]);

pub fn measure_charts(random: &mut Random) {
    let lines = Lines::new("calls");
    let discs = works(random, |random| {
        DISTANCE_LIMIT - random.below(1 << 53) as u64
    });
    let dots = works(random, |_| 0);
    let ways: [(&str, &str, Plain); 3] = [
        (
            "isqrt",
            "the standard library's root of whole numbers",
            |work| plain_chart(whole_root, work),
        ),
        (
            "binary64",
            "the root of binary64, put right afterwards",
            |work| plain_chart(binary64_root, work),
        ),
        ("bisection", "a root by bisection", |work| {
            plain_chart(bisected_root, work)
        }),
    ];
    for (way, root, plain) in ways {
        let input = (format!("chart disc, {way}"), "M close to its limit");
        measure_marks(&lines, input, &discs, root, plain);
    }
    let (_, root, plain) = ways[0];
    measure_marks(&lines, ("chart dot".into(), "M of 0"), &dots, root, plain);
    let line = Line {
        name: "panel 8",
        sentence: "The proved panel in whole steps against plain Rust that rounds the same, on 256 envelopes of 8 channels.",
        pieces: (CALLS, "panel"),
    };
    let amount = |_: &Work, shown: &Shown| one_call(shown.0.is_ok());
    lines.measure(&line, &discs, proved_panel, plain_panel, amount);
}

fn measure_marks(
    lines: &Lines,
    (name, input): (String, &str),
    works: &[Work],
    root: &str,
    plain: Plain,
) {
    let sentence = format!(
        "The proved mark on a chart against plain Rust with {root}, on {CALLS} envelopes with {input}."
    );
    let line = Line {
        name: &name,
        sentence: &sentence,
        pieces: (CALLS, "chart"),
    };
    let amount = |_: &Work, outcome: &Outcome| one_call(outcome.is_ok());
    lines.measure(&line, works, proved_chart, plain, amount);
}

fn one_call(accepted: bool) -> u64 {
    assert!(accepted, "figures within the limits");
    1
}

/// Envelopes of any centre with an M of this kind, and two channels.
fn works(random: &mut Random, radius: impl Fn(&mut Random) -> u64) -> Vec<Work> {
    let work = |_| Work {
        figures: Figures {
            n: CHANNELS,
            codes: (1..=CHANNELS as u8).collect(),
            scaled_centre: (0..CHANNELS).map(|_| place(random)).collect(),
            scaled_squared_radius: radius(random),
            scaled_lower_bound: 0,
            ending: Ending::Settled,
            moves: 0,
        },
        channels: (1 + random.below(CHANNELS), 1 + random.below(CHANNELS)),
    };
    (0..CALLS).map(work).collect()
}

/// X within its limits.
fn place(random: &mut Random) -> i64 {
    random.below(2 * CENTRE_LIMIT as usize + 1) as i64 - CENTRE_LIMIT
}

fn proved_chart(work: &Work) -> Outcome {
    let (horizontal, vertical) = work.channels;
    cundarivo::chart(&work.figures, horizontal, vertical)
}

fn plain_chart(root: impl Fn(u64) -> u64, work: &Work) -> Outcome {
    let (horizontal, vertical) = work.channels;
    mark::chart(root, &given(&work.figures), horizontal, vertical)
}

fn proved_panel(work: &Work) -> Shown {
    let Figures {
        codes,
        scaled_centre,
        ..
    } = &work.figures;
    let mut steps = [0; CHANNELS];
    let answer = cundarivo::panel_into(work.figures.given(), codes, scaled_centre, &mut steps);
    let shown = match answer.number {
        0 => Ok(()),
        number => Err(Refusal {
            number,
            line: answer.line,
        }),
    };
    (shown, steps)
}

fn plain_panel(work: &Work) -> Shown {
    let mut steps = [0; CHANNELS];
    let shown = mark::panel(&given(&work.figures), &mut steps);
    (shown, steps)
}
