//! What a comparison has run through.

use crate::reached::Reached;
use outside::cases::{Answer, Case};
use outside::demands::{Tried, TriedBySource};
use std::fmt::Debug;

#[derive(Default)]
pub struct Tally {
    pub sets: u64,
    /// Sets of as many rows and channels as the limits allow.
    pub full_sets: u64,
    pub draws: u64,
    pub checks: u64,
    pub moves: u64,
    /// The most moves of one drawing.
    pub most_moves: u32,
    pub solved_rivals: Tried,
    pub other_rivals: Tried,
    /// Settled drawings with M above 0.
    pub settled_draws: u64,
    /// Those of them with a rival from the other solver within a thousandth.
    pub matched_draws: u64,
    pub reached: Reached,
}

/// The outcomes that a comparison must have reached.
const OUTCOMES: [&str; 10] = [
    "draw: Settled",
    "draw: Budget",
    "draw: refusal 8",
    "draw: refusal 9",
    "draw: refusal 13",
    "check: Settled",
    "check: not Settled",
    "check: refusal 8",
    "check: refusal 12",
    "check: refusal 13",
];

impl Tally {
    pub fn count(&mut self, case: &Case, answer: &Answer) {
        let (call, unsettled) = match case {
            Case::Draw(..) => ("draw", "Budget"),
            Case::Check(..) => ("check", "not Settled"),
        };
        match case {
            Case::Draw(..) => self.draws += 1,
            Case::Check(..) => self.checks += 1,
        }
        self.moves += u64::from(answer.moves);
        self.most_moves = self.most_moves.max(answer.moves);
        let outcome = match (answer.number, answer.settled) {
            (0, true) => "Settled".to_string(),
            (0, false) => unsettled.to_string(),
            (number, _) => format!("refusal {number}"),
        };
        self.reached.count(format!("{call}: {outcome}"));
    }

    /// The rivals that an accepted answer was tested against.
    pub fn count_rivals(&mut self, case: &Case, answer: &Answer, tried: TriedBySource) {
        self.solved_rivals += tried.solved;
        self.other_rivals += tried.others;
        let drawn = matches!(case, Case::Draw(..));
        if drawn && answer.settled && answer.scaled_squared_radius > 0 {
            self.settled_draws += 1;
            self.matched_draws += u64::from(tried.solved.close > 0);
        }
    }

    pub fn count_kind(&mut self, group: &str, kind: impl Debug) {
        self.reached.count(format!("{group}: {kind:?}"));
    }

    pub fn print(&self) {
        println!(
            "sets: {}, of 256 rows and 8 channels: {}",
            self.sets, self.full_sets
        );
        println!("draws compared: {}", self.draws);
        println!("checks compared: {}", self.checks);
        println!(
            "moves in all: {}, most of one drawing: {}",
            self.moves, self.most_moves
        );
        let rivals = [
            ("the other solver", self.solved_rivals),
            ("elsewhere", self.other_rivals),
        ];
        for (source, Tried { rivals, close }) in rivals {
            println!("rivals from {source}: {rivals}, within a thousandth: {close}");
        }
        println!(
            "Settled drawings with M above 0: {}, with a rival from the other solver within a \
             thousandth: {}",
            self.settled_draws, self.matched_draws
        );
        self.reached.print();
    }

    /// Stops the tests where an outcome, or one of the named kinds, was never met, or where a
    /// Settled drawing with M above 0 had no rival from the other solver within a thousandth.
    pub fn require(&self, kinds: impl Iterator<Item = String>) {
        let outcomes = OUTCOMES.iter().map(|name| name.to_string());
        for name in outcomes.chain(kinds) {
            self.reached.require(&name, 1);
        }
        assert!(self.settled_draws > 0, "no drawing Settled with M above 0");
        assert_eq!(
            self.matched_draws, self.settled_draws,
            "a Settled drawing had no near-optimal rival from the other solver"
        );
    }
}
