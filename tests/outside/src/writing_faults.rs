//! Faults of an envelope that is written, and calls with two of them, whose refusal is known.

use crate::envelopes::{self, FIGURE_FAULTS, FigureFault};
use crate::random::Random;
use crate::readings::DISTANCE_LIMIT;
use crate::record_texts::{self, Enveloped};
use crate::records::Envelope;
use crate::rules::{OUTSIDE_LIMITS, ROW_LIMIT, Refusal, WEIGHTS_DISAGREE};
use crate::sets::{self, Damage, REFUSED_ROWS, Set};

/// A fault of a call.
#[derive(Clone, Copy, Debug, PartialEq, Eq)]
pub enum WritingFault {
    /// A figure outside its limits.
    Figures(FigureFault),
    /// Rows outside their limits.
    Rows(Damage),
    /// Fewer than m weights.
    WeightsShort,
    NoWeights,
    /// More than 256 weights, those past m being 0.
    WeightsLong,
    CentreOneOff,
    RadiusOneOff,
    BoundOneOff,
    EndingDiffers,
    SumOneOff,
    /// A weight of 2^32 - 1.
    LargestWeight,
    AllZero,
    /// A weight above 0 past m, besides those that sum to D.
    WeightPast,
    /// A weight past m that is taken from a row, so that all of them sum to D.
    WeightMovedPast,
}

const OF_WEIGHTS: [WritingFault; 3] = [
    WritingFault::WeightsShort,
    WritingFault::NoWeights,
    WritingFault::WeightsLong,
];

pub const DISAGREEMENTS: [WritingFault; 9] = [
    WritingFault::CentreOneOff,
    WritingFault::RadiusOneOff,
    WritingFault::BoundOneOff,
    WritingFault::EndingDiffers,
    WritingFault::SumOneOff,
    WritingFault::LargestWeight,
    WritingFault::AllZero,
    WritingFault::WeightPast,
    WritingFault::WeightMovedPast,
];

/// The faults by which an envelope is refused with 8.
pub fn outside_limits() -> Vec<WritingFault> {
    let mut list: Vec<WritingFault> = FIGURE_FAULTS.map(WritingFault::Figures).into();
    list.extend(REFUSED_ROWS.iter().copied().map(WritingFault::Rows));
    list.extend(OF_WEIGHTS);
    list
}

/// Every fault.
pub fn all_faults() -> Vec<WritingFault> {
    let mut list = outside_limits();
    list.extend(DISAGREEMENTS);
    list
}

impl WritingFault {
    pub fn refusal(self) -> Refusal {
        if DISAGREEMENTS.contains(&self) {
            WEIGHTS_DISAGREE
        } else {
            OUTSIDE_LIMITS
        }
    }

    /// Whether an envelope of m rows can have it.
    pub fn fits(self, m: usize) -> bool {
        match self {
            WritingFault::WeightPast | WritingFault::WeightMovedPast => m < ROW_LIMIT,
            _ => true,
        }
    }
}

/// An envelope and the rows that it is written against.
#[derive(Clone, Debug)]
pub struct WritingCall {
    pub envelope: Envelope,
    pub set: Set,
}

impl WritingCall {
    /// A call within the rules.
    pub fn new(random: &mut Random, enveloped: &Enveloped) -> WritingCall {
        let mut envelope = enveloped.envelope.clone();
        record_texts::lend_longer(random, &mut envelope.weights);
        let set = enveloped.rows.set.clone();
        WritingCall { envelope, set }
    }

    fn put(&mut self, random: &mut Random, fault: WritingFault) {
        let WritingCall { envelope, set } = self;
        let channel = random.index(set.n);
        match fault {
            WritingFault::Figures(fault) => {
                envelopes::put(random, &mut envelope.figures, fault, channel);
            }
            WritingFault::Rows(damage) => {
                set.places.truncate(set.m * set.n);
                sets::damage(random, set, damage);
            }
            WritingFault::WeightsShort => envelope.weights.truncate(random.index(set.m)),
            WritingFault::NoWeights => envelope.weights.clear(),
            WritingFault::WeightsLong => {
                let places = ROW_LIMIT + 1 + random.pick(&[0, 1, 100]);
                envelope.weights.resize(places, 0);
            }
            _ => disagree(random, envelope, set.m, fault),
        }
    }
}

/// Makes an envelope of m rows disagree with them.
fn disagree(random: &mut Random, envelope: &mut Envelope, m: usize, fault: WritingFault) {
    let Envelope { figures, weights } = envelope;
    let (channel, row) = (random.index(figures.n), random.index(m));
    match fault {
        WritingFault::CentreOneOff => {
            let place = &mut figures.scaled_centre[channel];
            // Towards 0, so that it stays within the limits.
            *place += if *place > 0 { -1 } else { 1 };
        }
        WritingFault::RadiusOneOff => one_off(random, &mut figures.scaled_squared_radius),
        WritingFault::BoundOneOff => one_off(random, &mut figures.scaled_lower_bound),
        WritingFault::EndingDiffers => figures.settled = 1 - figures.settled,
        WritingFault::SumOneOff if weights[row] > 0 && random.once_in(2) => weights[row] -= 1,
        WritingFault::SumOneOff => weights[row] += 1,
        WritingFault::LargestWeight => weights[row] = u32::MAX,
        WritingFault::AllZero => weights.fill(0),
        _ => {
            let heaviest = (0..m).max_by_key(|&row| weights[row]).expect("a row");
            let past = m + random.index(ROW_LIMIT - m);
            weights.resize(weights.len().max(past + 1), 0);
            weights[past] = random.pick(&[1, weights[heaviest], u32::MAX]);
            if fault == WritingFault::WeightMovedPast {
                weights[past] = random.pick(&[1, weights[heaviest]]);
                weights[heaviest] -= weights[past];
            }
        }
    }
}

/// A figure that is 1 more or less, within its limits.
fn one_off(random: &mut Random, figure: &mut u64) {
    if *figure == DISTANCE_LIMIT || *figure > 0 && random.once_in(2) {
        *figure -= 1;
    } else {
        *figure += 1;
    }
}

/// A call whose refusal is known.
#[derive(Clone, Debug)]
pub struct FaultyWriting {
    pub call: WritingCall,
    pub refusal: Refusal,
}

/// A call with one fault that fits.
pub fn one_fault(random: &mut Random, enveloped: &Enveloped, fault: WritingFault) -> FaultyWriting {
    with_faults(random, enveloped, &[fault])
}

/// A call that disagrees with its rows and is outside the limits too: 8 is given.
pub fn two_faults(random: &mut Random, enveloped: &Enveloped) -> FaultyWriting {
    let m = enveloped.rows.set.m;
    let disagreements: Vec<WritingFault> = DISAGREEMENTS
        .into_iter()
        .filter(|fault| fault.fits(m))
        .collect();
    let outside = random.pick(&outside_limits());
    let disagreement = random.pick(&disagreements);
    with_faults(random, enveloped, &[disagreement, outside])
}

/// The fault that is given comes last.
fn with_faults(
    random: &mut Random,
    enveloped: &Enveloped,
    faults: &[WritingFault],
) -> FaultyWriting {
    let mut call = WritingCall::new(random, enveloped);
    for &fault in faults {
        call.put(random, fault);
    }
    let last = faults.last().expect("a fault");
    FaultyWriting {
        call,
        refusal: last.refusal(),
    }
}
