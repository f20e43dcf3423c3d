//! Records in form that disagree with their rows or types.

use crate::random::Random;
use crate::record_faults;
use crate::record_texts::{CENTRE, FIGURES, HEADING, RecordDraft, WEIGHTS};
use crate::records::DIGIT_LIMIT;
use crate::reference::CHANNEL_TYPES;
use crate::rules::{CHANNEL_LIMIT, ROW_LIMIT};
use crate::texts::Fields;

/// How a record disagrees.
#[derive(Clone, Copy, Debug, PartialEq, Eq)]
pub enum Disagreement {
    TagDiffers,
    /// A channel less, in the heading and in X.
    ChannelDropped,
    ChannelAdded,
    CentreOneOff,
    /// A number of 19 digits, of which some are above 64 bits.
    CentreTooLarge,
    RadiusOneOff,
    RadiusNegative,
    RadiusTooLarge,
    BoundOneOff,
    BoundNegative,
    BoundTooLarge,
    LetterDiffers,
    SumOneOff,
    /// A weight and 2^32.
    WeightIn32Bits,
    WeightTooLarge,
    /// A row above m in the last line.
    RowAbove,
    /// A line more, of a row above m, while the others sum to D.
    LineAbove,
    WeightLineDropped,
}

pub const DISAGREEMENTS: [Disagreement; 18] = [
    Disagreement::TagDiffers,
    Disagreement::ChannelDropped,
    Disagreement::ChannelAdded,
    Disagreement::CentreOneOff,
    Disagreement::CentreTooLarge,
    Disagreement::RadiusOneOff,
    Disagreement::RadiusNegative,
    Disagreement::RadiusTooLarge,
    Disagreement::BoundOneOff,
    Disagreement::BoundNegative,
    Disagreement::BoundTooLarge,
    Disagreement::LetterDiffers,
    Disagreement::SumOneOff,
    Disagreement::WeightIn32Bits,
    Disagreement::WeightTooLarge,
    Disagreement::RowAbove,
    Disagreement::LineAbove,
    Disagreement::WeightLineDropped,
];

impl Disagreement {
    /// Whether a record of m rows within the rules can have it.
    pub fn fits(self, draft: &RecordDraft, m: usize) -> bool {
        let n = draft.lines[CENTRE].len() - 1;
        match self {
            Disagreement::ChannelDropped => n > 1,
            Disagreement::ChannelAdded => n < CHANNEL_LIMIT,
            Disagreement::RowAbove | Disagreement::LineAbove => m < ROW_LIMIT,
            Disagreement::WeightLineDropped => draft.lines.len() > WEIGHTS + 1,
            _ => true,
        }
    }

    /// The field of the line of M and L that it is in.
    fn figure(self) -> usize {
        match self {
            Disagreement::RadiusOneOff
            | Disagreement::RadiusNegative
            | Disagreement::RadiusTooLarge => 1,
            Disagreement::LetterDiffers => 4,
            _ => 2,
        }
    }
}

/// Makes a record of m rows within the rules disagree with them. Gives the first line that is
/// changed, counted from 0.
pub fn disagree(
    random: &mut Random,
    draft: &mut RecordDraft,
    disagreement: Disagreement,
    m: usize,
) -> usize {
    let place = random.index(draft.lines[CENTRE].len() - 1);
    match disagreement {
        Disagreement::TagDiffers => {
            let tag = &mut draft.lines[HEADING][2 + place];
            *tag = other_tag(random, tag);
            HEADING
        }
        Disagreement::ChannelDropped | Disagreement::ChannelAdded => {
            change_channels(random, &mut draft.lines, disagreement, place);
            HEADING
        }
        Disagreement::CentreOneOff => {
            let off = random.pick(&[-1, 1]);
            draft.set_number(CENTRE, 1 + place, draft.number(CENTRE, 1 + place) + off);
            CENTRE
        }
        Disagreement::CentreTooLarge => {
            draft.lines[CENTRE][1 + place] = record_faults::digits_of(random, DIGIT_LIMIT);
            CENTRE
        }
        Disagreement::SumOneOff
        | Disagreement::WeightIn32Bits
        | Disagreement::WeightTooLarge
        | Disagreement::RowAbove
        | Disagreement::LineAbove
        | Disagreement::WeightLineDropped => disagree_in_weights(random, draft, disagreement, m),
        _ => {
            disagree_in_figures(random, draft, disagreement);
            FIGURES
        }
    }
}

fn other_tag(random: &mut Random, own: &[u8]) -> Vec<u8> {
    let tags = CHANNEL_TYPES.map(|channel| channel.tag.as_bytes());
    let others: Vec<&[u8]> = tags.into_iter().filter(|&tag| tag != own).collect();
    random.pick(&others).to_vec()
}

fn change_channels(random: &mut Random, lines: &mut [Fields], change: Disagreement, place: usize) {
    if change == Disagreement::ChannelDropped {
        lines[HEADING].remove(2 + place);
        lines[CENTRE].remove(1 + place);
    } else {
        let tag = random.pick(&CHANNEL_TYPES).tag;
        lines[HEADING].insert(2 + place, tag.into());
        lines[CENTRE].insert(1 + place, b"0".to_vec());
    }
    let n = lines[CENTRE].len() - 1;
    lines[HEADING][1] = n.to_string().into_bytes();
}

fn disagree_in_figures(random: &mut Random, draft: &mut RecordDraft, disagreement: Disagreement) {
    let field = disagreement.figure();
    match disagreement {
        Disagreement::LetterDiffers => {
            let letter = &mut draft.lines[FIGURES][field][0];
            *letter = if *letter == b'S' { b'B' } else { b'S' };
        }
        Disagreement::RadiusOneOff | Disagreement::BoundOneOff => {
            let off = random.pick(&[-1, 1]);
            draft.set_number(FIGURES, field, draft.number(FIGURES, field) + off);
        }
        Disagreement::RadiusNegative | Disagreement::BoundNegative => {
            draft.set_number(FIGURES, field, -draft.number(FIGURES, field).max(1));
        }
        _ => draft.lines[FIGURES][field] = too_large(random),
    }
}

fn disagree_in_weights(
    random: &mut Random,
    draft: &mut RecordDraft,
    disagreement: Disagreement,
    m: usize,
) -> usize {
    let line = WEIGHTS + random.index(draft.lines.len() - WEIGHTS);
    let weight = draft.number(line, 2);
    match disagreement {
        Disagreement::RowAbove | Disagreement::LineAbove => {
            if disagreement == Disagreement::LineAbove {
                draft.lines.push(draft.lines[line].clone());
            }
            let last = draft.lines.len() - 1;
            let row = m + 1 + random.index(ROW_LIMIT - m);
            draft.set_number(last, 1, row as i128);
            return last;
        }
        Disagreement::WeightLineDropped => drop(draft.lines.remove(line)),
        Disagreement::SumOneOff if weight > 1 && random.once_in(2) => {
            draft.set_number(line, 2, weight - 1);
        }
        Disagreement::SumOneOff => draft.set_number(line, 2, weight + 1),
        Disagreement::WeightIn32Bits => draft.set_number(line, 2, weight + (1 << 32)),
        _ => draft.lines[line][2] = too_large(random),
    }
    line
}

/// A number of 19 digits above every figure.
fn too_large(random: &mut Random) -> Vec<u8> {
    let numbers: [i128; 4] = [
        4_611_686_018_427_387_904,
        i64::MAX.into(),
        1 << 63,
        9_999_999_999_999_999_999,
    ];
    random.pick(&numbers).to_string().into_bytes()
}
