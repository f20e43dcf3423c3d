//! Damage done to a record, whose answer is not known beforehand: some damaged records are accepted.

use crate::damage::{self, Damage, OF_ANY_TEXT};
use crate::envelopes;
use crate::random::Random;
use crate::record_disagreements::{self, DISAGREEMENTS, Disagreement};
use crate::record_faults::{self, FORM_FAULTS, FormFault};
use crate::record_texts::{Enveloped, FIGURES, RecordDraft, WEIGHTS};
use crate::reference::TEXT_LIMIT;

#[derive(Clone, Copy, Debug, PartialEq, Eq)]
pub enum RecordDamage {
    /// A fault of form.
    Form(FormFault),
    Disagreement(Disagreement),
    /// Other moves within the limit, which agree with everything.
    MovesChanged,
    /// A weight of 1 to 3 taken from one line to another; between equal rows it changes no figure.
    WeightMoved,
    /// A row and the next one, where no line has that.
    RowChanged,
    /// Damage that any text takes.
    Bytes(Damage),
    /// Two lines exchanged.
    LinesExchanged,
    /// Two fields of any lines exchanged.
    FieldsExchanged,
    /// A field in the place of another.
    FieldCopied,
    Emptied,
    /// A few bytes less than the limit, or exactly the limit.
    AtTheLimit,
    AboveTheLimit,
}

/// Kinds that only a record within the rules takes, besides faults and disagreements.
const OF_RECORDS: [RecordDamage; 3] = [
    RecordDamage::MovesChanged,
    RecordDamage::WeightMoved,
    RecordDamage::RowChanged,
];

const OF_FIELDS: [RecordDamage; 3] = [
    RecordDamage::LinesExchanged,
    RecordDamage::FieldsExchanged,
    RecordDamage::FieldCopied,
];

const OF_LENGTH: [RecordDamage; 3] = [
    RecordDamage::Emptied,
    RecordDamage::AtTheLimit,
    RecordDamage::AboveTheLimit,
];

/// Every kind.
pub fn damages() -> Vec<RecordDamage> {
    let mut list: Vec<RecordDamage> = FORM_FAULTS.map(RecordDamage::Form).into();
    list.extend(DISAGREEMENTS.map(RecordDamage::Disagreement));
    list.extend(OF_RECORDS);
    list.extend(OF_ANY_TEXT.iter().copied().map(RecordDamage::Bytes));
    list.extend(OF_FIELDS);
    list.extend(OF_LENGTH);
    list
}

/// A record with one to three kinds of damage, one after the other, and these kinds.
pub fn damaged(random: &mut Random, enveloped: &Enveloped) -> (Vec<u8>, Vec<RecordDamage>) {
    let mut text = enveloped.text();
    let mut kinds = Vec::new();
    if random.once_in(2) {
        let mut draft = RecordDraft::of(&text);
        let kind = kind_of_record(random, &draft, enveloped.rows.set.m);
        damage_record(random, &mut draft, kind, enveloped.rows.set.m);
        text = draft.bytes();
        kinds.push(kind);
    }
    while kinds.is_empty() || kinds.len() < 3 && random.once_in(3) {
        let kind = kind_of_text(random);
        damage_text(random, &mut text, kind);
        kinds.push(kind);
    }
    (text, kinds)
}

/// A kind that a record of m rows within the rules takes.
fn kind_of_record(random: &mut Random, draft: &RecordDraft, m: usize) -> RecordDamage {
    match random.below(3) {
        0 => RecordDamage::Form(random.pick(&FORM_FAULTS)),
        1 => random.pick(&OF_RECORDS),
        _ => {
            let fitting: Vec<Disagreement> = DISAGREEMENTS
                .into_iter()
                .filter(|disagreement| disagreement.fits(draft, m))
                .collect();
            RecordDamage::Disagreement(random.pick(&fitting))
        }
    }
}

/// A kind that any text takes; the ones that make it long or empty are rare.
fn kind_of_text(random: &mut Random) -> RecordDamage {
    match random.below(100) {
        0..3 => random.pick(&OF_LENGTH),
        3..30 => random.pick(&OF_FIELDS),
        _ => RecordDamage::Bytes(random.pick(OF_ANY_TEXT)),
    }
}

/// Damages a record of m rows within the rules.
fn damage_record(random: &mut Random, draft: &mut RecordDraft, damage: RecordDamage, m: usize) {
    let weight_line = |random: &mut Random, draft: &RecordDraft| {
        WEIGHTS + random.index(draft.lines.len() - WEIGHTS)
    };
    match damage {
        RecordDamage::Form(fault) => {
            let line = record_faults::line_for(random, draft, fault);
            record_faults::put(random, draft, fault, line);
        }
        RecordDamage::Disagreement(disagreement) => {
            record_disagreements::disagree(random, draft, disagreement, m);
        }
        RecordDamage::WeightMoved => {
            let (from, to) = (weight_line(random, draft), weight_line(random, draft));
            let amount = (draft.number(from, 2) - 1).min(random.between(1, 3).into());
            draft.set_number(from, 2, draft.number(from, 2) - amount);
            draft.set_number(to, 2, draft.number(to, 2) + amount);
        }
        RecordDamage::RowChanged => {
            let line = weight_line(random, draft);
            let off = random.pick(&[-1, 1]);
            draft.set_number(line, 1, draft.number(line, 1) + off);
        }
        _ => {
            let moves = envelopes::any_moves(random);
            draft.set_number(FIGURES, 3, moves.into());
        }
    }
}

fn damage_text(random: &mut Random, text: &mut Vec<u8>, damage: RecordDamage) {
    let mut draft = RecordDraft::of(text);
    let less = random.index(3);
    match damage {
        RecordDamage::Bytes(kind) => return damage::damage(random, text, kind, &[]),
        RecordDamage::Emptied => draft = RecordDraft::of(b""),
        RecordDamage::AtTheLimit => {
            record_faults::stretch(random, &mut draft, TEXT_LIMIT - less);
        }
        RecordDamage::AboveTheLimit => {
            record_faults::stretch(random, &mut draft, TEXT_LIMIT + 1 + less);
        }
        _ => change_fields(random, &mut draft, damage),
    }
    *text = draft.bytes();
}

fn change_fields(random: &mut Random, draft: &mut RecordDraft, damage: RecordDamage) {
    let lines = &mut draft.lines;
    let (one, other) = (random.index(lines.len()), random.index(lines.len()));
    if damage == RecordDamage::LinesExchanged {
        return lines.swap(one, other);
    }
    let (from, to) = (
        random.index(lines[one].len()),
        random.index(lines[other].len()),
    );
    let field = lines[one][from].clone();
    let replaced = std::mem::replace(&mut lines[other][to], field);
    if damage == RecordDamage::FieldsExchanged {
        lines[one][from] = replaced;
    }
}
