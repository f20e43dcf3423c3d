//! Inputs of the programs: a reference text, the record of an envelope of its rows, alert settings, and
//! readings in and about its ball, each text by itself; whole, and with each text changed.

use crate::damage::{self, OF_ANY_TEXT};
use crate::envelopes;
use crate::programs::{Program, TextKind, Texts};
use crate::random::Random;
use crate::reading_damage;
use crate::reading_texts::{self, ReadingDraft};
use crate::record_damage;
use crate::record_faults;
use crate::record_texts::{Enveloped, RecordDraft};
use crate::reference::TEXT_LIMIT;
use crate::sets::{self, Shape};
use crate::settings_texts;
use crate::texts::{self, Draft};

/// The most readings of an input that is not full of them.
const READING_COUNT: usize = 6;
/// What is put behind a text.
const BEHIND: [&str; 8] = [
    "\n",
    "\n\n",
    " ",
    "\0",
    "W,256,1\n",
    "A,TOC,1\n",
    "\nREF,1,TOC\nA,1\n",
    "\nENV,1,TOC\nC,65536\nR,0,0,0,S\nW,1,65536\n",
];

/// How a text differs from one within the rules.
#[derive(Clone, Copy, Debug, PartialEq, Eq)]
pub enum Kind {
    /// Damage that a text of its kind takes.
    Damaged,
    /// Damage that any text takes.
    BytesDamaged,
    LastByteRemoved,
    BytesBehind,
    /// An empty line before any line, or at the end.
    EmptyLineAdded,
    Emptied,
    /// A text of another run, or this one, with further texts of that run behind empty lines.
    OthersEmbedded,
    /// The same text of another run.
    OfOtherRows,
    /// Another text of the run, which stands in its own place too.
    SameTwice,
    /// Exchanged with another text of the run.
    Exchanged,
    /// Readings repeated up to the limit, or to a byte more.
    Repeated,
    /// Stretched to the limit, or to a few bytes less.
    AtTheLimit,
    /// Stretched to a few bytes more than the limit.
    AboveTheLimit,
    /// Stretched to some times the limit.
    FarAboveTheLimit,
}

const KINDS: [Kind; 14] = [
    Kind::Damaged,
    Kind::BytesDamaged,
    Kind::LastByteRemoved,
    Kind::BytesBehind,
    Kind::EmptyLineAdded,
    Kind::Emptied,
    Kind::OthersEmbedded,
    Kind::OfOtherRows,
    Kind::SameTwice,
    Kind::Exchanged,
    Kind::Repeated,
    Kind::AtTheLimit,
    Kind::AboveTheLimit,
    Kind::FarAboveTheLimit,
];

impl Kind {
    /// Whether a text of a program can be changed so.
    fn fits(self, program: Program, text: usize) -> bool {
        match self {
            Kind::Repeated => program.kinds()[text] == TextKind::Readings,
            Kind::SameTwice | Kind::Exchanged => program.texts() > 1,
            _ => true,
        }
    }

    fn lengthens(self) -> bool {
        matches!(
            self,
            Kind::Repeated | Kind::AtTheLimit | Kind::AboveTheLimit | Kind::FarAboveTheLimit
        )
    }
}

/// A kind, and the place of the text that is changed.
#[derive(Clone, Copy, Debug, PartialEq, Eq)]
pub struct Change {
    pub kind: Kind,
    pub text: usize,
}

/// Every change that the texts of this program can have.
pub fn changes(program: Program) -> Vec<Change> {
    let of_text = |text| KINDS.map(|kind| Change { kind, text });
    let all = (0..program.texts()).flat_map(of_text);
    all.filter(|change| change.kind.fits(program, change.text))
        .collect()
}

/// A change; those that make texts long are rare.
fn change(random: &mut Random, program: Program) -> Change {
    let long = random.once_in(50);
    let fits = |change: &Change| change.kind.lengthens() == long;
    let fitting: Vec<Change> = changes(program).into_iter().filter(fits).collect();
    random.pick(&fitting)
}

/// A reference text and an envelope of its rows.
#[derive(Clone, Debug)]
pub struct Source {
    pub reference: Draft,
    pub enveloped: Enveloped,
}

impl Source {
    /// An envelope drawn, or of any weights that the check accepts.
    pub fn new(random: &mut Random) -> Source {
        let reference = reference(random);
        let set = envelopes::set_of(&reference);
        let enveloped = if random.once_in(3) {
            Enveloped::checked(random, set)
        } else {
            Enveloped::drawn(random, set)
        };
        let enveloped = enveloped.with_types(&reference.types);
        Source {
            reference,
            enveloped,
        }
    }

    /// The texts that a program takes, within the rules but for single readings.
    pub fn whole(&self, random: &mut Random, program: Program) -> Texts {
        let kinds = program.kinds().iter();
        kinds.map(|&kind| self.text(random, kind)).collect()
    }

    fn text(&self, random: &mut Random, kind: TextKind) -> Vec<u8> {
        match kind {
            TextKind::Reference => self.reference.bytes(),
            TextKind::Record => self.enveloped.text(),
            TextKind::Settings => settings_texts::whole(random),
            TextKind::Readings => {
                let count = 1 + random.index(READING_COUNT);
                (0..count).flat_map(|_| self.reading(random)).collect()
            }
        }
    }

    /// Texts with one to three changes, one after the other, and these.
    pub fn changed(&self, random: &mut Random, program: Program) -> (Texts, Vec<Change>) {
        let mut texts = self.whole(random, program);
        let mut changes = Vec::new();
        while changes.is_empty() || changes.len() < 3 && random.once_in(6) {
            let change = change(random, program);
            self.change(random, program, &mut texts, change);
            changes.push(change);
        }
        (texts, changes)
    }

    /// A row, a neighbour of one, any reading within the rules, or a damaged one.
    fn reading(&self, random: &mut Random) -> Vec<u8> {
        let types = &self.reference.types;
        match random.below(8) {
            0..2 => row(random, &self.reference),
            2..4 => neighbour(random, &self.reference),
            4..6 => ReadingDraft::new(random, types).bytes(),
            _ => {
                let mut text = ReadingDraft::new(random, types).bytes();
                let kind = reading_damage::kind(random);
                reading_damage::damage(random, &mut text, kind, types);
                text
            }
        }
    }

    fn change(&self, random: &mut Random, program: Program, texts: &mut [Vec<u8>], change: Change) {
        let Change { kind, text } = change;
        match kind {
            Kind::Damaged => self.damage(random, &mut texts[text], program.kinds()[text]),
            Kind::OthersEmbedded | Kind::OfOtherRows => {
                let others = self.others(random, program, kind);
                let count = match kind {
                    Kind::OfOtherRows => 1,
                    _ => 2 + random.index(2),
                };
                texts[text] = one_behind_another(&others, text, count);
            }
            Kind::SameTwice => texts[text] = texts[other(random, texts, text)].clone(),
            Kind::Exchanged => texts.swap(text, other(random, texts, text)),
            _ => change_text(random, &mut texts[text], kind),
        }
    }

    /// Damage that a text of its kind takes.
    fn damage(&self, random: &mut Random, damaged: &mut Vec<u8>, kind: TextKind) {
        let types = &self.reference.types;
        match kind {
            TextKind::Reference => {
                let kind = damage::kind(random);
                damage::damage(random, damaged, kind, types);
            }
            TextKind::Record => *damaged = record_damage::damaged(random, &self.enveloped).0,
            TextKind::Settings => {
                let kind = settings_texts::kind(random);
                settings_texts::damage(random, damaged, kind);
            }
            TextKind::Readings => {
                let kind = reading_damage::kind(random);
                reading_damage::damage(random, damaged, kind, types);
            }
        }
    }

    /// The texts of another run, or of one of these rows; three of them where the program takes fewer.
    fn others(&self, random: &mut Random, program: Program, kind: Kind) -> Texts {
        let source = if kind == Kind::OthersEmbedded && random.once_in(2) {
            self.clone()
        } else {
            Source::new(random)
        };
        let fewer = program.texts() < Program::Judge.texts();
        source.whole(random, if fewer { Program::Judge } else { program })
    }
}

/// A reference text of any values, or of the rows of a set of any shape. A drawing of rows near a
/// sphere needs many moves, for some more than its budget.
pub fn reference(random: &mut Random) -> Draft {
    let set = match random.below(64) {
        0 => sets::set(random, Shape::Sphere, 12, 3),
        1..8 => sets::small_set(random),
        _ => {
            let (m, n) = texts::size(random);
            return Draft::new(random, m, n);
        }
    };
    Draft::of_set(random, &set)
}

/// A row of the reference text as a reading.
fn row(random: &mut Random, reference: &Draft) -> Vec<u8> {
    let fields = &reference.rows[random.index(reference.rows.len())];
    reading_texts::line(fields[0].clone(), &reference.types, &fields[1..]).bytes()
}

/// A row with one value a step more or less, where the range allows that.
fn neighbour(random: &mut Random, reference: &Draft) -> Vec<u8> {
    let types = &reference.types;
    let row = random.index(reference.rows.len());
    let place = random.index(types.len());
    let mut values = reference.table[row * types.len()..][..types.len()].to_vec();
    let value = values[place] + random.pick(&[-1, 1]);
    values[place] = value.clamp(types[place].low, types[place].high);
    reading_texts::of_values(random, types, &values)
}

/// The place of any other text.
fn other(random: &mut Random, texts: &[Vec<u8>], text: usize) -> usize {
    (text + 1 + random.index(texts.len() - 1)) % texts.len()
}

/// So many texts from a place on, the first behind the last, with an empty line between two of them.
fn one_behind_another(texts: &[Vec<u8>], from: usize, count: usize) -> Vec<u8> {
    let cycle = texts.iter().cycle().skip(from).take(count);
    cycle.map(Vec::as_slice).collect::<Vec<_>>().join(&b'\n')
}

/// Repeats readings up to the limit, a byte less or a byte more.
fn repeat(random: &mut Random, readings: &mut Vec<u8>) {
    let length = TEXT_LIMIT - 1 + random.index(3);
    *readings = readings.repeat(length / readings.len().max(1) + 1);
    readings.truncate(length);
}

/// Stretches a line of a text, so that this has one of three lengths.
fn stretch(random: &mut Random, text: &mut Vec<u8>, least: usize) {
    let mut draft = RecordDraft::of(text);
    let length = least + random.index(3);
    record_faults::stretch(random, &mut draft, length);
    *text = draft.bytes();
}

fn change_text(random: &mut Random, text: &mut Vec<u8>, kind: Kind) {
    match kind {
        Kind::LastByteRemoved => drop(text.pop()),
        Kind::BytesBehind => text.extend(random.pick(&BEHIND).bytes()),
        Kind::EmptyLineAdded => {
            let ends = (0..text.len()).filter(|&place| text[place] == b'\n');
            let starts: Vec<usize> = ends.map(|end| end + 1).chain([0]).collect();
            text.insert(random.pick(&starts), b'\n');
        }
        Kind::Emptied => text.clear(),
        Kind::Repeated => repeat(random, text),
        Kind::AtTheLimit => stretch(random, text, TEXT_LIMIT - 2),
        Kind::AboveTheLimit => stretch(random, text, TEXT_LIMIT + 1),
        Kind::FarAboveTheLimit => {
            let times = 2 + random.index(3);
            stretch(random, text, times * TEXT_LIMIT);
        }
        _ => {
            let kind = random.pick(OF_ANY_TEXT);
            damage::damage(random, text, kind, &[]);
        }
    }
}
