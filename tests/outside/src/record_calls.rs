//! Calls that read a record with one fault, and with two in both orders, whose refusal is known.

use crate::random::Random;
use crate::record_disagreements::{self, DISAGREEMENTS, Disagreement};
use crate::record_faults::{self, FORM_FAULTS, FormFault};
use crate::record_texts::{Enveloped, RecordDraft};
use crate::records::{RECORD_FORM, TypedRows};
use crate::reference::{TEXT_LENGTH, TEXT_LIMIT};
use crate::rules::{OUTSIDE_LIMITS, Refusal, WEIGHTS_DISAGREE};
use crate::sets::{self, Damage, REFUSED};

/// The numbers of the refusals of a record, in the order in which they are given.
pub const ORDER: [u32; 4] = [
    OUTSIDE_LIMITS.number,
    TEXT_LENGTH.number,
    RECORD_FORM,
    WEIGHTS_DISAGREE.number,
];

/// A fault of the types that are lent with the rows.
#[derive(Clone, Copy, Debug, PartialEq, Eq)]
pub enum TypesFault {
    Short,
    None,
    CodeZero,
    CodeNine,
    OtherCode,
}

pub const TYPES_FAULTS: [TypesFault; 5] = [
    TypesFault::Short,
    TypesFault::None,
    TypesFault::CodeZero,
    TypesFault::CodeNine,
    TypesFault::OtherCode,
];

/// What makes a text empty, or longer than the limit.
#[derive(Clone, Copy, Debug, PartialEq, Eq)]
pub enum LengthFault {
    Empty,
    TooLong,
}

/// A fault of a call.
#[derive(Clone, Copy, Debug, PartialEq, Eq)]
pub enum Fault {
    Rows(Damage),
    Types(TypesFault),
    Length(LengthFault),
    Form(FormFault),
    Disagreement(Disagreement),
}

impl Fault {
    /// The number of the refusal.
    pub fn number(self) -> u32 {
        match self {
            Fault::Rows(_) | Fault::Types(_) => OUTSIDE_LIMITS.number,
            Fault::Length(_) => TEXT_LENGTH.number,
            Fault::Form(_) => RECORD_FORM,
            Fault::Disagreement(_) => WEIGHTS_DISAGREE.number,
        }
    }
}

/// Every fault.
pub fn all_faults() -> Vec<Fault> {
    let mut list: Vec<Fault> = REFUSED.iter().copied().map(Fault::Rows).collect();
    list.extend(TYPES_FAULTS.map(Fault::Types));
    list.extend([LengthFault::Empty, LengthFault::TooLong].map(Fault::Length));
    list.extend(FORM_FAULTS.map(Fault::Form));
    list.extend(DISAGREEMENTS.map(Fault::Disagreement));
    list
}

/// A fault of this number that fits the record of an envelope.
fn fault_of(random: &mut Random, call: &Call, number: u32) -> Fault {
    let fits = |fault: &Fault| fault.number() == number && call.takes(*fault);
    let faults: Vec<Fault> = all_faults().into_iter().filter(fits).collect();
    random.pick(&faults)
}

/// A call within the rules, before faults are put into it.
#[derive(Clone, Debug)]
struct Call {
    rows: TypedRows,
    draft: RecordDraft,
}

impl Call {
    fn new(enveloped: &Enveloped) -> Call {
        Call {
            rows: enveloped.rows.clone(),
            draft: RecordDraft::of(&enveloped.text()),
        }
    }

    /// Whether the fault can be put in.
    fn takes(&self, fault: Fault) -> bool {
        match fault {
            Fault::Disagreement(disagreement) => disagreement.fits(&self.draft, self.rows.set.m),
            _ => true,
        }
    }

    /// Puts a fault in; gives the line at fault, counted from 0, where there is one.
    fn put(&mut self, random: &mut Random, fault: Fault) -> Option<usize> {
        match fault {
            Fault::Rows(damage) => put_in_rows(random, &mut self.rows, damage),
            Fault::Types(fault) => put_in_types(random, &mut self.rows, fault),
            Fault::Length(LengthFault::Empty) => self.draft = RecordDraft::of(b""),
            Fault::Length(LengthFault::TooLong) => {
                let length = TEXT_LIMIT + 1 + random.index(3);
                record_faults::stretch(random, &mut self.draft, length);
            }
            Fault::Form(fault) => {
                let line = record_faults::line_for(random, &self.draft, fault);
                record_faults::put(random, &mut self.draft, fault, line);
                return Some(line);
            }
            Fault::Disagreement(disagreement) => {
                let m = self.rows.set.m;
                return Some(record_disagreements::disagree(
                    random,
                    &mut self.draft,
                    disagreement,
                    m,
                ));
            }
        }
        None
    }

    fn refused(self, number: u32, line: Option<usize>) -> FaultyCall {
        let line = match (number, line) {
            (RECORD_FORM, Some(line)) => line as u32 + 1,
            _ => 0,
        };
        FaultyCall {
            text: self.draft.bytes(),
            rows: self.rows,
            refusal: Refusal { number, line },
        }
    }
}

/// Breaks a limit of the rows; only the places that count are left.
fn put_in_rows(random: &mut Random, rows: &mut TypedRows, damage: Damage) {
    let counted = rows.set.m * rows.set.n;
    rows.set.places.truncate(counted);
    sets::damage(random, &mut rows.set, damage);
}

fn put_in_types(random: &mut Random, rows: &mut TypedRows, fault: TypesFault) {
    let n = rows.set.n;
    let place = random.index(n);
    match fault {
        TypesFault::Short => rows.types.truncate(n - 1),
        TypesFault::None => rows.types.clear(),
        TypesFault::CodeZero => rows.types[place] = 0,
        TypesFault::CodeNine => rows.types[place] = 9,
        TypesFault::OtherCode => rows.types[place] = random.between(9, 255) as u8,
    }
}

/// A call whose refusal is known.
#[derive(Clone, Debug)]
pub struct FaultyCall {
    pub rows: TypedRows,
    pub text: Vec<u8>,
    pub refusal: Refusal,
}

/// Whether the record of an envelope can have the fault.
pub fn fits(enveloped: &Enveloped, fault: Fault) -> bool {
    Call::new(enveloped).takes(fault)
}

/// A call with one fault that fits.
pub fn one_fault(random: &mut Random, enveloped: &Enveloped, fault: Fault) -> FaultyCall {
    let mut call = Call::new(enveloped);
    let line = call.put(random, fault);
    call.refused(fault.number(), line)
}

/// A call with two faults, and how they stand to each other.
#[derive(Clone, Debug)]
pub struct TwoFaults {
    /// The numbers, that of the upper line first where both are in lines, else that of the refusal.
    pub numbers: [u32; 2],
    pub call: FaultyCall,
}

/// Two faults, of which the first that is looked for is given. It is put in last, so that no other
/// writes over it.
pub fn two_faults(random: &mut Random, enveloped: &Enveloped) -> TwoFaults {
    let [first, second] = two_numbers(random);
    let mut call = Call::new(enveloped);
    if first == second {
        return two_faults_of_form(random, call);
    }
    let faults = [first, second].map(|number| fault_of(random, &call, number));
    let second_line = call.put(random, faults[1]);
    let line = call.put(random, faults[0]);
    let in_order = line.is_none() || line <= second_line;
    TwoFaults {
        numbers: if in_order {
            [first, second]
        } else {
            [second, first]
        },
        call: call.refused(first, line),
    }
}

/// Two numbers in the order in which they are given; of equal ones, only those of form.
fn two_numbers(random: &mut Random) -> [u32; 2] {
    let mut places = [random.index(ORDER.len()), random.index(ORDER.len())];
    places.sort();
    let numbers = places.map(|place| ORDER[place]);
    if numbers[0] == numbers[1] {
        [RECORD_FORM; 2]
    } else {
        numbers
    }
}

/// Two faults of form in two lines: the upper line is given.
fn two_faults_of_form(random: &mut Random, mut call: Call) -> TwoFaults {
    let one = random.pick(&FORM_FAULTS);
    let line = record_faults::line_for(random, &call.draft, one);
    let (other, other_line) = loop {
        let other = random.pick(&FORM_FAULTS);
        let other_line = record_faults::line_for(random, &call.draft, other);
        if other_line != line {
            break (other, other_line);
        }
    };
    let mut places = [(line, one), (other_line, other)];
    places.sort_by_key(|&(line, _)| line);
    for (line, fault) in places.into_iter().rev() {
        record_faults::put(random, &mut call.draft, fault, line);
    }
    TwoFaults {
        numbers: [RECORD_FORM; 2],
        call: call.refused(RECORD_FORM, Some(places[0].0)),
    }
}

/// A text of as many bytes as the limit allows, or a few less, with one line stretched.
pub fn at_the_limit(random: &mut Random, enveloped: &Enveloped) -> FaultyCall {
    let mut call = Call::new(enveloped);
    let length = TEXT_LIMIT - random.index(3);
    let line = record_faults::stretch(random, &mut call.draft, length);
    call.refused(RECORD_FORM, Some(line))
}
