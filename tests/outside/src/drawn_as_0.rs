//! Records that were drawn while every value below detection read as 0, by what reading them gives: kept
//! where every figure is still what the check gives of the rows, else refused by 12. The figures are
//! written down by hand.

use crate::known_readings;
use crate::known_records::{self, RECORD, ROWS_0_10, typed};
use crate::readings::EnvelopeFigures;
use crate::records::{Envelope, TypedRows};

/// A reference text with values below detection, what it reads as, and its two records.
#[derive(Clone, Debug)]
pub struct Redrawn {
    pub name: &'static str,
    pub reference: &'static str,
    pub rows: TypedRows,
    /// The record of the same text with 0 in the place of each value below detection.
    pub drawn_as_0: &'static str,
    /// The record that is drawn of the text.
    pub drawn: &'static str,
    /// What reading the record drawn as 0 gives, where it is kept.
    pub kept: Option<Envelope>,
}

/// The record of the rows 0 and 10, where 10 is the third.
const ROWS_0_10_THIRD: &str = "ENV,1,TOC\nC,327680\n\
    R,107374182400,107374182400,1,S\n\
    W,1,32768\nW,3,32768\n";
/// The rows 2 and 10: the centre is 6, the radius is 4, and M is 262,144².
const ROWS_2_10: &str = "ENV,1,TOC\nC,393216\n\
    R,68719476736,68719476736,1,S\n\
    W,1,32768\nW,2,32768\n";
/// The rows 0 and 15, which is the third: the centre is 7.5, the radius is 7.5, and M is 491,520².
const ROWS_0_15_THIRD: &str = "ENV,1,TOC\nC,491520\n\
    R,241591910400,241591910400,1,S\n\
    W,1,32768\nW,3,32768\n";

/// A text within the rules with another field in the place of each value below detection.
pub fn in_each_place(text: &[u8], field: &[u8]) -> Vec<u8> {
    let mut changed = Vec::with_capacity(text.len());
    for part in text.split_inclusive(|byte| matches!(byte, b',' | b'\n')) {
        match part {
            [b'<', .., end] => changed.extend([field, &[*end]].concat()),
            _ => changed.extend(part),
        }
    }
    changed
}

pub fn all() -> Vec<Redrawn> {
    vec![
        kept(),
        kept_beside_another(),
        refused(),
        refused_for_a_row_outside(),
    ]
}

/// Document 01's rows, and one that reads as their centre, (3, 4): it has no weight in either record.
pub fn kept() -> Redrawn {
    Redrawn {
        name: "drawn_as_0_and_kept",
        reference: "REF,2,TOC,CND\nA,0,0\nB,6,0\nC,0,8\nD,<6,<9\n",
        rows: typed(&[0, 0, 6, 0, 0, 8, 3, 4], 4, &[1, 4]),
        drawn_as_0: RECORD,
        drawn: RECORD,
        kept: Some(Envelope {
            weights: vec![0, 32_768, 32_768, 0],
            ..known_records::envelope()
        }),
    }
}

/// Row 2 reads as 10, like row 3. The drawing takes the lower of the two, that with 0 in the place of row 2
/// took row 3, and the check gives the same figures of both.
fn kept_beside_another() -> Redrawn {
    let figures = EnvelopeFigures {
        n: 1,
        types: vec![1],
        scaled_centre: vec![327_680],
        moves: 1,
        ..known_readings::record()
    };
    Redrawn {
        name: "drawn_as_0_and_kept_beside_another",
        reference: "REF,1,TOC\nA,0\nB,<20\nC,10\n",
        rows: typed(&[0, 10, 10], 3, &[1]),
        drawn_as_0: ROWS_0_10_THIRD,
        drawn: ROWS_0_10,
        kept: Some(Envelope {
            figures,
            weights: vec![32_768, 0, 32_768],
        }),
    }
}

/// A row with weight reads as 2.
fn refused() -> Redrawn {
    Redrawn {
        name: "drawn_as_0_and_refused",
        reference: "REF,1,TOC\nA,<5\nB,10\n",
        rows: typed(&[2, 10], 2, &[1]),
        drawn_as_0: ROWS_0_10,
        drawn: ROWS_2_10,
        kept: None,
    }
}

/// A row without weight reads as 15, outside the ball that was drawn.
fn refused_for_a_row_outside() -> Redrawn {
    Redrawn {
        name: "drawn_as_0_and_refused_for_a_row_outside",
        reference: "REF,1,TOC\nA,0\nB,10\nC,<30\n",
        rows: typed(&[0, 10, 15], 3, &[1]),
        drawn_as_0: ROWS_0_10,
        drawn: ROWS_0_15_THIRD,
        kept: None,
    }
}
