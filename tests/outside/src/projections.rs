//! What the radius of a mark says of the rows of its envelope, tested in whole numbers.

use crate::charts;
use crate::readings::EnvelopeFigures;
use crate::rules::{TOTAL, Vector};
use std::ops::AddAssign;

/// How many projections of rows were tested, on one channel or on two, and how many of them a root
/// less by 1 would leave out.
#[derive(Clone, Copy, Debug, Default, PartialEq, Eq)]
pub struct Tested {
    pub on_one: u64,
    pub on_two: u64,
    pub reaching: u64,
}

impl AddAssign for Tested {
    fn add_assign(&mut self, more: Tested) {
        self.on_one += more.on_one;
        self.on_two += more.on_two;
        self.reaching += more.reaching;
    }
}

/// Stops the tests where, for two different channels a and b and the root r of the radius,
/// (D·row a - X a)² + (D·row b - X b)² is above r², or where for one |D·row a - X a| is above r.
pub fn test(rows: &[Vector], figures: &EnvelopeFigures) -> Tested {
    let root = charts::root_above(figures.scaled_squared_radius.into()) as i128;
    let mut tested = Tested::default();
    for row in rows {
        let centre = figures.scaled_centre.iter().map(|&place| i128::from(place));
        let apart: Vector = row.iter().zip(centre).map(|(c, x)| TOTAL * c - x).collect();
        assert_eq!(apart.len(), figures.n, "a row of n channels");
        for (a, one) in apart.iter().enumerate() {
            assert!(one.abs() <= root, "channel {}, {row:?}, {figures:?}", a + 1);
            tested.on_one += 1;
            tested.reaching += u64::from(one.abs() == root && root > 0);
            for (b, other) in apart.iter().enumerate().skip(a + 1) {
                let squared = one * one + other * other;
                let channels = (a + 1, b + 1);
                assert!(squared <= root * root, "{channels:?}, {row:?}, {figures:?}");
                tested.on_two += 1;
                tested.reaching += u64::from(root > 0 && squared > (root - 1) * (root - 1));
            }
        }
    }
    tested
}
