//! Slices lent to the product, with what lies round them in memory.

/// Places before and after a slice lent to be written, which nobody may touch.
const GUARD: usize = 3;

/// How many places are lent, against those that an accepted call fills.
#[derive(Clone, Copy, Debug, PartialEq, Eq)]
pub enum Room {
    None,
    OneFewer,
    Exact,
    OneMore,
    /// As many as the largest call fills.
    Full,
}

pub const ROOMS: [Room; 5] = [
    Room::None,
    Room::OneFewer,
    Room::Exact,
    Room::OneMore,
    Room::Full,
];

/// The rooms that are enough for every call.
pub const ENOUGH: [Room; 3] = [Room::Exact, Room::OneMore, Room::Full];

impl Room {
    pub fn places(self, filled: usize, full: usize) -> usize {
        match self {
            Room::None => 0,
            Room::OneFewer => filled.saturating_sub(1),
            Room::Exact => filled,
            Room::OneMore => filled + 1,
            Room::Full => full,
        }
    }
}

/// A slice lent to be written, of random numbers between guards of the same, so that a place written
/// or left is told apart.
#[derive(Clone, Debug, PartialEq, Eq)]
pub struct Guarded<Number> {
    places: Vec<Number>,
}

impl<Number> Guarded<Number> {
    pub fn new(count: usize, mut number: impl FnMut() -> Number) -> Guarded<Number> {
        let places = (0..count + 2 * GUARD).map(|_| number()).collect();
        Guarded { places }
    }

    pub fn lent(&mut self) -> &mut [Number] {
        let end = self.places.len() - GUARD;
        &mut self.places[GUARD..end]
    }
}

/// A slice lent to be read, and what lies behind it.
#[derive(Clone, Debug, PartialEq, Eq)]
pub struct Followed<Number> {
    places: Vec<Number>,
    length: usize,
}

impl<Number: Copy> Followed<Number> {
    pub fn new(lent: &[Number], behind: &[Number]) -> Followed<Number> {
        Followed {
            places: [lent, behind].concat(),
            length: lent.len(),
        }
    }

    pub fn slice(&self) -> &[Number] {
        &self.places[..self.length]
    }
}

/// The length and the beginning of a text, for messages.
pub fn shown(text: &[u8]) -> String {
    let beginning = text[..text.len().min(1_000)].escape_ascii();
    format!("{} bytes: {beginning}", text.len())
}
