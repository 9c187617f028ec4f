//! A refusal: the paper's number and the values that say where.

use std::fmt;

/// Where a refusal happened. Whether a single value is a field or an offset
/// follows from the number.
#[derive(Clone, Copy, PartialEq, Eq, Debug)]
pub enum Place {
    Nowhere,
    At(usize),
    Pair(usize, usize),
    Row(usize, usize, usize),
}

#[derive(Clone, Copy, PartialEq, Eq, Debug)]
pub struct Refusal {
    pub number: u8,
    pub place: Place,
}

impl Refusal {
    pub const fn bare(number: u8) -> Refusal {
        Refusal { number, place: Place::Nowhere }
    }

    pub const fn at(number: u8, value: usize) -> Refusal {
        Refusal { number, place: Place::At(value) }
    }

    pub const fn pair(number: u8, i: usize, j: usize) -> Refusal {
        Refusal { number, place: Place::Pair(i, j) }
    }

    pub const fn row(number: u8, (i, j, a): (usize, usize, usize)) -> Refusal {
        Refusal { number, place: Place::Row(i, j, a) }
    }
}

/// As the lister prints it: the number, then `at` and the place if there is one.
impl fmt::Display for Refusal {
    fn fmt(&self, out: &mut fmt::Formatter) -> fmt::Result {
        match self.place {
            Place::Nowhere => write!(out, "{}", self.number),
            Place::At(x) => write!(out, "{} at {}", self.number, x),
            Place::Pair(i, j) => write!(out, "{} at {} {}", self.number, i, j),
            Place::Row(i, j, a) => write!(out, "{} at {} {} {}", self.number, i, j, a),
        }
    }
}
