//! The packed number that every function of the C interface answers with.
//!
//! Bits 0 to 7 are the state: 0, or a refusal's number. On a refusal bits 8 to
//! 15 count the place's values, each of 16 bits from bit 16. Every bit that has
//! no meaning is 0; packing what was unpacked and comparing shows that.

use crate::date::{Days, DATES};
use crate::refusal::{Place, Refusal};
use crate::rows::Rows;
use crate::settle::Settling;
use crate::show::Shown;

/// A packed number that means nothing, or has a bit set that should be 0.
#[derive(Clone, Copy, PartialEq, Eq, Debug)]
pub struct Odd(pub u64);

/// What came back: a result or a refusal, or a number that is neither.
pub type Reply<T> = Result<Result<T, Refusal>, Odd>;

/// A result that can be packed; its state is 0.
pub trait Packed: Sized {
    fn pack(&self) -> u64;
    /// None where the number is no result of this kind. Bits without a meaning
    /// need not be looked at.
    fn unpack(word: u64) -> Option<Self>;
}

pub fn pack<T: Packed>(answer: &Result<T, Refusal>) -> u64 {
    match answer {
        Ok(result) => result.pack(),
        Err(refusal) => pack_refusal(refusal),
    }
}

pub fn unpack<T: Packed>(word: u64) -> Reply<T> {
    let answer = match byte(word, 0) {
        0 => T::unpack(word).map(Ok),
        _ => unpack_refusal(word).map(Err),
    };
    match answer {
        Some(answer) if pack(&answer) == word => Ok(answer),
        _ => Err(Odd(word)),
    }
}

fn byte(word: u64, bit: u32) -> usize {
    (word >> bit & 0xff) as usize
}

fn half(word: u64, bit: u32) -> usize {
    (word >> bit & 0xffff) as usize
}

fn full(word: u64, bit: u32) -> usize {
    (word >> bit & 0xffff_ffff) as usize
}

/// Values of 16 bits each, from bit 16.
fn halves(values: &[usize]) -> u64 {
    values.iter().rev().fold(0, |word, value| word << 16 | (*value as u64 & 0xffff)) << 16
}

fn pack_refusal(refusal: &Refusal) -> u64 {
    let (count, values) = match refusal.place {
        Place::Nowhere => (0, [0, 0, 0]),
        Place::At(x) => (1, [x, 0, 0]),
        Place::Pair(i, j) => (2, [i, j, 0]),
        Place::Row(i, j, a) => (3, [i, j, a]),
    };
    u64::from(refusal.number) | count << 8 | halves(&values)
}

fn unpack_refusal(word: u64) -> Option<Refusal> {
    let [x, y, z] = [16, 32, 48].map(|bit| half(word, bit));
    let place = match byte(word, 8) {
        0 => Place::Nowhere,
        1 => Place::At(x),
        2 => Place::Pair(x, y),
        3 => Place::Row(x, y, z),
        _ => return None,
    };
    Some(Refusal { number: byte(word, 0) as u8, place })
}

/// Bits 8 to 15 the count, then the days.
impl Packed for Days {
    fn pack(&self) -> u64 {
        (self.count as u64) << 8 | halves(&self.day.map(usize::from))
    }

    fn unpack(word: u64) -> Option<Days> {
        let count = byte(word, 8);
        let mut day = [16, 32, 48].map(|bit| half(word, bit) as u16);
        (1..=DATES).contains(&count).then(|| {
            day[count..].fill(0);
            Days { count, day }
        })
    }
}

/// The number of fields read, or of readings kept: bits 16 to 31.
impl Packed for usize {
    fn pack(&self) -> u64 {
        halves(&[*self])
    }

    fn unpack(word: u64) -> Option<usize> {
        Some(half(word, 16))
    }
}

/// Bits 8 to 15: 0 settled with pairs, 1 settled and empty, 2 unfinished;
/// bits 16 to 47 the rounds, 0 where unfinished.
impl Packed for Settling {
    fn pack(&self) -> u64 {
        match self {
            Settling::Settled { rounds, empty } => {
                u64::from(*empty) << 8 | (rounds & 0xffff_ffff) << 16
            }
            Settling::Unfinished => 2 << 8,
        }
    }

    fn unpack(word: u64) -> Option<Settling> {
        let rounds = full(word, 16) as u64;
        match byte(word, 8) {
            0 => Some(Settling::Settled { rounds, empty: false }),
            1 => Some(Settling::Settled { rounds, empty: true }),
            2 => Some(Settling::Unfinished),
            _ => None,
        }
    }
}

/// Bits 8 to 15: 0 whole, 1 broken; then i, j and a.
impl Packed for Rows {
    fn pack(&self) -> u64 {
        match *self {
            Rows::Whole => 0,
            Rows::Broken(i, j, a) => 1 << 8 | halves(&[i, j, a]),
        }
    }

    fn unpack(word: u64) -> Option<Rows> {
        match byte(word, 8) {
            0 => Some(Rows::Whole),
            1 => Some(Rows::Broken(half(word, 16), half(word, 32), half(word, 48))),
            _ => None,
        }
    }
}

/// Nothing but the state: choosing answers in the lent buffer.
impl Packed for () {
    fn pack(&self) -> u64 {
        0
    }

    fn unpack(_: u64) -> Option<()> {
        Some(())
    }
}

/// Bits 8 to 15: 0 from the settled table, 1 from the opening one; bits 16 to
/// 47 the first word's place in it.
impl Packed for Shown {
    fn pack(&self) -> u64 {
        u64::from(self.from_opening) << 8 | (self.first_word as u64 & 0xffff_ffff) << 16
    }

    fn unpack(word: u64) -> Option<Shown> {
        match byte(word, 8) {
            from @ (0 | 1) => Some(Shown { from_opening: from == 1, first_word: full(word, 16) }),
            _ => None,
        }
    }
}
