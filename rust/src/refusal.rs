//! The refusals.

use std::error::Error;
use std::fmt::{self, Display, Formatter};

// What is said of questions that are put to sheets, lists and trial sheets.
const BUYER_COUNT: &str = "the number of buyers is not 1 to 6";
const LOT_COUNT: &str = "the number of lots is not 1 to 4";
const WORTH_TOO_HIGH: &str = "a worth is above 9,999";
const WORTH_FALLS: &str =
    "a bundle of two or more lots is worth less than the same with one lot fewer";
const OUT_TOO_SHORT: &str =
    "`out` has fewer than 13 + m * (6 * (2^n - 1) + 1) bytes, with m buyers and n lots";

/// Why a sheet is refused: the first question that gets a no. The questions are asked in this
/// order; m and n are the sheet's numbers of buyers and lots. `place` is the offset in bytes of the
/// first faulty field or line end.
#[derive(Clone, Copy, Debug, PartialEq, Eq, Hash)]
#[non_exhaustive]
pub enum Refusal {
    /// 1: fewer than 13 bytes.
    TooShort,
    /// 2: the first line is not two good fields and a line end at offset 12.
    FirstLine,
    /// 3: the number of buyers is not 1 to 6.
    BuyerCount,
    /// 4: the number of lots is not 1 to 4.
    LotCount,
    /// 5: the length is not 13 + m × (6 × (2^n − 1) + 1).
    WrongLength,
    /// 6: a later field or line end is not good.
    Fault {
        /// Its offset.
        place: usize,
    },
    /// 7: a worth is above 9,999.
    WorthTooHigh {
        /// The offset of its field.
        place: usize,
    },
    /// 8: a bundle of two or more lots is worth less than the same with one lot fewer.
    WorthFalls {
        /// The offset of the bundle's field.
        place: usize,
    },
    /// 9, only of a sale: the record has fewer bytes than the sum, over buyers, of the worth of all
    /// lots together.
    RecordTooShort,
    /// 10, only of a demand answer: the buyer asked about is not 1 to m.
    NoSuchBuyer,
}

impl Refusal {
    /// Refuses with an answer's number and place, or not with number 0.
    pub(crate) fn check(number: u8, place: usize) -> Result<(), Self> {
        Err(match number {
            0 => return Ok(()),
            1 => Refusal::TooShort,
            2 => Refusal::FirstLine,
            3 => Refusal::BuyerCount,
            4 => Refusal::LotCount,
            5 => Refusal::WrongLength,
            6 => Refusal::Fault { place },
            7 => Refusal::WorthTooHigh { place },
            8 => Refusal::WorthFalls { place },
            9 => Refusal::RecordTooShort,
            10 => Refusal::NoSuchBuyer,
            _ => panic!("libhokewhuni.a refused with {number}, which no question has"),
        })
    }

    /// The question's number, 1 to 10, as it is printed.
    pub fn number(self) -> u8 {
        match self {
            Refusal::TooShort => 1,
            Refusal::FirstLine => 2,
            Refusal::BuyerCount => 3,
            Refusal::LotCount => 4,
            Refusal::WrongLength => 5,
            Refusal::Fault { .. } => 6,
            Refusal::WorthTooHigh { .. } => 7,
            Refusal::WorthFalls { .. } => 8,
            Refusal::RecordTooShort => 9,
            Refusal::NoSuchBuyer => 10,
        }
    }

    /// The place with 6, 7 and 8, else 0, as it is printed.
    pub fn place(self) -> usize {
        match self {
            Refusal::Fault { place }
            | Refusal::WorthTooHigh { place }
            | Refusal::WorthFalls { place } => place,
            _ => 0,
        }
    }
}

/// What the number means in words, and where.
impl Display for Refusal {
    fn fmt(&self, to: &mut Formatter) -> fmt::Result {
        to.write_str(match self {
            Refusal::TooShort => "fewer than 13 bytes",
            Refusal::FirstLine => {
                "the first line is not two good fields and a line end at offset 12"
            }
            Refusal::BuyerCount => BUYER_COUNT,
            Refusal::LotCount => LOT_COUNT,
            Refusal::WrongLength => {
                "the length is not 13 + m * (6 * (2^n - 1) + 1), with m buyers and n lots"
            }
            Refusal::Fault { .. } => "a later field or line end is not good",
            Refusal::WorthTooHigh { .. } => WORTH_TOO_HIGH,
            Refusal::WorthFalls { .. } => WORTH_FALLS,
            Refusal::RecordTooShort => {
                "the record has fewer bytes than the sum, over buyers, of the worth of all lots \
                 together"
            }
            Refusal::NoSuchBuyer => "the buyer asked about is not 1 to m, of m buyers",
        })?;
        match self.number() {
            6..=8 => write!(to, ", at offset {}", self.place()),
            _ => Ok(()),
        }
    }
}

impl Error for Refusal {}

/// Why a sheet is not written: the first question that gets a no. The questions are asked in this
/// order; m and n are the numbers of buyers and lots. A list has no offsets, so there is no place.
#[derive(Clone, Copy, Debug, PartialEq, Eq, Hash)]
#[non_exhaustive]
pub enum WriteRefusal {
    /// 3: the number of buyers is not 1 to 6.
    BuyerCount,
    /// 4: the number of lots is not 1 to 4.
    LotCount,
    /// 5: the list has not m × (2^n − 1) numbers.
    WrongLength,
    /// 7: a worth is above 9,999.
    WorthTooHigh,
    /// 8: a bundle of two or more lots is worth less than the same with one lot fewer.
    WorthFalls,
    /// 11: `out` has fewer than 13 + m × (6 × (2^n − 1) + 1) bytes.
    OutTooShort,
}

impl WriteRefusal {
    /// Refuses with an answer's number, or not with number 0.
    pub(crate) fn check(number: u8) -> Result<(), Self> {
        Err(match number {
            0 => return Ok(()),
            3 => WriteRefusal::BuyerCount,
            4 => WriteRefusal::LotCount,
            5 => WriteRefusal::WrongLength,
            7 => WriteRefusal::WorthTooHigh,
            8 => WriteRefusal::WorthFalls,
            11 => WriteRefusal::OutTooShort,
            _ => panic!("libhokewhuni.a refused with {number}, which is no question of writing"),
        })
    }

    /// The question's number: 3, 4, 5, 7, 8 or 11.
    pub fn number(self) -> u8 {
        match self {
            WriteRefusal::BuyerCount => 3,
            WriteRefusal::LotCount => 4,
            WriteRefusal::WrongLength => 5,
            WriteRefusal::WorthTooHigh => 7,
            WriteRefusal::WorthFalls => 8,
            WriteRefusal::OutTooShort => 11,
        }
    }
}

/// What the number means in words.
impl Display for WriteRefusal {
    fn fmt(&self, to: &mut Formatter) -> fmt::Result {
        to.write_str(match self {
            WriteRefusal::BuyerCount => BUYER_COUNT,
            WriteRefusal::LotCount => LOT_COUNT,
            WriteRefusal::WrongLength => {
                "the list has not m * (2^n - 1) numbers, with m buyers and n lots"
            }
            WriteRefusal::WorthTooHigh => WORTH_TOO_HIGH,
            WriteRefusal::WorthFalls => WORTH_FALLS,
            WriteRefusal::OutTooShort => OUT_TOO_SHORT,
        })
    }
}

impl Error for WriteRefusal {}

/// Why a trial sheet is not written: the first question that gets a no. The questions are asked in
/// this order; m and n are the numbers of buyers and lots. There is no place.
#[derive(Clone, Copy, Debug, PartialEq, Eq, Hash)]
#[non_exhaustive]
pub enum TrialRefusal {
    /// 3: the number of buyers is not 1 to 6.
    BuyerCount,
    /// 4: the number of lots is not 1 to 4.
    LotCount,
    /// 7: the top is above 9,999.
    TopTooHigh,
    /// 11: `out` has fewer than 13 + m × (6 × (2^n − 1) + 1) bytes.
    OutTooShort,
}

impl TrialRefusal {
    /// Refuses with an answer's number, or not with number 0.
    pub(crate) fn check(number: u8) -> Result<(), Self> {
        Err(match number {
            0 => return Ok(()),
            3 => TrialRefusal::BuyerCount,
            4 => TrialRefusal::LotCount,
            7 => TrialRefusal::TopTooHigh,
            11 => TrialRefusal::OutTooShort,
            _ => panic!(
                "libhokewhuni.a refused with {number}, which is no question of a trial sheet"
            ),
        })
    }

    /// The question's number: 3, 4, 7 or 11.
    pub fn number(self) -> u8 {
        match self {
            TrialRefusal::BuyerCount => 3,
            TrialRefusal::LotCount => 4,
            TrialRefusal::TopTooHigh => 7,
            TrialRefusal::OutTooShort => 11,
        }
    }
}

/// What the number means in words.
impl Display for TrialRefusal {
    fn fmt(&self, to: &mut Formatter) -> fmt::Result {
        to.write_str(match self {
            TrialRefusal::BuyerCount => BUYER_COUNT,
            TrialRefusal::LotCount => LOT_COUNT,
            TrialRefusal::TopTooHigh => "the top is above 9,999",
            TrialRefusal::OutTooShort => OUT_TOO_SHORT,
        })
    }
}

impl Error for TrialRefusal {}
