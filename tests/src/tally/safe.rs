//! The Rust reckoning's answers in the form of the crate `hokewhuni`, and their comparison with the
//! crate's own.

use std::array::from_fn;
use std::fmt::{Debug, Display};

use hokewhuni::Refusal::{self, *};
use hokewhuni::{Table, TrialRefusal, WriteRefusal};

use super::difference;
use crate::reckoning::demand::Demand;
use crate::reckoning::direct::Direct;
use crate::reckoning::sale::Sale;
use crate::reckoning::sheet::{self, Field, Sheet};

/// What is printed of the crate's answer where it differs from the Rust reckoning's in its form, or
/// the refusal's number and place do.
pub fn differences<T: Debug + PartialEq, U>(
    what: impl Display,
    answer: &Result<T, Refusal>,
    reckoned: &Result<U, sheet::Refusal>,
    form: impl FnOnce(&U) -> T,
) -> Vec<String> {
    let expected = reckoned.as_ref().map(form).map_err(refusal);
    let told = answer.as_ref().err();
    let told = told.map(|refusal| (refusal.number(), refusal.place()));
    let numbers = reckoned.as_ref().err();
    let numbers = numbers.map(|refusal| (refusal.number, refusal.place));
    [
        difference(&what, ("crate", answer), ("Rust", &expected)),
        difference("number and place", ("crate", &told), ("Rust", &numbers)),
    ]
    .into_iter()
    .flatten()
    .collect()
}

fn refusal(refusal: &sheet::Refusal) -> Refusal {
    let place = refusal.place;
    match refusal.number {
        1 => TooShort,
        2 => FirstLine,
        3 => BuyerCount,
        4 => LotCount,
        5 => WrongLength,
        6 => Fault { place },
        7 => WorthTooHigh { place },
        8 => WorthFalls { place },
        9 => RecordTooShort,
        10 => NoSuchBuyer,
        number => panic!("no question has number {number}"),
    }
}

pub fn write_refusal(refusal: &sheet::Refusal) -> WriteRefusal {
    match refusal.number {
        3 => WriteRefusal::BuyerCount,
        4 => WriteRefusal::LotCount,
        5 => WriteRefusal::WrongLength,
        7 => WriteRefusal::WorthTooHigh,
        8 => WriteRefusal::WorthFalls,
        11 => WriteRefusal::OutTooShort,
        number => panic!("no question of writing has number {number}"),
    }
}

pub fn trial_refusal(refusal: &sheet::Refusal) -> TrialRefusal {
    match refusal.number {
        3 => TrialRefusal::BuyerCount,
        4 => TrialRefusal::LotCount,
        7 => TrialRefusal::TopTooHigh,
        11 => TrialRefusal::OutTooShort,
        number => panic!("no question of a trial sheet has number {number}"),
    }
}

pub fn field(field: &Field) -> hokewhuni::Field {
    let number = field.number.map(|number| number as usize);
    hokewhuni::Field {
        next: field.next,
        number: number.map_err(|place| Fault { place }),
    }
}

pub fn size(sheet: &Sheet) -> hokewhuni::Size {
    hokewhuni::Size {
        buyers: sheet.buyers,
        lots: sheet.lots,
    }
}

pub fn worths(sheet: &Sheet) -> hokewhuni::Worths {
    hokewhuni::Worths {
        buyers: sheet.buyers,
        lots: sheet.lots,
        worths: sheet.worths,
    }
}

pub fn demand(demand: &Demand) -> hokewhuni::Demand {
    hokewhuni::Demand {
        bundles: demand.bundles,
        keen: demand.keen(),
    }
}

pub fn sale(sale: &Sale) -> hokewhuni::Sale {
    hokewhuni::Sale {
        buyers: sale.buyers,
        lots: sale.lots,
        rounds: sale.rounds,
        prices: sale.prices,
        owners: sale.closing.owners.map(usize::from),
        discounts: sale.closing.discounts,
        payments: sale.closing.payments,
    }
}

pub fn direct(direct: &Direct) -> hokewhuni::Direct {
    hokewhuni::Direct {
        total: direct.total,
        owners: direct.owners.map(usize::from),
        payments: direct.payments,
    }
}

/// The table of what is answered for each buyer and bundle by their numbers.
pub fn table(entry: impl Fn(usize, usize) -> u16) -> Table {
    from_fn(|row| from_fn(|bundle| entry(row + 1, bundle)))
}
