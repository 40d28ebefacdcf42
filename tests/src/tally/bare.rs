//! The Rust reckoning's answers in the library's form, which the header declares: a refusal has its
//! number and place and zeros elsewhere (rule 3.14), and where the sheet is accepted number and
//! place are 0 (rule 3.15).

use hokewhuni::raw;

use crate::reckoning::demand::{Demand, Prices};
use crate::reckoning::direct::Direct;
use crate::reckoning::sale::Sale;
use crate::reckoning::sheet::{Answer, Field, Refusal};

pub fn field(field: &Field) -> raw::Field {
    let (number, value) = match field.number {
        Ok(number) => (0, number as usize),
        Err(place) => (6, place),
    };
    raw::Field {
        next: field.next,
        number,
        value,
    }
}

pub fn worths(answer: &Answer) -> raw::Worths {
    let mut form = raw::Worths {
        number: 0,
        place: 0,
        buyers: 0,
        lots: 0,
        worths: [0; 96],
    };
    match answer {
        Ok(sheet) => {
            form.buyers = sheet.buyers as u8;
            form.lots = sheet.lots as u8;
            form.worths = flat(&sheet.worths);
        }
        Err(refusal) => {
            form.number = refusal.number;
            form.place = refusal.place as u32;
        }
    }
    form
}

/// The same without the worths.
pub fn read(worths: &raw::Worths) -> raw::Read {
    raw::Read {
        number: worths.number,
        place: worths.place,
        buyers: worths.buyers,
        lots: worths.lots,
    }
}

pub fn demand(answer: &Result<Demand, Refusal>) -> raw::Demand {
    match answer {
        Ok(demand) => raw::Demand {
            number: 0,
            place: 0,
            bundles: demand.bundles,
            keen: demand.keen(),
        },
        Err(refusal) => raw::Demand {
            number: refusal.number,
            place: refusal.place as u32,
            bundles: 0,
            keen: false,
        },
    }
}

pub fn settled(answer: &Result<bool, Refusal>) -> raw::Settled {
    match answer {
        Ok(settled) => raw::Settled {
            number: 0,
            place: 0,
            settled: *settled,
        },
        Err(refusal) => raw::Settled {
            number: refusal.number,
            place: refusal.place as u32,
            settled: false,
        },
    }
}

pub fn sale(answer: &Result<Sale, Refusal>) -> raw::Sale {
    let mut form = raw::Sale {
        number: 0,
        place: 0,
        buyers: 0,
        lots: 0,
        rounds: 0,
        prices: [0; 96],
        owners: [0; 4],
        discounts: [0; 6],
        payments: [0; 6],
    };
    match answer {
        Ok(sale) => {
            form.buyers = sale.buyers as u8;
            form.lots = sale.lots as u8;
            form.rounds = sale.rounds as u32;
            form.prices = flat(&sale.prices);
            form.owners = sale.closing.owners;
            form.discounts = sale.closing.discounts;
            form.payments = sale.closing.payments;
        }
        Err(refusal) => {
            form.number = refusal.number;
            form.place = refusal.place as u32;
        }
    }
    form
}

pub fn direct(answer: &Result<Direct, Refusal>) -> raw::Direct {
    match answer {
        Ok(direct) => raw::Direct {
            number: 0,
            place: 0,
            total: direct.total,
            owners: direct.owners,
            payments: direct.payments,
        },
        Err(refusal) => raw::Direct {
            number: refusal.number,
            place: refusal.place as u32,
            total: 0,
            owners: [0; 4],
            payments: [0; 6],
        },
    }
}

pub fn wrote(answer: &Result<usize, Refusal>) -> raw::Wrote {
    match answer {
        Ok(length) => raw::Wrote {
            number: 0,
            place: 0,
            length: *length as u32,
        },
        Err(refusal) => raw::Wrote {
            number: refusal.number,
            place: refusal.place as u32,
            length: 0,
        },
    }
}

/// The ninety-six prices, or worths, in a row.
pub fn flat(prices: &Prices) -> [u16; 96] {
    let mut row = [0; 96];
    row.copy_from_slice(prices.as_flattened());
    row
}
