//! A seeded generator of numbers, and makers of sheets: from worths, from random monotone worths,
//! from random bytes.

use crate::reckoning::sheet::{
    bundles, length, parts, Sheet, Table, FIELD, GREATEST_WORTH, LINE_END, MOST_BUYERS, MOST_LOTS,
};

/// The splitmix64 generator of Steele, Lea and Flood.
pub struct Generator {
    state: u64,
}

impl Generator {
    pub fn new(seed: u64) -> Self {
        Generator { state: seed }
    }

    pub fn draw(&mut self) -> u64 {
        self.state = self.state.wrapping_add(0x9e37_79b9_7f4a_7c15);
        let mixed = (self.state ^ (self.state >> 30)).wrapping_mul(0xbf58_476d_1ce4_e5b9);
        let mixed = (mixed ^ (mixed >> 27)).wrapping_mul(0x94d0_49bb_1331_11eb);
        mixed ^ (mixed >> 31)
    }

    /// A number from 0 up to, not including, the bound.
    pub fn below(&mut self, bound: usize) -> usize {
        ((u128::from(self.draw()) * bound as u128) >> 64) as usize
    }

    /// One of the things listed.
    pub fn pick<T: Copy>(&mut self, from: &[T]) -> T {
        from[self.below(from.len())]
    }

    /// Numbers of buyers and lots that a sheet may have.
    pub fn size(&mut self) -> (usize, usize) {
        (1 + self.below(MOST_BUYERS), 1 + self.below(MOST_LOTS))
    }

    /// Bytes of every value.
    pub fn bytes(&mut self, count: usize) -> Vec<u8> {
        (0..count).map(|_| self.draw() as u8).collect()
    }

    /// Bytes out of those listed.
    pub fn bytes_from(&mut self, alphabet: &[u8], count: usize) -> Vec<u8> {
        (0..count).map(|_| self.pick(alphabet)).collect()
    }

    /// A sheet in which no bundle is worth less than a part of it. A buyer's bundles exceed their
    /// parts by less than a step, so that ties, small worths and the greatest one all occur.
    pub fn monotone(&mut self, buyers: usize, lots: usize) -> Sheet {
        let steps = [1, 2, 10, 100, 1_000, 5_000, 10_000];
        self.stepwise(buyers, lots, GREATEST_WORTH, &steps)
    }

    /// As `monotone`, with worths up to a top and steps that fit it.
    pub fn monotone_up_to(&mut self, buyers: usize, lots: usize, top: u16) -> Sheet {
        let most = usize::from(top);
        self.stepwise(buyers, lots, top, &[2, 2 + most / 4, 1 + most])
    }

    /// A sheet of the greatest size with worths up to the greatest, whose sale takes some 30,000
    /// rounds.
    pub fn full(&mut self) -> Sheet {
        self.stepwise(MOST_BUYERS, MOST_LOTS, GREATEST_WORTH, &[2_500, 10_000])
    }

    /// A monotone sheet with worths up to a top, each buyer's step picked out of those listed.
    fn stepwise(&mut self, buyers: usize, lots: usize, top: u16, steps: &[usize]) -> Sheet {
        let mut worths = Table::default();
        for row in &mut worths[..buyers] {
            let step = self.pick(steps);
            for bundle in 1..=bundles(lots) {
                let least = parts(bundle).map(|part| row[part]).max().unwrap_or(0);
                row[bundle] = top.min(least + self.below(step) as u16);
            }
        }
        Sheet {
            buyers,
            lots,
            worths,
        }
    }
}

/// Every size that a sheet may have, as buyers and lots.
pub fn sizes() -> impl Iterator<Item = (usize, usize)> {
    (1..=MOST_BUYERS).flat_map(|buyers| (1..=MOST_LOTS).map(move |lots| (buyers, lots)))
}

/// The bytes of a sheet.
pub fn bytes_of(sheet: &Sheet) -> Vec<u8> {
    let mut bytes = Vec::with_capacity(length(sheet.buyers, sheet.lots));
    push_line(&mut bytes, [sheet.buyers, sheet.lots]);
    for row in &sheet.worths[..sheet.buyers] {
        let worths = &row[1..=bundles(sheet.lots)];
        push_line(&mut bytes, worths.iter().map(|&worth| worth.into()));
    }
    bytes
}

/// Writes a line of fields and its line end.
pub fn push_line(bytes: &mut Vec<u8>, numbers: impl IntoIterator<Item = usize>) {
    for number in numbers {
        bytes.extend(field(number));
    }
    bytes.push(LINE_END);
}

/// The field of a number up to 999,999.
pub fn field(number: usize) -> [u8; FIELD] {
    let mut columns = [b' '; FIELD];
    let mut rest = number;
    for column in columns.iter_mut().rev() {
        *column = b'0' + (rest % 10) as u8;
        rest /= 10;
        if rest == 0 {
            break;
        }
    }
    columns
}
