//! The direct way: the first allocation of greatest total worth and what each buyer pays for it,
//! without prices. Written from the rules alone (docs/RULES.md), never from the Rattle code; the
//! comments name the rules that are met.

use super::allocation::{allocations, Allocation, Owners};
use super::sheet::{read_sheet, Refusal, Sheet, MOST_BUYERS};

/// What the direct way answers (rule 5.11).
#[derive(Clone, Debug, PartialEq, Eq)]
pub struct Direct {
    pub total: u32,
    pub owners: Owners,
    pub payments: [u32; MOST_BUYERS],
}

/// The direct way's answer to a sheet (rule 5.5). The questions put are 1 to 8 (rule 5.12).
pub fn direct_way(sheet: &[u8]) -> Result<Direct, Refusal> {
    let sheet = read_sheet(sheet)?;
    let lists = allocations(sheet.buyers, sheet.lots);
    let totals: Vec<u32> = lists.iter().map(|list| total(&sheet, list)).collect();
    let all = greatest(&totals, &lists, |_| true);
    let first = first_of(&totals, &lists, all);
    let mut payments = [0; MOST_BUYERS];
    for buyer in 1..=sheet.buyers {
        let without = greatest(&totals, &lists, |list| list.bundle(buyer) == 0);
        payments[buyer - 1] = payment(all, without, worth(&sheet, first, buyer));
    }
    Ok(Direct {
        total: all,
        owners: first.owners,
        payments,
    })
}

/// The total of an allocation (rule 5.7).
fn total(sheet: &Sheet, list: &Allocation) -> u32 {
    (1..=sheet.buyers)
        .map(|buyer| worth(sheet, list, buyer))
        .sum()
}

/// A buyer's worth of the bundle that an allocation gives it.
fn worth(sheet: &Sheet, list: &Allocation, buyer: usize) -> u32 {
    sheet.worths[buyer - 1][list.bundle(buyer)].into()
}

/// The greatest total over the allocations that are taken: all, or those that give a buyer nothing
/// (rule 5.8).
fn greatest(totals: &[u32], lists: &[Allocation], taken: impl Fn(&Allocation) -> bool) -> u32 {
    let reckoned = lists.iter().zip(totals).filter(|(list, _)| taken(list));
    let totals = reckoned.map(|(_, &total)| total);
    totals.max().expect("nothing sold is an allocation")
}

/// The first allocation of greatest total (rule 5.9).
fn first_of<'a>(totals: &[u32], lists: &'a [Allocation], greatest: u32) -> &'a Allocation {
    let first = totals.iter().position(|&total| total == greatest);
    &lists[first.expect("some allocation has the greatest total")]
}

/// What a buyer pays (rule 5.10). What the others own in the list is an allocation without the
/// buyer, so that the payment is never below 0.
fn payment(total: u32, without: u32, own: u32) -> u32 {
    without + own - total
}
