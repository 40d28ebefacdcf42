//! The sale in the plainest way, which the benches time: the allocations of each economy are listed
//! once, and each round tries each of them once. Written from the rules alone (docs/RULES.md), never
//! from the Rattle code; the comments name the rules that are met.

use super::allocation::{includes, only, Buyers};
use super::demand::{demand, Demand, Prices};
use super::round::{undersupplied, Market, Round, Supply};
use super::sale::{close, record_needed, Sale};
use super::sheet::{read_sheet, refuse, Refusal, Sheet, MOST_BUYERS};

/// The buyers of an economy, and the bundle of each buyer in each of its allocations.
struct Economy {
    present: Buyers,
    allocations: Vec<[u8; MOST_BUYERS]>,
}

/// Finds the sets that the fitting allocations of an economy serve (rules 4.5 to 4.7).
type Tries = fn(&Economy, &Prices, &[Demand]) -> Supply;

/// The sale of a sheet, as that of the module `sale`, whose closing it has.
pub fn run_sale(sheet: &[u8], record: &mut [u8]) -> Result<Sale, Refusal> {
    sell(sheet, record, try_each)
}

/// The same sale, where demand sets are looked at only for allocations that bring no less than those
/// before them.
pub fn run_sale_skipping(sheet: &[u8], record: &mut [u8]) -> Result<Sale, Refusal> {
    sell(sheet, record, try_skipping)
}

fn sell(sheet: &[u8], record: &mut [u8], supply: Tries) -> Result<Sale, Refusal> {
    let sheet = read_sheet(sheet)?;
    let record_needed = record_needed(&sheet);
    if record.len() < record_needed {
        return refuse(9, 0);
    }
    let market = Market::new(&sheet);
    let economies = economies(&market);
    let mut prices = Prices::default();
    let mut rounds = 0;
    while let Some(set) = run_round(&sheet, &economies, &mut prices, supply) {
        record[rounds] = set;
        rounds += 1;
    }
    let last = Round::new(&market, &prices);
    Ok(Sale {
        buyers: sheet.buyers,
        lots: sheet.lots,
        rounds,
        prices,
        closing: close(&market, &last, &prices),
        record_needed,
        raises: record[..rounds].iter().map(|set| set.count_ones()).sum(),
        payoffs: last.payoffs(),
    })
}

/// Each economy with its own list (rule 4.4).
fn economies(market: &Market) -> Vec<Economy> {
    let economies = market.economies.iter().map(|economy| {
        let lists = economy.allocations.iter();
        Economy {
            present: economy.present,
            allocations: lists.map(|&at| market.allocations[at].bundles).collect(),
        }
    });
    economies.collect()
}

/// A round: the set that it takes (rule 4.10), if there is one, and the raise (rule 4.11).
fn run_round(
    sheet: &Sheet,
    economies: &[Economy],
    prices: &mut Prices,
    supply: Tries,
) -> Option<Buyers> {
    let buyers = 1..=sheet.buyers;
    let demands: Vec<Demand> = buyers.map(|buyer| demand(sheet, prices, buyer)).collect();
    let keen = (1..).zip(&demands).filter(|(_, demand)| demand.keen());
    let keen: Buyers = keen.map(|(buyer, _)| only(buyer)).sum();
    let economies = economies.iter();
    let supplies: Vec<Supply> = economies
        .map(|each| supply(each, prices, &demands))
        .collect();
    let set = (0..=keen)
        .filter(|&set| includes(keen, set))
        .find(|&set| undersupplied(set, &supplies))?;
    for (place, demand) in demands.iter().enumerate() {
        for (bundle, price) in prices[place].iter_mut().enumerate() {
            if includes(set, only(place + 1)) && demand.holds(bundle) {
                *price += 1;
            }
        }
    }
    Some(set)
}

/// In one pass: the sets found so far are dropped once an allocation brings more. In a sale the
/// prices of the empty bundle stay 0.
fn try_each(economy: &Economy, prices: &Prices, demands: &[Demand]) -> Supply {
    let mut revenue = 0;
    let mut served = Vec::new();
    for bundles in &economy.allocations {
        let (mut takings, mut set, mut unwanted) = (0, 0, false);
        for (place, demand) in demands.iter().enumerate() {
            let bundle = usize::from(bundles[place]);
            takings += u32::from(prices[place][bundle]);
            if demand.holds(bundle) {
                set |= only(place + 1);
            } else if bundle != 0 {
                unwanted = true;
            }
        }
        if takings > revenue {
            revenue = takings;
            served.clear();
        }
        if takings == revenue && !unwanted && !served.contains(&set) {
            served.push(set);
        }
    }
    Supply {
        present: economy.present,
        served,
    }
}

fn try_skipping(economy: &Economy, prices: &Prices, demands: &[Demand]) -> Supply {
    let mut revenue = 0;
    let mut served = Vec::new();
    for bundles in &economy.allocations {
        let rows = bundles.iter().zip(prices);
        let takings: u32 = rows
            .map(|(&bundle, row)| u32::from(row[usize::from(bundle)]))
            .sum();
        if takings < revenue {
            continue;
        }
        if takings > revenue {
            revenue = takings;
            served.clear();
        }
        let set = served_by(bundles, demands).filter(|set| !served.contains(set));
        served.extend(set);
    }
    Supply {
        present: economy.present,
        served,
    }
}

/// The buyers that get a demanded bundle, unless a buyer gets one that is neither demanded nor empty.
fn served_by(bundles: &[u8; MOST_BUYERS], demands: &[Demand]) -> Option<Buyers> {
    let mut served = 0;
    for (place, demand) in demands.iter().enumerate() {
        let bundle = usize::from(bundles[place]);
        if demand.holds(bundle) {
            served |= only(place + 1);
        } else if bundle != 0 {
            return None;
        }
    }
    Some(served)
}
