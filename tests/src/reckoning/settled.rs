//! Whether prices are settled, whatever they are, in two ways: by undersupplied sets, as the rules
//! have it, and by the competitive equilibria of the economies, as the paper has universal ones.
//! Written from the rules alone (docs/RULES.md), never from the Rattle code; the comments name the
//! rules that are met.

use super::allocation::{includes, only, Allocation, Economy};
use super::demand::{payoff, price, Prices};
use super::round::{Market, Round};
use super::sheet::{bundles, read_sheet, Refusal};

/// The answer to whether prices are settled: no set of keen buyers, the empty one among them, is
/// undersupplied (rules 4.7 and 4.13). The questions put are 1 to 8 (rules 3.1 to 3.8).
pub fn settled_at(sheet: &[u8], prices: &Prices) -> Result<bool, Refusal> {
    let sheet = read_sheet(sheet)?;
    let market = Market::new(&sheet);
    let undersupplied = Round::new(&market, prices).lowest_undersupplied();
    Ok(undersupplied.is_none())
}

/// The places of the economies for which the prices are not those of a competitive equilibrium. If
/// there are none, the prices are a universal one (definition 2 of the paper).
pub fn without_equilibrium(market: &Market, prices: &Prices) -> Vec<usize> {
    let economies = market.economies.iter().enumerate();
    let without = economies.filter(|(_, economy)| !has_equilibrium(market, economy, prices));
    without.map(|(place, _)| place).collect()
}

/// Whether an allocation brings the most, and gives every buyer present a bundle of greatest payoff
/// (definition 1 of the paper).
fn has_equilibrium(market: &Market, economy: &Economy, prices: &Prices) -> bool {
    let sheet = market.sheet;
    let present: Vec<usize> = (1..=sheet.buyers)
        .filter(|&buyer| includes(economy.present, only(buyer)))
        .collect();
    let payoff = |buyer, bundle| payoff(sheet, prices, buyer, bundle);
    let greatest = |buyer| {
        (0..=bundles(sheet.lots))
            .map(|bundle| payoff(buyer, bundle))
            .max()
    };
    let greatest: Vec<Option<i64>> = present.iter().map(|&buyer| greatest(buyer)).collect();
    let brings = |list: &Allocation| -> u32 {
        let prices = present
            .iter()
            .map(|&buyer| price(prices, buyer, list.bundle(buyer)));
        prices.map(u32::from).sum()
    };
    let demanded = |list: &Allocation| {
        let mut buyers = present.iter().zip(&greatest);
        buyers.all(|(&buyer, &greatest)| Some(payoff(buyer, list.bundle(buyer))) == greatest)
    };
    let places = economy.allocations.iter();
    let mut lists = places.map(|&at| &market.allocations[at]);
    let most = lists.clone().map(brings).max();
    lists.any(|list| Some(brings(list)) == most && demanded(list))
}
