//! A round of the sale: takings and revenue, the allocations that fit, the undersupplied sets and
//! the raise. Written from the rules alone (docs/RULES.md), never from the Rattle code; the
//! comments name the rules that are met.

use super::allocation::{allocations, economies, includes, only, Allocation, Buyers, Economy};
use super::demand::{demand, price, Demand, Prices};
use super::sheet::{bundles, Sheet};

/// An accepted sheet with its allocations and economies.
pub struct Market<'a> {
    pub sheet: &'a Sheet,
    pub allocations: Vec<Allocation>,
    pub economies: Vec<Economy>,
}

impl<'a> Market<'a> {
    pub fn new(sheet: &'a Sheet) -> Self {
        let allocations = allocations(sheet.buyers, sheet.lots);
        Market {
            sheet,
            economies: economies(sheet.buyers, &allocations),
            allocations,
        }
    }
}

/// What each buyer demands at the prices of a round, and what each allocation comes to.
pub struct Round<'a> {
    market: &'a Market<'a>,
    demands: Vec<Demand>,
    outcomes: Vec<Outcome>,
}

/// What a buyer's bundle comes to at the prices of a round, or those of all buyers together.
#[derive(Clone, Copy, Default)]
struct Outcome {
    /// The price, or sum of prices.
    takings: u32,
    /// The buyers whose bundle is a demanded one.
    served: Buyers,
    /// Whether a buyer's bundle is neither demanded nor empty.
    unwanted: bool,
}

impl<'a> Round<'a> {
    pub fn new(market: &'a Market, prices: &Prices) -> Self {
        let demands: Vec<Demand> = (1..=market.sheet.buyers)
            .map(|buyer| demand(market.sheet, prices, buyer))
            .collect();
        let bundles = bundles(market.sheet.lots);
        let rows: Vec<Vec<Outcome>> = (1..)
            .zip(&demands)
            .map(|(buyer, demand)| Outcome::of_bundles(prices, buyer, demand, bundles))
            .collect();
        let lists = market.allocations.iter();
        let outcomes = lists.map(|list| Outcome::of_list(list, &rows)).collect();
        Round {
            market,
            demands,
            outcomes,
        }
    }

    /// The sum of the buyers' greatest payoffs.
    pub fn payoffs(&self) -> i64 {
        self.demands.iter().map(|demand| demand.payoff).sum()
    }

    /// The keen buyers, B⁺ (rule 4.3).
    pub fn keen(&self) -> Buyers {
        let demands = (1..).zip(&self.demands);
        let keen = demands.filter(|(_, demand)| demand.keen());
        keen.map(|(buyer, _)| only(buyer)).sum()
    }

    /// An economy's revenue (rule 4.5).
    pub fn revenue(&self, economy: &Economy) -> u32 {
        let places = economy.allocations.iter();
        let takings = places.map(|&at| self.outcomes[at].takings);
        takings.max().expect("nothing sold is an allocation")
    }

    /// The places of the allocations that fit, L* (rule 4.6).
    pub fn fitting<'b>(&'b self, economy: &'b Economy) -> impl Iterator<Item = usize> + 'b {
        let revenue = self.revenue(economy);
        let places = economy.allocations.iter().copied();
        places.filter(move |&at| {
            let outcome = &self.outcomes[at];
            outcome.takings == revenue && !outcome.unwanted
        })
    }

    /// Whether the allocation at a place gives every one of these buyers a demanded bundle.
    pub fn serves(&self, at: usize, buyers: Buyers) -> bool {
        includes(self.outcomes[at].served, buyers)
    }

    /// The set that the round takes (rule 4.10). None if no set is undersupplied.
    pub fn lowest_undersupplied(&self) -> Option<Buyers> {
        let economies = self.market.economies.iter();
        let supplies: Vec<Supply> = economies.map(|economy| self.supply(economy)).collect();
        let keen = self.keen();
        (0..=keen)
            .filter(|&set| includes(keen, set))
            .find(|&set| undersupplied(set, &supplies))
    }

    fn supply(&self, economy: &Economy) -> Supply {
        let mut served = Vec::new();
        for at in self.fitting(economy) {
            let set = self.outcomes[at].served;
            if !served.contains(&set) {
                served.push(set);
            }
        }
        Supply {
            present: economy.present,
            served,
        }
    }

    /// The raise of a set's prices (rule 4.11).
    pub fn raise(&self, set: Buyers, prices: &mut Prices) {
        for (buyer, demand) in (1..).zip(&self.demands) {
            if !includes(set, only(buyer)) {
                continue;
            }
            for (bundle, price) in prices[buyer - 1].iter_mut().enumerate() {
                if demand.holds(bundle) {
                    *price += 1;
                }
            }
        }
    }
}

impl Outcome {
    /// What each bundle comes to if the buyer gets it.
    fn of_bundles(prices: &Prices, buyer: usize, demand: &Demand, bundles: usize) -> Vec<Self> {
        let outcome = |bundle| {
            let demanded = demand.holds(bundle);
            Outcome {
                takings: price(prices, buyer, bundle).into(),
                served: if demanded { only(buyer) } else { 0 },
                unwanted: !demanded && bundle != 0,
            }
        };
        (0..=bundles).map(outcome).collect()
    }

    /// What an allocation comes to, with each buyer's row of bundles.
    fn of_list(list: &Allocation, rows: &[Vec<Outcome>]) -> Self {
        let mut outcome = Outcome::default();
        for (buyer, row) in (1..).zip(rows) {
            let bundle = row[list.bundle(buyer)];
            outcome.takings += bundle.takings;
            outcome.served |= bundle.served;
            outcome.unwanted |= bundle.unwanted;
        }
        outcome
    }
}

/// The buyers of an economy, and the sets of buyers that its fitting allocations serve.
pub(super) struct Supply {
    pub(super) present: Buyers,
    pub(super) served: Vec<Buyers>,
}

/// Whether a set of keen buyers is undersupplied (rule 4.7).
pub(super) fn undersupplied(set: Buyers, supplies: &[Supply]) -> bool {
    supplies.iter().any(|supply| {
        let present = set & supply.present;
        !supply.served.iter().any(|&set| includes(set, present))
    })
}
