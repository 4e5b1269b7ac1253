//! The optimality test of 01: questions 8 to 12 about a pair of prices and flows.

use crate::fraction::{Bound, Fraction};
use crate::network::{Arc, Network, Record, Refusal};
use std::collections::BTreeMap;

/// Node prices and flows, under the numbers of their network.
#[derive(Clone, PartialEq, Eq, Debug, Default)]
pub struct Pair {
    pub prices: BTreeMap<usize, Fraction>,
    pub flows: BTreeMap<usize, Fraction>,
}

impl Pair {
    /// "Has the pair the reduced sizes, length and only fractions?" 8
    /// The pair's figures belong to the network's nodes and arcs in their order.
    pub fn read(network: &Network, words: &[i32]) -> Result<Pair, Refusal> {
        let (n, m) = (network.supplies.len(), network.arcs.len());
        if words.len() != 2 + 2 * (n + m) || words[0] != n as i32 || words[1] != m as i32 {
            return Err(Refusal(8));
        }
        let (numerators, denominators) = words[2..].split_at(n + m);
        let figures = numerators.iter().zip(denominators).map(|(&top, &bottom)| Fraction::read(top, bottom));
        let figures: Vec<Fraction> = figures.collect::<Option<_>>().ok_or(Refusal(8))?;
        Ok(Pair {
            prices: network.supplies.keys().copied().zip(figures[..n].iter().copied()).collect(),
            flows: network.arcs.keys().copied().zip(figures[n..].iter().copied()).collect(),
        })
    }

    /// The pair's record: node prices, then flows.
    pub fn record(&self) -> Record {
        let figures = self.prices.values().chain(self.flows.values()).map(|figure| figure.words());
        Record { sizes: (self.prices.len(), self.flows.len()), figures: figures.collect() }
    }
}

/// The test on its own: questions 2 to 5, then 8 to 12 of the network given; the value.
pub fn test_alone(network: &[i32], pair: &[i32]) -> Result<Fraction, Refusal> {
    let network = Network::read(network)?;
    let pair = Pair::read(&network, pair)?;
    test(&network, &pair)
}

/// Questions 9 to 12; the value.
pub fn test(network: &Network, pair: &Pair) -> Result<Fraction, Refusal> {
    let worked = work(network, pair).ok_or(Refusal(9))?;
    if worked.balances != network.supplies {
        return Err(Refusal(10));
    }
    let each_arc = || network.arcs.iter().map(|(number, arc)| (number, arc, pair.flows[number]));
    if !each_arc().all(|(_, arc, flow)| within_bounds(arc, flow)) {
        return Err(Refusal(11));
    }
    if !each_arc().all(|(number, arc, flow)| keeps_price_rule(arc, flow, worked.reduced_costs[number])) {
        return Err(Refusal(12));
    }
    Ok(worked.value)
}

/// The figures that question 9 asks to fit.
struct Worked {
    balances: BTreeMap<usize, Fraction>,
    reduced_costs: BTreeMap<usize, Fraction>,
    value: Fraction,
}

/// "Do all balances, reduced costs and the value fit?" None: not all.
fn work(network: &Network, pair: &Pair) -> Option<Worked> {
    let mut balances = BTreeMap::new();
    for &node in network.supplies.keys() {
        balances.insert(node, balance(network, pair, node)?);
    }
    let mut reduced_costs = BTreeMap::new();
    for (&number, arc) in &network.arcs {
        reduced_costs.insert(number, reduced_cost(arc, &pair.prices)?);
    }
    Some(Worked { balances, reduced_costs, value: value(network, &pair.flows)? })
}

/// "Balance sums start at 0 and run over the arcs upward."
fn balance(network: &Network, pair: &Pair, node: usize) -> Option<Fraction> {
    let mut sum = Fraction::ZERO;
    for (number, arc) in network.arcs_at(node) {
        sum = sum.plus(arc.multiplier(node).times(pair.flows[&number])?)?;
    }
    Some(sum)
}

/// "d = c - a × price(from) - b × price(to), the last term absent for a root arc."
fn reduced_cost(arc: &Arc, prices: &BTreeMap<usize, Fraction>) -> Option<Fraction> {
    let mut d = arc.cost;
    for (node, multiplier) in arc.ends() {
        d = d.minus(multiplier.times(prices[&node])?)?;
    }
    Some(d)
}

/// "The value is the sum of c × flow, arcs upward", and it "starts from" the constant.
pub fn value(network: &Network, flows: &BTreeMap<usize, Fraction>) -> Option<Fraction> {
    let mut sum = network.constant;
    for (number, arc) in &network.arcs {
        sum = sum.plus(arc.cost.times(flows[number])?)?;
    }
    Some(sum)
}

fn within_bounds(arc: &Arc, flow: Fraction) -> bool {
    arc.lower <= Bound::Finite(flow) && Bound::Finite(flow) <= arc.upper
}

/// "d > 0 only where l is finite and flow = l; d < 0 only where u is finite and flow = u."
pub fn keeps_price_rule(arc: &Arc, flow: Fraction, d: Fraction) -> bool {
    let flow = Bound::Finite(flow); // equal to a bound only if that is finite
    (!d.is_positive() || flow == arc.lower) && (!d.is_negative() || flow == arc.upper)
}

#[cfg(test)]
mod tests {
    use super::*;
    use crate::text::read_words;

    fn tested(network: &str, pair: &str) -> Result<(i32, i32), Refusal> {
        let words = |text: &str| read_words(text.as_bytes()).expect("words");
        test_alone(&words(network), &words(pair)).map(Fraction::words)
    }

    /// A's reduced network with the pairs of A to D.
    #[test]
    fn reduced_instances() {
        let network = "2 2 14 4 -4 1 2 1 0 3 1 -1 1 2 2 0 1 1 -1 1 1 1 1 1 1 1 1 1 1 1 1 1 1 0 1 1";
        assert_eq!(tested(network, "2 2 2 0 3 1 1 1 1 1"), Ok((19, 1)));
        assert_eq!(tested(network, "2 2 2 0 2 2 1 1 1 1"), Err(Refusal(12)));
        assert_eq!(tested(network, "2 2 2 0 4 0 1 1 1 1"), Err(Refusal(11)));
        assert_eq!(tested(network, "2 2 2 0 3 2 1 1 1 1"), Err(Refusal(10)));
        assert_eq!(tested(network, "2 2 2 0 2147483647 1 1 1 1 1"), Err(Refusal(9)));
        assert_eq!(tested(network, "2 2 2 0 3 1 1 1 1 1 1"), Err(Refusal(8)));
        assert_eq!(tested(network, "2 2 2 0 3 1 1 1 1 0"), Err(Refusal(8)));
        assert_eq!(tested("1 0 0 0 1 2", "1 0 0 1"), Err(Refusal(3)));
    }

    /// The sum starts from the constant: its partial sums must fit too. Without arcs the constant is the value.
    #[test]
    fn constant_first() {
        let network = |constant: i32| format!("1 2 {constant} 0 1 1 1 0 9 1 0 1 1 -1 0 9 -1 0{}", " 1".repeat(16));
        let there_and_back = |constant| tested(&network(constant), "1 2 1 1 1 1 1 1");
        assert_eq!(there_and_back(5), Ok((5, 1)));
        assert_eq!(there_and_back(-2147483647), Ok((-2147483647, 1)));
        assert_eq!(there_and_back(2147483646), Ok((2147483646, 1)));
        assert_eq!(there_and_back(2147483647), Err(Refusal(9)));
        assert_eq!(tested("0 0 -7 3", "0 0"), Ok((-7, 3)));
    }

    /// A itself with the restored pair.
    #[test]
    fn restored_instance() {
        let network = "3 3 0 4 -5 2 1 2 1 0 3 1 -1 1 2 2 0 1 1 -1 3 2 7 0 1 1 -1 \
                       1 1 1 1 1 1 1 1 1 1 1 1 1 1 1 0 1 1 1 1 1 1 0 1 2";
        assert_eq!(tested(network, "3 3 2 0 7 3 1 2 1 1 1 1 1 1"), Ok((19, 1)));
    }
}
