//! Deterministic networks for the benchmarks, with reductions of five kinds. Their constants are 0.

use crate::draw::Draw;
use crate::fraction::{Bound, Fraction};
use crate::network::{Arc, Network};
use crate::reduce::{reduce, End, RULES};
use crate::restore::restore;
use crate::samples::{self, Shape};
use crate::trips::{Trip, Words};
use std::collections::BTreeSet;

pub const SIZES: [(usize, usize); 3] = [(8, 24), (16, 48), (32, 96)];

/// How a network of the benchmarks is to look.
#[derive(Clone, Copy)]
pub enum Kind {
    /// Many steps.
    Long,
    /// No rule applies.
    Stuck,
    /// Every rule applies somewhere.
    Mixed,
    /// Rule 4 tries very many pairs of root arcs in vain.
    Pairs,
    /// Rule 7 tries every pair of very many root arcs in vain.
    Roots,
}

/// Every kind that has networks of all sizes.
pub const KINDS: [Kind; 3] = [Kind::Long, Kind::Stuck, Kind::Mixed];

/// The others, each with its size.
pub const SEARCHES: [(Kind, (usize, usize)); 2] = [(Kind::Pairs, (2, 96)), (Kind::Roots, (1, 96))];

impl Kind {
    pub fn name(self) -> &'static str {
        match self {
            Kind::Long => "long",
            Kind::Stuck => "stuck",
            Kind::Mixed => "mixed",
            Kind::Pairs => "pairs",
            Kind::Roots => "roots",
        }
    }

    fn network(self, draw: &mut Draw, n: usize, m: usize) -> Network {
        let mut network = match self {
            Kind::Long => long(draw, n, m),
            Kind::Stuck => stuck(draw, n, m),
            Kind::Mixed => mixed(draw, n, m),
            Kind::Pairs => pairs(draw, n, m),
            Kind::Roots => roots(draw, n, m),
        };
        stir(draw, &mut network);
        network
    }

    /// The words of a network of the kind, its stack and an optimal pair that can be restored; the step count.
    pub fn words(self, draw: &mut Draw, n: usize, m: usize) -> (Words, usize) {
        loop {
            let network = self.network(draw, n, m);
            if !self.suits(&network) {
                continue;
            }
            let trip = match self {
                Kind::Pairs | Kind::Roots => Trip::at_rest(network),
                _ => Trip::of(draw, network),
            };
            let words = trip.words();
            if trip.pair.is_some() && restore(&words.network, &words.stack, &words.pair).is_ok() {
                return (words, trip.reduction.steps.len());
            }
        }
    }

    /// The network has a reduction of the kind.
    fn suits(self, network: &Network) -> bool {
        let reduction = reduce(network);
        let reduced = matches!(reduction.end, End::Reduced(_));
        reduced
            && match self {
                Kind::Long => reduction.steps.len() + 2 >= network.arcs.len(),
                Kind::Stuck | Kind::Pairs | Kind::Roots => reduction.steps.is_empty(),
                Kind::Mixed => (1..=RULES as i32).all(|rule| reduction.rules().contains(&rule)),
            }
    }
}

fn whole(number: i64) -> Fraction {
    Fraction::whole(number).expect("fits")
}

/// An arc with multipliers 1 or -1; a root arc where the ends are equal.
fn arc(draw: &mut Draw, from: usize, to: usize, lower: Bound, upper: Bound) -> Arc {
    let cost = whole(draw.within(0, 9));
    let at_to = if from == to { Fraction::ZERO } else { whole(draw.sign()) };
    Arc { from, to, cost, lower, upper, at_from: whole(draw.sign()), at_to }
}

fn network_of(n: usize, arcs: Vec<Arc>) -> Network {
    let supplies = (1..=n).map(|node| (node, Fraction::ZERO)).collect();
    Network { constant: Fraction::ZERO, supplies, arcs: (1..).zip(arcs).collect() }
}

/// Half the nodes in a ring (rule 5), the others in trees that hang from it (rule 3), and all further arcs closed
/// (rule 1). Two nodes and two arcs of the ring are left.
fn long(draw: &mut Draw, n: usize, m: usize) -> Network {
    let ring = n / 2;
    let (lower, upper) = (Bound::Finite(whole(-1_000_000)), Bound::Finite(whole(1_000_000)));
    let mut arcs = vec![];
    for node in 1..=n {
        let other = if node <= ring { 1 + node % ring } else { node - draw.within(1, ring as i64) as usize };
        arcs.push(arc(draw, node, other, lower, upper));
    }
    while arcs.len() < m {
        let flow = Bound::Finite(small(draw));
        let (from, to) = two_of(draw, n);
        arcs.push(arc(draw, from, to, flow, flow));
    }
    network_of(n, arcs)
}

fn small(draw: &mut Draw) -> Fraction {
    Fraction::fitted(draw.within(-9, 9) as i128, draw.within(1, 3) as i128).expect("fits")
}

fn two_of(draw: &mut Draw, n: usize) -> (usize, usize) {
    let from = 1 + draw.below(n);
    (from, 1 + (from + draw.below(n - 1)) % n)
}

/// Every node has degree 5 or more, and no arc is closed or costly. In half of these networks each node has a
/// root arc without upper bound, at which rule 4 looks in vain.
fn stuck(draw: &mut Draw, n: usize, m: usize) -> Network {
    let rooted = draw.chance(50);
    let zero = Bound::Finite(Fraction::ZERO);
    let mut arcs = vec![];
    for number in 0..m {
        let (node, round) = (1 + number % n, number / n);
        if rooted && round == 2 {
            let mut root = arc(draw, node, node, zero, Bound::AbsentUpper);
            root.cost = whole(draw.within(5, 30));
            arcs.push(root);
        } else {
            let upper = if draw.chance(50) { Bound::Finite(whole(draw.within(1, 9))) } else { Bound::AbsentUpper };
            arcs.push(arc(draw, node, 1 + (number + round + 1) % n, zero, upper));
        }
    }
    network_of(n, arcs)
}

/// A figure whose sums and quotients with others like it are wide.
fn wide(draw: &mut Draw) -> Fraction {
    Fraction::fitted(draw.within(1_000, 9_999) as i128, draw.within(1, 99) as i128).expect("fits")
}

/// An arc from 0 upward of wide figures; one that is no root arc costs 1.
fn wide_arc(draw: &mut Draw, from: usize, to: usize) -> Arc {
    let at_to = if from == to { Fraction::ZERO } else { wide(draw) };
    let cost = if from == to { wide(draw) } else { Fraction::ONE };
    let (lower, upper) = (Bound::Finite(Fraction::ZERO), Bound::AbsentUpper);
    Arc { from, to, cost, lower, upper, at_from: wide(draw), at_to }
}

/// A third of the arcs from node 1 to node 2, and a third root arcs at either, all of wide figures and too dear for rule 4.
fn pairs(draw: &mut Draw, n: usize, m: usize) -> Network {
    let ends = [(1, 2), (1, 1), (2, 2)];
    let arcs = (0..m).map(|number| {
        let (from, to) = ends[number % 3];
        wide_arc(draw, from, to)
    });
    network_of(n, arcs.collect())
}

/// Root arcs at node 1, all of wide figures, of which no two are proportional.
fn roots(draw: &mut Draw, n: usize, m: usize) -> Network {
    network_of(n, (0..m).map(|_| wide_arc(draw, 1, 1)).collect())
}

/// Small sample networks side by side, then further arcs at the nodes that have the most.
fn mixed(draw: &mut Draw, n: usize, m: usize) -> Network {
    let mut all = Network::default();
    let mut rules = BTreeSet::new();
    while let Some(part) = part(draw, n - all.supplies.len(), m - all.arcs.len(), &rules) {
        rules.extend(reduce(&part).rules());
        let (nodes, arcs) = (all.supplies.len(), all.arcs.len());
        all.supplies.extend(part.supplies.iter().map(|(node, supply)| (nodes + node, *supply)));
        let moved = |arc: &Arc| Arc { from: nodes + arc.from, to: nodes + arc.to, ..*arc };
        all.arcs.extend(part.arcs.iter().map(|(number, arc)| (arcs + number, moved(arc))));
    }
    for node in all.supplies.len() + 1..=n {
        all.supplies.insert(node, Fraction::ZERO);
    }
    let mut nodes: Vec<usize> = (1..=n).collect();
    nodes.sort_by_key(|node| std::cmp::Reverse(all.arcs_at(*node).len()));
    for number in all.arcs.len() + 1..=m {
        let (from, to) = two_of(draw, 3);
        let upper = Bound::Finite(whole(draw.within(1, 9)));
        let further = arc(draw, nodes[from - 1], nodes[to - 1], Bound::Finite(Fraction::ZERO), upper);
        all.arcs.insert(number, further);
    }
    all
}

/// A sample network of at most this size, of a few the one in which the most rules apply that are not among those given.
fn part(draw: &mut Draw, n: usize, m: usize, rules: &BTreeSet<i32>) -> Option<Network> {
    let parts = (0..100).map(|_| samples::without_constant(draw, Shape::Small));
    let parts = parts.filter(|part| part.supplies.len() <= n && part.arcs.len() <= m && !part.supplies.is_empty());
    parts.max_by_key(|part| BTreeSet::from_iter(reduce(part).rules()).difference(rules).count())
}

/// Nodes and arcs under random numbers.
fn stir(draw: &mut Draw, network: &mut Network) {
    let mut numbers: Vec<usize> = network.supplies.keys().copied().collect();
    draw.shuffle(&mut numbers);
    let mut arcs: Vec<Arc> = network.arcs.values().copied().collect();
    draw.shuffle(&mut arcs);
    for arc in &mut arcs {
        (arc.from, arc.to) = (numbers[arc.from - 1], numbers[arc.to - 1]);
    }
    network.arcs = (1..).zip(arcs).collect();
    network.supplies = network.supplies.iter().map(|(node, supply)| (numbers[node - 1], *supply)).collect();
}

#[cfg(test)]
mod tests {
    use super::*;

    /// Networks of every kind and size come soon, and have the reduction that their kind asks for.
    #[test]
    fn every_kind_comes_soon() {
        let mut draw = Draw::new(18);
        let rows = SIZES.into_iter().flat_map(|size| KINDS.map(|kind| (kind, size))).chain(SEARCHES);
        for (kind, (n, m)) in rows {
            let mut tries = 0..300;
            assert!(tries.any(|_| kind.suits(&kind.network(&mut draw, n, m))), "{} {n}/{m}", kind.name());
            let (words, steps) = kind.words(&mut draw, n, m);
            assert_eq!(words.network[..2], [n as i32, m as i32]);
            let rules = &words.stack[1..1 + steps];
            match kind {
                Kind::Long => assert!(steps + 2 >= m),
                Kind::Mixed => assert!((1..=7).all(|rule| rules.contains(&rule)), "{rules:?}"),
                _ => assert_eq!(steps, 0),
            }
        }
    }
}
