//! Prices and flows for undoing one step, near the width at the operations of its way back, and these operations
//! in exact numbers.

use crate::draw::Draw;
use crate::exact::Exact;
use crate::fraction::{Bound, Fraction};
use crate::network::Network;
use crate::optimality::Pair;
use crate::rules::{Back, Change, Numbered};
use crate::samples::small;
use crate::scenes::{at_the_width, beyond, over, sign, wide_times, Source, WIDEST};

fn exact(figure: Fraction) -> Exact {
    Exact::from(figure)
}

/// The number or its opposite.
fn with_sign_of(figure: &Exact, number: Exact) -> Exact {
    if figure.is_negative() == number.is_negative() {
        number
    } else {
        -&number
    }
}

/// An arc's figures at a node, exactly: c, e, and o with the other end, if it has one.
struct Side {
    c: Exact,
    e: Exact,
    other: Option<(usize, Exact)>,
}

impl Side {
    fn new((_, arc): &Numbered, node: usize) -> Side {
        let other = arc.other(node).map(|(end, o)| (end, exact(o)));
        Side { c: exact(arc.cost), e: exact(arc.multiplier(node)), other }
    }

    /// o × other price
    fn taken(&self, pair: &Pair) -> Option<Exact> {
        self.other.as_ref().map(|(end, o)| o * &exact(pair.prices[end]))
    }

    /// c - o × other price
    fn rest(&self, pair: &Pair) -> Exact {
        self.taken(pair).map_or(self.c.clone(), |taken| &self.c - &taken)
    }

    /// (c - o × other price) ÷ e
    fn price(&self, pair: &Pair) -> Exact {
        &self.rest(pair) / &self.e
    }

    /// Gives the other end the price with which c - o × price is `rest`, if there is one that fits.
    fn set_rest(&self, pair: &mut Pair, rest: &Exact) {
        if let Some((end, o)) = &self.other {
            if let Some(price) = (&(&self.c - rest) / o).fraction() {
                pair.prices.insert(*end, price);
            }
        }
    }

    /// Brings o × other price, c less that, or the price at the node to the width, the first and last with c's sign.
    fn aim(&self, draw: &mut Draw, pair: &mut Pair) {
        let width = at_the_width(draw);
        let rest = match draw.below(4) {
            0 => &self.c - &with_sign_of(&self.c, width),
            1 => &self.c - &with_sign_of(&self.c, self.other.as_ref().map_or(width, |(_, o)| beyond(draw, o))),
            2 => width,
            _ => with_sign_of(&self.c, &width * &self.e),
        };
        self.set_rest(pair, &rest);
    }
}

/// The network with simple multipliers at a node's arcs and some of their costs, and its supply, near the width.
pub fn heavier(draw: &mut Draw, network: &Network, node: usize) -> Network {
    let near = |draw: &mut Draw| over((WIDEST - draw.within(0, 3)) * draw.sign(), 1);
    let mut changed = network.clone();
    if let Some(supply) = changed.supplies.get_mut(&node).filter(|supply| !supply.is_zero()) {
        *supply = if draw.chance(50) { near(draw) } else { *supply };
    }
    for arc in changed.arcs.values_mut().filter(|arc| arc.touches(node)) {
        arc.cost = if draw.chance(50) { near(draw) } else { arc.cost };
        for multiplier in [&mut arc.at_from, &mut arc.at_to] {
            let (top, bottom) = draw.of(&[(1, 1), (1, 1), (2, 1), (3, 1), (4, 1), (1, 2), (1, 3)]);
            let product = sign(*multiplier).times(over(top, bottom));
            *multiplier = product.unwrap_or(*multiplier);
        }
    }
    changed
}

/// The network with small bounds at both arcs of a step of rule 7, so that j often takes its upper bound; often that lies
/// below 0.
pub fn bounded(draw: &mut Draw, network: &Network, change: &Change) -> Network {
    let mut bounded = network.clone();
    for number in [change.place, change.dropped_arcs[0]] {
        let arc = bounded.arcs.get_mut(&number).expect("at the place");
        let x = if draw.chance(50) { small(draw) } else { over(-draw.within(0, 60), 1) };
        let y = small(draw);
        (arc.lower, arc.upper) = (Bound::Finite(x.min(y)), Bound::Finite(x.max(y)));
        if number == change.place && x < y {
            (arc.lower, arc.upper) = (Bound::Finite(over(-WIDEST / 2, 1)), Bound::Finite(x));
        }
    }
    bounded
}

/// Prices and flows under all numbers of the network before the step.
pub fn step_pair(draw: &mut Draw, network: &Network, change: &Change) -> Pair {
    let (source, share) = (Source::new(draw), draw.of(&[0, 0, 0, 15, 40, 100]));
    let mut figure = || if draw.chance(share) { source.figure(draw) } else { small(draw) };
    let mut pair = Pair {
        prices: network.supplies.keys().map(|&node| (node, figure())).collect(),
        flows: network.arcs.keys().map(|&arc| (arc, figure())).collect(),
    };
    match &change.back {
        Back::SingleArc { node, arc, .. } if draw.chance(60) => Side::new(arc, *node).aim(draw, &mut pair),
        Back::TwoArcs { .. } => aim_two_arcs(draw, change, &mut pair),
        Back::Crossing { node, negative, positive, numbers } if draw.chance(60) => {
            let sides = [&negative[0], &negative[1], &positive[0], &positive[1]];
            aim_crossing(draw, sides.map(|arc| Side::new(arc, *node)), numbers, &mut pair);
        }
        Back::ParallelArcs { .. } => aim_parallel_arcs(draw, change, &mut pair),
        _ => {}
    }
    pair
}

fn aim_two_arcs(draw: &mut Draw, change: &Change, pair: &mut Pair) {
    let Back::TwoArcs { node, supply, kept, gone } = &change.back else {
        return;
    };
    let (j, k) = (Side::new(kept, *node), Side::new(gone, *node));
    let joined = change.new_arcs[0].1;
    if let (Bound::Finite(flow), true) =
        (draw.of(&[kept.1.lower, kept.1.upper, joined.lower, joined.upper]), draw.chance(60))
    {
        pair.flows.insert(kept.0, flow);
    }
    let (width, supply) = (at_the_width(draw), exact(*supply));
    match draw.below(14) {
        12 | 0 => k.aim(draw, pair),
        1 => j.aim(draw, pair),
        // ej × price, and the reduced cost
        2 | 13 => {
            let product = if draw.chance(50) { width } else { beyond(draw, &j.e) };
            k.set_rest(pair, &(&(&product / &j.e) * &k.e));
            j.set_rest(pair, &with_sign_of(&product, at_the_width(draw)));
        }
        3 => j.set_rest(pair, &(&width + &(&j.e * &k.price(pair)))),
        // A reduced cost of 0, or one on either side of it.
        4..=7 => {
            let little = Exact::whole(draw.within(-1, 1));
            j.set_rest(pair, &(&little + &(&j.e * &k.price(pair))));
        }
        8 | 9 => {
            let product = match draw.below(3) {
                0 => width,
                1 => &supply - &width,
                _ => &supply - &(&width * &k.e),
            };
            if let Some(flow) = (&product / &j.e).fraction() {
                pair.flows.insert(kept.0, flow);
            }
        }
        _ => {}
    }
}

/// The numbers of an old arc's two new arcs; the old ones are N, N, P, P.
fn new_numbers(which: usize, numbers: &[usize; 4]) -> [usize; 2] {
    [[0, 1], [2, 3], [0, 2], [1, 3]][which].map(|at| numbers[at])
}

/// Brings a price, the sum of two flows or its quotient to the width.
fn aim_crossing(draw: &mut Draw, sides: [Side; 4], numbers: &[usize; 4], pair: &mut Pair) {
    if draw.chance(50) {
        return sides[draw.below(2)].aim(draw, pair);
    }
    let which = draw.below(4);
    let [first, second] = new_numbers(which, numbers);
    let width = at_the_width(draw);
    let sum = draw.of(&[&width, &(&width * &sides[which].e)]).clone();
    if let Some(flow) = (&sum - &exact(pair.flows[&first])).fraction() {
        pair.flows.insert(second, flow);
    }
}

/// Brings flow - lower end, flow - j's upper bound or that ÷ g to the width; or puts the flow at an end of its bounds, or
/// where j's upper bound and (flow - lower end) are equal or nearly so.
fn aim_parallel_arcs(draw: &mut Draw, change: &Change, pair: &mut Pair) {
    let Back::ParallelArcs { kept: (number, j), g: ratio, lower_end, .. } = &change.back else {
        return;
    };
    let (g, low) = (exact(*ratio), exact(*lower_end));
    let (width, merged) = (at_the_width(draw), change.new_arcs[0].1);
    let one = Exact::whole(1);
    let flow = match (draw.below(10), j.upper.finite().map(exact)) {
        (0 | 1, _) => &low + &width,
        (2, Some(upper)) => &upper + &with_sign_of(&one, width),
        (3 | 4, Some(upper)) => &upper + &with_sign_of(&one, &g * &exact(wide_times(draw, *ratio))),
        (5, Some(upper)) => &upper + &with_sign_of(&one, &width * &g),
        (6, Some(upper)) => &(&upper + &low) + &exact(over(draw.within(-1, 1), draw.of(&[1, 2, 3, 65537]))),
        (7, Some(upper)) => &(&upper + &low) + &exact(over(draw.within(0, 99), draw.within(1, 9))),
        (8, _) => draw.of(&[merged.lower, merged.upper]).finite().map_or(low, exact),
        _ => return,
    };
    if let Some(flow) = flow.fraction() {
        pair.flows.insert(*number, flow);
    }
}

/// A step's way back in exact numbers: its operations by name with their results, whether rule 5 takes its second
/// price, whether rule 6 has two different prices, of which the second is the larger, and whether rule 7 gives j its upper
/// bound, which is the smaller.
#[derive(Default)]
pub struct Exactly {
    pub operations: Vec<(&'static str, Exact)>,
    pub is_second_price: bool,
    pub is_second_larger: bool,
    pub is_upper_smaller: bool,
}

impl Exactly {
    pub fn new(back: &Back, pair: &Pair) -> Exactly {
        let mut exactly = Exactly::default();
        match back {
            Back::FixedFlow { .. } | Back::BareNode { .. } => {}
            Back::SingleArc { node, arc, .. } => exactly.price(&Side::new(arc, *node), pair),
            Back::TwoArcs { node, supply, kept, gone } => {
                let (j, k) = (Side::new(kept, *node), Side::new(gone, *node));
                exactly.two_arcs(exact(*supply), (&j, kept), &k, pair);
            }
            Back::Crossing { node, negative, positive, numbers } => {
                let sides = [&negative[0], &negative[1], &positive[0], &positive[1]];
                exactly.crossing(sides.map(|arc| Side::new(arc, *node)), numbers, pair);
            }
            Back::ParallelArcs { kept: (number, j), g, lower_end, .. } => {
                let flow = exact(pair.flows[number]);
                exactly.parallel_arcs(flow, j.upper.finite().map(exact), exact(*g), exact(*lower_end));
            }
        }
        exactly
    }

    /// The operations with results that don't fit.
    pub fn misfits(&self) -> Vec<&'static str> {
        let misfits = self.operations.iter().filter(|(_, result)| result.fraction().is_none());
        misfits.map(|(name, _)| *name).collect()
    }

    fn note(&mut self, name: &'static str, result: &Exact) {
        self.operations.push((name, result.clone()));
    }

    fn price(&mut self, side: &Side, pair: &Pair) {
        if let Some(taken) = side.taken(pair) {
            self.note("o × other price", &taken);
        }
        self.note("c - o × other price", &side.rest(pair));
        self.note("price", &side.price(pair));
    }

    fn two_arcs(&mut self, supply: Exact, (j, kept): (&Side, &Numbered), k: &Side, pair: &Pair) {
        let flow = exact(pair.flows[&kept.0]);
        let product = &j.e * &flow;
        self.note("ej × flow", &product);
        self.note("r - ej × flow", &(&supply - &product));
        self.note("flow of k", &(&(&supply - &product) / &k.e));
        self.price(k, pair);
        if let Some(taken) = j.taken(pair) {
            self.note("oj × other price", &taken);
        }
        let part = &j.e * &k.price(pair);
        let reduced_cost = &j.rest(pair) - &part;
        self.note("cj - oj × other price", &j.rest(pair));
        self.note("ej × price", &part);
        self.note("reduced cost", &reduced_cost);
        let is_at = |bound: Bound| bound.finite().is_some_and(|bound| exact(bound) == flow);
        self.is_second_price =
            reduced_cost.is_positive() && !is_at(kept.1.lower) || reduced_cost.is_negative() && !is_at(kept.1.upper);
        if self.is_second_price {
            self.note("second price", &j.price(pair));
        }
    }

    fn crossing(&mut self, sides: [Side; 4], numbers: &[usize; 4], pair: &Pair) {
        for (which, side) in sides.iter().enumerate() {
            let [first, second] = new_numbers(which, numbers).map(|number| exact(pair.flows[&number]));
            self.note("sum of flows", &(&first + &second));
            self.note("flow", &(&(&first + &second) / &side.e));
        }
        self.price(&sides[0], pair);
        self.price(&sides[1], pair);
        self.is_second_larger = sides[0].price(pair) < sides[1].price(pair);
    }

    fn parallel_arcs(&mut self, flow: Exact, upper: Option<Exact>, g: Exact, lower_end: Exact) {
        let rest = &flow - &lower_end;
        self.is_upper_smaller = upper.as_ref().is_some_and(|upper| *upper < rest);
        let name =
            if self.is_upper_smaller { "flow - lower end, larger than j's upper bound," } else { "flow - lower end" };
        self.note(name, &rest);
        let new_flow = upper.filter(|_| self.is_upper_smaller).unwrap_or(rest);
        self.note("flow - j's new flow", &(&flow - &new_flow));
        self.note("flow of k", &(&(&flow - &new_flow) / &g));
    }
}
