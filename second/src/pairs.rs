//! Deterministic small networks with pairs of prices and flows for the optimality test: optimal by construction or
//! by the exact solver, then often damaged, with figures near the width.

use crate::draw::Draw;
use crate::exact::Exact;
use crate::fraction::{Bound, Fraction};
use crate::network::{Arc, Network};
use crate::optimality::Pair;
use crate::samples::{network, small, wide, Shape};
use crate::scenes::{at_the_width, over, Source, ARCS, NODES, WIDEST};
use crate::trips::optimal_pair;
use std::collections::BTreeMap;

/// A network and a pair for it.
pub struct Case {
    pub network: Network,
    pub pair: Pair,
}

/// An optimal pair with its network, or one of both damaged.
pub fn case(draw: &mut Draw) -> Case {
    let mut case = match draw.below(10) {
        0 | 1 => solved(draw).unwrap_or_else(|| built(draw)),
        2 => solved_again(draw),
        _ => built(draw),
    };
    if draw.chance(50) {
        for _ in 0..draw.of(&[1, 1, 1, 2, 3]) {
            case.damage(draw);
        }
    }
    case
}

/// A sample network with an optimal pair by the exact solver.
fn solved(draw: &mut Draw) -> Option<Case> {
    let shape = draw.of(&[Shape::Small, Shape::Small, Shape::Wide, Shape::Family]);
    let network = network(draw, shape);
    if network.supplies.len() > NODES || network.arcs.len() > ARCS {
        return None;
    }
    let pair = optimal_pair(draw, &network)?;
    Some(Case { network, pair })
}

/// A network built with an optimal pair, and the solver's pair instead, if there is one that fits.
fn solved_again(draw: &mut Draw) -> Case {
    let case = built(draw);
    let pair = optimal_pair(draw, &case.network).unwrap_or(case.pair);
    Case { network: case.network, pair }
}

/// What a figure is for.
#[derive(Clone, Copy, PartialEq, Eq)]
enum Part {
    Constant,
    Multiplier,
    Flow,
    Price,
    ReducedCost,
    /// The distance of a bound from the flow.
    Slack,
}

use Part::{Constant, Flow, Multiplier, Price, ReducedCost, Slack};

/// Figures that meet in one operation of the test.
const MEETING: [&[Part]; 10] = [
    &[Constant],
    &[Constant, Flow],
    &[Multiplier, Flow],
    &[Flow],
    &[Multiplier, Price],
    &[Price],
    &[Price, ReducedCost],
    &[Flow, ReducedCost],
    &[Slack, Flow],
    &[Constant, Multiplier, Flow, Price, ReducedCost, Slack],
];

/// How figures are drawn: of a hundred of these parts so many are wide, and of the others so many are plain.
struct Taste {
    parts: &'static [Part],
    share: usize,
    plain: usize,
    source: Source,
    /// Of a hundred arcs so many have a flow or a cost with which an operation lies at the width.
    aimed: usize,
}

impl Taste {
    fn new(draw: &mut Draw) -> Taste {
        Taste {
            parts: draw.of(&MEETING),
            share: draw.of(&[0, 0, 20, 50, 100]),
            plain: draw.of(&[0, 40, 90]),
            source: Source::new(draw),
            aimed: draw.of(&[0, 0, 20, 50]),
        }
    }

    fn figure(&self, draw: &mut Draw, part: Part) -> Fraction {
        if self.parts.contains(&part) && draw.chance(self.share) {
            self.source.figure(draw)
        } else if draw.chance(self.plain) {
            Fraction::ZERO
        } else {
            small(draw)
        }
    }

    fn multiplier(&self, draw: &mut Draw) -> Fraction {
        let figure = self.figure(draw, Multiplier);
        if figure.is_zero() {
            return over(draw.sign(), 1);
        }
        figure
    }

    /// A bound at some distance on one side of the flow; often none.
    fn beyond(&self, draw: &mut Draw, flow: Fraction, above: bool) -> Bound {
        let absent = if above { Bound::AbsentUpper } else { Bound::AbsentLower };
        let slack = self.figure(draw, Slack);
        let slack = draw.of(&[slack.max(slack.negated()), Fraction::ONE, over(1, WIDEST)]);
        let bound = if above { flow.plus(slack) } else { flow.minus(slack) };
        bound.filter(|_| draw.chance(60)).map_or(absent, Bound::Finite)
    }

    /// Bounds with which the flow and a reduced cost keep the price rule.
    fn bounds(&self, draw: &mut Draw, flow: Fraction, reduced_cost: &Exact) -> (Bound, Bound) {
        let lower = if reduced_cost.is_positive() || draw.chance(25) {
            Bound::Finite(flow)
        } else {
            self.beyond(draw, flow, false)
        };
        let upper = if reduced_cost.is_negative() || draw.chance(25) {
            Bound::Finite(flow)
        } else {
            self.beyond(draw, flow, true)
        };
        (lower, upper)
    }
}

/// A network in the making, with a pair, the balances and the value so far.
struct Draft {
    taste: Taste,
    case: Case,
    balances: BTreeMap<usize, Exact>,
    value: Exact,
}

fn exact(figure: Fraction) -> Exact {
    Exact::from(figure)
}

/// A network for which a pair drawn before is optimal, if all of its figures fit.
fn built(draw: &mut Draw) -> Case {
    let mut draft = Draft::new(draw);
    let nodes = draft.balances.len();
    let arcs = if nodes == 0 { 0 } else { draw.below(ARCS + 1) };
    if arcs > 2 && draw.chance(15) {
        draft.add_counterweights(draw);
    }
    while draft.case.network.arcs.len() < arcs {
        draft.add_arc(draw);
        if draft.case.network.arcs.len() < arcs && draw.chance(20) {
            draft.add_opposite(draw);
        }
        if draft.case.network.arcs.len() < arcs && draw.chance(20) {
            draft.add_multiple(draw);
        }
    }
    for (node, balance) in draft.balances {
        draft.case.network.supplies.insert(node, balance.fraction().unwrap_or(small(draw)));
    }
    draft.case
}

impl Draft {
    fn new(draw: &mut Draw) -> Draft {
        let taste = Taste::new(draw);
        let nodes = draw.of(&[0, 1, 2, 2, 3, 3, 4, 5, 6]);
        let mut prices: BTreeMap<usize, Fraction> = (1..=nodes).map(|node| (node, taste.figure(draw, Price))).collect();
        if draw.chance(20) {
            let price = taste.figure(draw, Price);
            prices.values_mut().for_each(|it| *it = price);
        }
        let mut draft = Draft {
            case: Case { network: Network::default(), pair: Pair { prices, flows: BTreeMap::new() } },
            balances: (1..=nodes).map(|node| (node, Exact::zero())).collect(),
            value: Exact::zero(),
            taste,
        };
        let constant = draft.taste.figure(draw, Constant);
        draft.begin_value(constant);
        draft
    }

    /// The value's sum starts from the constant.
    fn begin_value(&mut self, constant: Fraction) {
        self.case.network.constant = constant;
        self.value = exact(constant);
    }

    /// An arc anywhere; where it is no root arc its multipliers are often opposite.
    fn add_arc(&mut self, draw: &mut Draw) {
        let last = self.balances.len() as i64;
        let [from, to] = [0, 1].map(|_| draw.within(1, last) as usize);
        let at_from = self.taste.multiplier(draw);
        let other = self.taste.multiplier(draw);
        let at_to = draw.of(&[at_from.negated(), other, other]);
        let multipliers = [at_from, if from == to { Fraction::ZERO } else { at_to }];
        let flow = self.flow(draw, from, at_from);
        let cost = self.cost(draw, [from, to], multipliers, flow);
        self.put_arc(draw, [from, to], multipliers, flow, cost);
    }

    /// A product beyond the width that meets a figure near it, so that the result of both is small: in a balance,
    /// in a reduced cost or in the value.
    fn add_counterweights(&mut self, draw: &mut Draw) {
        let node = 1 + draw.below(self.balances.len());
        let (g, h) = draw.of(&[(65536, 32768), (2, 1 << 30), (3, 715827883), (4, 1 << 29), (46341, 46341)]);
        let sign = draw.sign();
        let (factor, times, near) = (over(g, 1), over(h * sign, 1), over((WIDEST - draw.within(0, 3)) * sign, 1));
        let root_arcs = match draw.below(4) {
            0 => vec![(Fraction::ONE, near.negated(), Fraction::ZERO), (factor, times, Fraction::ZERO)],
            1 => vec![(factor, Fraction::ZERO, near)],
            2 => {
                self.begin_value(near.negated());
                vec![(Fraction::ONE, times, factor)]
            }
            _ => vec![(Fraction::ONE, Fraction::ONE, near.negated()), (Fraction::ONE, times, factor)],
        };
        let price = if root_arcs[0].1.is_zero() { times } else { Fraction::ZERO };
        self.case.pair.prices.insert(node, price);
        for (multiplier, flow, cost) in root_arcs {
            self.put_arc(draw, [node, node], [multiplier, Fraction::ZERO], flow, cost);
        }
    }

    /// The last arc again with the opposite multipliers, so that both leave the balances as they were.
    fn add_opposite(&mut self, draw: &mut Draw) {
        let (number, arc) = self.case.network.arcs.last_key_value().expect("an arc is there");
        let (ends, multipliers) = ([arc.from, arc.to], [arc.at_from.negated(), arc.at_to.negated()]);
        let flow = self.case.pair.flows[number];
        let cost = self.cost(draw, ends, multipliers, flow);
        self.put_arc(draw, ends, multipliers, flow, cost);
    }

    /// The last arc again, g times over, if all of that fits (rule 7).
    fn add_multiple(&mut self, draw: &mut Draw) {
        let (_, arc) = self.case.network.arcs.last_key_value().expect("an arc is there");
        let (ends, g) = ([arc.from, arc.to], self.taste.multiplier(draw));
        let g = draw.of(&[over(1, 1), over(-1, 1), g]);
        let (a, b, cost) = (arc.at_from.times(g), arc.at_to.times(g), arc.cost.times(g));
        if let (Some(a), Some(b), Some(cost)) = (a, b, cost) {
            let flow = self.taste.figure(draw, Flow);
            self.put_arc(draw, ends, [a, b], flow, cost);
        }
    }

    /// A flow; now and then with it a product or a sum at the from node lies at the width.
    fn flow(&self, draw: &mut Draw, from: usize, at_from: Fraction) -> Fraction {
        let flow = self.taste.figure(draw, Flow);
        if !draw.chance(self.taste.aimed) {
            return flow;
        }
        let product = if draw.chance(50) { at_the_width(draw) } else { &at_the_width(draw) - &self.balances[&from] };
        (&product / &exact(at_from)).fraction().unwrap_or(flow)
    }

    /// What is taken from an arc's cost for its reduced cost, at either end.
    fn taken(&self, ends: [usize; 2], multipliers: [Fraction; 2]) -> [Exact; 2] {
        [0, 1].map(|end| &exact(multipliers[end]) * &exact(self.case.pair.prices[&ends[end]]))
    }

    /// A cost; now and then with it a difference or the value so far lies at the width.
    fn cost(&self, draw: &mut Draw, ends: [usize; 2], multipliers: [Fraction; 2], flow: Fraction) -> Fraction {
        let [first, second] = self.taken(ends, multipliers);
        let reduced_cost = self.taste.figure(draw, ReducedCost);
        let reduced_cost = if draw.chance(40) { Fraction::ZERO } else { reduced_cost };
        let plain = &(&exact(reduced_cost) + &first) + &second;
        let width = at_the_width(draw);
        let cost = match draw.below(4) {
            _ if !draw.chance(self.taste.aimed) => plain,
            0 => &width + &first,
            1 => &(&width + &first) + &second,
            2 if !flow.is_zero() => &width / &exact(flow),
            3 if !flow.is_zero() => &(&width - &self.value) / &exact(flow),
            _ => plain,
        };
        cost.fraction().unwrap_or(reduced_cost)
    }

    /// Adds an arc whose bounds keep the price rule with this flow.
    fn put_arc(
        &mut self,
        draw: &mut Draw,
        ends: [usize; 2],
        multipliers: [Fraction; 2],
        flow: Fraction,
        cost: Fraction,
    ) {
        let [first, second] = self.taken(ends, multipliers);
        let reduced_cost = &(&exact(cost) - &first) - &second;
        let (lower, upper) = self.taste.bounds(draw, flow, &reduced_cost);
        let arc =
            Arc { from: ends[0], to: ends[1], cost, lower, upper, at_from: multipliers[0], at_to: multipliers[1] };
        for (node, multiplier) in arc.ends() {
            self.balances.insert(node, &self.balances[&node] + &(&exact(multiplier) * &exact(flow)));
        }
        self.value = &self.value + &(&exact(cost) * &exact(flow));
        let number = self.case.network.arcs.len() + 1;
        self.case.network.arcs.insert(number, arc);
        self.case.pair.flows.insert(number, flow);
    }
}

/// Moves a figure by little, or makes it wide.
fn moved(draw: &mut Draw, figure: Fraction) -> Fraction {
    let little = over(draw.sign(), draw.of(&[1, 1, 2, 3, WIDEST, WIDEST - 1]));
    let other = wide(draw);
    figure.plus(little).filter(|_| draw.chance(90)).unwrap_or(other)
}

/// Moves a bound by little; now and then it goes away, comes or changes altogether.
fn moved_bound(draw: &mut Draw, bound: Bound, absent: Bound, flow: Fraction) -> Bound {
    let beside = moved(draw, flow);
    match bound {
        _ if draw.chance(10) => absent,
        Bound::Finite(figure) if draw.chance(70) => Bound::Finite(moved(draw, figure)),
        _ => Bound::Finite(beside),
    }
}

/// One of the items.
fn any_of<'a, T>(draw: &mut Draw, items: &'a mut BTreeMap<usize, T>) -> Option<&'a mut T> {
    let count = items.len();
    items.values_mut().nth(draw.below(count.max(1)))
}

impl Case {
    /// Changes one figure.
    fn damage(&mut self, draw: &mut Draw) {
        let figure = match draw.below(9) {
            0 => any_of(draw, &mut self.pair.flows),
            1 => any_of(draw, &mut self.pair.prices),
            2 => any_of(draw, &mut self.network.supplies),
            3 => any_of(draw, &mut self.network.arcs).map(|arc| &mut arc.cost),
            4 => Some(&mut self.network.constant),
            _ => return self.damage_bound(draw),
        };
        if let Some(figure) = figure {
            *figure = moved(draw, *figure);
        }
    }

    fn damage_bound(&mut self, draw: &mut Draw) {
        let number = 1 + draw.below(ARCS);
        if let Some(arc) = self.network.arcs.get_mut(&number) {
            let flow = self.pair.flows[&number];
            if draw.chance(50) {
                arc.lower = moved_bound(draw, arc.lower, Bound::AbsentLower, flow);
            } else {
                arc.upper = moved_bound(draw, arc.upper, Bound::AbsentUpper, flow);
            }
        }
    }
}
