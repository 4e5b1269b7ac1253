//! Restoring: questions 6 to 13 of 01 and the way back.

use crate::fraction::{Bound, Fraction};
use crate::network::{Network, Refusal};
use crate::optimality::{keeps_price_rule, test, value, Pair};
use crate::reduce::{reduce, End};
use crate::rules::{Back, Numbered};

/// The original's pair, the reduced network's value and the original's.
#[derive(Clone, PartialEq, Eq, Debug)]
pub struct Restored {
    pub pair: Pair,
    pub reduced_value: Fraction,
    pub value: Fraction,
}

impl Restored {
    /// "The reduced and the restored value are then equal for every pair that restoring brings back." None, or what is
    /// wrong.
    pub fn complaint(&self) -> Option<String> {
        (self.reduced_value != self.value).then(|| format!("values differ: {self:?}"))
    }
}

/// Questions 2 to 13 about the words of an original network, a stack and a pair for the reduced network.
pub fn restore(network: &[i32], stack: &[i32], pair: &[i32]) -> Result<Restored, Refusal> {
    let original = Network::read(network)?;
    let reduction = reduce(&original);
    let End::Reduced(reduced) = &reduction.end else {
        return Err(Refusal(6));
    };
    if reduction.stack() != stack {
        return Err(Refusal(7));
    }
    let mut pair = Pair::read(reduced, pair)?;
    let reduced_value = test(reduced, &pair)?;
    for step in reduction.steps.iter().rev() {
        go_back(&step.back, &mut pair).ok_or(Refusal(13))?;
    }
    let value = value(&original, &pair.flows).ok_or(Refusal(13))?;
    Ok(Restored { pair, reduced_value, value })
}

/// Undoes one step in the pair. None: some figure doesn't fit.
pub fn go_back(back: &Back, pair: &mut Pair) -> Option<()> {
    match back {
        Back::FixedFlow { arc, flow } => {
            pair.flows.insert(*arc, *flow);
        }
        Back::BareNode { node } => {
            pair.prices.insert(*node, Fraction::ZERO);
        }
        Back::SingleArc { node, arc, flow } => {
            let price = price_by(arc, *node, pair)?;
            pair.flows.insert(arc.0, *flow);
            pair.prices.insert(*node, price);
        }
        Back::TwoArcs { node, supply, kept, gone } => back_to_two_arcs(*node, *supply, kept, gone, pair)?,
        Back::Crossing { node, negative, positive, numbers } => {
            back_to_crossing(*node, negative, positive, numbers, pair)?
        }
        Back::ParallelArcs { kept, gone, g, lower_end } => back_to_parallel_arcs(kept, *gone, *g, *lower_end, pair)?,
    }
    Some(())
}

/// c - o × other price; c alone for a root arc.
fn cost_less_other((_, arc): &Numbered, node: usize, pair: &Pair) -> Option<Fraction> {
    match arc.other(node) {
        Some((other, multiplier)) => arc.cost.minus(multiplier.times(pair.prices[&other])?),
        None => Some(arc.cost),
    }
}

/// (c - o × other price) ÷ e
pub fn price_by(arc: &Numbered, node: usize, pair: &Pair) -> Option<Fraction> {
    cost_less_other(arc, node, pair)?.over(arc.1.multiplier(node))
}

/// Rule 5: "flow of k is (r - ej × flow j) ÷ ek; first price (ck - ok × other price) ÷ ek; if
/// cj - oj × other price - ej × price breaks the price rule on j's old bounds, the price is
/// (cj - oj × other price) ÷ ej instead."
fn back_to_two_arcs(node: usize, supply: Fraction, kept: &Numbered, gone: &Numbered, pair: &mut Pair) -> Option<()> {
    let (ej, ek) = (kept.1.multiplier(node), gone.1.multiplier(node));
    let flow_j = pair.flows[&kept.0];
    let flow_k = supply.minus(ej.times(flow_j)?)?.over(ek)?;
    let first_price = price_by(gone, node, pair)?;
    let reduced_cost = cost_less_other(kept, node, pair)?.minus(ej.times(first_price)?)?;
    let price = if keeps_price_rule(&kept.1, flow_j, reduced_cost) { first_price } else { price_by(kept, node, pair)? };
    pair.flows.insert(gone.0, flow_k);
    pair.prices.insert(node, price);
    Some(())
}

/// Rule 6: "N gets -(sum of its two ÷ e), P the sum of its two ÷ e; price is the larger of
/// (c - o × other price) ÷ e over the two N." The new arcs came for each N, then each P.
fn back_to_crossing(
    node: usize,
    negative: &[Numbered; 2],
    positive: &[Numbered; 2],
    numbers: &[usize; 4],
    pair: &mut Pair,
) -> Option<()> {
    let new_flows = numbers.map(|number| pair.flows[&number]);
    let price = price_by(&negative[0], node, pair)?.max(price_by(&negative[1], node, pair)?);
    for (which, (number, arc)) in negative.iter().enumerate() {
        let sum = new_flows[2 * which].plus(new_flows[2 * which + 1])?;
        pair.flows.insert(*number, sum.over(arc.multiplier(node))?.negated());
    }
    for (which, (number, arc)) in positive.iter().enumerate() {
        let sum = new_flows[which].plus(new_flows[which + 2])?;
        pair.flows.insert(*number, sum.over(arc.multiplier(node))?);
    }
    pair.prices.insert(node, price);
    Some(())
}

/// Rule 7: "k's image first stands at its lower end: j takes the smaller of its upper bound and (flow - that lower end);
/// k's flow is (flow - j's new flow) ÷ g." No price changes.
fn back_to_parallel_arcs(
    (number, j): &Numbered,
    gone: usize,
    g: Fraction,
    lower_end: Fraction,
    pair: &mut Pair,
) -> Option<()> {
    let flow = pair.flows[number];
    let rest = flow.minus(lower_end)?;
    let flow_j = match j.upper {
        Bound::Finite(upper) => upper.min(rest),
        _ => rest,
    };
    let flow_k = flow.minus(flow_j)?.over(g)?;
    pair.flows.insert(*number, flow_j);
    pair.flows.insert(gone, flow_k);
    Some(())
}

#[cfg(test)]
mod tests {
    use super::*;
    use crate::network::Arc;

    const WIDEST: i32 = 2147483647;

    fn f(numerator: i32, denominator: i32) -> Fraction {
        Fraction::read(numerator, denominator).expect("in form")
    }

    fn whole(number: i32) -> Fraction {
        f(number, 1)
    }

    /// The flows of j and k that rule 7 gives back for a flow; j's upper bound, g and the image's lower end are given.
    fn parallel(flow: Fraction, upper: Option<Fraction>, g: Fraction, lower_end: Fraction) -> Option<[Fraction; 2]> {
        let j = Arc {
            from: 1,
            to: 2,
            cost: Fraction::ZERO,
            lower: Bound::AbsentLower,
            upper: upper.map_or(Bound::AbsentUpper, Bound::Finite),
            at_from: Fraction::ONE,
            at_to: Fraction::ONE,
        };
        let prices = [(1, whole(7)), (2, f(1, WIDEST))];
        let mut pair = Pair { prices: prices.into(), flows: [(3, flow)].into() };
        go_back(&Back::ParallelArcs { kept: (3, j), gone: 5, g, lower_end }, &mut pair)?;
        assert_eq!((pair.prices, pair.flows.len()), (prices.into(), 2));
        Some([pair.flows[&3], pair.flows[&5]])
    }

    /// j from 0 to 3, k from -4 to 2 with g = -1/2: its image goes from -1 to 2.
    #[test]
    fn flows_of_parallel_arcs() {
        let given = |flow| parallel(flow, Some(whole(3)), f(-1, 2), whole(-1));
        for (flow, j, k) in [(5, 3, -4), (4, 3, -2), (3, 3, 0), (2, 3, 2), (1, 2, 2), (0, 1, 2), (-1, 0, 2)] {
            assert_eq!(given(whole(flow)), Some([whole(j), whole(k)]), "{flow}");
        }
        assert_eq!(given(f(13, 6)), Some([whole(3), f(5, 3)]));
        assert_eq!(given(f(11, 6)), Some([f(17, 6), whole(2)]));
    }

    /// Without upper bound j takes all but the lower end.
    #[test]
    fn parallel_arcs_none_above() {
        assert_eq!(parallel(whole(1000), None, f(2, 3), whole(4)), Some([whole(996), whole(6)]));
        assert_eq!(parallel(whole(-8), None, whole(-2), whole(-10)), Some([whole(2), whole(5)]));
    }

    /// (flow - lower end) must fit even where j's upper bound is the smaller; so must (flow - j's new flow), and that ÷ g.
    #[test]
    fn misfits_of_parallel_arcs() {
        let half = f(1, 2);
        assert_eq!(parallel(whole(WIDEST), Some(whole(1)), half, whole(0)), None, "the quotient");
        assert_eq!(parallel(whole(WIDEST), Some(whole(1)), whole(2), whole(0)), Some([whole(1), whole(WIDEST / 2)]));
        assert_eq!(parallel(whole(WIDEST), Some(whole(1)), whole(2), whole(-1)), None, "the lower end");
        assert_eq!(parallel(whole(WIDEST), None, whole(2), whole(-1)), None, "the lower end");
        assert_eq!(parallel(whole(WIDEST), Some(whole(-1)), whole(2), whole(0)), None, "j's new flow");
        let low = parallel(f(1, 65537), Some(f(1, 65536)), whole(2), f(-1, 65537));
        assert_eq!(low, None, "j's new flow");
        assert_eq!(parallel(f(1, 65537), None, whole(2), f(-1, 65537)), Some([f(2, 65537), f(-1, 131074)]));
    }
}
