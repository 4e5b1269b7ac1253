//! The six reductions of 01 and rule 7 of 2026-02, each tried at one place of a network, with what they add to the
//! constant of 2026-01.

use crate::fraction::{Bound, Fraction};
use crate::network::{Arc, Network};

/// An arc with its number.
pub type Numbered = (usize, Arc);

/// What a rule finds at a place where it applies.
#[derive(Clone, PartialEq, Eq, Debug)]
pub enum Found {
    NoFlow,
    Step(Change),
}

/// A step: its rule and place, every figure that it changes, and what its way back needs.
#[derive(Clone, PartialEq, Eq, Debug)]
pub struct Change {
    pub rule: u8,
    pub place: usize,
    /// The constant after the step.
    pub constant: Fraction,
    pub new_supplies: Vec<(usize, Fraction)>,
    pub new_arcs: Vec<Numbered>,
    pub dropped_arcs: Vec<usize>,
    pub dropped_node: Option<usize>,
    pub back: Back,
}

/// What the way back of a step needs. Arcs are as they were before the step.
#[derive(Clone, PartialEq, Eq, Debug)]
pub enum Back {
    /// Rules 1 and 4: the dropped arc's flow.
    FixedFlow { arc: usize, flow: Fraction },
    /// Rule 2.
    BareNode { node: usize },
    /// Rule 3.
    SingleArc { node: usize, arc: Numbered, flow: Fraction },
    /// Rule 5.
    TwoArcs { node: usize, supply: Fraction, kept: Numbered, gone: Numbered },
    /// Rule 6; `numbers` are the four numbers upward, which the new arcs took.
    Crossing { node: usize, negative: [Numbered; 2], positive: [Numbered; 2], numbers: [usize; 4] },
    /// Rule 7: arc j, the number of k, g, and the lower end of k's image.
    ParallelArcs { kept: Numbered, gone: usize, g: Fraction, lower_end: Fraction },
}

/// The rules whose place is an arc; that of the others is a node.
pub fn place_is_arc(rule: u8) -> bool {
    matches!(rule, 1 | 4 | 7)
}

/// One rule at one place. None: it doesn't apply there, also because some figure doesn't fit.
pub fn try_rule(network: &Network, rule: u8, place: usize) -> Option<Found> {
    match apart_from_constant(network, rule, place)? {
        Found::NoFlow => Some(Found::NoFlow),
        Found::Step(change) => Some(Found::Step(Change { constant: new_constant(network, &change.back)?, ..change })),
    }
}

/// The same without regard to the constant, which a step leaves as it was.
pub fn apart_from_constant(network: &Network, rule: u8, place: usize) -> Option<Found> {
    match rule {
        1 => closed_arc(network, place),
        2 => bare_node(network, place),
        3 => single_arc(network, place),
        4 => costly_arc(network, place),
        5 => two_arcs(network, place),
        6 => crossing(network, place),
        7 => parallel_arcs(network, place),
        _ => None,
    }
}

/// "Rules 1, 3 and 4 add c × flow to it, rule 5 adds ck × r ÷ ek; a constant that doesn't fit stops the rule there."
/// The others leave it as it was.
fn new_constant(network: &Network, back: &Back) -> Option<Fraction> {
    let carried = match back {
        Back::FixedFlow { arc, flow } => network.arcs[arc].cost.times(*flow)?,
        Back::SingleArc { arc: (_, arc), flow, .. } => arc.cost.times(*flow)?,
        Back::TwoArcs { node, supply, gone: (_, k), .. } => k.cost.times(*supply)?.over(k.multiplier(*node))?,
        Back::BareNode { .. } | Back::Crossing { .. } | Back::ParallelArcs { .. } => return Some(network.constant),
    };
    network.constant.plus(carried)
}

/// The network after a step.
pub fn apply(network: &mut Network, change: &Change) {
    network.constant = change.constant;
    for arc in &change.dropped_arcs {
        network.arcs.remove(arc);
    }
    network.arcs.extend(change.new_arcs.iter().copied());
    network.supplies.extend(change.new_supplies.iter().copied());
    if let Some(node) = change.dropped_node {
        network.supplies.remove(&node);
    }
}

/// r' - o × v
fn supply_less(network: &Network, node: usize, multiplier: Fraction, flow: Fraction) -> Option<Fraction> {
    network.supplies[&node].minus(multiplier.times(flow)?)
}

/// The step of rules 1 and 4: "supply at each end less its multiplier × l; arc dropped. Back: flow l."
fn fix_flow(network: &Network, rule: u8, number: usize, flow: Fraction) -> Option<Found> {
    let ends = network.arcs[&number].ends().into_iter();
    let supplies = ends.map(|(node, multiplier)| Some((node, supply_less(network, node, multiplier, flow)?)));
    Some(Found::Step(Change {
        rule,
        place: number,
        constant: network.constant,
        new_supplies: supplies.collect::<Option<_>>()?,
        new_arcs: vec![],
        dropped_arcs: vec![number],
        dropped_node: None,
        back: Back::FixedFlow { arc: number, flow },
    }))
}

/// Rule 1. Closed arc.
fn closed_arc(network: &Network, number: usize) -> Option<Found> {
    let arc = network.arcs.get(&number)?;
    if arc.lower > arc.upper {
        return Some(Found::NoFlow);
    }
    if arc.lower < arc.upper {
        return None;
    }
    // Equal bounds can't be marks: an absent lower bound never equals an upper bound.
    fix_flow(network, 1, number, arc.lower.finite()?)
}

/// Rule 2. Bare node, degree 0.
fn bare_node(network: &Network, node: usize) -> Option<Found> {
    let supply = network.supplies.get(&node)?;
    if !network.arcs_at(node).is_empty() {
        return None;
    }
    if !supply.is_zero() {
        return Some(Found::NoFlow);
    }
    Some(Found::Step(Change {
        rule: 2,
        place: node,
        constant: network.constant,
        new_supplies: vec![],
        new_arcs: vec![],
        dropped_arcs: vec![],
        dropped_node: Some(node),
        back: Back::BareNode { node },
    }))
}

/// Rule 3. Single arc, degree 1.
fn single_arc(network: &Network, node: usize) -> Option<Found> {
    let supply = network.supplies.get(&node)?;
    let [(number, arc)] = <[Numbered; 1]>::try_from(network.arcs_at(node)).ok()?;
    let flow = supply.over(arc.multiplier(node))?;
    if Bound::Finite(flow) < arc.lower || Bound::Finite(flow) > arc.upper {
        return Some(Found::NoFlow);
    }
    let new_supplies = match arc.other(node) {
        Some((other, multiplier)) => vec![(other, supply_less(network, other, multiplier, flow)?)],
        None => vec![],
    };
    Some(Found::Step(Change {
        rule: 3,
        place: node,
        constant: network.constant,
        new_supplies,
        new_arcs: vec![],
        dropped_arcs: vec![number],
        dropped_node: Some(node),
        back: Back::SingleArc { node, arc: (number, arc), flow },
    }))
}

/// Rule 4. Costly arc (Proposition 1).
fn costly_arc(network: &Network, number: usize) -> Option<Found> {
    let arc = network.arcs.get(&number)?;
    if arc.is_root() {
        return None;
    }
    let flow = arc.lower.finite()?;
    let at_from = open_root_arcs(network, arc.from);
    let at_to = open_root_arcs(network, arc.to);
    let costly = at_from.iter().any(|first| at_to.iter().any(|second| costs_more(arc, first, second) == Some(true)));
    if !costly {
        return None;
    }
    fix_flow(network, 4, number, flow)
}

/// The root arcs without upper bound at a node.
fn open_root_arcs(network: &Network, node: usize) -> Vec<Arc> {
    let at_node = network.arcs_at(node).into_iter().map(|(_, arc)| arc);
    at_node.filter(|arc| arc.is_root() && arc.upper == Bound::AbsentUpper).collect()
}

/// a ÷ a1 > 0, b ÷ a2 > 0, and c > c1 × a ÷ a1 + c2 × b ÷ a2. None: some figure doesn't fit.
fn costs_more(arc: &Arc, first: &Arc, second: &Arc) -> Option<bool> {
    let (a, a1, c1) = (arc.at_from, first.at_from, first.cost);
    let (b, a2, c2) = (arc.at_to, second.at_from, second.cost);
    let (rate1, rate2) = (a.over(a1)?, b.over(a2)?);
    let instead = c1.times(a)?.over(a1)?.plus(c2.times(b)?.over(a2)?)?;
    Some(rate1.is_positive() && rate2.is_positive() && arc.cost > instead)
}

/// Rule 5. Two arcs, degree 2, not both root arcs, other ends different.
fn two_arcs(network: &Network, node: usize) -> Option<Found> {
    let supply = *network.supplies.get(&node)?;
    let [low, high] = <[Numbered; 2]>::try_from(network.arcs_at(node)).ok()?;
    let (kept, gone) = if low.1.is_root() { (high, low) } else { (low, high) };
    let (j, k) = (kept.1, gone.1);
    let (j_end, oj) = j.other(node)?; // none: both are root arcs
    let (ej, ek) = (j.multiplier(node), k.multiplier(node));

    let (k_end, at_k_end, new_supplies) = match k.other(node) {
        None => (j_end, Fraction::ZERO, vec![]),
        Some((k_end, _)) if k_end == j_end => return None,
        Some((k_end, ok)) => {
            let rest = network.supplies[&k_end].minus(ok.times(supply)?.over(ek)?)?;
            (k_end, ok.times(ej)?.over(ek)?.negated(), vec![(k_end, rest)])
        }
    };
    let (lower, upper) = joined_bounds(&j, &k, supply, ej, ek)?;
    let cost = j.cost.minus(k.cost.times(ej)?.over(ek)?)?;
    let joined = Arc { from: j_end, to: k_end, cost, lower, upper, at_from: oj, at_to: at_k_end };
    Some(Found::Step(Change {
        rule: 5,
        place: node,
        constant: network.constant,
        new_supplies,
        new_arcs: vec![(kept.0, joined)],
        dropped_arcs: vec![gone.0],
        dropped_node: Some(node),
        back: Back::TwoArcs { node, supply, kept, gone },
    }))
}

/// "Each finite bound z of k gives (r - ek × z) ÷ ej as a bound of j, lower and upper exchanged where
/// ej and ek have the same sign; the tighter bound of each side stays."
fn joined_bounds(j: &Arc, k: &Arc, supply: Fraction, ej: Fraction, ek: Fraction) -> Option<(Bound, Bound)> {
    let (mut lower, mut upper) = (j.lower, j.upper);
    let exchanged = ej.is_positive() == ek.is_positive();
    for (bound, is_lower) in [(k.lower, true), (k.upper, false)] {
        if let Bound::Finite(z) = bound {
            let image = Bound::Finite(supply.minus(ek.times(z)?)?.over(ej)?);
            if is_lower != exchanged {
                lower = lower.max(image);
            } else {
                upper = upper.min(image);
            }
        }
    }
    Some((lower, upper))
}

/// Rule 6. Crossing, degree 4 (Proposition 4).
fn crossing(network: &Network, node: usize) -> Option<Found> {
    if !network.supplies.get(&node)?.is_zero() {
        return None;
    }
    let four = <[Numbered; 4]>::try_from(network.arcs_at(node)).ok()?;
    let zero = Bound::Finite(Fraction::ZERO);
    let suited = |arc: &Arc| !arc.is_root() && arc.lower == zero && arc.upper == Bound::AbsentUpper;
    if !four.iter().all(|(_, arc)| suited(arc)) {
        return None;
    }
    let side = |wanted: fn(Fraction) -> bool| -> Option<[Numbered; 2]> {
        let arcs: Vec<Numbered> = four.iter().copied().filter(|(_, arc)| wanted(arc.multiplier(node))).collect();
        arcs.try_into().ok()
    };
    let negative = side(Fraction::is_negative)?;
    let positive = side(Fraction::is_positive)?;
    let numbers = four.map(|(number, _)| number);

    let mut new_arcs = vec![];
    for (_, n) in &negative {
        for (_, p) in &positive {
            new_arcs.push((numbers[new_arcs.len()], crossing_arc(node, n, p)?));
        }
    }
    Some(Found::Step(Change {
        rule: 6,
        place: node,
        constant: network.constant,
        new_supplies: vec![],
        new_arcs,
        dropped_arcs: vec![],
        dropped_node: Some(node),
        back: Back::Crossing { node, negative, positive, numbers },
    }))
}

/// The new arc "from N's other end, multiplier -(o ÷ e) of N, to P's other end, o ÷ e of P,
/// cost -(cN ÷ eN) + cP ÷ eP, bounds 0 and none". None also where the two share their other end.
fn crossing_arc(node: usize, n: &Arc, p: &Arc) -> Option<Arc> {
    let (from, n_other) = n.other(node)?;
    let (to, p_other) = p.other(node)?;
    if from == to {
        return None;
    }
    let (en, ep) = (n.multiplier(node), p.multiplier(node));
    Some(Arc {
        from,
        to,
        cost: n.cost.over(en)?.negated().plus(p.cost.over(ep)?)?,
        lower: Bound::Finite(Fraction::ZERO),
        upper: Bound::AbsentUpper,
        at_from: n_other.over(en)?.negated(),
        at_to: p_other.over(ep)?,
    })
}

/// Rule 7. Parallel arcs, "tried at arc j upward, then k > j upward, a misfit passing over that k alone".
fn parallel_arcs(network: &Network, number: usize) -> Option<Found> {
    let j = *network.arcs.get(&number)?;
    let later = network.arcs.iter().filter(|(&other, _)| other > number);
    later.map(|(&other, &k)| (other, k)).find_map(|k| merged(network, (number, j), k))
}

/// "both have the same from and to, and a, b and c of k are a common fraction g times those of j"; "j's lower bound and
/// the image's lower end are finite. j gets the sums of bounds, none above where either has none above; k is dropped;
/// the step's place is j." None also where a figure doesn't fit.
fn merged(network: &Network, kept: Numbered, (gone, k): Numbered) -> Option<Found> {
    let (number, j) = kept;
    if (j.from, j.to) != (k.from, k.to) {
        return None;
    }
    let g = k.at_from.over(j.at_from)?;
    // A product that equals a figure of k fits.
    if g.times(j.at_to) != Some(k.at_to) || g.times(j.cost) != Some(k.cost) {
        return None;
    }
    let (image_lower, image_upper) = image(&k, g)?;
    let lower_end = image_lower.finite()?;
    let lower = Bound::Finite(j.lower.finite()?.plus(lower_end)?);
    let upper = match (j.upper, image_upper) {
        (Bound::Finite(upper), Bound::Finite(upper_end)) => Bound::Finite(upper.plus(upper_end)?),
        _ => Bound::AbsentUpper,
    };
    Some(Found::Step(Change {
        rule: 7,
        place: number,
        constant: network.constant,
        new_supplies: vec![],
        new_arcs: vec![(number, Arc { lower, upper, ..j })],
        dropped_arcs: vec![gone],
        dropped_node: None,
        back: Back::ParallelArcs { kept, gone, g, lower_end },
    }))
}

/// "k's bounds times g, exchanged if g < 0, give an image". None: a finite bound times g doesn't fit.
fn image(k: &Arc, g: Fraction) -> Option<(Bound, Bound)> {
    let (lower, upper) = (bound_times(k.lower, g)?, bound_times(k.upper, g)?);
    Some(if g.is_negative() { (upper, lower) } else { (lower, upper) })
}

/// A bound times g: where there is none below, there is none above if g < 0, and the other way round.
fn bound_times(bound: Bound, g: Fraction) -> Option<Bound> {
    Some(match bound {
        Bound::Finite(z) => Bound::Finite(z.times(g)?),
        Bound::AbsentLower if g.is_negative() => Bound::AbsentUpper,
        Bound::AbsentUpper if g.is_negative() => Bound::AbsentLower,
        mark => mark,
    })
}

#[cfg(test)]
mod tests {
    use super::*;

    fn f(numerator: i32, denominator: i32) -> Fraction {
        Fraction::read(numerator, denominator).expect("in form")
    }

    fn whole(number: i32) -> Fraction {
        f(number, 1)
    }

    const NONE: Bound = Bound::AbsentUpper;

    fn arc(ends: (usize, usize), cost: i32, bounds: (Bound, Bound), multipliers: (Fraction, Fraction)) -> Arc {
        Arc {
            from: ends.0,
            to: ends.1,
            cost: whole(cost),
            lower: bounds.0,
            upper: bounds.1,
            at_from: multipliers.0,
            at_to: multipliers.1,
        }
    }

    fn finite(number: i32) -> Bound {
        Bound::Finite(whole(number))
    }

    fn network(supplies: &[i32], arcs: &[Arc]) -> Network {
        Network {
            constant: Fraction::ZERO,
            supplies: (1..).zip(supplies.iter().map(|supply| whole(*supply))).collect(),
            arcs: (1..).zip(arcs.iter().copied()).collect(),
        }
    }

    fn step(found: Option<Found>) -> Change {
        match found {
            Some(Found::Step(change)) => change,
            other => panic!("{other:?}"),
        }
    }

    /// Instance H of 01: node 2 lies between 1 and 3.
    #[test]
    fn instance_h() {
        let j = arc((1, 2), 3, (finite(0), NONE), (whole(1), f(-1, 2)));
        let k = arc((2, 3), 1, (finite(0), finite(4)), (whole(1), whole(-1)));
        let given = network(&[0, 0, 5], &[j, k]);
        let change = step(try_rule(&given, 5, 2));
        let joined = Arc {
            from: 1,
            to: 3,
            cost: f(7, 2),
            lower: finite(0),
            upper: finite(8),
            at_from: whole(1),
            at_to: f(-1, 2),
        };
        assert_eq!(change.new_arcs, vec![(1, joined)]);
        assert_eq!(change.new_supplies, vec![(3, whole(5))]);
        assert_eq!((change.dropped_arcs, change.dropped_node), (vec![2], Some(2)));
    }

    /// Instance I of 01, for one N and one P; the other two arcs have simple figures.
    #[test]
    fn instance_i() {
        let open = (finite(0), NONE);
        let arcs = [
            arc((1, 5), 1, open, (whole(1), f(-1, 2))),
            arc((5, 3), 4, open, (whole(2), whole(-1))),
            arc((2, 5), 0, open, (whole(1), whole(-1))),
            arc((5, 4), 0, open, (whole(1), whole(-1))),
        ];
        let given = network(&[0; 5], &arcs);
        let change = step(try_rule(&given, 6, 5));
        let first = arc((1, 3), 4, open, (whole(2), f(-1, 2)));
        let second = arc((1, 4), 2, open, (whole(2), whole(-1)));
        let third = arc((2, 3), 2, open, (whole(1), f(-1, 2)));
        let fourth = arc((2, 4), 0, open, (whole(1), whole(-1)));
        assert_eq!(change.new_arcs, vec![(1, first), (2, second), (3, third), (4, fourth)]);
        assert_eq!(change.dropped_node, Some(5));
    }

    /// "Exchanging bounds by the sign of ej alone" is a plausible error: here the signs agree, so they are exchanged.
    #[test]
    fn bounds_exchanged_where_signs_agree() {
        let j = arc((1, 2), 0, (finite(-9), finite(9)), (whole(1), whole(-1)));
        let k = arc((3, 2), 0, (finite(-3), finite(4)), (whole(1), whole(-2)));
        let given = network(&[0, 2, 0], &[j, k]);
        let change = step(try_rule(&given, 5, 2));
        // -x1 - 2 x2 = 2: x1 = -2 - 2 x2, from -10 to 4.
        let joined = change.new_arcs[0].1;
        assert_eq!((joined.lower, joined.upper), (finite(-9), finite(4)));
        assert_eq!((joined.from, joined.at_from, joined.to, joined.at_to), (1, whole(1), 3, f(-1, 2)));
        assert_eq!(change.new_supplies, vec![(3, whole(1))]);
    }

    /// The kept arc is the lower number unless it is a root arc; with a root arc gone it becomes one.
    #[test]
    fn root_arc_is_not_kept() {
        let root = arc((2, 2), 5, (finite(0), NONE), (whole(1), Fraction::ZERO));
        let road = arc((1, 2), 1, (finite(-1), finite(3)), (whole(1), whole(-1)));
        let given = network(&[0, 7], &[root, road]);
        let change = step(try_rule(&given, 5, 2));
        let joined = arc((1, 1), 6, (finite(-1), finite(3)), (whole(1), Fraction::ZERO));
        // x1 = 7 + x2 at least 0: x2 at least -7, which is looser.
        assert_eq!(change.new_arcs, vec![(2, joined)]);
        assert_eq!(change.dropped_arcs, vec![1]);
        assert_eq!(try_rule(&network(&[1], &[Arc { from: 1, to: 1, ..root }; 2]), 5, 1), None);
    }

    /// Rule 3: v outside the bounds is no flow even where the rest wouldn't fit; v too wide doesn't apply.
    #[test]
    fn single_arc_width() {
        let road = |upper| arc((1, 2), 0, (finite(0), upper), (whole(1), whole(2147483647)));
        assert_eq!(try_rule(&network(&[5, 0], &[road(finite(4))]), 3, 1), Some(Found::NoFlow));
        assert_eq!(try_rule(&network(&[5, 0], &[road(NONE)]), 3, 1), None);
        let steep = arc((1, 1), 0, (finite(0), finite(1)), (f(1, 2), Fraction::ZERO));
        assert_eq!(try_rule(&network(&[2147483647], &[steep]), 3, 1), None);
    }

    const WIDEST: i32 = 2147483647;

    /// The network with a constant.
    fn carrying(constant: Fraction, given: &Network) -> Network {
        Network { constant, ..given.clone() }
    }

    /// The constant after the rule's step; none where it doesn't apply.
    fn carried(constant: Fraction, given: &Network, rule: u8, place: usize) -> Option<Fraction> {
        try_rule(&carrying(constant, given), rule, place).map(|found| step(Some(found)).constant)
    }

    /// Rule 1 adds c × l to the constant, and rule 4 likewise; both the product and the sum must fit.
    #[test]
    fn fixed_flow_carries_cost() {
        let closed =
            |cost, flow| network(&[0], &[arc((1, 1), cost, (finite(flow), finite(flow)), (whole(1), whole(0)))]);
        assert_eq!(carried(f(1, 2), &closed(3, 5), 1, 1), Some(f(31, 2)));
        assert_eq!(carried(whole(WIDEST - 1), &closed(1, 1), 1, 1), Some(whole(WIDEST)));
        assert_eq!(carried(whole(WIDEST), &closed(1, 1), 1, 1), None);
        assert_eq!(carried(whole(-WIDEST), &closed(65536, 32768), 1, 1), None);
        let root = |node, cost| arc((node, node), cost, (finite(0), NONE), (whole(1), whole(0)));
        let costly = arc((1, 2), 6, (finite(2), NONE), (whole(1), whole(1)));
        let given = network(&[0, 0], &[costly, root(1, 2), root(2, 3)]);
        assert_eq!(carried(whole(7), &given, 4, 1), Some(whole(19)));
        assert_eq!(carried(whole(WIDEST - 11), &given, 4, 1), None);
    }

    /// Rule 3 adds c × v; where v shows no flow, the constant isn't worked.
    #[test]
    fn single_arc_carries_cost() {
        let root = |cost, upper| network(&[6], &[arc((1, 1), cost, (finite(0), upper), (whole(2), whole(0)))]);
        assert_eq!(carried(f(1, 3), &root(5, NONE), 3, 1), Some(f(46, 3)));
        assert_eq!(carried(whole(WIDEST), &root(5, NONE), 3, 1), None);
        assert_eq!(carried(whole(-WIDEST), &root(WIDEST, NONE), 3, 1), None);
        let shows_no_flow = carrying(whole(WIDEST), &root(WIDEST, finite(2)));
        assert_eq!(try_rule(&shows_no_flow, 3, 1), Some(Found::NoFlow));
    }

    /// Rule 5 adds ck × r ÷ ek, left to right: ck × r must fit.
    #[test]
    fn two_arcs_carry_cost() {
        let given = |supply, cost, ek| {
            let j = arc((1, 2), 0, (finite(0), NONE), (whole(1), whole(1)));
            let k = arc((2, 2), cost, (Bound::AbsentLower, NONE), (whole(ek), whole(0)));
            network(&[0, supply], &[j, k])
        };
        assert_eq!(carried(f(1, 6), &given(3, 5, 2), 5, 2), Some(f(23, 3)));
        assert_eq!(carried(whole(WIDEST - 6), &given(3, 5, 2), 5, 2), None);
        assert_eq!(carried(whole(0), &given(65536, 32768, 65536), 5, 2), None);
        assert_eq!(carried(whole(0), &given(65536, 32767, 65536), 5, 2), Some(whole(32767)));
    }

    /// Rules 2, 6 and 7 leave the constant alone.
    #[test]
    fn other_rules_carry_nothing() {
        assert_eq!(carried(f(WIDEST, 2), &network(&[0], &[]), 2, 1), Some(f(WIDEST, 2)));
        let around = |end, e| arc((end, 5), 9, (finite(0), NONE), (whole(1), whole(e)));
        let given = network(&[0; 5], &[around(1, -1), around(2, -1), around(3, 1), around(4, 1)]);
        assert_eq!(carried(whole(-WIDEST), &given, 6, 5), Some(whole(-WIDEST)));
        let twice = arc((1, 2), 9, (finite(7), finite(8)), (whole(1), whole(-1)));
        assert_eq!(carried(whole(WIDEST), &network(&[0, 0], &[twice, twice]), 7, 1), Some(whole(WIDEST)));
    }

    const NONE_BELOW: Bound = Bound::AbsentLower;

    /// An arc from 1 to 2.
    fn road(cost: i32, bounds: (Bound, Bound), multipliers: (Fraction, Fraction)) -> Arc {
        arc((1, 2), cost, bounds, multipliers)
    }

    /// A road with multipliers 1 and -1 times g, and cost 2 times g.
    fn multiple(g: Fraction, bounds: (Bound, Bound)) -> Arc {
        let cost = g.times(whole(2)).expect("fits");
        Arc { cost, ..road(0, bounds, (g, g.negated())) }
    }

    /// What rule 7 finds at arc 1.
    fn found(arcs: &[Arc]) -> Option<Found> {
        try_rule(&network(&[0, 0], arcs), 7, 1)
    }

    /// The number that rule 7 drops at arc 1, and arc 1's new bounds; none where it doesn't apply.
    fn merging(arcs: &[Arc]) -> Option<(usize, Bound, Bound)> {
        let change = step(Some(found(arcs)?));
        let merged = change.new_arcs[0].1;
        assert_eq!(change.new_arcs, vec![(1, Arc { lower: merged.lower, upper: merged.upper, ..arcs[0] })]);
        assert_eq!((change.new_supplies, change.dropped_node), (vec![], None));
        let [dropped] = change.dropped_arcs[..] else { panic!("{:?}", change.dropped_arcs) };
        Some((dropped, merged.lower, merged.upper))
    }

    /// g = -1/2: k from -4 to 2 has an image from -1 to 2.
    #[test]
    fn parallel_arcs_with_a_negative_fraction() {
        let j = road(2, (finite(0), finite(3)), (whole(2), whole(-1)));
        let k = road(-1, (finite(-4), finite(2)), (whole(-1), f(1, 2)));
        let change = step(found(&[j, k]));
        assert_eq!((change.rule, change.place, change.constant), (7, 1, Fraction::ZERO));
        assert_eq!(change.new_arcs, vec![(1, Arc { lower: finite(-1), upper: finite(5), ..j })]);
        assert_eq!((change.dropped_arcs, change.dropped_node, change.new_supplies), (vec![2], None, vec![]));
        let back = Back::ParallelArcs { kept: (1, j), gone: 2, g: f(-1, 2), lower_end: whole(-1) };
        assert_eq!(change.back, back);
    }

    /// "none above where either has none above"; both lower ends must be finite.
    #[test]
    fn parallel_arcs_without_bounds() {
        let pair =
            |j_bounds, g: i32, k_bounds| merging(&[multiple(Fraction::ONE, j_bounds), multiple(whole(g), k_bounds)]);
        let (both, above, below) = ((finite(1), finite(2)), (finite(1), NONE), (NONE_BELOW, finite(2)));
        assert_eq!(pair(both, 3, both), Some((2, finite(4), finite(8))));
        assert_eq!(pair(above, 3, both), Some((2, finite(4), NONE)));
        assert_eq!(pair(both, 3, above), Some((2, finite(4), NONE)));
        assert_eq!(pair(above, 3, above), Some((2, finite(4), NONE)));
        assert_eq!(pair(below, 3, both), None);
        assert_eq!(pair(both, 3, below), None);
        assert_eq!(pair(both, -3, both), Some((2, finite(-5), finite(-1))));
        assert_eq!(pair(both, -3, below), Some((2, finite(-5), NONE)));
        assert_eq!(pair(above, -3, below), Some((2, finite(-5), NONE)));
        assert_eq!(pair(both, -3, above), None);
        assert_eq!(pair(both, 3, (NONE_BELOW, NONE)), None);
        assert_eq!(pair(both, -3, (NONE_BELOW, NONE)), None);
    }

    /// "both have the same from and to": opposite directions don't match, root arcs at one node do.
    #[test]
    fn parallel_arcs_have_the_same_ends() {
        let bounds = (finite(0), finite(1));
        let j = road(2, bounds, (whole(1), whole(-1)));
        let opposite = arc((2, 1), 2, bounds, (whole(-1), whole(1)));
        assert_eq!(found(&[j, opposite]), None);
        assert_eq!(merging(&[j, opposite, j]), Some((3, finite(0), finite(2))));
        let root = |node, cost, e| arc((node, node), cost, bounds, (whole(e), Fraction::ZERO));
        assert_eq!(merging(&[root(1, 2, 1), root(1, -4, -2)]), Some((2, finite(-2), finite(1))));
        assert_eq!(found(&[root(1, 2, 1), root(2, 2, 1)]), None);
        assert_eq!(found(&[root(1, 2, 1), j]), None);
    }

    /// "a, b and c of k are a common fraction g times those of j": one figure off is enough, and a cost of 0 on one side.
    #[test]
    fn parallel_arcs_are_proportional() {
        let bounds = (finite(0), finite(1));
        let j = road(2, bounds, (whole(1), whole(-1)));
        assert_eq!(merging(&[j, road(6, bounds, (whole(3), whole(-3)))]), Some((2, finite(0), finite(4))));
        for (cost, a, b) in [(5, 3, -3), (7, 3, -3), (-6, 3, -3), (0, 3, -3), (6, 2, -3), (6, 3, -2), (6, 3, 3)] {
            assert_eq!(found(&[j, road(cost, bounds, (whole(a), whole(b)))]), None, "{cost} {a} {b}");
        }
        let free = road(0, bounds, (whole(1), whole(-1)));
        assert_eq!(merging(&[free, road(0, bounds, (whole(3), whole(-3)))]), Some((2, finite(0), finite(4))));
        assert_eq!(found(&[free, road(1, bounds, (whole(3), whole(-3)))]), None);
    }

    /// "then k > j upward": the lowest such k, and none below j.
    #[test]
    fn lowest_parallel_arc() {
        let bounds = |upper| (finite(0), finite(upper));
        let roads = [1, 20, 300].map(|upper| multiple(Fraction::ONE, bounds(upper)));
        let given = network(&[0, 0], &roads);
        let at = |place| step(try_rule(&given, 7, place)).dropped_arcs;
        assert_eq!((at(1), at(2)), (vec![2], vec![3]));
        assert_eq!(try_rule(&given, 7, 3), None);
        assert_eq!(try_rule(&given, 7, 4), None);
    }

    /// g must fit. It is 65536 × 32768, which doesn't, or 65536 × 32767, which does; "a misfit passing over that k alone".
    #[test]
    fn misfit_of_the_fraction() {
        let bounds = (finite(0), NONE);
        let j = Arc { cost: f(1, 65536), ..road(0, bounds, (f(1, 65536), f(-1, 65536))) };
        let k = |size| road(size, bounds, (whole(size), whole(-size)));
        assert_eq!(merging(&[j, k(32767)]), Some((2, finite(0), NONE)));
        assert_eq!(merging(&[j, k(32768)]), None);
        assert_eq!(merging(&[j, k(32768), k(-32768), j]), Some((4, finite(0), NONE)));
        assert_eq!(merging(&[k(32768), j]), None);
        assert_eq!(merging(&[k(32767), j]), Some((2, finite(0), NONE)));
    }

    /// Each finite bound of k times g must fit, also where j has none above, and even where the sum would fit.
    #[test]
    fn misfit_of_an_image() {
        let large = 1 << 30;
        let j = |lower, upper| multiple(Fraction::ONE, (finite(lower), upper));
        let twice = |lower, upper| multiple(whole(2), (lower, upper));
        assert_eq!(merging(&[j(0, NONE), twice(finite(1), finite(large - 1))]), Some((2, finite(2), NONE)));
        assert_eq!(merging(&[j(0, NONE), twice(finite(1), finite(large))]), None);
        assert_eq!(merging(&[j(-9, finite(-9)), twice(finite(1), finite(large))]), None);
        assert_eq!(merging(&[j(9, NONE), twice(finite(-large), NONE)]), None);
        let four = [j(0, NONE), twice(finite(1), finite(large)), twice(finite(-large), NONE), twice(finite(3), NONE)];
        assert_eq!(merging(&four), Some((4, finite(6), NONE)));
    }

    /// The sums of bounds must fit.
    #[test]
    fn misfit_of_a_sum() {
        let pair = |j_bounds, k_bounds| merging(&[multiple(Fraction::ONE, j_bounds), multiple(whole(-1), k_bounds)]);
        let least = finite(-WIDEST);
        assert_eq!(pair((least, NONE), (NONE_BELOW, finite(0))), Some((2, least, NONE)));
        assert_eq!(pair((least, NONE), (NONE_BELOW, finite(1))), None);
        assert_eq!(pair((finite(0), finite(1)), (finite(-WIDEST), finite(0))), None);
        assert_eq!(pair((finite(0), finite(0)), (finite(-WIDEST), finite(0))), Some((2, finite(0), finite(WIDEST))));
    }
}
