//! Roads listed twice in the sample networks (rule 7): an arc g times over, itself or as a chain of two (rule 5).

use super::*;
use crate::scenes::wide_times;

/// The flow of an image, and its ends.
type Image = (Fraction, Bound, Bound);

/// Numbers without common divisors whose products lie at the width.
const AWKWARD: [i64; 5] = [46337, 46341, 46349, 65536, 65537];

impl Draft {
    /// Lists those arcs twice that are to be, and some others.
    pub fn double_some(&mut self, draw: &mut Draw, count: usize) {
        self.spare = 0;
        let mut some: Vec<DraftArc> = self.arcs.iter().copied().filter(|arc| arc.twice).collect();
        self.arcs.iter_mut().for_each(|arc| arc.twice = false);
        for _ in 0..count {
            if !self.arcs.is_empty() {
                some.push(self.arcs[draw.below(self.arcs.len())]);
            }
        }
        for arc in some {
            if self.has_room(0, 1) {
                self.double(draw, &arc);
            }
        }
    }

    /// Lists an arc once more, if only with g = 1 or -1.
    fn double(&mut self, draw: &mut Draw, j: &DraftArc) {
        let g = self.signed_multiplier(draw);
        let g = if j.twice { g.max(g.negated()) } else { g };
        let image = self.image(draw, j);
        let one = fitted(g.numerator().signum() as i64, 1);
        let again = multiple(&j.arc, g, image).or(multiple(&j.arc, one, image));
        let Some(mut again) = again else {
            return;
        };
        if j.twice && draw.chance(50) {
            again.arc = turned(&again.arc);
        } else if draw.chance(10) {
            spoil(draw, &mut again.arc);
        }
        if self.has_room(1, 2) && draw.chance(25) {
            self.insert_chain(draw, &again);
        } else {
            self.insert(draw, again, 0);
        }
    }

    /// An image with a flow for which the flows kept stay optimal: it stands at the end at which j's flow stands.
    fn image(&self, draw: &mut Draw, j: &DraftArc) -> Image {
        let zero = Bound::Finite(Fraction::ZERO);
        if j.twice {
            return (Fraction::ZERO, zero, OPEN);
        }
        let low = if draw.chance(60) { Fraction::ZERO } else { self.flow(draw) };
        let high = low.plus(fitted(draw.within(0, 6), 1)).unwrap_or(low);
        let (at_lower, at_upper) = (Bound::Finite(j.flow) == j.arc.lower, Bound::Finite(j.flow) == j.arc.upper);
        match (at_lower, at_upper) {
            (true, true) => (low, Bound::Finite(low), Bound::Finite(low)),
            (true, _) if draw.chance(50) => (low, Bound::Finite(low), OPEN),
            (true, _) => (low, Bound::Finite(low), Bound::Finite(high)),
            (_, true) => (high, draw.of(&[Bound::Finite(low), Bound::Finite(high)]), Bound::Finite(high)),
            _ => {
                let lower = if draw.chance(7) { Bound::AbsentLower } else { Bound::Finite(low) };
                (draw.of(&[low, high]), lower, draw.of(&[OPEN, Bound::Finite(high)]))
            }
        }
    }

    /// Puts an arc at any place from the given one on; where that is.
    fn insert(&mut self, draw: &mut Draw, arc: DraftArc, first: usize) -> usize {
        let place = first + draw.below(self.arcs.len() - first + 1);
        self.arcs.insert(place, arc);
        place
    }

    /// Puts two arcs in the place of one, with a new node between them, such that rule 5 makes it of them again, mostly in
    /// its direction. A root arc becomes an arc and a root arc.
    fn insert_chain(&mut self, draw: &mut Draw, whole: &DraftArc) {
        let (arc, node) = (whole.arc, self.new_node());
        let (e1, e2) = (fitted(draw.sign(), 1), fitted(draw.sign(), 1));
        // e1 ÷ e2 times a figure.
        let times = |figure: Fraction| if e1 == e2 { figure } else { figure.negated() };
        let cost = fitted(draw.within(-3, 3), 1);
        let (cost, first_cost) = arc.cost.plus(times(cost)).map_or((Fraction::ZERO, arc.cost), |sum| (cost, sum));
        let to = if arc.is_root() { node } else { arc.to };
        let first = Arc { to: node, cost: first_cost, at_to: e1, ..arc };
        let at_to = times(arc.at_to).negated();
        let second = Arc { from: node, to, cost, lower: Bound::AbsentLower, upper: OPEN, at_from: e2, at_to };
        let flow = fitted(draw.within(-3, 3), 1);
        let place = self.insert(draw, DraftArc { arc: first, ..*whole }, 0);
        let after = if draw.chance(80) { place + 1 } else { 0 };
        self.insert(draw, DraftArc { arc: second, flow, ..*whole }, after);
    }

    /// Puts most arcs at their lower bounds: the others have no choice, then.
    fn settle(&mut self, draw: &mut Draw) {
        for DraftArc { arc, flow, .. } in &mut self.arcs {
            if draw.chance(80) {
                arc.lower = Bound::Finite(*flow);
                arc.upper = if arc.upper == arc.lower { OPEN } else { arc.upper };
            }
        }
    }

    /// A node with one N and two P, or the other way round, whose flows balance. The lone arc is to be listed twice: that
    /// makes a crossing (rule 6) with new arcs that are parallel.
    pub fn half_crossing(&mut self, draw: &mut Draw) {
        if !self.has_room(1, 4) || self.core < 2 {
            return;
        }
        let node = self.new_node();
        let (lone, others) = (self.core_node(draw), [self.core_node(draw), self.core_node(draw)]);
        let sign = fitted(draw.sign(), 1);
        let zero = Bound::Finite(Fraction::ZERO);
        let flows = [draw.within(0, 2), draw.within(0, 2)];
        self.push_at(draw, node, sign, lone, (fitted(flows[0] + flows[1], 1), zero, OPEN));
        self.arcs.last_mut().expect("just pushed").twice = true;
        for (end, flow) in others.into_iter().zip(flows) {
            self.push_at(draw, node, sign.negated(), end, (fitted(flow, 1), zero, OPEN));
        }
    }

    /// An arc strictly within its bounds, and what a multiple of it is to be like, so that merging them or going back
    /// meets figures that hardly fit.
    fn push_awkward(&mut self, draw: &mut Draw) -> Awkward {
        let (x, y, sign) = (draw.of(&AWKWARD), draw.of(&AWKWARD), draw.sign());
        let (zero, two) = (Fraction::ZERO, fitted(2, 1));
        let small_g = draw.of(&[fitted(sign, 1), fitted(2 * sign, 1), fitted(sign, 2)]);
        let large_g = fitted(x * sign, 1);
        let wide_end = draw.chance(15);
        let (lower, upper, low, g) = match draw.below(6) {
            _ if wide_end => (zero, draw.of(&[None, Some(two)]), zero, large_g),
            0 => (zero, None, between(draw, 0, x), small_g),
            1 | 2 => (zero, Some(two), between(draw, 0, x), small_g),
            3 => (zero, Some(between(draw, 1, x)), zero, small_g),
            4 => (zero, Some(two), zero, draw.of(&[large_g, fitted(sign, x)])),
            _ => (between(draw, -1, x), None, between(draw, 0, y), small_g),
        };
        let flow = between(draw, 0, y);
        let (from, to) = (self.core_node(draw), self.core_node(draw));
        let at_to = if from == to { zero } else { fitted(draw.sign(), 1) };
        let multipliers = [fitted(draw.sign(), 1), at_to];
        self.push(draw, [from, to], multipliers, (flow, Bound::Finite(lower), upper.map_or(OPEN, Bound::Finite)));
        let size = fitted(draw.within(2, 9), 1);
        let image_flow = if g == large_g { size.times(fitted(x, 1)).expect("fits") } else { size };
        let high = draw.of(&[OPEN, OPEN, Bound::Finite(image_flow)]);
        Awkward { g, image: (image_flow, Bound::Finite(low), high), wide_end }
    }
}

/// A multiple of an arc: g, its image, and whether the upper end of that is to lie at the width instead.
struct Awkward {
    g: Fraction,
    image: Image,
    wide_end: bool,
}

impl Awkward {
    fn multiple(&self, draw: &mut Draw, j: &Arc) -> Option<DraftArc> {
        let mut again = multiple(j, self.g, self.image)?;
        let end = wide_times(draw, self.g);
        match (self.wide_end, self.g.is_negative()) {
            (true, false) => again.arc.upper = Bound::Finite(end),
            (true, true) => again.arc.lower = Bound::Finite(end.negated()),
            _ => {}
        }
        Some(again)
    }
}

/// A fraction between a whole number and the next one.
fn between(draw: &mut Draw, number: i64, bottom: i64) -> Fraction {
    fitted(number * bottom + draw.within(1, bottom - 1), bottom)
}

/// g times an arc, with bounds and a flow that have this image, if all fits.
fn multiple(j: &Arc, g: Fraction, (flow, low, high): Image) -> Option<DraftArc> {
    let over_g = |end: Bound| end.finite().map(|end| end.over(g));
    let (lower, upper) = if g.is_negative() { (over_g(high), over_g(low)) } else { (over_g(low), over_g(high)) };
    let lower = lower.map_or(Some(Bound::AbsentLower), |end| end.map(Bound::Finite))?;
    let upper = upper.map_or(Some(OPEN), |end| end.map(Bound::Finite))?;
    let (cost, at_from, at_to) = (j.cost.times(g)?, j.at_from.times(g)?, j.at_to.times(g)?);
    let arc = Arc { cost, lower, upper, at_from, at_to, ..*j };
    Some(DraftArc { arc, flow: flow.over(g)?, costly: false, priced: true, twice: false })
}

/// The same arc with its ends exchanged; a root arc as it is.
fn turned(arc: &Arc) -> Arc {
    if arc.is_root() {
        return *arc;
    }
    Arc { from: arc.to, to: arc.from, at_from: arc.at_to, at_to: arc.at_from, ..*arc }
}

/// Makes an arc that is a multiple of another no multiple of it, or turns it around.
fn spoil(draw: &mut Draw, arc: &mut Arc) {
    match draw.below(4) {
        0 => arc.cost = arc.cost.plus(Fraction::ONE).unwrap_or(Fraction::ZERO),
        1 => arc.at_to = arc.at_to.negated(),
        _ => *arc = turned(arc),
    }
}

/// Arcs that are awkward to merge, or very many that are multiples of each other.
pub fn doubled(draw: &mut Draw) -> Network {
    let many = draw.chance(30);
    let core = draw.within(1, if many { 6 } else { 3 }) as usize;
    let taste = if many { SMALL } else { draw.of(&[SMALL, PLAIN]) };
    let mut draft = Draft { nodes: core, core, arcs: vec![], taste, large: 1, spare: 0 };
    draft.core_arcs(draw, 1);
    draft.stirred(draw);
    if !many {
        draft.settle(draw);
    }
    let count = if many { 0 } else { draw.within(1, 2) };
    let awkward: Vec<(usize, Awkward)> = (0..count).map(|_| (draft.arcs.len(), draft.push_awkward(draw))).collect();
    draft.price_arcs(draw, 5);
    for (place, multiple) in awkward {
        let again = multiple.multiple(draw, &draft.arcs[place].arc);
        draft.arcs.extend(again);
    }
    if many {
        let most = draw.of(&[20, 50, 90, MOST_ARCS]);
        while draft.arcs.len() < most {
            draft.double_some(draw, 1);
        }
    }
    draw.shuffle(&mut draft.arcs);
    draft.network(draw)
}
