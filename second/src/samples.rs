//! Deterministic sample networks, shaped so that each rule fires often and figures come near the width.

use crate::constants::with_constant;
use crate::draw::Draw;
use crate::exact::Exact;
use crate::fraction::{Bound, Fraction};
use crate::network::{Arc, Network, MOST_ARCS, MOST_NODES};

mod doubled;

/// The shapes of sample networks.
#[derive(Clone, Copy)]
pub enum Shape {
    /// Small figures, a few nodes, now and then without a flow.
    Small,
    /// The same, always with a supply or bounds that hardly allow a flow.
    Spoilt,
    /// Some figures near the width.
    Wide,
    /// Figures made of one large number, so that products don't fit and quotients of them do.
    Family,
    /// 32 nodes and 96 arcs.
    Full,
    /// Many closed arcs, or a long ring.
    LongRun,
    /// Crossings with flows near the width.
    HeavyCrossing,
    /// Nodes of degree 2 with large multipliers and flows, or with small multipliers and large costs.
    SteepChain,
    /// A costly arc whose multipliers and those of the root arcs are far apart.
    SteepCostly,
    /// Parallel arcs whose figures hardly fit together, or very many parallel arcs.
    Doubled,
}

/// A sample network of the shape.
pub fn network(draw: &mut Draw, shape: Shape) -> Network {
    let network = without_constant(draw, shape);
    with_constant(draw, network)
}

/// A sample network of the shape, its constant 0.
pub fn without_constant(draw: &mut Draw, shape: Shape) -> Network {
    match shape {
        Shape::Small => gadgets(draw, SMALL),
        Shape::Spoilt => gadgets(draw, Taste { spoilt: 100, ..SMALL }),
        Shape::Wide => gadgets(draw, WIDE),
        Shape::Family => gadgets(draw, FAMILY),
        Shape::Full => gadgets(draw, FULL),
        Shape::LongRun => long_run(draw),
        Shape::HeavyCrossing => heavy_crossing(draw),
        Shape::SteepChain => steep_chain(draw),
        Shape::SteepCostly => steep_costly(draw),
        Shape::Doubled => doubled::doubled(draw),
    }
}

/// How a network of gadgets is to look.
#[derive(Clone, Copy)]
struct Taste {
    /// Core nodes to begin with, and gadgets added to them.
    core: (i64, i64),
    gadgets: (i64, i64),
    /// Of a hundred figures so many are near the width.
    wide: usize,
    /// These are all made of one large number.
    family: bool,
    /// Of a hundred networks so many have costs for which some flow is optimal by design.
    optimal: usize,
    /// Of a hundred networks so many get a supply or bounds that hardly allow a flow.
    spoilt: usize,
    /// In a hundred networks so many have arcs that are listed twice.
    doubled: usize,
    /// Goes on until 32 nodes and 96 arcs are there.
    full: bool,
    /// Whole figures and multipliers 1 or -1, so that large sums fit.
    plain: bool,
}

const SMALL: Taste = Taste {
    core: (0, 4),
    gadgets: (1, 4),
    wide: 0,
    family: false,
    optimal: 60,
    spoilt: 15,
    doubled: 40,
    full: false,
    plain: false,
};
const PLAIN: Taste = Taste { plain: true, ..SMALL };
const WIDE: Taste = Taste { core: (1, 3), wide: 8, optimal: 40, spoilt: 3, ..SMALL };
const FAMILY: Taste = Taste { core: (1, 3), wide: 40, family: true, optimal: 30, spoilt: 2, ..SMALL };
const FULL: Taste = Taste { core: (4, 12), gadgets: (5, 14), spoilt: 5, full: true, ..SMALL };

/// Small fractions, zero among them.
pub fn small(draw: &mut Draw) -> Fraction {
    let numerator = draw.within(-6, 6);
    fitted(numerator, draw.of(&[1, 1, 1, 1, 2, 3]))
}

fn fitted(numerator: i64, denominator: i64) -> Fraction {
    Fraction::fitted(numerator as i128, denominator as i128).expect("sample figures fit")
}

/// Fractions near the width, or whose products are.
pub fn wide(draw: &mut Draw) -> Fraction {
    let edge = 2147483647 - draw.within(0, 3);
    let middle = draw.of(&[46340, 46341, 65535, 65536, 65537, 1 << 20, 1 << 24, 715827882]) + draw.within(-1, 1);
    let (numerator, denominator) = match draw.below(7) {
        0 => (edge, 1),
        1 => (1, edge),
        2 => (edge, edge - draw.within(1, 9)),
        3 => (middle, 1),
        4 => (draw.within(1, 5), middle),
        5 => (middle, draw.within(30000, 70000)),
        _ => (edge / draw.within(2, 7), draw.within(1, 7)),
    };
    fitted(numerator * draw.sign(), denominator)
}

/// A fraction made of one large number and small ones.
fn of_family(draw: &mut Draw, large: i64) -> Fraction {
    let (s, t) = (draw.within(1, 3) * draw.sign(), draw.within(1, 3));
    match draw.below(5) {
        0 | 1 => fitted(large * s, 1),
        2 => fitted(large * s, t),
        3 => fitted(s, large * t),
        _ => fitted(large * s, large - t),
    }
}

/// The large numbers of such families.
const LARGE: [i64; 8] = [30030, 46340, 46341, 65536, 65537, 1 << 20, 9699690, 1 << 24];

/// A network in the making: a flow within the bounds is kept for every arc.
struct Draft {
    nodes: usize,
    core: usize,
    arcs: Vec<DraftArc>,
    taste: Taste,
    large: i64,
    /// So many arcs are still to be listed twice.
    spare: usize,
}

#[derive(Clone, Copy)]
struct DraftArc {
    arc: Arc,
    flow: Fraction,
    /// Rule 4 is to apply.
    costly: bool,
    /// The cost stands already.
    priced: bool,
    /// It is to be listed twice.
    twice: bool,
}

const OPEN: Bound = Bound::AbsentUpper;

impl Draft {
    fn has_room(&self, nodes: usize, arcs: usize) -> bool {
        self.nodes + nodes <= MOST_NODES && self.arcs.len() + arcs + self.spare <= MOST_ARCS
    }

    fn new_node(&mut self) -> usize {
        self.nodes += 1;
        self.nodes
    }

    fn core_node(&self, draw: &mut Draw) -> usize {
        1 + draw.below(self.core)
    }

    fn wide(&self, draw: &mut Draw) -> Fraction {
        if self.taste.family {
            of_family(draw, self.large)
        } else {
            wide(draw)
        }
    }

    fn figure(&self, draw: &mut Draw) -> Fraction {
        if self.taste.plain {
            return fitted(draw.within(-6, 6), 1);
        }
        if draw.chance(self.taste.wide) {
            self.wide(draw)
        } else {
            small(draw)
        }
    }

    /// A flow; in a family they are mostly small, so that supplies fit.
    fn flow(&self, draw: &mut Draw) -> Fraction {
        if self.taste.family && draw.chance(80) {
            small(draw)
        } else {
            self.figure(draw)
        }
    }

    /// A multiplier, positive.
    fn multiplier(&self, draw: &mut Draw) -> Fraction {
        if self.taste.plain {
            return Fraction::ONE;
        }
        if draw.chance(self.taste.wide) {
            let figure = self.wide(draw);
            return if figure.is_negative() { figure.negated() } else { figure };
        }
        let (numerator, denominator) = draw.of(&[(1, 1), (1, 1), (1, 1), (2, 1), (1, 2), (3, 1), (2, 3), (3, 2)]);
        fitted(numerator, denominator)
    }

    fn signed_multiplier(&self, draw: &mut Draw) -> Fraction {
        let multiplier = self.multiplier(draw);
        if draw.chance(50) {
            multiplier
        } else {
            multiplier.negated()
        }
    }

    /// A flow and bounds around it.
    fn bounds(&self, draw: &mut Draw) -> (Fraction, Bound, Bound) {
        let flow = self.flow(draw);
        let below = if draw.chance(45) { Fraction::ZERO } else { fitted(draw.within(1, 4), 1) };
        let above = if draw.chance(20) { Fraction::ZERO } else { fitted(draw.within(1, 6), 1) };
        let mut lower = flow.minus(below).map_or(Bound::AbsentLower, Bound::Finite);
        let mut upper = flow.plus(above).map_or(OPEN, Bound::Finite);
        if draw.chance(15) {
            lower = Bound::AbsentLower;
        }
        if draw.chance(40) {
            upper = OPEN;
        }
        (flow, lower, upper)
    }

    fn push(
        &mut self,
        draw: &mut Draw,
        ends: [usize; 2],
        multipliers: [Fraction; 2],
        bounds: (Fraction, Bound, Bound),
    ) {
        let (flow, lower, upper) = bounds;
        let cost = self.figure(draw);
        let arc =
            Arc { from: ends[0], to: ends[1], cost, lower, upper, at_from: multipliers[0], at_to: multipliers[1] };
        self.arcs.push(DraftArc { arc, flow, costly: false, priced: false, twice: false });
    }

    /// An arc with the given multiplier at `node`, drawn in either direction.
    fn push_at(&mut self, draw: &mut Draw, node: usize, e: Fraction, other: usize, bounds: (Fraction, Bound, Bound)) {
        let o = self.signed_multiplier(draw);
        if draw.chance(50) {
            self.push(draw, [node, other], [e, o], bounds);
        } else {
            self.push(draw, [other, node], [o, e], bounds);
        }
    }

    fn road(&mut self, draw: &mut Draw, node: usize, other: usize) {
        let e = self.signed_multiplier(draw);
        let bounds = self.bounds(draw);
        self.push_at(draw, node, e, other, bounds);
    }

    fn root(&mut self, draw: &mut Draw, node: usize, e: Fraction, bounds: (Fraction, Bound, Bound)) {
        self.push(draw, [node, node], [e, Fraction::ZERO], bounds);
    }

    fn some_root(&mut self, draw: &mut Draw, node: usize) {
        let e = self.signed_multiplier(draw);
        let bounds = self.bounds(draw);
        self.root(draw, node, e, bounds);
    }

    /// Any arc between core nodes.
    fn core_arc(&mut self, draw: &mut Draw) {
        let node = self.core_node(draw);
        let other = self.core_node(draw);
        if node == other {
            self.some_root(draw, node);
        } else {
            self.road(draw, node, other);
        }
    }

    /// Arcs between core nodes, from `least` to 3 for each node.
    fn core_arcs(&mut self, draw: &mut Draw, least: usize) {
        for _ in 0..draw.within((least * self.core) as i64, 3 * self.core as i64) {
            self.core_arc(draw);
        }
    }

    /// Goes on to 32 nodes and 96 arcs.
    fn fill(&mut self, draw: &mut Draw) {
        while self.has_room(1, 4) {
            self.gadget(draw);
        }
        while self.has_room(1, 0) {
            self.bare(draw);
        }
        while self.has_room(0, 1) {
            self.core_arc(draw);
        }
    }

    /// A tree of a few nodes (rule 3).
    fn leaves(&mut self, draw: &mut Draw) {
        let mut last = self.core_node(draw);
        for _ in 0..draw.within(1, 3) {
            if self.has_room(1, 1) {
                let leaf = self.new_node();
                self.road(draw, last, leaf);
                if draw.chance(60) {
                    last = leaf;
                }
            }
        }
    }

    /// Arcs with equal bounds (rule 1).
    fn closed(&mut self, draw: &mut Draw) {
        for _ in 0..draw.within(1, 2) {
            if self.has_room(0, 1) {
                let flow = self.flow(draw);
                let (node, other) = (self.core_node(draw), self.core_node(draw));
                let bounds = (flow, Bound::Finite(flow), Bound::Finite(flow));
                let e = self.signed_multiplier(draw);
                if node == other {
                    self.root(draw, node, e, bounds);
                } else {
                    self.push_at(draw, node, e, other, bounds);
                }
            }
        }
    }

    /// Rule 2.
    fn bare(&mut self, _draw: &mut Draw) {
        if self.has_room(1, 0) {
            self.new_node();
        }
    }

    /// An arc with root arcs without upper bound at both its ends (rule 4).
    fn costly(&mut self, draw: &mut Draw) {
        if !self.has_room(2, 6) {
            return;
        }
        let from = if draw.chance(50) { self.core_node(draw) } else { self.new_node() };
        let to = if draw.chance(40) { self.core_node(draw) } else { self.new_node() };
        if from == to {
            return;
        }
        let (a, b) = (self.signed_multiplier(draw), self.signed_multiplier(draw));
        let flow = self.flow(draw);
        let lower = if draw.chance(10) { Bound::AbsentLower } else { Bound::Finite(flow) };
        let upper = self.bounds(draw).2.max(lower);
        self.push(draw, [from, to], [a, b], (flow, lower, upper));
        self.arcs.last_mut().expect("just pushed").costly = true;
        for (node, multiplier) in [(from, a), (to, b)] {
            for _ in 0..draw.of(&[1, 1, 1, 2]) {
                let size = self.multiplier(draw);
                let agrees = multiplier.is_positive() != draw.chance(10);
                let e = if agrees { size } else { size.negated() };
                let (flow, lower, upper) = self.bounds(draw);
                let upper = if draw.chance(90) { OPEN } else { upper };
                self.root(draw, node, e, (flow, lower, upper));
                if draw.chance(self.taste.wide) {
                    // Then c1 × a ÷ a1 fits, and a ÷ a1 may not.
                    let last = self.arcs.last_mut().expect("just pushed");
                    last.arc.cost = Fraction::ZERO;
                    last.priced = true;
                }
            }
        }
    }

    /// Nodes of degree 2 between core nodes, or up to a root arc (rule 5).
    fn chain(&mut self, draw: &mut Draw) {
        let mut last = self.core_node(draw);
        for _ in 0..draw.within(1, 3) {
            if self.has_room(1, 2) {
                let next = self.new_node();
                self.road(draw, last, next);
                last = next;
            }
        }
        if last > self.core {
            let end = self.core_node(draw);
            if draw.chance(35) {
                self.some_root(draw, last);
            } else {
                self.road(draw, last, end);
            }
        }
    }

    /// A node with two arcs N and two arcs P (rule 6), whose flows balance.
    fn crossing(&mut self, draw: &mut Draw) {
        if !self.has_room(1, 4) || self.core < 2 {
            return;
        }
        let node = self.new_node();
        let around: Vec<usize> = (0..4).map(|_| self.core_node(draw)).collect();
        for ends in around.chunks(2) {
            self.side(draw, node, ends[0], ends[1]);
        }
        // Rule 7 comes first, then.
        self.arcs.last_mut().expect("just pushed").twice = draw.chance(10);
    }

    /// One N and one P whose flows balance at the node; now and then not as rule 6 wants them.
    fn side(&mut self, draw: &mut Draw, node: usize, n_end: usize, p_end: usize) {
        let (en, ep) = (self.multiplier(draw).negated(), self.multiplier(draw));
        let times = fitted(draw.within(0, 2), 1);
        let flows = (ep.times(times), en.negated().times(times));
        let (flow_n, flow_p) = if let (Some(n), Some(p)) = flows { (n, p) } else { (Fraction::ZERO, Fraction::ZERO) };
        let zero = if draw.chance(3) { Fraction::ONE } else { Fraction::ZERO };
        let upper = if draw.chance(3) { Bound::Finite(flow_n.max(zero)) } else { OPEN };
        self.push_at(draw, node, en, n_end, (flow_n.max(zero), Bound::Finite(zero), upper));
        self.push_at(draw, node, ep, p_end, (flow_p, Bound::Finite(Fraction::ZERO), OPEN));
    }

    /// A crossing with flows near the width: the new arcs' flows fit, the sum of two of them mostly doesn't.
    fn heavy_crossing(&mut self, draw: &mut Draw) {
        let node = self.new_node();
        let middle = 1 + draw.below(self.core - 1);
        let million = 1_000_000;
        let large = draw.within(750 * million, 1000 * million);
        let (other, opposite) = (draw.within(400 * million, 700 * million), draw.within(400 * million, 700 * million));
        let e = 3 * draw.sign();
        for (e, flow) in [(e, large), (e, other), (-e, opposite), (-e, large + other - opposite)] {
            let end = if e < 0 { 1 + draw.below(middle) } else { 1 + middle + draw.below(self.core - middle) };
            let (o, e) = (fitted(draw.sign(), 1), fitted(e, 1));
            self.push(draw, [end, node], [o, e], (fitted(flow, 1), Bound::Finite(Fraction::ZERO), OPEN));
        }
    }

    /// A node of degree 2 with large multipliers and flows: their products don't fit, the sum would.
    fn loaded_node(&mut self, draw: &mut Draw, node: usize, ends: [usize; 2]) {
        let e = fitted(self.large * draw.sign(), 1);
        let opposite = draw.chance(60);
        let flow = fitted(self.large * draw.within(1, 3), draw.within(1, 3));
        let little = fitted(draw.within(0, 3), 1);
        let other_flow = flow.minus(little).expect("fits");
        let zero = Bound::Finite(Fraction::ZERO);
        let lower = if draw.chance(50) { zero } else { Bound::AbsentLower };
        self.push_at(draw, node, e, ends[0], (flow, lower, OPEN));
        if opposite {
            self.push_at(draw, node, e.negated(), ends[1], (other_flow, lower, OPEN));
        } else {
            self.push_at(draw, node, e, ends[1], (other_flow.negated(), Bound::AbsentLower, OPEN));
        }
    }

    /// A node of degree 2 with small multipliers and large costs: the prices there don't fit, or hardly.
    fn costly_node(&mut self, draw: &mut Draw, node: usize, ends: [usize; 2]) {
        for end in ends {
            let e = fitted(draw.within(1, 3) * draw.sign(), self.large);
            let flow = fitted(draw.within(-3, 3), 1);
            let (below, above) = (fitted(draw.within(0, 2), 1), fitted(draw.within(0, 2), 1));
            let lower = Bound::Finite(flow.minus(below).expect("fits"));
            let upper = Bound::Finite(flow.plus(above).expect("fits"));
            if end == node {
                self.root(draw, node, e, (flow, lower, upper));
            } else {
                self.push_at(draw, node, e, end, (flow, lower, upper));
            }
            let cost = draw.within(-3, 3) * draw.of(&[1, 1, self.large, self.large / 50]);
            let last = self.arcs.last_mut().expect("just pushed");
            last.arc.cost = fitted(cost, 1);
            last.priced = true;
        }
    }

    fn gadget(&mut self, draw: &mut Draw) {
        match draw.below(13) {
            0 | 1 => self.leaves(draw),
            2 => self.closed(draw),
            3 => self.bare(draw),
            4..=6 => self.costly(draw),
            7 | 8 => self.chain(draw),
            9 => self.half_crossing(draw),
            _ => self.crossing(draw),
        }
    }

    /// Arcs in a random order, nodes under random numbers.
    fn stirred(&mut self, draw: &mut Draw) {
        draw.shuffle(&mut self.arcs);
        let mut numbers: Vec<usize> = (1..=self.nodes).collect();
        draw.shuffle(&mut numbers);
        for DraftArc { arc, .. } in &mut self.arcs {
            arc.from = numbers[arc.from - 1];
            arc.to = numbers[arc.to - 1];
        }
    }

    /// Costs for which the flows kept are optimal: c = a × price + b × price + d, d of a permitted sign.
    /// Prices are at most `highest`.
    fn price_arcs(&mut self, draw: &mut Draw, highest: i64) {
        let prices: Vec<Fraction> = (0..self.nodes).map(|_| fitted(draw.within(-highest, highest), 1)).collect();
        for DraftArc { arc, flow, costly, .. } in self.arcs.iter_mut().filter(|arc| !arc.priced) {
            let size = fitted(draw.within(0, 4) + if *costly { draw.within(0, 20) } else { 0 }, 1);
            let d = if Bound::Finite(*flow) == arc.lower {
                size
            } else if Bound::Finite(*flow) == arc.upper {
                size.negated()
            } else {
                Fraction::ZERO
            };
            let mut cost = Some(d);
            for (node, multiplier) in arc.ends() {
                let part = multiplier.times(prices[node - 1]);
                cost = cost.and_then(|sum| sum.plus(part?));
            }
            arc.cost = cost.unwrap_or(arc.cost);
        }
    }

    /// At each node the sum of multiplier × flow; a random figure where that doesn't fit.
    fn supplies(&self, draw: &mut Draw) -> Vec<Fraction> {
        let mut sums = vec![Exact::zero(); self.nodes];
        for DraftArc { arc, flow, .. } in &self.arcs {
            for (node, multiplier) in arc.ends() {
                sums[node - 1] = &sums[node - 1] + &(&Exact::from(multiplier) * &Exact::from(*flow));
            }
        }
        sums.into_iter().map(|sum| sum.fraction().unwrap_or_else(|| self.figure(draw))).collect()
    }

    /// The network with the draft's arcs and the supplies of its flows.
    fn network(&self, draw: &mut Draw) -> Network {
        Network {
            constant: Fraction::ZERO,
            supplies: (1..).zip(self.supplies(draw)).collect(),
            arcs: (1..).zip(self.arcs.iter().map(|arc| arc.arc)).collect(),
        }
    }
}

/// Changes a supply, a bound or both.
fn spoil(draw: &mut Draw, network: &mut Network) {
    if !network.supplies.is_empty() && draw.chance(60) {
        let node = 1 + draw.below(network.supplies.len());
        network.supplies.insert(node, small(draw));
    }
    if !network.arcs.is_empty() && draw.chance(50) {
        let number = 1 + draw.below(network.arcs.len());
        let arc = network.arcs.get_mut(&number).expect("numbered from 1");
        let bound = Bound::Finite(small(draw));
        if draw.chance(50) {
            arc.lower = bound;
        } else {
            arc.upper = bound;
        }
    }
}

/// A core with gadgets.
fn gadgets(draw: &mut Draw, taste: Taste) -> Network {
    let core = draw.within(taste.core.0, taste.core.1) as usize;
    let twice = if draw.chance(taste.doubled) { draw.within(1, if taste.full { 12 } else { 3 }) as usize } else { 0 };
    let mut draft = Draft { nodes: core, core, arcs: vec![], taste, large: draw.of(&LARGE), spare: twice };
    if core == 0 {
        for _ in 0..draw.below(3) {
            draft.bare(draw);
        }
    } else {
        draft.core_arcs(draw, 0);
        for _ in 0..draw.within(taste.gadgets.0, taste.gadgets.1) {
            draft.gadget(draw);
        }
    }
    if taste.full {
        draft.fill(draw);
    }
    draft.stirred(draw);
    if draw.chance(taste.optimal) {
        let highest = draw.of(&[5, 5, 5, 0]);
        draft.price_arcs(draw, highest);
    }
    draft.double_some(draw, twice);
    while taste.full && draft.has_room(0, 1) {
        draft.double_some(draw, 1);
    }
    let mut network = draft.network(draw);
    if draw.chance(taste.spoilt) {
        spoil(draw, &mut network);
    }
    network
}

fn long_run(draw: &mut Draw) -> Network {
    let longest = draw.chance(20);
    let n = if longest { MOST_NODES } else { draw.within(20, 32) as usize };
    let m = if longest { MOST_ARCS } else { draw.within(40, 96) as usize };
    let closed = draw.chance(50);
    let mut draft = Draft { nodes: n, core: n, arcs: vec![], taste: SMALL, large: 1, spare: 0 };
    for number in 0..m {
        let node = 1 + number % n;
        let other = 1 + (number + 1) % n;
        if closed {
            let flow = fitted(draw.within(-2, 2), 1);
            let e = draft.signed_multiplier(draw);
            draft.push_at(draw, node, e, other, (flow, Bound::Finite(flow), Bound::Finite(flow)));
        } else if number < n {
            let e = fitted(draw.sign(), 1);
            let bounds = draft.bounds(draw);
            draft.push_at(draw, node, e, other, bounds);
        }
    }
    draft.stirred(draw);
    draft.price_arcs(draw, 5);
    draft.network(draw)
}

fn heavy_crossing(draw: &mut Draw) -> Network {
    let core = draw.within(2, 5) as usize;
    let mut draft = Draft { nodes: core, core, arcs: vec![], taste: PLAIN, large: 1, spare: 0 };
    draft.core_arcs(draw, 2);
    draft.heavy_crossing(draw);
    draft.stirred(draw);
    draft.price_arcs(draw, 0);
    draft.network(draw)
}

fn steep_chain(draw: &mut Draw) -> Network {
    let core = draw.within(2, 4) as usize;
    let large = draw.of(&[46341, 46349, 65536, 65537, 100_003, 1 << 20, 9_699_690]);
    let mut draft = Draft { nodes: core, core, arcs: vec![], taste: draw.of(&[SMALL, PLAIN]), large, spare: 0 };
    draft.core_arcs(draw, 1);
    for _ in 0..draw.within(1, 2) {
        let (first, second) = (1 + draw.below(core - 1), core);
        let node = draft.new_node();
        if draw.chance(40) {
            draft.loaded_node(draw, node, [first, second]);
        } else {
            let ends = draw.of(&[[first, second], [second, first], [first, node], [node, second]]);
            draft.costly_node(draw, node, ends);
        }
    }
    draft.stirred(draw);
    let highest = draw.of(&[0, 5]);
    draft.price_arcs(draw, highest);
    draft.network(draw)
}

/// c1 is mostly 0: then c1 × a ÷ a1 fits, and a ÷ a1 may not.
fn steep_costly(draw: &mut Draw) -> Network {
    let core = draw.within(2, 3) as usize;
    let large = draw.of(&[30030, 46340, 46341, 65536, 65537]);
    let mut draft = Draft { nodes: core, core, arcs: vec![], taste: PLAIN, large, spare: 0 };
    draft.core_arcs(draw, 0);
    let multiplier = |draw: &mut Draw, sign: i64| match draw.below(4) {
        0 => fitted(sign, 1),
        1 => fitted(sign * draw.within(1, 3), large),
        _ => fitted(sign * large, draw.within(1, 3)),
    };
    let signs = [draw.sign(), draw.sign()];
    let flow = fitted(draw.within(0, 3), 1);
    let ends = signs.map(|sign| multiplier(draw, sign));
    draft.push(draw, [1, 2], ends, (flow, Bound::Finite(flow), OPEN));
    for (node, sign) in [(1, signs[0]), (2, signs[1])] {
        let a = multiplier(draw, sign);
        let bounds = draft.bounds(draw);
        draft.root(draw, node, a, (bounds.0, bounds.1, OPEN));
        draft.arcs.last_mut().expect("just pushed").arc.cost = fitted(draw.of(&[0, 0, 0, 1, -2]), 1);
    }
    draft.stirred(draw);
    draft.network(draw)
}
