//! Deterministic small networks, each shaped for one rule at one place, with figures near the width.

use crate::draw::Draw;
use crate::exact::Exact;
use crate::fraction::{Bound, Fraction};
use crate::network::{Arc, Network};
use crate::rules::place_is_arc;
use crate::samples::{small, wide};

mod parallel;

/// A network, and the place at which the rule is to be tried.
pub struct Scene {
    pub network: Network,
    pub place: usize,
}

/// At most so many nodes and arcs.
pub const NODES: usize = 6;
pub const ARCS: usize = 9;

const OPEN: Bound = Bound::AbsentUpper;
pub const WIDEST: i64 = 2147483647;

/// A scene for the rule, mostly one in which its conditions hold, apart from the width.
pub fn scene(draw: &mut Draw, rule: u8) -> Scene {
    let meeting: &[_] = if rule == 7 { &parallel::MEETING } else { &MEETING };
    let mut draft = Draft { taste: Taste::new(draw, meeting), supplies: vec![], arcs: vec![], in_order: 0 };
    match rule {
        1 => draft.closed_arc(draw),
        2 => draft.bare_node(draw),
        3 => draft.single_arc(draw),
        4 => draft.costly_arc(draw),
        5 => draft.two_arcs(draw),
        6 => draft.crossing(draw),
        _ => draft.parallel_arcs(draw),
    }
    if draw.chance(8) {
        draft.balance(draw, rule);
    }
    draft.surround(draw, place_is_arc(rule));
    let taste = draft.taste;
    let mut scene = draft.stirred(draw, place_is_arc(rule));
    if draw.chance(15) {
        scene.raise_carried_cost(draw, rule);
    }
    scene.network.constant = match scene.carried_cost(rule) {
        _ if draw.chance(15) => wide(draw),
        Some(carried) => taste.aimed(draw, Constant, &-&carried),
        None => taste.figure(draw, Constant),
    };
    scene
}

impl Scene {
    /// The arc whose cost a step of the rule carries into the constant, and the flow, exactly; none where no step does.
    fn carried(&self, rule: u8) -> Option<(usize, Exact)> {
        let Scene { network, place } = self;
        match rule {
            1 | 4 => Some((*place, exact(network.arcs[place].lower.finite()?))),
            3 | 5 => {
                let at_place = network.arcs_at(*place);
                // Rule 5 drops the higher number unless the lower is a root arc.
                let which = if at_place.first()?.1.is_root() { 0 } else { at_place.len() - 1 };
                let (number, arc) = at_place[which];
                Some((number, &exact(network.supplies[place]) / &exact(arc.multiplier(*place))))
            }
            _ => None,
        }
    }

    /// What a step of the rule adds to the constant, exactly.
    fn carried_cost(&self, rule: u8) -> Option<Exact> {
        let (number, flow) = self.carried(rule)?;
        Some(&exact(self.network.arcs[&number].cost) * &flow)
    }

    /// Brings what a step adds to the constant just beyond the width, by the cost, if there is one that fits.
    fn raise_carried_cost(&mut self, draw: &mut Draw, rule: u8) {
        let carried = self.carried(rule).filter(|(_, flow)| !flow.is_zero() && flow.fraction().is_some());
        if let Some((number, flow)) = carried {
            if let Some(cost) = (&beyond(draw, &flow) / &flow).fraction() {
                let arc = self.network.arcs.get_mut(&number).expect("at the place");
                arc.cost = signed(cost, rule == 4 || draw.chance(50));
            }
        }
    }
}

/// Where the wide figures of a network come from.
#[derive(Clone, Copy)]
pub enum Source {
    /// Near the width by themselves.
    Edge,
    /// Two numbers whose product lies at the width.
    Factors(i64, i64),
    /// A number that numerators and denominators have in common.
    Common(i64),
    /// Any number of bits.
    Any,
}

/// What a figure is in the formulas of the rules.
#[derive(Clone, Copy, PartialEq, Eq)]
enum Role {
    /// The supply at the place, and at other nodes.
    Supply,
    Far,
    Constant,
    Cost,
    Limit,
    /// The multiplier at the place, or a; the one at the other end, or b; that of a root arc for rule 4.
    Here,
    There,
    Root,
    /// g of rule 7.
    Ratio,
}

use Role::{Constant, Cost, Far, Here, Limit, Ratio, Root, Supply, There};

/// Figures that meet in one formula of rules 1 to 6.
const MEETING: [&[Role]; 15] = [
    &[Constant],
    &[Cost, Limit],
    &[Cost, Supply],
    &[Here, Cost, Supply],
    &[Here, There],
    &[Here, Supply],
    &[There, Supply],
    &[Here, There, Supply],
    &[Here, Cost],
    &[Here, Limit],
    &[There, Limit],
    &[Here, Limit, Supply],
    &[Here, Root, Cost],
    &[There, Root, Cost],
    &[Here, There, Root],
];

/// How figures are drawn: of a hundred in these roles so many are wide, and of the others so many are plain.
#[derive(Clone, Copy)]
struct Taste {
    roles: &'static [Role],
    share: usize,
    plain: usize,
    source: Source,
}

/// Top over bottom; one where that doesn't fit.
pub fn over(top: i64, bottom: i64) -> Fraction {
    Fraction::fitted(top as i128, bottom as i128).unwrap_or(Fraction::ONE)
}

/// A number of 1 to 31 bits.
fn some_bits(draw: &mut Draw) -> i64 {
    let bits = draw.within(1, 31);
    draw.within(1, (1 << bits) - 1)
}

impl Source {
    pub fn new(draw: &mut Draw) -> Source {
        let factor = draw.within(1 << 15, 1 << 16);
        match draw.below(6) {
            0 => Source::Edge,
            1 | 2 => Source::Factors(factor, WIDEST / factor + draw.within(-1, 1)),
            3 | 4 => Source::Common(draw.of(&[6, 210, 30030, 32768, 46340, 46341, 65536, 65537, 9699690])),
            _ => Source::Any,
        }
    }

    pub fn figure(self, draw: &mut Draw) -> Fraction {
        let (s, t) = (draw.within(1, 3) * draw.sign(), draw.within(1, 3));
        match self {
            Source::Edge => wide(draw),
            Source::Factors(g, h) => {
                let (x, y) = draw.of(&[(g, 1), (h, 1), (1, g), (1, h), (g, h), (h, g), (g * s.abs(), t), (t, h)]);
                over(x * s.signum(), y)
            }
            Source::Common(g) => {
                let most = (WIDEST / g).min(70000);
                let (x, any) = (draw.within(1, most) * s.signum(), draw.within(1, 70000));
                let y = draw.of(&[1, t, any]);
                draw.of(&[over(g * x, y), over(g * s, t), over(y * s.signum(), g * x.abs()), over(s, g * t)])
            }
            Source::Any => {
                let (top, bottom) = (some_bits(draw), some_bits(draw));
                over(top * s.signum(), draw.of(&[1, bottom]))
            }
        }
    }
}

impl Taste {
    fn new(draw: &mut Draw, meeting: &[&'static [Role]]) -> Taste {
        let source = Source::new(draw);
        if draw.chance(30) {
            return Taste {
                roles: &[Supply, Far, Constant, Cost, Limit, Here, There, Root, Ratio],
                share: draw.of(&[0, 10, 20, 40, 80]),
                plain: 0,
                source,
            };
        }
        Taste { roles: draw.of(meeting), share: draw.of(&[70, 100]), plain: draw.of(&[30, 80]), source }
    }

    fn is_wide(&self, draw: &mut Draw, role: Role) -> bool {
        self.roles.contains(&role) && draw.chance(self.share)
    }

    fn figure(&self, draw: &mut Draw, role: Role) -> Fraction {
        if self.is_wide(draw, role) {
            self.source.figure(draw)
        } else if draw.chance(self.plain) {
            Fraction::ZERO
        } else {
            small(draw)
        }
    }

    /// A multiplier, positive.
    fn size(&self, draw: &mut Draw, role: Role) -> Fraction {
        if self.is_wide(draw, role) {
            return absolute(self.source.figure(draw));
        }
        if draw.chance(self.plain) {
            return Fraction::ONE;
        }
        let (x, y) = draw.of(&[(1, 1), (1, 1), (1, 1), (2, 1), (1, 2), (3, 1), (2, 3), (3, 2)]);
        over(x, y)
    }

    fn multiplier(&self, draw: &mut Draw, role: Role) -> Fraction {
        let size = self.size(draw, role);
        signed(size, draw.chance(50))
    }

    fn lower(&self, draw: &mut Draw) -> Bound {
        if draw.chance(30) {
            return Bound::AbsentLower;
        }
        Bound::Finite(self.figure(draw, Limit))
    }

    fn upper(&self, draw: &mut Draw) -> Bound {
        if draw.chance(30) {
            return OPEN;
        }
        Bound::Finite(self.figure(draw, Limit))
    }

    /// The figure that `rest` is taken from: now and then the difference or the figure lies at the width.
    fn aimed(&self, draw: &mut Draw, role: Role, rest: &Exact) -> Fraction {
        let figure = self.figure(draw, role);
        let width = at_the_width(draw);
        match draw.below(10) {
            0..=2 => (&width + rest).fraction().unwrap_or(figure),
            3 | 4 if width.is_negative() == rest.is_negative() => width.fraction().unwrap_or(figure),
            3 | 4 => (-&width).fraction().unwrap_or(figure),
            _ => figure,
        }
    }
}

/// A number that just fits, or just doesn't.
pub fn at_the_width(draw: &mut Draw) -> Exact {
    let top = Exact::whole((WIDEST + draw.within(-3, 2)) * draw.sign());
    let bottom = Exact::whole(draw.of(&[1, 1, 1, 2, 3, 65537]));
    if draw.chance(15) {
        return &bottom / &top;
    }
    &top / &bottom
}

/// A factor times a whole number, just beyond the width where the factor is above 1 in size.
pub fn beyond(draw: &mut Draw, factor: &Exact) -> Exact {
    let factor = factor.fraction().expect("a figure of a network");
    let times = WIDEST * factor.denominator() as i64 / (factor.numerator() as i64).abs() + draw.within(0, 1);
    &exact(factor) * &Exact::whole(times)
}

/// A figure that makes g times it lie at the width, or just beyond: a large one, or a small one.
pub fn wide_times(draw: &mut Draw, g: Fraction) -> Fraction {
    let (top, bottom) = (g.numerator().abs() as i64, g.denominator() as i64);
    if top > 1 && (bottom == 1 || draw.chance(70)) {
        over(WIDEST / top + draw.within(0, 2), 1)
    } else {
        over(1, WIDEST / bottom + draw.within(0, 2))
    }
}

fn absolute(figure: Fraction) -> Fraction {
    figure.max(figure.negated())
}

fn signed(size: Fraction, positive: bool) -> Fraction {
    if positive {
        size
    } else {
        size.negated()
    }
}

pub fn sign(figure: Fraction) -> Fraction {
    match (figure.is_positive(), figure.is_negative()) {
        (true, _) => Fraction::ONE,
        (_, true) => Fraction::ONE.negated(),
        _ => Fraction::ZERO,
    }
}

/// Gives an arc at node 1 the multiplier e there and o at its other end, if it has one.
fn set_multipliers(arc: &mut Arc, e: Fraction, o: Fraction) {
    if arc.is_root() {
        arc.at_from = e;
    } else if arc.from == 1 {
        (arc.at_from, arc.at_to) = (e, o);
    } else {
        (arc.at_from, arc.at_to) = (o, e);
    }
}

fn exact(figure: Fraction) -> Exact {
    Exact::from(figure)
}

/// A network in the making. The place is node 1 or arc 1. So many of the first arcs mostly keep their order.
struct Draft {
    taste: Taste,
    supplies: Vec<Fraction>,
    arcs: Vec<Arc>,
    in_order: usize,
}

impl Draft {
    fn nodes(&mut self, draw: &mut Draw, count: usize) {
        for _ in 0..count {
            let role = if self.supplies.is_empty() { Supply } else { Far };
            let supply = self.taste.figure(draw, role);
            self.supplies.push(supply);
        }
    }

    fn arc(&self, draw: &mut Draw, ends: [usize; 2], multipliers: [Fraction; 2], bounds: (Bound, Bound)) -> Arc {
        let cost = self.taste.figure(draw, Cost);
        let at_to = if ends[0] == ends[1] { Fraction::ZERO } else { multipliers[1] };
        Arc { from: ends[0], to: ends[1], cost, lower: bounds.0, upper: bounds.1, at_from: multipliers[0], at_to }
    }

    /// An arc at node 1 with the multiplier e there, in either direction; a root arc where `other` is 1.
    fn arc_at_place(&self, draw: &mut Draw, e: Fraction, other: usize, bounds: (Bound, Bound)) -> Arc {
        let o = self.taste.multiplier(draw, There);
        if other == 1 || draw.chance(50) {
            self.arc(draw, [1, other], [e, o], bounds)
        } else {
            self.arc(draw, [other, 1], [o, e], bounds)
        }
    }

    fn any_arc(&mut self, draw: &mut Draw, ends: [usize; 2]) {
        let multipliers = [self.taste.multiplier(draw, Here), self.taste.multiplier(draw, There)];
        let bounds = (self.taste.lower(draw), self.taste.upper(draw));
        let arc = self.arc(draw, ends, multipliers, bounds);
        self.arcs.push(arc);
    }

    /// Supplies from which the arc's multipliers × flow are taken.
    fn aim_supplies(&mut self, draw: &mut Draw, arc: &Arc, flow: Fraction) {
        for (node, multiplier) in arc.ends() {
            self.supplies[node - 1] = self.taste.aimed(draw, Far, &(&exact(multiplier) * &exact(flow)));
        }
    }

    /// Bounds for rule 1, mostly equal.
    fn closing_bounds(&self, draw: &mut Draw) -> (Bound, Bound) {
        let (x, y) = (self.taste.figure(draw, Limit), self.taste.figure(draw, Limit));
        let n = draw.within(WIDEST - 4000, WIDEST - 2);
        let (near, nearer) = (over(n, n + 1), over(n + 1, n + 2));
        match draw.below(20) {
            0 | 1 => (Bound::Finite(x.max(y)), Bound::Finite(x.min(y))),
            2 => (Bound::Finite(near), Bound::Finite(nearer)),
            3 => (Bound::Finite(nearer), Bound::Finite(near)),
            4 => (Bound::Finite(near.negated()), Bound::Finite(nearer.negated())),
            5 => (self.taste.lower(draw), OPEN),
            6 => (Bound::AbsentLower, self.taste.upper(draw)),
            _ => (Bound::Finite(x), Bound::Finite(x)),
        }
    }

    fn closed_arc(&mut self, draw: &mut Draw) {
        self.nodes(draw, 2);
        let bounds = self.closing_bounds(draw);
        let multipliers = [self.taste.multiplier(draw, Here), self.taste.multiplier(draw, There)];
        let other = if draw.chance(25) { 1 } else { 2 };
        let arc = self.arc(draw, [1, other], multipliers, bounds);
        self.arcs.push(arc);
        if let Some(flow) = bounds.0.finite() {
            self.aim_supplies(draw, &arc, flow);
        }
    }

    fn bare_node(&mut self, draw: &mut Draw) {
        self.nodes(draw, 1);
        if draw.chance(50) {
            self.supplies[0] = Fraction::ZERO;
        }
        if draw.chance(20) {
            self.any_arc(draw, [1, 1]);
        }
    }

    /// Bounds at, around or anywhere near a flow.
    fn bounds_around(&self, draw: &mut Draw, flow: Fraction) -> (Bound, Bound) {
        let n = flow.numerator();
        let beside = |n: i32| Fraction::fitted(n as i128, flow.denominator() as i128).unwrap_or(flow);
        let near = [flow, beside(n.saturating_sub(1)), beside(n.saturating_add(1)), self.taste.figure(draw, Limit)];
        let lower = if draw.chance(40) { Bound::AbsentLower } else { Bound::Finite(draw.of(&near)) };
        let upper = if draw.chance(40) { OPEN } else { Bound::Finite(draw.of(&near)) };
        (lower, upper)
    }

    fn single_arc(&mut self, draw: &mut Draw) {
        self.nodes(draw, 2);
        let e = self.taste.multiplier(draw, Here);
        if draw.chance(50) {
            // A supply that the multiplier divides.
            let times = exact(self.taste.figure(draw, Supply));
            self.supplies[0] = (&exact(e) * &times).fraction().unwrap_or(self.supplies[0]);
        }
        let flow = self.supplies[0].over(e);
        let bounds = self.bounds_around(draw, flow.unwrap_or(Fraction::ONE));
        let other = if draw.chance(20) { 1 } else { 2 };
        let arc = self.arc_at_place(draw, e, other, bounds);
        self.arcs.push(arc);
        if let (Some((other, o)), Some(flow)) = (arc.other(1), flow) {
            self.supplies[other - 1] = self.taste.aimed(draw, Far, &(&exact(o) * &exact(flow)));
        }
        if draw.chance(7) {
            self.any_arc(draw, [1, 1]);
        }
    }

    /// A root arc for rule 4 at the end of an arc with this multiplier there; now and then not as the rule wants it.
    fn beside(&self, draw: &mut Draw, node: usize, multiplier: Fraction) -> Arc {
        let sign = multiplier.is_positive() != draw.chance(6);
        let a = signed(if draw.chance(20) { absolute(multiplier) } else { self.taste.size(draw, Root) }, sign);
        let upper = if draw.chance(5) { self.taste.upper(draw) } else { OPEN };
        let bounds = (self.taste.lower(draw), upper);
        let mut arc = self.arc(draw, [node, node], [a, Fraction::ZERO], bounds);
        if draw.chance(20) {
            arc.cost = Fraction::ZERO;
        }
        arc
    }

    fn costly_arc(&mut self, draw: &mut Draw) {
        self.nodes(draw, 2);
        let bounds = (self.taste.lower(draw), self.taste.upper(draw));
        let flow = if draw.chance(75) { bounds.0.finite().unwrap_or(Fraction::ONE) } else { Fraction::ZERO };
        let lower = if draw.chance(6) { Bound::AbsentLower } else { Bound::Finite(flow) };
        let (a, b) = (self.taste.multiplier(draw, Here), self.taste.multiplier(draw, There));
        let other = if draw.chance(4) { 1 } else { 2 };
        let mut arc = self.arc(draw, [1, other], [a, b], (lower, bounds.1));
        let (first, mut second) = (self.beside(draw, 1, a), self.beside(draw, 2, b));
        let part = |root: &Arc, multiplier| &(&exact(root.cost) * &exact(multiplier)) / &exact(root.at_from);
        if draw.chance(15) {
            // The sum lies at the width.
            let rest = &at_the_width(draw) - &part(&first, a);
            second.cost = (&(&rest * &exact(second.at_from)) / &exact(b)).fraction().unwrap_or(second.cost);
        }
        let instead = &part(&first, a) + &part(&second, b);
        let step = exact(draw.of(&[Fraction::ZERO, Fraction::ONE, over(1, WIDEST), over(-1, WIDEST), over(1, 6)]));
        if draw.chance(50) {
            arc.cost = (&instead + &step).fraction().unwrap_or(arc.cost);
        } else if draw.chance(70) {
            arc.cost = absolute(self.taste.source.figure(draw));
        }
        self.arcs.extend([arc, first, second]);
        for (node, multiplier) in [(1, a), (2, b)] {
            if draw.chance(25) {
                let more = self.beside(draw, node, multiplier);
                self.arcs.push(more);
            }
        }
        self.aim_supplies(draw, &arc, flow);
    }

    fn two_arcs(&mut self, draw: &mut Draw) {
        self.nodes(draw, 3);
        let ends = match draw.below(20) {
            0..=3 => [1, 2],
            4..=7 => [2, 1],
            8 => [2, 2],
            9 => [1, 1],
            _ => [2, 3],
        };
        let sizes = [self.taste.size(draw, Here), self.taste.size(draw, Here)];
        let sizes = if draw.chance(20) { [sizes[0]; 2] } else { sizes };
        let [j, k] = [0, 1].map(|side| {
            let e = signed(sizes[side], draw.chance(50));
            let bounds = (self.taste.lower(draw), self.taste.upper(draw));
            self.arc_at_place(draw, e, ends[side], bounds)
        });
        self.arcs.extend([j, k]);
        self.aim_two_arcs(draw);
        if draw.chance(5) {
            self.any_arc(draw, [1, 1]);
        }
    }

    /// Now and then brings the supply of k's other end, j's cost or a bound's image to the width.
    fn aim_two_arcs(&mut self, draw: &mut Draw) {
        let (mut j, k) = (self.arcs[0], self.arcs[1]);
        let (ej, ek) = (exact(j.multiplier(1)), exact(k.multiplier(1)));
        if let (Bound::Finite(z), true) = (draw.of(&[k.lower, k.upper]), draw.chance(40)) {
            self.supplies[0] = self.taste.aimed(draw, Supply, &(&ek * &exact(z)));
        }
        if let (Some((end, ok)), true) = (k.other(1), draw.chance(60)) {
            let rest = &(&exact(ok) * &exact(self.supplies[0])) / &ek;
            self.supplies[end - 1] = self.taste.aimed(draw, Far, &rest);
        }
        if draw.chance(60) {
            j.cost = self.taste.aimed(draw, Cost, &(&(&exact(k.cost) * &ej) / &ek));
        }
        self.arcs[0] = j;
    }

    fn crossing(&mut self, draw: &mut Draw) {
        self.nodes(draw, 5);
        if draw.chance(95) {
            self.supplies[0] = Fraction::ZERO;
        }
        let ends = match draw.below(10) {
            0 => [draw.of(&[1, 2]), 2, 3, 3],
            1 => [2, 3, draw.of(&[2, 4]), 4],
            2 => [2, 2, 3, 3],
            3 => [2, 2, 3, 4],
            4 => [2, 3, 4, 4],
            _ => [2, 3, 4, 5],
        };
        let odd = draw.below(60);
        for (side, other) in ends.into_iter().enumerate() {
            let size = self.taste.size(draw, Here);
            let e = signed(size, (side > 1) != (odd == side));
            let lower = if draw.chance(2) { self.taste.lower(draw) } else { Bound::Finite(Fraction::ZERO) };
            let upper = if draw.chance(2) { self.taste.upper(draw) } else { OPEN };
            let mut arc = self.arc_at_place(draw, e, other, (lower, upper));
            if side > 1 {
                // The new cost of an N and this P.
                let n = self.arcs[draw.below(2)];
                let rest = &exact(n.cost) / &exact(n.multiplier(1));
                let cost = (&(&at_the_width(draw) + &rest) * &exact(e)).fraction();
                arc.cost = if draw.chance(30) { cost.unwrap_or(arc.cost) } else { arc.cost };
            }
            self.arcs.push(arc);
        }
        match odd {
            10 | 11 => drop(self.arcs.pop()),
            12 | 13 => self.any_arc(draw, [2, 1]),
            _ => {}
        }
    }

    /// Brings a product or quotient to the width, or just beyond, and the figure that meets it near the width, so
    /// that the result of both is small.
    fn balance(&mut self, draw: &mut Draw, rule: u8) {
        let g = draw.within(1 << 15, 1 << 16);
        let h = WIDEST / g + draw.within(0, 1);
        let s = draw.sign();
        let near = over((WIDEST - draw.within(0, 3)) * s, 1);
        let (whole, times) = (over(g, 1), over(h * s, 1));
        if rule == 3 || rule == 5 {
            self.supplies[0] = whole;
        }
        for arc in self.arcs.iter_mut() {
            match rule {
                1 => {
                    (arc.lower, arc.upper) = (Bound::Finite(whole), Bound::Finite(whole));
                    set_multipliers(arc, times, arc.at_to);
                    self.supplies[arc.from - 1] = near;
                }
                3 | 5 => {
                    set_multipliers(arc, Fraction::ONE, times);
                    (arc.lower, arc.upper) = (arc.lower.min(Bound::Finite(whole)), OPEN);
                    if let Some((other, _)) = arc.other(1) {
                        self.supplies[other - 1] = near;
                    }
                }
                6 => {
                    let (e, o) = (arc.multiplier(1), arc.other(1).map_or(Fraction::ZERO, |(_, o)| sign(o)));
                    let negative = e.is_negative();
                    arc.cost = if negative { over(g * s, 1) } else { near.negated() };
                    set_multipliers(arc, if negative { over(-1, h) } else { Fraction::ONE }, o);
                }
                _ => {}
            }
        }
    }

    /// More nodes and arcs; they hardly ever touch a node that is the place.
    fn surround(&mut self, draw: &mut Draw, place_is_arc: bool) {
        let count = draw.below(NODES + 1 - self.supplies.len());
        self.nodes(draw, count);
        let first = if place_is_arc || draw.chance(3) { 1 } else { 2 };
        let last = self.supplies.len();
        if first <= last {
            for _ in 0..draw.below(ARCS + 1 - self.arcs.len()).min(3) {
                let mut end = || draw.within(first as i64, last as i64) as usize;
                let ends = [end(), end()];
                self.any_arc(draw, ends);
            }
        }
    }

    /// Nodes and arcs under random numbers.
    fn stirred(self, draw: &mut Draw, place_is_arc: bool) -> Scene {
        let mut numbers: Vec<usize> = (1..=self.supplies.len()).collect();
        let mut places: Vec<usize> = (1..=self.arcs.len()).collect();
        draw.shuffle(&mut numbers);
        draw.shuffle(&mut places);
        if self.in_order > 0 && draw.chance(95) {
            places[..self.in_order].sort();
        }
        let moved = |arc: Arc| Arc { from: numbers[arc.from - 1], to: numbers[arc.to - 1], ..arc };
        let place = if place_is_arc { places[0] } else { numbers[0] };
        let network = Network {
            constant: Fraction::ZERO,
            supplies: numbers.iter().copied().zip(self.supplies).collect(),
            arcs: places.into_iter().zip(self.arcs.into_iter().map(moved)).collect(),
        };
        Scene { network, place }
    }
}

#[cfg(test)]
mod tests {
    use super::*;
    use crate::reduce::RULES;
    use crate::rules::{apart_from_constant, try_rule, Found};

    /// Rules 1, 3, 4 and 5 often stop for their constant alone: for the sum, which is too wide, or for an operation
    /// before it although the sum would fit. Where they don't stop, the constant is the exact sum; rules 2, 6 and 7
    /// leave it alone.
    #[test]
    fn constants() {
        let mut draw = Draw::new(12);
        for rule in 1..=RULES {
            let (mut steps, mut wide_sums, mut before_sum) = (0, 0, 0);
            for _ in 0..5000 {
                let scene = scene(&mut draw, rule);
                let Scene { network, place } = &scene;
                let Some(Found::Step(_)) = apart_from_constant(network, rule, *place) else {
                    assert_eq!(try_rule(network, rule, *place), apart_from_constant(network, rule, *place));
                    continue;
                };
                let carried = scene.carried_cost(rule).unwrap_or(Exact::zero());
                let sum = (&exact(network.constant) + &carried).fraction();
                match (try_rule(network, rule, *place), sum) {
                    (Some(Found::Step(change)), sum) => {
                        assert_eq!(sum, Some(change.constant));
                        steps += 1;
                    }
                    (None, None) => wide_sums += 1,
                    (None, Some(_)) => before_sum += 1,
                    found => panic!("{found:?}"),
                }
            }
            if matches!(rule, 2 | 6 | 7) {
                assert_eq!((wide_sums, before_sum), (0, 0));
            } else {
                assert!(8 * wide_sums > steps && before_sum > 4, "rule {rule}: {steps} {wide_sums} {before_sum}");
            }
        }
    }
}
