//! Scenes for rule 7: arc 1, and others that are a multiple of it, or nearly.

use super::*;

/// Figures that meet in rule 7.
pub const MEETING: [&[Role]; 6] =
    [&[Limit], &[Ratio], &[Ratio, Limit], &[Here, There, Cost], &[Here, There, Cost, Ratio], &[Here, There, Limit]];

/// What j's figures and k's are multiples of: g is `of_k` ÷ `of_j`.
struct Factors {
    of_j: Fraction,
    of_k: Fraction,
}

impl Factors {
    /// j's figures are any.
    fn plain(of_k: Fraction) -> Factors {
        Factors { of_j: Fraction::ONE, of_k }
    }

    /// g just fits, or just doesn't.
    fn steep(draw: &mut Draw) -> Factors {
        let x = draw.within(1 << 15, 1 << 16);
        let y = WIDEST / x + draw.within(-1, 2);
        let (of_j, of_k) = draw.of(&[(over(1, x), over(y, 1)), (over(x, 1), over(1, y))]);
        Factors { of_j, of_k: signed(of_k, draw.chance(50)) }
    }

    fn g(&self) -> Exact {
        &exact(self.of_k) / &exact(self.of_j)
    }

    /// A figure of j that k can have g times: made of the given one if that fits, and of its sign otherwise.
    fn figure_of_j(&self, figure: Fraction) -> Fraction {
        let of_j = self.of_j.times(figure).filter(|_| self.of_k.times(figure).is_some());
        of_j.unwrap_or(signed(self.of_j, figure.is_positive()))
    }
}

/// k's image: its two ends exactly, which need not fit; none where it goes on.
type Image = [Option<Exact>; 2];

impl Draft {
    pub fn parallel_arcs(&mut self, draw: &mut Draw) {
        self.nodes(draw, 2);
        let other = if draw.chance(25) { 1 } else { 2 };
        self.any_arc(draw, [1, other]);
        let factors = match draw.below(6) {
            0 => Factors::steep(draw),
            _ => Factors::plain(self.ratio(draw)),
        };
        self.set_proportional(&factors);
        self.set_bounds(draw);
        self.add_multiple(draw, &factors.g());
        for _ in 0..draw.of(&[0, 0, 0, 1, 1, 2]) {
            let ratio = self.ratio(draw);
            self.add_multiple(draw, &exact(ratio));
        }
        self.in_order = self.arcs.len();
        self.aim_sums(draw);
    }

    fn ratio(&self, draw: &mut Draw) -> Fraction {
        let (top, bottom) = draw.of(&[(1, 1), (2, 1), (3, 1), (4, 1), (1, 2), (2, 3), (3, 2), (1, 6)]);
        match draw.below(2) {
            0 => over(top * draw.sign(), bottom),
            _ => self.taste.multiplier(draw, Ratio),
        }
    }

    /// Gives j figures that k can have g times.
    fn set_proportional(&mut self, factors: &Factors) {
        let j = &mut self.arcs[0];
        for figure in [&mut j.at_from, &mut j.at_to, &mut j.cost] {
            if !figure.is_zero() {
                *figure = factors.figure_of_j(*figure);
            }
        }
    }

    /// Bounds for j, the lower one mostly finite and not above the other.
    fn set_bounds(&mut self, draw: &mut Draw) {
        let [lower, upper] = self.image(draw).map(|end| end.and_then(|end| end.fraction()));
        self.arcs[0].lower = lower.map_or(Bound::AbsentLower, Bound::Finite);
        self.arcs[0].upper = upper.map_or(OPEN, Bound::Finite);
    }

    /// Ends for an image or for j: the lower one mostly finite and not above the other.
    fn image(&self, draw: &mut Draw) -> Image {
        let ends = [self.taste.figure(draw, Limit), self.taste.figure(draw, Limit)];
        let [x, y] = ends;
        let [low, high] = if draw.chance(90) { [x.min(y), x.max(y)] } else { ends };
        [Some(exact(low)).filter(|_| draw.chance(93)), Some(exact(high)).filter(|_| draw.chance(60))]
    }

    /// Brings an end of k's image to the width, or just beyond; then j's bound often makes their sum small again.
    fn aim_image(&mut self, draw: &mut Draw, g: &Exact, image: &mut Image) {
        let which = draw.below(2);
        let end = g.fraction().map_or(at_the_width(draw), |fraction| g * &exact(wide_times(draw, fraction)));
        // The other end stays on its side.
        let end = if end.is_negative() == (which == 0) { end } else { -&end };
        image[which] = Some(end);
        if draw.chance(60) {
            let near = Bound::Finite(over((WIDEST - draw.within(0, 3)) * if which == 0 { 1 } else { -1 }, 1));
            let j = &mut self.arcs[0];
            match which {
                0 => (j.lower, j.upper) = (near, OPEN),
                _ => j.upper = if draw.chance(60) { near } else { OPEN },
            }
        }
    }

    /// An arc that is g times j, or nearly.
    fn add_multiple(&mut self, draw: &mut Draw, g: &Exact) {
        let j = self.arcs[0];
        let times = |figure: Fraction| (g * &exact(figure)).fraction();
        let (Some(cost), Some(at_from), Some(at_to)) = (times(j.cost), times(j.at_from), times(j.at_to)) else {
            return self.add_multiple(draw, &Exact::whole(if g.is_negative() { -1 } else { 1 }));
        };
        let mut image = self.image(draw);
        if draw.chance(40) {
            self.aim_image(draw, g, &mut image);
        }
        let [low, high] = image.map(|end| end.map(|end| (&end / g).fraction().unwrap_or(Fraction::ZERO)));
        let (lower, upper) = if g.is_negative() { (high, low) } else { (low, high) };
        let lower = lower.map_or(Bound::AbsentLower, Bound::Finite);
        let mut k = Arc { cost, lower, upper: upper.map_or(OPEN, Bound::Finite), at_from, at_to, ..j };
        if draw.chance(15) {
            spoil(draw, &mut k);
        }
        self.arcs.push(k);
    }

    /// Now and then brings the sum of j's bound and an end of k's image to the width.
    fn aim_sums(&mut self, draw: &mut Draw) {
        let k = self.arcs[1 + draw.below(self.arcs.len() - 1)];
        let j = &mut self.arcs[0];
        let g = &exact(k.at_from) / &exact(j.at_from);
        let ends = if g.is_negative() { [k.upper, k.lower] } else { [k.lower, k.upper] };
        let ends = ends.map(|end| end.finite().map(|end| &exact(end) * &g));
        if let (Some(low), true) = (&ends[0], draw.chance(20)) {
            let bound = (&at_the_width(draw) - low).fraction();
            j.lower = bound.map_or(j.lower, Bound::Finite);
        }
        if let (Some(high), true) = (&ends[1], draw.chance(20)) {
            let bound = (&at_the_width(draw) - high).fraction();
            j.upper = bound.map_or(j.upper, Bound::Finite);
        }
    }
}

/// Makes an arc that is a multiple of another no multiple of it, or turns it around.
fn spoil(draw: &mut Draw, arc: &mut Arc) {
    let little = over(draw.sign(), draw.of(&[1, 1, 2, 65537, WIDEST]));
    let beside = |figure: Fraction| figure.plus(little).unwrap_or(figure.negated());
    match draw.below(8) {
        0 | 1 => arc.cost = beside(arc.cost),
        2 => arc.cost = if arc.cost.is_zero() { little } else { Fraction::ZERO },
        3 if !arc.is_root() => arc.at_to = arc.at_to.negated(),
        4 if !arc.is_root() && !beside(arc.at_to).is_zero() => arc.at_to = beside(arc.at_to),
        5 if !beside(arc.at_from).is_zero() => arc.at_from = beside(arc.at_from),
        _ if arc.is_root() => (arc.from, arc.to) = (2, 2),
        _ => {
            (arc.from, arc.to) = (arc.to, arc.from);
            (arc.at_from, arc.at_to) = (arc.at_to, arc.at_from);
        }
    }
}
