//! Round trips for comparing restoring programs: a sample network, its reduction, an optimal pair of the
//! reduced network by the exact solver, and texts made of them, whole or damaged.

use crate::draw::Draw;
use crate::exact::Exact;
use crate::fraction::{Bound, Fraction};
use crate::network::{Network, Refusal};
use crate::optimality::Pair;
use crate::parallel_cases::ByRule;
use crate::reduce::{reduce, End, Reduction, RULES};
use crate::restore::{go_back, price_by, Restored};
use crate::rules::Back;
use crate::sample_texts::{damage_network, drop_constant, improper_figure, odd_text, put, text_of, KINDS};
use crate::samples::{network, wide, Shape};
use crate::solve::{is_optimal, solve, Solution};
use crate::step_pairs::Exactly;

/// A sample network, its reduction and an optimal pair of the reduced network, if there is one that fits.
pub struct Trip {
    pub original: Network,
    pub reduction: Reduction,
    pub pair: Option<Pair>,
}

/// The words of a restoring text.
#[derive(Clone)]
pub struct Words {
    pub network: Vec<i32>,
    pub stack: Vec<i32>,
    pub pair: Vec<i32>,
}

impl Words {
    pub fn all(&self) -> Vec<i32> {
        [&self.network[..], &self.stack[..], &self.pair[..]].concat()
    }
}

/// A text, the trip that it came from, and whether it has all of that trip unchanged.
pub struct Sample {
    pub text: Vec<u8>,
    pub trip: Trip,
    pub whole: bool,
}

/// An optimal pair of a network, if there is one that fits: a vertex or the middle of two.
pub fn optimal_pair(draw: &mut Draw, network: &Network) -> Option<Pair> {
    let Solution::Optimal(first) = solve(network, false) else {
        return None;
    };
    let optimum = match (draw.below(3), solve(network, true)) {
        (1, Solution::Optimal(second)) => second,
        (2, Solution::Optimal(second)) => first.middle(&second),
        _ => first,
    };
    optimum.pair(network)
}

impl Trip {
    fn new(draw: &mut Draw, shape: Shape) -> Trip {
        let original = network(draw, shape);
        Trip::of(draw, original)
    }

    pub fn of(draw: &mut Draw, original: Network) -> Trip {
        let reduction = reduce(&original);
        let mut trip = Trip { original, reduction, pair: None };
        trip.pair = trip.reduced().and_then(|reduced| optimal_pair(draw, reduced));
        trip
    }

    /// A trip with a pair of zeros.
    pub fn at_rest(original: Network) -> Trip {
        let reduction = reduce(&original);
        let mut trip = Trip { original, reduction, pair: None };
        trip.pair = trip.reduced().map(|reduced| Pair {
            prices: reduced.supplies.keys().map(|node| (*node, Fraction::ZERO)).collect(),
            flows: reduced.arcs.keys().map(|arc| (*arc, Fraction::ZERO)).collect(),
        });
        trip
    }

    /// A trip with a pair, mostly with arcs left, if one comes soon.
    fn with_pair(draw: &mut Draw, shape: Shape) -> Trip {
        let mut trip = Trip::new(draw, shape);
        for _ in 0..8 {
            if trip.pair.is_some() && (!trip.is_bare() || draw.chance(15)) {
                break;
            }
            trip = Trip::new(draw, shape);
        }
        trip
    }

    pub fn reduced(&self) -> Option<&Network> {
        match &self.reduction.end {
            End::Reduced(network) => Some(network),
            End::NoFlow { .. } => None,
        }
    }

    fn is_bare(&self) -> bool {
        self.reduced().is_some_and(|network| network.arcs.is_empty())
    }

    /// The words; without a pair they have one of zeros.
    pub fn words(&self) -> Words {
        self.words_with(self.pair.clone())
    }

    fn words_with(&self, pair: Option<Pair>) -> Words {
        let zeros = |network: &Network| Pair {
            prices: network.supplies.keys().map(|&node| (node, Fraction::ZERO)).collect(),
            flows: network.arcs.keys().map(|&arc| (arc, Fraction::ZERO)).collect(),
        };
        let pair = pair.or(self.reduced().map(zeros)).unwrap_or_default();
        Words { network: self.original.record().words(), stack: self.reduction.stack(), pair: pair.record().words() }
    }

    /// "No flow" and a reduced network that has none mean that the original has none; likewise for networks
    /// without an optimum. None, or what is wrong.
    pub fn complaint(&self) -> Option<String> {
        let before = solve(&self.original, false);
        let after = self.reduced().map_or(Solution::Infeasible, |reduced| solve(reduced, true));
        let same_kind = std::mem::discriminant(&before) == std::mem::discriminant(&after);
        (!same_kind).then(|| format!("original {before:?}, reduced {after:?}"))
    }

    /// A whole trip with a pair is restored to an optimum of the original, unless some figure doesn't fit.
    pub fn complaint_about(&self, answer: &Result<Restored, Refusal>) -> Option<String> {
        match answer {
            Err(Refusal(9 | 13)) => None,
            Err(refusal) => Some(format!("optimal pair, {refusal:?}")),
            Ok(restored) => {
                let value = Exact::from(restored.value);
                let best = matches!(solve(&self.original, false), Solution::Optimal(best) if best.value == value);
                let sound = best && is_optimal(&self.original, &restored.pair);
                (!sound).then(|| format!("restored pair isn't optimal: {restored:?}"))
            }
        }
    }
}

/// How often each part of the way back was gone.
#[derive(Default)]
pub struct Ways {
    pub steps: ByRule,
    pub second_prices: usize,
    pub different_prices: usize,
    /// Rule 7: how often j took its upper bound, and how often what is left of the flow, for g > 0 and for g < 0.
    pub capped: [usize; 2],
    pub uncapped: [usize; 2],
    /// How often a step's figures didn't fit; 0 stands for the original's value.
    pub misfits: ByRule,
}

impl Ways {
    /// Counts a trip that ended in 13.
    pub fn count_misfit(&mut self, trip: &Trip) {
        let mut pair = trip.pair.clone().expect("it was tested");
        let mut steps = trip.reduction.steps.iter().rev();
        let stopped = steps.find(|step| go_back(&step.back, &mut pair).is_none());
        self.misfits[stopped.map_or(0, |step| step.rule as usize)] += 1;
    }

    /// Counts a trip whose pair was restored.
    pub fn count(&mut self, trip: &Trip, restored: &Restored) {
        let mut pair = trip.pair.clone().expect("it was restored");
        for step in trip.reduction.steps.iter().rev() {
            self.steps[step.rule as usize] += 1;
            match &step.back {
                Back::TwoArcs { node, gone, .. } => {
                    let first = price_by(gone, *node, &restored.pair);
                    self.second_prices += (first != restored.pair.prices.get(node).copied()) as usize;
                }
                Back::Crossing { node, negative, .. } => {
                    let [first, second] = negative.each_ref().map(|arc| price_by(arc, *node, &restored.pair));
                    self.different_prices += (first != second) as usize;
                }
                Back::ParallelArcs { g, .. } => {
                    let capped = Exactly::new(&step.back, &pair).is_upper_smaller;
                    let counts = if capped { &mut self.capped } else { &mut self.uncapped };
                    counts[g.is_negative() as usize] += 1;
                }
                _ => {}
            }
            go_back(&step.back, &mut pair).expect("it was restored");
        }
    }
}

/// The parts of a whole network's pair that belong to what is left of it; an arc that rule 7 merged has the flow of both.
/// If the pair is optimal, this often is, too.
pub fn survivors(reduction: &Reduction, pair: &Pair) -> Pair {
    let End::Reduced(kept) = &reduction.end else {
        return Pair::default();
    };
    let mut left = pair.clone();
    for step in &reduction.steps {
        if let Back::ParallelArcs { kept: (number, _), gone, g, .. } = &step.back {
            let both = g.times(left.flows[gone]).and_then(|part| left.flows[number].plus(part));
            left.flows.extend(both.map(|flow| (*number, flow)));
        }
    }
    left.prices.retain(|node, _| kept.supplies.contains_key(node));
    left.flows.retain(|arc, _| kept.arcs.contains_key(arc));
    left
}

/// The network with some costs changed: its optimum is feasible in the network itself, and mostly not optimal.
fn other_costs(draw: &mut Draw, network: &Network) -> Network {
    let mut changed = network.clone();
    for arc in changed.arcs.values_mut() {
        if draw.chance(50) {
            arc.cost = Fraction::whole(draw.within(-3, 9)).expect("fits");
        }
    }
    changed
}

/// The network with some bounds loosened: its optimum is balanced, and often outside the bounds.
fn looser_bounds(draw: &mut Draw, network: &Network) -> Network {
    let mut changed = network.clone();
    let amount = Fraction::whole(draw.within(1, 5)).expect("fits");
    for arc in changed.arcs.values_mut() {
        if draw.chance(60) {
            arc.lower = arc.lower.finite().and_then(|l| l.minus(amount)).map_or(Bound::AbsentLower, Bound::Finite);
            arc.upper = arc.upper.finite().and_then(|u| u.plus(amount)).map_or(Bound::AbsentUpper, Bound::Finite);
        }
    }
    changed
}

/// A pair that is optimal in a changed network.
pub fn nearly_right_pair(draw: &mut Draw, trip: &Trip) -> Option<Pair> {
    let reduced = trip.reduced()?;
    let changed = if draw.chance(50) { other_costs(draw, reduced) } else { looser_bounds(draw, reduced) };
    match solve(&changed, draw.chance(50)) {
        Solution::Optimal(optimum) => optimum.pair(reduced),
        _ => None,
    }
}

/// Changes one price or flow a little, or to something near the width.
pub fn change_pair_figure(draw: &mut Draw, pair: &mut [i32], widely: bool) {
    let count = pair.len().saturating_sub(2) / 2;
    if count == 0 {
        return;
    }
    let position = draw.below(count);
    let now = Fraction::read(pair[2 + position], pair[2 + count + position]);
    let little = Fraction::fitted(draw.sign() as i128, draw.of(&[1, 2, 2147483647])).expect("fits");
    let figure = match now {
        Some(figure) if !widely => figure.plus(little).unwrap_or(little),
        _ => wide(draw),
    };
    put(pair, position, figure.words());
}

pub fn damage_pair_record(draw: &mut Draw, pair: &mut Vec<i32>) {
    let count = pair.len().saturating_sub(2) / 2;
    match draw.below(8) {
        0 => pair.push(draw.within(0, 1) as i32),
        1 => {
            pair.pop();
        }
        2 if !pair.is_empty() => pair[0] += draw.sign() as i32,
        3 if pair.len() > 1 => pair[1] += draw.sign() as i32,
        4 if pair.len() > 1 => pair.swap(0, 1),
        5 => pair.clear(),
        _ if count > 0 => {
            let position = draw.below(count);
            let figure = improper_figure(draw);
            put(pair, position, figure);
        }
        _ => pair.extend([0, 1]),
    }
}

fn damage_stack(draw: &mut Draw, words: &mut Words) {
    let stack = &mut words.stack;
    let steps = (stack.len() - 1) / 2;
    match draw.below(9) {
        0 => stack[0] = stack[0].wrapping_add(draw.sign() as i32),
        1 => stack[0] = draw.of(&[-1, 128, 129, 2147483647, -2147483648, 0, 130]),
        2 | 3 if steps > 0 => {
            let position = 1 + draw.below(2 * steps);
            stack[position] = stack[position].wrapping_add(draw.of(&[1, -1, 2, 256, 65536, -65536]));
        }
        4 if steps > 1 => {
            let first = draw.below(steps - 1);
            stack.swap(1 + first, 2 + first);
            stack.swap(1 + steps + first, 2 + steps + first);
        }
        5 if steps > 0 => {
            stack.remove(2 * steps);
            stack.remove(steps);
            stack[0] = stack[0].wrapping_sub(1);
        }
        6 => {
            stack.insert(1 + steps, draw.within(1, RULES as i64) as i32);
            stack.push(1);
            stack[0] = stack[0].wrapping_add(1);
        }
        7 if stack.len() > 1 => {
            stack.pop();
        }
        _ => stack.push(0),
    }
}

fn damage_original(draw: &mut Draw, words: &mut Words) {
    match draw.below(10) {
        0 => drop_constant(&mut words.network),
        1 | 2 => {
            let position = draw.below(2);
            words.network[position] = draw.of(&[-1, 0, 1, 32, 33, 96, 97, 2147483647, -2147483648]);
        }
        _ => damage_network(draw, &mut words.network),
    }
}

/// Damages the original, the stack or the pair.
pub fn damage_any(draw: &mut Draw, words: &mut Words) {
    match draw.below(5) {
        0 => damage_original(draw, words),
        1 => damage_stack(draw, words),
        2 => damage_pair_record(draw, &mut words.pair),
        3 => change_pair_figure(draw, &mut words.pair, false),
        _ => change_pair_figure(draw, &mut words.pair, true),
    }
}

/// A whole round trip.
fn whole(draw: &mut Draw, shape: Shape) -> Sample {
    let trip = Trip::with_pair(draw, shape);
    let text = text_of(draw, &trip.words().all());
    Sample { text, whole: true, trip }
}

/// A round trip with its words damaged.
fn damaged(draw: &mut Draw, damage: impl FnOnce(&mut Draw, &mut Words)) -> Sample {
    let shape = draw.of(&[Shape::Small, Shape::Small, Shape::Small, Shape::Family]);
    let trip = Trip::with_pair(draw, shape);
    let mut words = trip.words();
    damage(draw, &mut words);
    Sample { text: text_of(draw, &words.all()), whole: false, trip }
}

/// A round trip whose text ends early, at a word or a byte.
fn cut(draw: &mut Draw) -> Sample {
    let trip = Trip::with_pair(draw, Shape::Small);
    let words = trip.words();
    let mut all = words.all();
    let which = draw.below(3);
    match which {
        0 => all.truncate(draw.below(all.len() + 1)),
        1 => all.truncate(words.network.len() + draw.below(words.stack.len() + 1)),
        _ => {}
    }
    let mut text = text_of(draw, &all);
    if which == 2 {
        text.truncate(draw.below(text.len() + 1));
    }
    Sample { text, whole: false, trip }
}

/// A round trip with a pair that is nearly right.
fn nearly_right(draw: &mut Draw) -> Sample {
    let trip = Trip::with_pair(draw, Shape::Small);
    let pair = nearly_right_pair(draw, &trip);
    let text = text_of(draw, &trip.words_with(pair).all());
    Sample { text, whole: false, trip }
}

/// A network that may have no flow, with any stack and pair.
fn spoilt(draw: &mut Draw) -> Sample {
    let trip = Trip::new(draw, Shape::Spoilt);
    let mut words = trip.words();
    if draw.chance(50) {
        damage_any(draw, &mut words);
    }
    Sample { text: text_of(draw, &words.all()), whole: false, trip }
}

/// An odd text around a round trip's words.
fn odd(draw: &mut Draw, number: usize) -> Sample {
    let trip = Trip::with_pair(draw, Shape::Small);
    let text = odd_text(draw, number, &trip.words().all());
    Sample { text, whole: false, trip }
}

/// The n-th text for the restoring program.
pub fn sample(draw: &mut Draw, number: usize) -> Sample {
    match number % KINDS {
        0 => odd(draw, number / KINDS),
        1 => cut(draw),
        2 => damaged(draw, damage_original),
        3 => damaged(draw, damage_stack),
        4 => damaged(draw, |draw, words| damage_pair_record(draw, &mut words.pair)),
        5 => damaged(draw, |draw, words| change_pair_figure(draw, &mut words.pair, false)),
        6 | 7 => nearly_right(draw),
        8 => damaged(draw, |draw, words| change_pair_figure(draw, &mut words.pair, true)),
        9 => damaged(draw, |draw, words| {
            damage_any(draw, words);
            damage_any(draw, words);
        }),
        10 => spoilt(draw),
        11 if number % (3 * KINDS) == 11 => whole(draw, Shape::Full),
        11 => whole(draw, Shape::LongRun),
        12 => whole(draw, Shape::Wide),
        13 | 14 => whole(draw, Shape::Family),
        15 | 18 => whole(draw, Shape::HeavyCrossing),
        16 | 17 => whole(draw, Shape::SteepChain),
        20 | 21 => whole(draw, Shape::Doubled),
        _ => whole(draw, Shape::Small),
    }
}

#[cfg(test)]
mod tests {
    use super::*;
    use crate::pairs::case;
    use crate::programs::read_and_restore;
    use crate::restore::restore;

    /// Whatever is restored has the same value as before, and whole trips end in an optimum of the original. Each rule is
    /// undone often, rule 7 in both ways and with g of both signs.
    #[test]
    fn restored_trips() {
        let mut draw = Draw::new(14);
        let (mut restored, mut carried, mut ways) = (0, 0, Ways::default());
        for number in 0..1700 {
            let Sample { text, trip, whole } = sample(&mut draw, number);
            let answer = read_and_restore(&text);
            if let Ok(answer) = &answer {
                assert_eq!(answer.complaint(), None);
                restored += 1;
            }
            if whole && trip.pair.is_some() {
                assert_eq!(trip.complaint_about(&answer), None);
                let reduced = trip.reduced().expect("it has a pair");
                carried += (answer.is_ok() && reduced.constant != trip.original.constant) as usize;
                match &answer {
                    Ok(restored) => ways.count(&trip, restored),
                    Err(Refusal(13)) => ways.count_misfit(&trip),
                    _ => {}
                }
            }
        }
        assert!(restored > 300 && carried > 100, "{restored}, and {carried} trips with cost carried");
        assert!(ways.steps[1..].iter().all(|&count| count > 50), "{:?}", ways.steps);
        assert!(
            ways.capped.iter().chain(&ways.uncapped).all(|&count| count > 20),
            "{:?} {:?}",
            ways.capped,
            ways.uncapped
        );
        assert!(ways.misfits[7] > 4, "{:?}", ways.misfits);
    }

    /// What is left of a pair that is optimal for the whole network is often restored through rule 7, and then optimal.
    #[test]
    fn survivors_are_restored() {
        let mut draw = Draw::new(19);
        let mut counts = [0; 2];
        for _ in 0..20000 {
            let whole = case(&mut draw);
            let reduction = reduce(&whole.network);
            if !reduction.rules().contains(&7) || !is_optimal(&whole.network, &whole.pair) {
                continue;
            }
            let left = survivors(&reduction, &whole.pair).record().words();
            if let Ok(restored) = restore(&whole.network.record().words(), &reduction.stack(), &left) {
                assert!(is_optimal(&whole.network, &restored.pair));
                counts[(restored.pair != whole.pair) as usize] += 1;
            }
        }
        assert!(counts.iter().all(|&count| count > 30), "{counts:?}");
    }
}
