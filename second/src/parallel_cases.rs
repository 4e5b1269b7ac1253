//! Rule 7 for the tallies: what it meets at each later arc of a place, in exact numbers, with the operations that don't fit;
//! and what its steps are in a whole reduction.

use crate::exact::Exact;
use crate::fraction::Fraction;
use crate::network::{Arc, Network};
use crate::reduce::{End, Reduction, RULES};
use crate::rules::Back;
use std::collections::BTreeMap;

/// What an arc k is to an arc j.
#[derive(Clone, PartialEq, Eq, Debug)]
pub enum Meets {
    /// Not the same from and to.
    OtherEnds,
    /// Something keeps the rule from k, whatever the width.
    Unlike(&'static str),
    /// Only these operations can: those with results that don't fit, often none.
    Parallel(Vec<&'static str>),
}

fn exact(figure: Fraction) -> Exact {
    Exact::from(figure)
}

/// The same arc with its ends exchanged.
fn turned(arc: &Arc) -> Arc {
    Arc { from: arc.to, to: arc.from, at_from: arc.at_to, at_to: arc.at_from, ..*arc }
}

/// What k is to j.
pub fn meets(j: &Arc, k: &Arc) -> Meets {
    if !j.is_root() && (j.from, j.to) == (k.to, k.from) && unlike(j, &turned(k)).is_none() {
        return Meets::Unlike("the opposite direction");
    }
    if (j.from, j.to) != (k.from, k.to) {
        return Meets::OtherEnds;
    }
    match unlike(j, k) {
        Some(what) => Meets::Unlike(what),
        None => parallel(j, k),
    }
}

/// What isn't g times what j has; none where k is a multiple of j.
fn unlike(j: &Arc, k: &Arc) -> Option<&'static str> {
    let g = &exact(k.at_from) / &exact(j.at_from);
    let b_differs = &g * &exact(j.at_to) != exact(k.at_to);
    let c_differs = &g * &exact(j.cost) != exact(k.cost);
    match (b_differs, c_differs) {
        (false, false) => None,
        (true, true) => Some("b and c"),
        (true, false) => Some("b alone"),
        _ if j.cost.is_zero() => Some("c alone, 0 for j"),
        _ if k.cost.is_zero() => Some("c alone, 0 for k"),
        _ => Some("c alone"),
    }
}

/// The same where k is a multiple of j.
fn parallel(j: &Arc, k: &Arc) -> Meets {
    let g = &exact(k.at_from) / &exact(j.at_from);
    let (low, high) = if g.is_negative() { (k.upper, k.lower) } else { (k.lower, k.upper) };
    let (Some(lower), Some(low)) = (j.lower.finite(), low.finite()) else {
        let of_j = j.lower.finite().is_none();
        return Meets::Unlike(if of_j { "none below for j" } else { "none below for the image" });
    };
    let low = &exact(low) * &g;
    let high = high.finite().map(|high| &exact(high) * &g);
    let lower_sum = &exact(lower) + &low;
    let upper_sum = j.upper.finite().zip(high.as_ref()).map(|(upper, high)| &exact(upper) + high);
    let is_alone = j.upper.finite().is_none();
    let operations = [
        ("g", Some(g)),
        ("the lower end", Some(low)),
        (if is_alone { "the upper end, j having none above," } else { "the upper end" }, high),
        ("the sum of lower bounds", Some(lower_sum)),
        ("the sum of upper bounds", upper_sum),
    ];
    let misfits = operations.iter().filter(|(_, result)| result.as_ref().is_some_and(|it| it.fraction().is_none()));
    Meets::Parallel(misfits.map(|(name, _)| *name).collect())
}

/// What rule 7 meets at a place: the later arcs upward, up to the first that it merges.
pub fn met(network: &Network, place: usize) -> Vec<(usize, Meets)> {
    let mut met = vec![];
    if let Some(j) = network.arcs.get(&place) {
        for (&number, k) in network.arcs.range(place + 1..) {
            let meets = meets(j, k);
            let is_merged = meets == Meets::Parallel(vec![]);
            met.push((number, meets));
            if is_merged {
                break;
            }
        }
    }
    met
}

/// A count for each rule, under its number.
pub type ByRule = [usize; 1 + RULES as usize];

/// The steps of rule 7 in whole reductions.
#[derive(Default)]
pub struct Merges {
    pub positive: usize,
    pub negative: usize,
    pub of_root_arcs: usize,
    /// How many merge an arc that a rule had made, and after how many a rule is the next that applies.
    pub made_by: ByRule,
    pub followed_by: ByRule,
}

impl Merges {
    pub fn count(&mut self, reduction: &Reduction) {
        // The rule that made each arc that is not as it was in the original.
        let mut makers: BTreeMap<usize, usize> = BTreeMap::new();
        for (at, step) in reduction.steps.iter().enumerate() {
            if let Back::ParallelArcs { kept: (number, j), gone, g, .. } = &step.back {
                self.positive += g.is_positive() as usize;
                self.negative += g.is_negative() as usize;
                self.of_root_arcs += j.is_root() as usize;
                for rule in 1..=RULES as usize {
                    let is_made = [number, gone].iter().any(|arc| makers.get(arc) == Some(&rule));
                    self.made_by[rule] += is_made as usize;
                }
                let next = match (reduction.steps.get(at + 1), &reduction.end) {
                    (Some(next), _) => next.rule,
                    (None, End::NoFlow { rule, .. }) => *rule,
                    _ => 0,
                };
                self.followed_by[next as usize] += 1;
            }
            makers.extend(step.new_arcs.iter().map(|(number, _)| (*number, step.rule as usize)));
        }
    }

    pub fn print(&self) {
        println!("rule 7 with g > 0: {}, with g < 0: {}", self.positive, self.negative);
        println!("rule 7 at root arcs: {}", self.of_root_arcs);
        println!("rule 7 at an arc that rules 5, 6, 7 made: {:?}", &self.made_by[5..]);
        println!("rule 7 with rules 1 to 7 next: {:?}", &self.followed_by[1..]);
    }
}

#[cfg(test)]
mod tests {
    use super::*;
    use crate::draw::Draw;
    use crate::programs::read_and_reduce;
    use crate::rules::{try_rule, Found};
    use crate::sample_texts::{reducing_text, KINDS};
    use crate::scenes::{scene, Scene};

    /// The rule merges the first arc that it can, exactly where all operations fit; every case comes up.
    #[test]
    fn both_ways_agree() {
        let mut draw = Draw::new(17);
        let (mut alone, mut unlike): (BTreeMap<&str, usize>, BTreeMap<&str, usize>) = Default::default();
        for _ in 0..6000 {
            let Scene { network, place } = scene(&mut draw, 7);
            let met = met(&network, place);
            let merged = met.last().filter(|(_, meets)| *meets == Meets::Parallel(vec![])).map(|(number, _)| *number);
            match try_rule(&network, 7, place) {
                Some(Found::Step(change)) => assert_eq!(Some(change.dropped_arcs), merged.map(|k| vec![k])),
                found => assert_eq!((found, merged), (None, None)),
            }
            for (_, meets) in met {
                match meets {
                    Meets::Parallel(misfits) if misfits.len() == 1 => *alone.entry(misfits[0]).or_default() += 1,
                    Meets::Unlike(what) => *unlike.entry(what).or_default() += 1,
                    _ => {}
                }
            }
        }
        assert!(alone.len() == 6 && alone.values().all(|&count| count > 30), "{alone:?}");
        assert!(unlike.len() == 8 && unlike.values().all(|&count| count > 30), "{unlike:?}");
    }
    /// The sample texts have every rule often, and rule 7 before and after the others, and on what they made, with g of
    /// both signs.
    #[test]
    fn merges_in_texts() {
        let mut draw = Draw::new(20);
        let (mut merges, mut reductions, mut fired) = (Merges::default(), 0, ByRule::default());
        for number in 0..150 * KINDS {
            if let Ok(reduction) = read_and_reduce(&reducing_text(&mut draw, number)) {
                merges.count(&reduction);
                reductions += reduction.rules().contains(&7) as usize;
                reduction.steps.iter().for_each(|step| fired[step.rule as usize] += 1);
            }
        }
        assert!(fired.iter().zip([0, 6000, 2000, 3000, 600, 1500, 400, 2000]).all(|(x, y)| *x >= y), "{fired:?}");
        assert!(reductions > 500, "{reductions}");
        assert!(merges.positive > 500 && merges.negative > 500, "{} {}", merges.positive, merges.negative);
        assert!(merges.of_root_arcs > 500, "{}", merges.of_root_arcs);
        assert!(merges.made_by[5..].iter().all(|&count| count > 100), "{:?}", merges.made_by);
        assert!([3, 5, 6, 7].iter().all(|&rule| merges.followed_by[rule] > 10), "{:?}", merges.followed_by);
    }
}
