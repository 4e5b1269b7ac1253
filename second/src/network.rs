//! Networks and their record, with the questions 2 to 5 of 01. The constant is that of request 2026-01.

use crate::fraction::{Bound, Fraction};
use std::collections::BTreeMap;

pub const MOST_NODES: usize = 32;
pub const MOST_ARCS: usize = 96;
/// Figures of an arc: from, to, cost, lower, upper, multiplier at from, multiplier at to.
pub const ARC_FIGURES: usize = 7;

/// The number of the question that was answered with no.
#[derive(Clone, Copy, PartialEq, Eq, Debug)]
pub struct Refusal(pub u8);

#[derive(Clone, Copy, PartialEq, Eq, Debug)]
pub struct Arc {
    pub from: usize,
    pub to: usize,
    pub cost: Fraction,
    pub lower: Bound,
    pub upper: Bound,
    pub at_from: Fraction,
    pub at_to: Fraction,
}

impl Arc {
    /// "A root arc touches one node: b is zero and from equals to."
    pub fn is_root(&self) -> bool {
        self.from == self.to
    }

    pub fn touches(&self, node: usize) -> bool {
        self.from == node || self.to == node
    }

    /// e: the multiplier at a node that the arc touches.
    pub fn multiplier(&self, node: usize) -> Fraction {
        if self.from == node {
            self.at_from
        } else {
            self.at_to
        }
    }

    /// The other end and o, the multiplier there; absent for a root arc.
    pub fn other(&self, node: usize) -> Option<(usize, Fraction)> {
        if self.is_root() {
            None
        } else if self.from == node {
            Some((self.to, self.at_to))
        } else {
            Some((self.from, self.at_from))
        }
    }

    /// The ends and the multipliers there: two, or one for a root arc.
    pub fn ends(&self) -> Vec<(usize, Fraction)> {
        let mut ends = vec![(self.from, self.at_from)];
        if !self.is_root() {
            ends.push((self.to, self.at_to));
        }
        ends
    }
}

/// A network: its constant, and nodes (with their supplies) and arcs by their numbers. Numbers need not be
/// consecutive, so a network in the course of a reduction is one too.
#[derive(Clone, PartialEq, Eq, Debug, Default)]
pub struct Network {
    pub constant: Fraction,
    pub supplies: BTreeMap<usize, Fraction>,
    pub arcs: BTreeMap<usize, Arc>,
}

impl Network {
    /// The arcs touching a node, with their numbers, upward.
    pub fn arcs_at(&self, node: usize) -> Vec<(usize, Arc)> {
        self.arcs.iter().filter(|(_, arc)| arc.touches(node)).map(|(&number, &arc)| (number, arc)).collect()
    }

    /// "Survivors keep their order and are numbered from 1."
    pub fn renumbered(&self) -> Network {
        let new_number: BTreeMap<usize, usize> = self.supplies.keys().copied().zip(1..).collect();
        let renumber = |arc: &Arc| Arc { from: new_number[&arc.from], to: new_number[&arc.to], ..*arc };
        Network {
            constant: self.constant,
            supplies: (1..).zip(self.supplies.values().copied()).collect(),
            arcs: (1..).zip(self.arcs.values().map(renumber)).collect(),
        }
    }

    /// The network's record; the numbers must be consecutive from 1.
    pub fn record(&self) -> Record {
        let mut figures = vec![self.constant.words()];
        figures.extend(self.supplies.values().map(|supply| supply.words()));
        for arc in self.arcs.values() {
            figures.push((arc.from as i32, 1));
            figures.push((arc.to as i32, 1));
            figures.push(arc.cost.words());
            figures.push(arc.lower.words());
            figures.push(arc.upper.words());
            figures.push(arc.at_from.words());
            figures.push(arc.at_to.words());
        }
        Record { sizes: (self.supplies.len(), self.arcs.len()), figures }
    }

    /// Questions 2 to 5 about a record of words.
    pub fn read(words: &[i32]) -> Result<Network, Refusal> {
        let (n, m) = sizes(words).ok_or(Refusal(2))?;
        if words.len() != record_length(n, m) {
            return Err(Refusal(2));
        }
        let (numerators, denominators) = words[2..].split_at(figure_count(n, m));
        let figures = read_figures(n, numerators, denominators).ok_or(Refusal(3))?;
        let (plain_figures, arcs) = figures.split_at(figure_count(n, 0));
        let plain_figures: Vec<Fraction> = plain_figures.iter().copied().map(plain).collect();
        let ends = arcs.chunks(ARC_FIGURES).map(|arc| read_ends(n, arc));
        let ends: Vec<(usize, usize)> = ends.collect::<Option<_>>().ok_or(Refusal(4))?;
        let arcs = arcs.chunks(ARC_FIGURES).zip(ends).map(|(arc, ends)| read_arc(ends, arc));
        let arcs: Vec<Arc> = arcs.collect::<Option<_>>().ok_or(Refusal(5))?;
        Ok(Network {
            constant: plain_figures[0],
            supplies: (1..).zip(plain_figures[1..].iter().copied()).collect(),
            arcs: (1..).zip(arcs).collect(),
        })
    }
}

/// n and m, if there are two words and they are within the limits.
pub fn sizes(words: &[i32]) -> Option<(usize, usize)> {
    let n = usize::try_from(*words.first()?).ok()?;
    let m = usize::try_from(*words.get(1)?).ok()?;
    (n <= MOST_NODES && m <= MOST_ARCS).then_some((n, m))
}

/// How many figures n nodes and m arcs have: the constant, the supplies, the arcs' figures. Those of a further arc begin
/// at this position, counted from 0.
pub fn figure_count(n: usize, m: usize) -> usize {
    1 + n + ARC_FIGURES * m
}

/// Words of a network's record: the sizes, the numerators, the denominators.
pub fn record_length(n: usize, m: usize) -> usize {
    2 + 2 * figure_count(n, m)
}

/// "Is each figure a fraction in form, or a permitted mark?"
fn read_figures(n: usize, numerators: &[i32], denominators: &[i32]) -> Option<Vec<Bound>> {
    let read_one = |(position, (&numerator, &denominator)): (usize, (&i32, &i32))| {
        let place_in_arc = position.checked_sub(figure_count(n, 0)).map(|place| place % ARC_FIGURES);
        match place_in_arc {
            Some(3) => Bound::read_lower(numerator, denominator),
            Some(4) => Bound::read_upper(numerator, denominator),
            _ => Fraction::read(numerator, denominator).map(Bound::Finite),
        }
    };
    numerators.iter().zip(denominators).enumerate().map(read_one).collect()
}

/// A figure that question 3 found to be a fraction.
fn plain(figure: Bound) -> Fraction {
    figure.finite().expect("question 3 permits no mark here")
}

/// "Are all ends whole and from 1 to n?"
fn read_ends(n: usize, arc: &[Bound]) -> Option<(usize, usize)> {
    let node = |figure: Bound| {
        let (numerator, denominator) = plain(figure).words();
        let number = usize::try_from(numerator).ok()?;
        (denominator == 1 && (1..=n).contains(&number)).then_some(number)
    };
    Some((node(arc[0])?, node(arc[1])?))
}

/// "Is every a nonzero, and b zero exactly where from = to?"
fn read_arc((from, to): (usize, usize), arc: &[Bound]) -> Option<Arc> {
    let (at_from, at_to) = (plain(arc[5]), plain(arc[6]));
    if at_from.is_zero() || at_to.is_zero() != (from == to) {
        return None;
    }
    Some(Arc { from, to, cost: plain(arc[2]), lower: arc[3], upper: arc[4], at_from, at_to })
}

/// A network's or a pair's record before it is made into words: the sizes, then the figures.
#[derive(Clone, PartialEq, Eq, Debug)]
pub struct Record {
    pub sizes: (usize, usize),
    pub figures: Vec<(i32, i32)>,
}

impl Record {
    pub fn numerators(&self) -> Vec<i32> {
        self.figures.iter().map(|figure| figure.0).collect()
    }

    pub fn denominators(&self) -> Vec<i32> {
        self.figures.iter().map(|figure| figure.1).collect()
    }

    /// Sizes, numerators, denominators.
    pub fn words(&self) -> Vec<i32> {
        let mut words = vec![self.sizes.0 as i32, self.sizes.1 as i32];
        words.extend(self.numerators());
        words.extend(self.denominators());
        words
    }
}
