//! The run of the reductions, the stack and the reduced network.

use crate::network::Network;
use crate::rules::{apply, place_is_arc, try_rule, Change, Found};

/// The six rules of 01 and rule 7 of 2026-02.
pub const RULES: u8 = 7;

/// A whole run: its steps in order and its end.
#[derive(Clone, PartialEq, Eq, Debug)]
pub struct Reduction {
    pub steps: Vec<Change>,
    pub end: End,
}

#[derive(Clone, PartialEq, Eq, Debug)]
pub enum End {
    /// What no rule applies to, under the original's numbers.
    Reduced(Network),
    NoFlow {
        rule: u8,
        place: usize,
    },
}

/// "After each step the search starts again ... The first that applies is the next step."
pub fn reduce(original: &Network) -> Reduction {
    let mut network = original.clone();
    let mut steps = vec![];
    loop {
        match first_that_applies(&network) {
            None => return Reduction { steps, end: End::Reduced(network) },
            Some((rule, place, Found::NoFlow)) => return Reduction { steps, end: End::NoFlow { rule, place } },
            Some((_, _, Found::Step(change))) => {
                apply(&mut network, &change);
                steps.push(change);
            }
        }
    }
}

/// Rule 1 at the arcs upward, rule 2 at the nodes upward, then 3 (nodes), 4 (arcs), 5 (nodes), 6 (nodes), 7 (arcs).
fn first_that_applies(network: &Network) -> Option<(u8, usize, Found)> {
    for rule in 1..=RULES {
        for place in places(network, rule) {
            if let Some(found) = try_rule(network, rule, place) {
                return Some((rule, place, found));
            }
        }
    }
    None
}

/// The places at which a rule is tried, upward.
pub fn places(network: &Network, rule: u8) -> Vec<usize> {
    if place_is_arc(rule) {
        network.arcs.keys().copied().collect()
    } else {
        network.supplies.keys().copied().collect()
    }
}

impl Reduction {
    pub fn rules(&self) -> Vec<i32> {
        self.steps.iter().map(|step| step.rule as i32).collect()
    }

    pub fn places(&self) -> Vec<i32> {
        self.steps.iter().map(|step| step.place as i32).collect()
    }

    /// The stack's record: the number of steps, the rule numbers, the places.
    pub fn stack(&self) -> Vec<i32> {
        let mut words = vec![self.steps.len() as i32];
        words.extend(self.rules());
        words.extend(self.places());
        words
    }
}
