//! A small exact solver for the tests: the simplex method with bounded flows and Bland's rule, on exact
//! fractions without width. It knows nothing of the reductions.

use crate::exact::Exact;
use crate::fraction::{Bound, Fraction};
use crate::network::{Arc, Network};
use crate::optimality::Pair;
use std::collections::BTreeMap;

#[derive(Clone, PartialEq, Eq, Debug)]
pub enum Solution {
    /// There is no feasible flow.
    Infeasible,
    /// There are feasible flows of any value below some.
    Unbounded,
    Optimal(Optimum),
}

/// Prices and flows that are optimal, in the order of the network's numbers, and the value.
#[derive(Clone, PartialEq, Eq, Debug)]
pub struct Optimum {
    pub prices: Vec<Exact>,
    pub flows: Vec<Exact>,
    pub value: Exact,
}

impl Optimum {
    /// Half of this and half of the other one: optimal too, and mostly no vertex.
    pub fn middle(&self, other: &Optimum) -> Optimum {
        let half = &Exact::whole(1) / &Exact::whole(2);
        let mid = |x: &[Exact], y: &[Exact]| x.iter().zip(y).map(|(p, q)| &(p + q) * &half).collect();
        Optimum {
            prices: mid(&self.prices, &other.prices),
            flows: mid(&self.flows, &other.flows),
            value: self.value.clone(),
        }
    }

    /// As a pair under the network's numbers, if all of its figures fit.
    pub fn pair(&self, network: &Network) -> Option<Pair> {
        let fitted = |figures: &[Exact]| figures.iter().map(|figure| figure.fraction()).collect::<Option<Vec<_>>>();
        Some(Pair {
            prices: network.supplies.keys().copied().zip(fitted(&self.prices)?).collect(),
            flows: network.arcs.keys().copied().zip(fitted(&self.flows)?).collect(),
        })
    }
}

/// A variable's column: its rows with their multipliers (one or two), its bounds and cost.
struct Column {
    entries: Vec<(usize, Exact)>,
    lower: Option<Exact>,
    upper: Option<Exact>,
    cost: Exact,
}

/// The state of the simplex method. Variables are the arcs, then one artificial variable for each node.
struct Simplex {
    columns: Vec<Column>,
    /// The inverse of the basis, row by row.
    inverse: Vec<Vec<Exact>>,
    /// The variable that is basic in each row.
    basis: Vec<usize>,
    values: Vec<Exact>,
}

/// Finds an optimum. With `reversed` the arcs are looked at downward, which often ends in another optimum.
pub fn solve(network: &Network, reversed: bool) -> Solution {
    let mut arcs: Vec<&Arc> = network.arcs.values().collect();
    if arcs.iter().any(|arc| arc.lower > arc.upper) {
        return Solution::Infeasible;
    }
    if reversed {
        arcs.reverse();
    }
    let row_of: BTreeMap<usize, usize> = network.supplies.keys().copied().zip(0..).collect();
    let mut simplex = Simplex::start(&row_of, &arcs, network.supplies.values().copied());

    let costs: Vec<Exact> = simplex.columns.iter().map(|column| column.cost.clone()).collect();
    for (number, column) in simplex.columns.iter_mut().enumerate() {
        column.cost = Exact::whole((number >= arcs.len()) as i64);
    }
    simplex.improve();
    if simplex.values[arcs.len()..].iter().any(|value| !value.is_zero()) {
        return Solution::Infeasible;
    }
    for (number, (column, cost)) in simplex.columns.iter_mut().zip(costs).enumerate() {
        column.cost = cost;
        if number >= arcs.len() {
            column.upper = Some(Exact::zero());
        }
    }
    if !simplex.improve() {
        return Solution::Unbounded;
    }
    let prices = simplex.prices();
    let parts = simplex.columns.iter().zip(&simplex.values).map(|(column, x)| &column.cost * x);
    let value = parts.fold(Exact::from(network.constant), |sum, part| &sum + &part);
    simplex.values.truncate(arcs.len());
    let mut flows = simplex.values;
    if reversed {
        flows.reverse();
    }
    Solution::Optimal(Optimum { prices, flows, value })
}

fn exact(bound: Bound) -> Option<Exact> {
    bound.finite().map(Exact::from)
}

impl Simplex {
    /// Every flow at a bound (or 0), the artificial variables making up for what is missing.
    fn start(row_of: &BTreeMap<usize, usize>, arcs: &[&Arc], supplies: impl Iterator<Item = Fraction>) -> Simplex {
        let mut missing: Vec<Exact> = supplies.map(Exact::from).collect();
        let (mut columns, mut values) = (vec![], vec![]);
        for arc in arcs {
            let (lower, upper) = (exact(arc.lower), exact(arc.upper));
            let value = lower.clone().or(upper.clone()).unwrap_or(Exact::zero());
            let entries: Vec<(usize, Exact)> =
                arc.ends().into_iter().map(|(node, multiplier)| (row_of[&node], Exact::from(multiplier))).collect();
            for (row, multiplier) in &entries {
                missing[*row] = &missing[*row] - &(multiplier * &value);
            }
            columns.push(Column { entries, lower, upper, cost: Exact::from(arc.cost) });
            values.push(value);
        }
        let mut inverse = vec![];
        for (row, rest) in missing.iter().enumerate() {
            let sign = Exact::whole(if rest.is_negative() { -1 } else { 1 });
            values.push(&sign * rest);
            let mut line = vec![Exact::zero(); missing.len()];
            line[row] = sign.clone();
            inverse.push(line);
            let entries = vec![(row, sign)];
            columns.push(Column { entries, lower: Some(Exact::zero()), upper: None, cost: Exact::zero() });
        }
        let basis = (arcs.len()..columns.len()).collect();
        Simplex { columns, inverse, basis, values }
    }

    /// The basic variables' costs times the inverse.
    fn prices(&self) -> Vec<Exact> {
        let mut prices = vec![Exact::zero(); self.basis.len()];
        for (line, &variable) in self.inverse.iter().zip(&self.basis) {
            let cost = &self.columns[variable].cost;
            if !cost.is_zero() {
                for (price, figure) in prices.iter_mut().zip(line) {
                    *price = &*price + &(cost * figure);
                }
            }
        }
        prices
    }

    /// Improves until no variable is worth entering; false where a variable may go on for ever.
    fn improve(&mut self) -> bool {
        while let Some((entering, up)) = self.entering() {
            if !self.enter(entering, up) {
                return false;
            }
        }
        true
    }

    /// The first variable outside the basis whose reduced cost pays to move it, and whether upward.
    fn entering(&self) -> Option<(usize, bool)> {
        let prices = self.prices();
        for (variable, column) in self.columns.iter().enumerate() {
            if self.basis.contains(&variable) {
                continue;
            }
            let parts = column.entries.iter().map(|(row, multiplier)| multiplier * &prices[*row]);
            let d = parts.fold(column.cost.clone(), |rest, part| &rest - &part);
            let value = Some(&self.values[variable]);
            if d.is_negative() && column.upper.as_ref() != value {
                return Some((variable, true));
            }
            if d.is_positive() && column.lower.as_ref() != value {
                return Some((variable, false));
            }
        }
        None
    }

    /// Moves a variable as far as bounds allow; ties go to the lowest variable. False: no bound stops it.
    fn enter(&mut self, entering: usize, up: bool) -> bool {
        // How each basic variable changes when the entering one grows by 1.
        let column = &self.columns[entering];
        let along = |line: &Vec<Exact>| {
            let parts = column.entries.iter().map(|(row, multiplier)| &line[*row] * multiplier);
            parts.fold(Exact::zero(), |sum, part| &sum + &part)
        };
        let alphas: Vec<Exact> = self.inverse.iter().map(along).collect();

        let own = if up { &column.upper } else { &column.lower };
        let mut best = own.as_ref().map(|bound| (distance(bound, &self.values[entering]), entering, None));
        for (row, (alpha, &variable)) in alphas.iter().zip(&self.basis).enumerate() {
            if alpha.is_zero() {
                continue;
            }
            let grows = alpha.is_negative() == up;
            let stop = if grows { &self.columns[variable].upper } else { &self.columns[variable].lower };
            if let Some(bound) = stop {
                let length = &distance(bound, &self.values[variable]) / &magnitude(alpha);
                let nearer = match &best {
                    None => true,
                    Some((least, holder, _)) => length < *least || (length == *least && variable < *holder),
                };
                if nearer {
                    best = Some((length, variable, Some(row)));
                }
            }
        }
        let Some((length, _, leaving_row)) = best else {
            return false;
        };
        let step = if up { length } else { -&length };
        self.values[entering] = &self.values[entering] + &step;
        for (alpha, &variable) in alphas.iter().zip(&self.basis) {
            if !alpha.is_zero() {
                self.values[variable] = &self.values[variable] - &(alpha * &step);
            }
        }
        if let Some(row) = leaving_row {
            self.basis[row] = entering;
            self.pivot(row, &alphas);
        }
        true
    }

    fn pivot(&mut self, pivot_row: usize, alphas: &[Exact]) {
        let pivot_line: Vec<Exact> = self.inverse[pivot_row].iter().map(|figure| figure / &alphas[pivot_row]).collect();
        for (row, line) in self.inverse.iter_mut().enumerate() {
            if row == pivot_row || alphas[row].is_zero() {
                continue;
            }
            for (figure, pivot_figure) in line.iter_mut().zip(&pivot_line) {
                if !pivot_figure.is_zero() {
                    *figure = &*figure - &(&alphas[row] * pivot_figure);
                }
            }
        }
        self.inverse[pivot_row] = pivot_line;
    }
}

fn magnitude(figure: &Exact) -> Exact {
    if figure.is_negative() {
        -figure
    } else {
        figure.clone()
    }
}

fn distance(x: &Exact, y: &Exact) -> Exact {
    magnitude(&(x - y))
}

/// Whether the pair is feasible and keeps the price rule on the network, exactly and without any width.
pub fn is_optimal(network: &Network, pair: &Pair) -> bool {
    let mut rest: BTreeMap<usize, Exact> = network.supplies.iter().map(|(&node, &r)| (node, r.into())).collect();
    for (number, arc) in &network.arcs {
        let flow = pair.flows[number];
        let mut d = Exact::from(arc.cost);
        for (node, multiplier) in arc.ends() {
            let multiplier = Exact::from(multiplier);
            d = &d - &(&multiplier * &pair.prices[&node].into());
            rest.insert(node, &rest[&node] - &(&multiplier * &flow.into()));
        }
        let at = Bound::Finite(flow);
        let kept = (!d.is_positive() || at == arc.lower) && (!d.is_negative() || at == arc.upper);
        if at < arc.lower || at > arc.upper || !kept {
            return false;
        }
    }
    rest.values().all(Exact::is_zero)
}

#[cfg(test)]
mod tests {
    use super::*;
    use crate::draw::Draw;
    use crate::samples::{network, Shape};

    /// Every optimum found satisfies the exact conditions, which suffice; the other answers are cross-checked
    /// by solving with the arcs the other way round.
    #[test]
    fn optima_are_optimal() {
        let mut draw = Draw::new(11);
        let mut counts = [0; 3];
        for number in 0..600 {
            let sample = network(&mut draw, if number % 3 == 0 { Shape::Wide } else { Shape::Small });
            match (solve(&sample, false), solve(&sample, true)) {
                (Solution::Optimal(first), Solution::Optimal(second)) => {
                    counts[0] += 1;
                    assert_eq!(first.value, second.value);
                    for optimum in [&first, &second, &first.middle(&second)] {
                        if let Some(pair) = optimum.pair(&sample) {
                            assert!(is_optimal(&sample, &pair));
                        }
                    }
                }
                (Solution::Infeasible, Solution::Infeasible) => counts[1] += 1,
                (Solution::Unbounded, Solution::Unbounded) => counts[2] += 1,
                (first, second) => panic!("{first:?} {second:?}"),
            }
        }
        assert!(counts.iter().all(|&count| count > 10), "{counts:?}");
    }
}
