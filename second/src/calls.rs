//! What a call of the library for other languages is to answer, from the papers: the code, and every word of the lent slices.

use crate::network::{Network, Refusal};
use crate::optimality::test_alone;
use crate::reduce::{reduce, End};
use crate::restore::restore;

/// Words that question 1 asks for: network, stack and scratch; the test's values; pair, values and scratch.
pub const REDUCING_ROOM: [usize; 3] = [1412, 257, 10240];
pub const TEST_ROOM: [usize; 1] = [2];
pub const RESTORING_ROOM: [usize; 3] = [258, 4, 10240];

/// The code, and the record in each lent slice; every word behind a record is zero.
#[derive(PartialEq, Eq, Debug)]
pub struct Told<const N: usize> {
    pub code: usize,
    pub records: [Vec<i32>; N],
}

impl<const N: usize> Told<N> {
    /// "Are the lent outputs and scratch long enough? 1", then what follows.
    fn with_room(lent: [usize; N], asked: [usize; N], then: impl FnOnce() -> Result<Told<N>, Refusal>) -> Told<N> {
        let enough = lent.iter().zip(asked).all(|(&lent, asked)| lent >= asked);
        let told = if enough { then() } else { Err(Refusal(1)) };
        told.unwrap_or_else(|Refusal(number)| Told { code: number as usize, records: [const { vec![] }; N] })
    }
}

/// A call that reduces. The slices lent: network, stack, scratch.
pub fn reduce_call(network: &[i32], lent: [usize; 3]) -> Told<3> {
    Told::with_room(lent, REDUCING_ROOM, || {
        let reduction = reduce(&Network::read(network)?);
        let (code, out) = match &reduction.end {
            End::Reduced(network) => (0, network.renumbered().record().words()),
            End::NoFlow { rule, place } => (256 * *rule as usize + place, vec![]),
        };
        Ok(Told { code, records: [out, reduction.stack(), vec![]] })
    })
}

/// A call that tests. The slice lent: values.
pub fn test_call(network: &[i32], pair: &[i32], lent: [usize; 1]) -> Told<1> {
    Told::with_room(lent, TEST_ROOM, || {
        let (numerator, denominator) = test_alone(network, pair)?.words();
        Ok(Told { code: 0, records: [vec![numerator, denominator]] })
    })
}

/// A call that restores. The slices lent: pair, values, scratch.
pub fn restore_call(network: &[i32], stack: &[i32], pair: &[i32], lent: [usize; 3]) -> Told<3> {
    Told::with_room(lent, RESTORING_ROOM, || {
        let restored = restore(network, stack, pair)?;
        let values = [restored.reduced_value.words(), restored.value.words()];
        let values = values.into_iter().flat_map(|(numerator, denominator)| [numerator, denominator]).collect();
        Ok(Told { code: 0, records: [restored.pair.record().words(), values, vec![]] })
    })
}

#[cfg(test)]
mod tests {
    use super::*;
    use crate::network::{record_length, MOST_ARCS, MOST_NODES};

    /// Each output has just the room that the largest record needs.
    #[test]
    fn largest_records() {
        let most = MOST_NODES + MOST_ARCS;
        assert_eq!(REDUCING_ROOM[..2], [record_length(MOST_NODES, MOST_ARCS), 1 + 2 * most]);
        assert_eq!(RESTORING_ROOM[0], 2 + 2 * most);
    }
}
