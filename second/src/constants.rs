//! Constants for sample networks, in good part so wide that a step stops for its constant alone.

use crate::draw::Draw;
use crate::exact::Exact;
use crate::fraction::Fraction;
use crate::network::Network;
use crate::reduce::reduce;
use crate::samples::{small, wide};
use crate::scenes::{at_the_width, over};

/// The network, which has the constant 0, with one drawn for it.
pub fn with_constant(draw: &mut Draw, network: Network) -> Network {
    let constant = match draw.below(10) {
        0..=2 => Fraction::ZERO,
        3 => small(draw),
        4 | 5 => with_denominator(draw),
        6 | 7 => before_some_step(draw, &network),
        _ => wide(draw),
    };
    Network { constant, ..network }
}

/// A fraction whose denominator has divisors in common with those of sample figures, so that sums reduce.
fn with_denominator(draw: &mut Draw) -> Fraction {
    let bottom = draw.of(&[2, 3, 4, 6, 12, 210, 30030]);
    over(draw.within(-999_999, 999_999), bottom)
}

/// A constant that lies at the width, or just doesn't fit, once the first steps have been taken.
fn before_some_step(draw: &mut Draw, network: &Network) -> Fraction {
    let steps = reduce(network).steps;
    let carried = if steps.is_empty() { Fraction::ZERO } else { steps[draw.below(steps.len())].constant };
    (&at_the_width(draw) - &Exact::from(carried)).fraction().unwrap_or_else(|| wide(draw))
}

#[cfg(test)]
mod tests {
    use super::*;
    use crate::reduce::{places, End, RULES};
    use crate::rules::apart_from_constant;
    use crate::sample_texts::{shape, KINDS};
    use crate::samples;

    /// Of the rules that carry cost, each is often kept from a step by its constant alone when the reduction ends.
    #[test]
    fn constants_stop_rules() {
        let mut draw = Draw::new(13);
        let mut stopped = [0; 1 + RULES as usize];
        for number in 0..200 * KINDS {
            let End::Reduced(network) = reduce(&samples::network(&mut draw, shape(number % KINDS))).end else {
                continue;
            };
            for rule in 1..=RULES {
                let mut places = places(&network, rule).into_iter();
                stopped[rule as usize] +=
                    places.any(|place| apart_from_constant(&network, rule, place).is_some()) as usize;
            }
        }
        assert!([1, 3, 4, 5].iter().all(|&rule| stopped[rule] > 50), "{stopped:?}");
        assert!([2, 6, 7].iter().all(|&rule| stopped[rule] == 0), "{stopped:?}");
    }
}
