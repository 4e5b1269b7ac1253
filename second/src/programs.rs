//! The programs as functions from the text given to the bytes printed.

use crate::network::{record_length, sizes, Network, Record, Refusal, MOST_ARCS, MOST_NODES};
use crate::reduce::{reduce, End, Reduction};
use crate::restore::{restore, Restored};
use crate::text::{line, read_words, LONGEST_TEXT};
use std::io::{Read, Write};

/// Runs a program on standard input. One byte more than the longest text is enough to know that a text is too long.
pub fn run(program: fn(&[u8]) -> String) {
    let mut text = vec![];
    let limit = LONGEST_TEXT as u64 + 1;
    std::io::stdin().lock().take(limit).read_to_end(&mut text).expect("standard input can be read");
    std::io::stdout().write_all(program(&text).as_bytes()).expect("standard output can be written");
}

fn refused(Refusal(number): Refusal) -> String {
    format!("refused {number}\n")
}

/// The reducing program's reading: questions 14 and 2 to 5, then the run.
pub fn read_and_reduce(text: &[u8]) -> Result<Reduction, Refusal> {
    let words = read_words(text)?;
    Ok(reduce(&Network::read(&words)?))
}

/// The reducing program.
pub fn reducing(text: &[u8]) -> String {
    match read_and_reduce(text) {
        Err(refusal) => refused(refusal),
        Ok(reduction) => print_reduction(&reduction),
    }
}

fn print_reduction(reduction: &Reduction) -> String {
    match &reduction.end {
        End::NoFlow { rule, place } => format!("no flow {rule} {place}\n") + &print_stack(reduction),
        End::Reduced(network) => {
            "reduced\n".to_string() + &print_record(&network.renumbered().record()) + &print_stack(reduction)
        }
    }
}

/// Sizes, numerators, denominators.
fn print_record(record: &Record) -> String {
    let (n, m) = record.sizes;
    line(&[n as i32, m as i32]) + &line(&record.numerators()) + &line(&record.denominators())
}

/// Step count, rules, places.
fn print_stack(reduction: &Reduction) -> String {
    line(&[reduction.steps.len() as i32]) + &line(&reduction.rules()) + &line(&reduction.places())
}

/// The words of a restoring text: network, stack and pair.
pub struct Parts<'a> {
    pub network: &'a [i32],
    pub stack: &'a [i32],
    pub pair: &'a [i32],
}

/// "Restoring splits its text by the sizes: a network cut short (fewer than two words included) or with sizes
/// outside the limits is 2, a stack cut short or with s outside 0 to 128 is 7; the rest is the pair."
pub fn split(words: &[i32]) -> Result<Parts<'_>, Refusal> {
    let (n, m) = sizes(words).ok_or(Refusal(2))?;
    let (network, rest) = words.split_at_checked(record_length(n, m)).ok_or(Refusal(2))?;
    let steps = rest.first().and_then(|&s| usize::try_from(s).ok()).ok_or(Refusal(7))?;
    if steps > MOST_NODES + MOST_ARCS {
        return Err(Refusal(7));
    }
    let (stack, pair) = rest.split_at_checked(1 + 2 * steps).ok_or(Refusal(7))?;
    Ok(Parts { network, stack, pair })
}

/// The restoring program's reading: question 14, the splitting, then 2 to 13.
pub fn read_and_restore(text: &[u8]) -> Result<Restored, Refusal> {
    let words = read_words(text)?;
    let Parts { network, stack, pair } = split(&words)?;
    restore(network, stack, pair)
}

/// The restoring program.
pub fn restoring(text: &[u8]) -> String {
    match read_and_restore(text) {
        Err(refusal) => refused(refusal),
        Ok(restored) => print_restored(&restored),
    }
}

/// "kind, sizes, numerators, denominators, reduced value, value"
fn print_restored(restored: &Restored) -> String {
    let value_line = |(numerator, denominator): (i32, i32)| line(&[numerator, denominator]);
    "restored\n".to_string()
        + &print_record(&restored.pair.record())
        + &value_line(restored.reduced_value.words())
        + &value_line(restored.value.words())
}

#[cfg(test)]
mod tests {
    use super::*;

    const A: &str = "3 3\n0 4 -5 2 1 2 1 0 3 1 -1 1 2 2 0 1 1 -1 3 2 7 0 1 1 -1\n\
                     1 1 1 1 1 1 1 1 1 1 1 1 1 1 1 0 1 1 1 1 1 1 0 1 2\n";

    fn reduced(text: &str) -> String {
        reducing(text.as_bytes())
    }

    #[test]
    fn instance_a() {
        let printed = "reduced\n2 2\n14 4 -4 1 2 1 0 3 1 -1 1 2 2 0 1 1 -1\n\
                       1 1 1 1 1 1 1 1 1 1 1 1 1 1 0 1 1\n1\n3\n3\n";
        assert_eq!(reduced(A), printed);
    }

    #[test]
    fn instance_e() {
        assert_eq!(reduced("0 0 0 1"), "reduced\n0 0\n0\n1\n0\n\n\n");
    }

    #[test]
    fn instance_f() {
        assert_eq!(reduced("1 0 0 1 1 1"), "no flow 2 1\n0\n\n\n");
        assert_eq!(reduced("1 0 0 0 1 1"), "reduced\n0 0\n0\n1\n1\n2\n1\n");
    }

    /// Instance G: an arc from 1 to 2 and a root arc at each; the nodes have degree 2.
    fn instance_g_text(cost: i32) -> String {
        let numerators = format!("0 0 0 1 2 {cost} 0 1 1 1 1 1 2 0 1 1 0 2 2 3 0 1 1 0");
        format!("2 3\n{numerators}\n1 1 1 1 1 1 1 0 1 1 1 1 1 1 0 1 1 1 1 1 1 0 1 1\n")
    }

    #[test]
    fn instance_g() {
        let rules = |cost| read_and_reduce(instance_g_text(cost).as_bytes()).expect("not refused").rules();
        assert_eq!(rules(6)[0], 4);
        assert!(!rules(5).contains(&4));
    }

    /// A's network and stack with the given pair.
    fn restored_a(pair: &str) -> String {
        restoring(format!("{A}1\n3\n3\n{pair}").as_bytes())
    }

    #[test]
    fn instance_a_restored() {
        let printed = "restored\n3 3\n2 0 7 3 1 2\n1 1 1 1 1 1\n19 1\n19 1\n";
        assert_eq!(restored_a("2 2\n2 0 3 1\n1 1 1 1\n"), printed);
    }

    #[test]
    fn instances_b_c_d() {
        assert_eq!(restored_a("2 2 2 0 2 2 1 1 1 1"), "refused 12\n");
        assert_eq!(restored_a("2 2 2 0 4 0 1 1 1 1"), "refused 11\n");
        assert_eq!(restored_a("2 2 2 0 3 2 1 1 1 1"), "refused 10\n");
    }

    /// Two roads from 1 to 2, the second -1/2 times the first: rule 7, then 3 and 2. Both values are the same.
    const PARALLEL: &str = "2 2\n0 8 -4 1 2 2 0 3 2 -1 1 2 -1 -4 2 -1 1\n1 1 1 1 1 1 1 1 1 1 1 1 1 1 1 1 2\n";

    #[test]
    fn parallel_arcs() {
        assert_eq!(reduced(PARALLEL), "reduced\n0 0\n8\n1\n3\n7 3 2\n1 1 2\n");
        let restored = restoring(format!("{PARALLEL}3 7 3 2 1 1 2 0 0").as_bytes());
        assert_eq!(restored, "restored\n2 2\n1 0 3 -2\n1 1 1 1\n8 1\n8 1\n");
        assert_eq!(restoring(format!("{PARALLEL}3 7 3 2 2 1 2 0 0").as_bytes()), "refused 7\n");
    }

    #[test]
    fn restoring_refusals() {
        for (text, number) in [
            ("", 2),
            ("0", 2),
            ("33 0", 2),
            ("0 0", 2),
            ("0 0 0", 2),
            ("1 0 0 0 1", 2),
            ("0 0 0 1", 7),
            ("0 0 0 1 129", 7),
            ("0 0 0 1 -1", 7),
            ("0 0 0 1 1 2", 7),
            ("1 0 0 0 1 2", 7),
            ("1 0 0 0 1 2 0", 3),
            ("1 0 0 0 2 1 0", 3),
            ("1 0 0 1 1 1 0", 6),
            ("1 0 0 0 1 1 0", 7),
            ("1 0 0 0 1 1 1 2 1", 8),
            ("1 0 0 0 1 1 1 2 1 0", 8),
            ("1 0 0 0 1 1 1 2 1 0 0 0", 8),
            ("1 0 0 0 1 1 1 2 2 0 0", 7),
        ] {
            assert_eq!(restoring(text.as_bytes()), format!("refused {number}\n"), "{text}");
        }
        assert_eq!(restoring(b"0 0 0 1 0 0 0"), "restored\n0 0\n\n\n0 1\n0 1\n");
        assert_eq!(restoring(b"1 0 -5 0 3 1 1 2 1 0 0"), "restored\n1 0\n0\n1\n-5 3\n-5 3\n");
    }

    #[test]
    fn refusals() {
        for (text, number) in [
            ("", 2),
            ("0", 2),
            ("0 0", 2),
            ("0 0 0 1 0", 2),
            ("33 0", 2),
            ("0 97", 2),
            ("-1 0", 2),
            ("-2147483648 0", 2),
            ("1 0 0 1", 2),
            ("1 0 0 0 1 2", 3),
            ("1 0 0 -2147483648 1 1", 3),
            ("0 0 1 0", 3),
            ("0 0 -1 0", 3),
            ("0 0 0 2", 3),
            ("0 0 -2147483648 1", 3),
            ("0 1 0 1 1 0 0 0 1 0 1 1 1 1 1 1 1 1", 4),
            ("1 1 0 0 1 1 0 0 0 0 0 1 1 1 1 1 1 1 1 1", 5),
            ("1 1 0 0 1 1 0 0 0 1 1 1 1 1 1 1 1 1 1 1", 5),
            ("1 0 0 0 1 x", 14),
            ("0 0 0 -", 14),
        ] {
            assert_eq!(reduced(text), format!("refused {number}\n"), "{text}");
        }
    }
}
