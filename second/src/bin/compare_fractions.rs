//! Compares another program's fraction operations with this implementation's.
//! Argument 1: the program; argument 2: how many operations (200000 if absent).

use second::compare::{arguments, count_differences, About};
use second::draw::Draw;
use second::fraction::{Bound, Fraction};
use std::process::exit;

/// kind, n1, d1, n2, d2
type Question = [i32; 5];
/// status, numerator, denominator
type Answer = [i32; 3];

const IMPROPER: Answer = [2, 0, 0];
const MISFIT: Answer = [0, 0, 0];

fn given(result: Option<(i32, i32)>, otherwise: Answer) -> Answer {
    match result {
        Some((numerator, denominator)) => [1, numerator, denominator],
        None => otherwise,
    }
}

fn arithmetic(question: Question, operation: fn(Fraction, Fraction) -> Option<Fraction>) -> Answer {
    let [_, n1, d1, n2, d2] = question;
    match (Fraction::read(n1, d1), Fraction::read(n2, d2)) {
        (Some(x), Some(y)) => given(operation(x, y).map(Fraction::words), MISFIT),
        _ => IMPROPER,
    }
}

fn less(question: Question) -> Answer {
    let [_, n1, d1, n2, d2] = question;
    match (Bound::read(n1, d1), Bound::read(n2, d2)) {
        (Some(x), Some(y)) => [(x < y) as i32, 0, 0],
        _ => IMPROPER,
    }
}

fn answer(question: Question) -> Answer {
    let [kind, n, d, ..] = question;
    match kind {
        0 => arithmetic(question, Fraction::plus),
        1 => arithmetic(question, Fraction::minus),
        2 => arithmetic(question, Fraction::times),
        3 => arithmetic(question, Fraction::over),
        4 => less(question),
        5 => given(Fraction::read(n, d).map(Fraction::words), IMPROPER),
        6 => given(Bound::read_lower(n, d).map(Bound::words), IMPROPER),
        7 => given(Bound::read_upper(n, d).map(Bound::words), IMPROPER),
        8 => given(Fraction::read(n, d).map(|x| x.negated().words()), IMPROPER),
        _ => IMPROPER,
    }
}

type Words = (i32, i32);

/// Numbers whose products lie at the width: all but the last from 2^31 - 3 to 2^31 + 2.
const FACTORS_AT_THE_EDGE: [(i64, i64); 14] = [
    (65536, 32768),
    (8, 268435456),
    (2, 1073741824),
    (715827883, 3),
    (2147483647, 1),
    (2, 1073741823),
    (154, 13944699),
    (3, 715827882),
    (99, 21691754),
    (5, 429496729),
    (95, 22605091),
    (50, 42949673),
    (2147483646, 1),
    (46341, 46341),
];

const EDGE: [i64; 12] = [
    2147483647,
    2147483646,
    2147483645,
    -2147483647,
    -2147483646,
    -2147483648,
    1073741823,
    1073741824,
    -1073741824,
    1,
    -1,
    0,
];

fn word(number: i64) -> i32 {
    number.clamp(i32::MIN as i64, i32::MAX as i64) as i32
}

/// In form if it can be: reduced words of numerator over denominator, otherwise the words cut to the width.
fn reduced(numerator: i64, denominator: i64) -> Words {
    match Fraction::fitted(numerator as i128, denominator as i128) {
        Some(fraction) => fraction.words(),
        None => (word(numerator), word(denominator)),
    }
}

fn small(draw: &mut Draw) -> Words {
    reduced(draw.within(-12, 12), draw.within(1, 12))
}

fn uniform(draw: &mut Draw) -> Words {
    let (numerator, denominator) = (draw.word() as i64, draw.word() as i64);
    if draw.chance(30) {
        (word(numerator), word(denominator))
    } else {
        reduced(numerator, (denominator & 0x7FFF_FFFF).max(1))
    }
}

fn edge(draw: &mut Draw) -> Words {
    let (numerator, denominator) = (draw.of(&EDGE), draw.of(&EDGE));
    match draw.below(4) {
        0 => (word(numerator), word(denominator)),
        1 => reduced(numerator, draw.within(1, 5)),
        2 => reduced(draw.within(-5, 5), denominator.max(1)),
        _ => reduced(numerator, denominator.max(1)),
    }
}

fn mark(draw: &mut Draw) -> Words {
    draw.of(&[(-1, 0), (1, 0)])
}

fn improper(draw: &mut Draw) -> Words {
    let (numerator, denominator) = small(draw);
    match draw.below(8) {
        0 => (numerator * 2, denominator * 2),
        1 => (numerator, -denominator),
        2 => (0, draw.within(-3, 3) as i32),
        3 => (draw.within(-3, 3) as i32, 0),
        4 => (i32::MIN, denominator),
        5 => (numerator, i32::MIN),
        6 => (-2147483646, 2147483646 / draw.of(&[1, 2, 3])),
        _ => (draw.word(), 0),
    }
}

fn single(draw: &mut Draw) -> Words {
    match draw.below(10) {
        0..=2 => small(draw),
        3..=4 => uniform(draw),
        5..=6 => edge(draw),
        7 => mark(draw),
        8 => improper(draw),
        _ => (0, 1),
    }
}

/// Operands whose product or quotient (or their denominators' product in a sum) lies at the edge.
fn factors(draw: &mut Draw) -> (Words, Words) {
    let (first, second) = draw.of(&FACTORS_AT_THE_EDGE);
    let (p, q) = (first + draw.within(-1, 1) * draw.within(0, 1), second * draw.sign());
    match draw.below(6) {
        0 => (reduced(p, 1), reduced(q, 1)),
        1 => (reduced(1, p), reduced(1, q)),
        2 => (reduced(p, 1), reduced(1, q)),
        3 => (reduced(1, p), reduced(q, 1)),
        4 => (reduced(draw.within(-9, 9), p), reduced(draw.within(-9, 9), q)),
        _ => (reduced(p, draw.within(1, 9)), reduced(q, draw.within(1, 9))),
    }
}

/// Operands with large factors in common, which cancel in part.
fn common(draw: &mut Draw) -> (Words, Words) {
    let shared = draw.of(&[46340, 46341, 65536, 65537, 32768, 32767, 1000000007, 715827882, 30030, 9699690]);
    let limit = 2147483647 / shared;
    let some = |draw: &mut Draw| draw.within(1, limit.min(70000)) * draw.sign();
    let any = |draw: &mut Draw| draw.within(1, 70000) * draw.sign();
    let (p, q, s, t) = (some(draw), any(draw), any(draw), some(draw));
    match draw.below(4) {
        0 => (reduced(p * shared, q), reduced(s, t * shared)),
        1 => (reduced(q, p * shared), reduced(s, t * shared)),
        2 => (reduced(p * shared, q), reduced(t * shared, s)),
        _ => (reduced(q, p * shared), reduced(t * shared, s)),
    }
}

/// Operands over the same denominator whose numerators' sum or difference lies at the edge.
fn sums(draw: &mut Draw) -> (Words, Words) {
    let total = (2147483647 + draw.within(-3, 3)) * draw.sign();
    let part = draw.within(-2147483647, 2147483647);
    let denominator = draw.of(&[1, 1, 2, 3, 7, 65536, 2147483647]);
    let rest = total - part;
    let pair = (reduced(part, denominator), reduced(rest, denominator));
    if draw.chance(50) {
        (pair.0, (pair.1 .0.wrapping_neg(), pair.1 .1))
    } else {
        pair
    }
}

/// Fractions that are hard to tell apart.
fn neighbours(draw: &mut Draw) -> (Words, Words) {
    let n = draw.within(2147480000, 2147483645);
    (reduced(n * draw.sign(), n + 1), reduced((n + 1) * draw.sign(), n + 2))
}

fn operands(draw: &mut Draw) -> (Words, Words) {
    let x = single(draw);
    match draw.below(12) {
        0 => (x, x),
        1 => (x, (x.0.wrapping_neg(), x.1)),
        2 => (x, (x.1, x.0)),
        3 | 4 => factors(draw),
        5 | 6 => common(draw),
        7 => sums(draw),
        8 => neighbours(draw),
        _ => (x, single(draw)),
    }
}

fn question(draw: &mut Draw) -> Question {
    let kind = match draw.below(20) {
        0..=11 => draw.below(4) as i32,
        12..=14 => 4,
        15..=18 => draw.within(5, 8) as i32,
        _ => draw.of(&[9, -1, i32::MIN, i32::MAX, 256, 4, 5, 6, 7, 8, 65536]),
    };
    let (x, y) = operands(draw);
    [kind, x.0, x.1, y.0, y.1]
}

/// Prints how often each kind gave each status here.
fn print_tally(questions: &[Question], expected: &[Answer]) {
    let names = ["sum", "difference", "product", "quotient", "less", "read", "lower", "upper", "negation", "other"];
    let mut tally = [[0usize; 3]; 10];
    for (asked, told) in questions.iter().zip(expected) {
        let kind = if (0..9).contains(&asked[0]) { asked[0] as usize } else { 9 };
        tally[kind][told[0] as usize] += 1;
    }
    for (name, [zero, one, two]) in names.iter().zip(tally) {
        println!("{name}: status 0 {zero}, status 1 {one}, status 2 {two}");
    }
}

fn main() {
    let (program, count, _) = arguments("compare_fractions", 200000);
    let mut draw = Draw::new(0x5EC0_4D01);
    let questions: Vec<Question> = (0..count).map(|_| question(&mut draw)).collect();
    let expected: Vec<Answer> = questions.iter().map(|&asked| answer(asked)).collect();
    print_tally(&questions, &expected);
    let differ = count_differences(&program, About::Operation, &questions, &expected, |asked| format!("{asked:?}"));
    println!("fractions: {count} operations, {differ} differ");
    exit((differ > 0) as i32);
}
