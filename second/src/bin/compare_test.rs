//! Compares another program's optimality test with this implementation's.
//! Argument 1: the program; argument 2: how many pairs (30000 if absent).

use second::compare::{arguments, count_differences, record_in, About};
use second::draw::Draw;
use second::exact::Exact;
use second::network::{Network, Refusal};
use second::optimality::{test_alone, Pair};
use second::pairs::case;
use second::sample_texts::{damage_length, damage_network};
use second::text::read_words;
use second::trips::damage_pair_record;
use std::collections::BTreeMap;
use std::process::exit;

/// Words for a network's record and for a pair's, and the most that are lent for the value.
const NETWORK_ROOM: usize = 160;
const PAIR_ROOM: usize = 40;
const LENT: usize = 4;
/// The lengths of the records, how many words are lent for the value, the records with zeros behind them.
const ASKED: usize = 3 + NETWORK_ROOM + PAIR_ROOM;
/// The number of the answer, 0 where the pair is passed, -1 where a length is too large; then the words for the value,
/// of which those not lent stay as they were.
const TOLD: usize = 1 + LENT;
const AS_BEFORE: i32 = 7;

type Question = [i32; ASKED];
type Answer = [i32; TOLD];

fn question(network: &[i32], pair: &[i32], lent: i32) -> Question {
    let mut question = [0; ASKED];
    question[..3].copy_from_slice(&[network.len() as i32, pair.len() as i32, lent]);
    question[3..3 + network.len()].copy_from_slice(network);
    let pair_room = &mut question[3 + NETWORK_ROOM..];
    pair_room[..pair.len()].copy_from_slice(pair);
    question
}

/// A pair with its network; now and then records that are none, or other lengths.
fn drawn(draw: &mut Draw) -> Question {
    let case = case(draw);
    let (mut network, mut pair) = (case.network.record().words(), case.pair.record().words());
    match draw.below(40) {
        0..=2 => damage_network(draw, &mut network),
        3 => damage_length(draw, &mut network),
        4 | 5 => damage_pair_record(draw, &mut pair),
        6 => {
            damage_network(draw, &mut network);
            damage_pair_record(draw, &mut pair);
        }
        _ => {}
    }
    let mut question = question(&network, &pair, draw.of(&[2, 2, 2, 2, 2, 2, 3, 4]));
    if draw.chance(1) {
        question[2] = draw.of(&[0, 1, 0, 1, 5, -1, i32::MAX, i32::MIN]);
    }
    if draw.chance(1) {
        question[draw.below(2)] = draw.of(&[0, 1, 2, 40, 41, 160, 161, 162, -1, i32::MAX, i32::MIN]);
    }
    question
}

/// The instances A, B, C and D of 01: the same reduced network with four pairs, and their answers.
fn instances() -> Vec<(Question, Answer)> {
    let words = |text: &str| read_words(text.as_bytes()).expect("words");
    let network = words("2 2 14 4 -4 1 2 1 0 3 1 -1 1 2 2 0 1 1 -1 1 1 1 1 1 1 1 1 1 1 1 1 1 1 0 1 1");
    let pair = |flows: &str| words(&format!("2 2 2 0 {flows} 1 1 1 1"));
    let answer = |number, value: [i32; 2]| [number, value[0], value[1], AS_BEFORE, AS_BEFORE];
    vec![
        (question(&network, &pair("3 1"), 2), answer(0, [19, 1])),
        (question(&network, &pair("2 2"), 2), answer(12, [0, 0])),
        (question(&network, &pair("4 0"), 2), answer(11, [0, 0])),
        (question(&network, &pair("3 2"), 2), answer(10, [0, 0])),
    ]
}

/// The words asked about and how many are lent; none where a length is too large.
fn asked(question: &Question) -> Option<(&[i32], &[i32], usize)> {
    let (network_room, pair_room) = question[3..].split_at(NETWORK_ROOM);
    let (network, pair) = (record_in(network_room, question[0])?, record_in(pair_room, question[1])?);
    let lent = Some(question[2].max(0) as usize).filter(|&lent| lent <= LENT)?;
    Some((network, pair, lent))
}

fn answer(question: &Question) -> Answer {
    let mut answer = [AS_BEFORE; TOLD];
    let Some((network, pair, lent)) = asked(question) else {
        answer[0] = -1;
        return answer;
    };
    let tested = if lent < 2 { Err(Refusal(1)) } else { test_alone(network, pair) };
    answer[1..1 + lent].fill(0);
    match tested {
        Err(Refusal(number)) => answer[0] = number as i32,
        Ok(value) => {
            answer[0] = 0;
            (answer[1], answer[2]) = value.words();
        }
    }
    answer
}

/// The operations that question 9 asks to fit.
const OPERATIONS: [&str; 6] =
    ["balance product", "balance sum", "price product", "reduced cost", "value product", "value sum"];

/// The test without any width: the answer of questions 10 to 12, 0 where all are yes, and which operations of
/// question 9 have a result that doesn't fit.
struct Exactly {
    number: i32,
    misfits: [bool; 6],
}

impl Exactly {
    fn new(network: &Network, pair: &Pair) -> Exactly {
        let mut misfits = [false; 6];
        let mut note = |operation: usize, result: Exact| {
            misfits[operation] |= result.fraction().is_none();
            result
        };
        let mut rest: BTreeMap<usize, Exact> = network.supplies.iter().map(|(&node, &r)| (node, r.into())).collect();
        let mut sums: BTreeMap<usize, Exact> = network.supplies.keys().map(|&node| (node, Exact::zero())).collect();
        let mut value = Exact::from(network.constant);
        let (mut within, mut kept) = (true, true);
        for (number, arc) in &network.arcs {
            let flow = Exact::from(pair.flows[number]);
            let mut d = Exact::from(arc.cost);
            for (node, multiplier) in arc.ends() {
                let multiplier = Exact::from(multiplier);
                let product = note(0, &multiplier * &flow);
                rest.insert(node, &rest[&node] - &product);
                sums.insert(node, note(1, &sums[&node] + &product));
                let part = note(2, &multiplier * &pair.prices[&node].into());
                d = note(3, &d - &part);
            }
            let part = note(4, &Exact::from(arc.cost) * &flow);
            value = note(5, &value + &part);
            let (lower, upper) = (arc.lower.finite().map(Exact::from), arc.upper.finite().map(Exact::from));
            within &= lower.iter().all(|lower| *lower <= flow) && upper.iter().all(|upper| flow <= *upper);
            kept &= !d.is_positive() || lower.as_ref() == Some(&flow);
            kept &= !d.is_negative() || upper.as_ref() == Some(&flow);
        }
        let balanced = rest.values().all(Exact::is_zero);
        let number = match (balanced, within, kept) {
            (false, ..) => 10,
            (_, false, _) => 11,
            (.., false) => 12,
            _ => 0,
        };
        Exactly { number, misfits }
    }
}

/// What is asked, if it gets as far as question 9.
fn pair_of(question: &Question) -> Option<(Network, Pair)> {
    let (network, pair, _) = asked(question).filter(|(.., lent)| *lent >= 2)?;
    let network = Network::read(network).ok()?;
    let pair = Pair::read(&network, pair).ok()?;
    Some((network, pair))
}

/// Prints how often each answer was given here, and how often the width decided.
fn print_tally(questions: &[Question], expected: &[Answer]) {
    let mut answers: BTreeMap<i32, usize> = BTreeMap::new();
    let (mut otherwise, mut without_width): (BTreeMap<i32, usize>, BTreeMap<i32, usize>) = Default::default();
    let (mut some, mut alone, mut wide) = ([0usize; 6], [0usize; 6], 0);
    for (question, told) in questions.iter().zip(expected) {
        *answers.entry(told[0]).or_default() += 1;
        wide += (told[0] == 0 && told[1..3].iter().any(|word| word.unsigned_abs() > 1 << 30)) as usize;
        let Some((network, pair)) = pair_of(question) else {
            continue;
        };
        let exactly = Exactly::new(&network, &pair);
        let count = exactly.misfits.iter().filter(|&&misfit| misfit).count();
        assert_eq!(told[0], if count > 0 { 9 } else { exactly.number }, "this package's two ways agree");
        *without_width.entry(exactly.number).or_default() += 1;
        if count > 0 {
            *otherwise.entry(exactly.number).or_default() += 1;
        }
        for (operation, _) in exactly.misfits.iter().enumerate().filter(|(_, &misfit)| misfit) {
            some[operation] += 1;
            alone[operation] += (count == 1) as usize;
        }
    }
    println!("answers {answers:?}");
    println!("of those that come to question 9, without any width {without_width:?}");
    println!("9, where without any width it is {otherwise:?}; passed with a value near the width {wide}");
    for (operation, name) in OPERATIONS.iter().enumerate() {
        println!("9 by a {name}: {}, by nothing else: {}", some[operation], alone[operation]);
    }
}

fn main() {
    let (program, count, _) = arguments("compare_test", 30000);
    let mut draw = Draw::new(0x5EC0_4D05);
    let instances = instances();
    let mut questions: Vec<Question> = instances.iter().map(|(question, _)| *question).collect();
    questions.extend((0..count).map(|_| drawn(&mut draw)));
    let expected: Vec<Answer> = questions.iter().map(answer).collect();
    assert!(instances.iter().zip(&expected).all(|((_, told), expected)| told == expected), "as 01 says");
    print_tally(&questions, &expected);
    let differ =
        count_differences(&program, About::Test, &questions, &expected, |question| format!("{:?}", asked(question)));
    println!("tests: {} instances, {count} pairs, {differ} differ", instances.len());
    exit((differ > 0) as i32);
}
