//! Compares another program's way back over one step with this implementation's.
//! Argument 1: the program; argument 2: how many steps (30000 if absent).

use second::compare::{arguments, count_differences, record_in, About};
use second::draw::Draw;
use second::fraction::Fraction;
use second::network::Network;
use second::optimality::Pair;
use second::reduce::RULES;
use second::restore::go_back;
use second::rules::{place_is_arc, try_rule, Back, Change, Found};
use second::sample_texts::damage_network;
use second::scenes::{scene, Scene, ARCS, NODES};
use second::step_pairs::{bounded, heavier, step_pair, Exactly};
use std::collections::{BTreeMap, BTreeSet};
use std::process::exit;

/// Words for a network's record, and for prices and flows.
const ROOM: usize = 160;
const FIGURES: usize = 2 * (NODES + ARCS);
/// Rule, place, the record's length, the record and zeros behind it; the record of a pair.
const ASKED: usize = 3 + ROOM + 2 + FIGURES;
/// Kind, prices and flows.
const TOLD: usize = 1 + FIGURES;

type Question = [i32; ASKED];
type Answer = [i32; TOLD];

/// What is told: the rule gives no step there, a figure doesn't fit, all fit, or the record is refused.
const NO_STEP: i32 = 0;
const MISFIT: i32 = 1;
const FITS: i32 = 2;
const REFUSED: i32 = 3;
const NAMES: [&str; 4] = ["no step", "misfits", "fits", "refused"];

fn step(network: &Network, rule: u8, place: usize) -> Option<Change> {
    match try_rule(network, rule, place) {
        Some(Found::Step(change)) => Some(change),
        _ => None,
    }
}

/// A scene in which the rule gives a step, if one comes soon; often with figures near the width at the place, or with small
/// bounds.
fn scene_with_step(draw: &mut Draw, rule: u8) -> Scene {
    let mut drawn = scene(draw, rule);
    for _ in 0..10 {
        if step(&drawn.network, rule, drawn.place).is_some() {
            break;
        }
        drawn = scene(draw, rule);
    }
    if draw.chance(50) {
        let network = match step(&drawn.network, rule, drawn.place) {
            Some(change) if rule == 7 => bounded(draw, &drawn.network, &change),
            _ if !place_is_arc(rule) => heavier(draw, &drawn.network, drawn.place),
            _ => return drawn,
        };
        if step(&network, rule, drawn.place).is_some() {
            drawn.network = network;
        }
    }
    drawn
}

/// The prices of nodes 1 to 6 and the flows of arcs 1 to 9, 0 where there is none: their numerators, then their
/// denominators.
fn pair_words(pair: &Pair) -> [i32; FIGURES] {
    let prices = (1..=NODES).map(|node| pair.prices.get(&node));
    let figures = prices.chain((1..=ARCS).map(|arc| pair.flows.get(&arc)));
    let mut words = [0; FIGURES];
    for (at, figure) in figures.enumerate() {
        (words[at], words[FIGURES / 2 + at]) = figure.unwrap_or(&Fraction::ZERO).words();
    }
    words
}

fn pair_of(words: &[i32]) -> Pair {
    let (numerators, denominators) = words.split_at(FIGURES / 2);
    let figures = numerators.iter().zip(denominators).map(|(&n, &d)| Fraction::read(n, d).expect("in form"));
    let figures: Vec<Fraction> = figures.collect();
    let (prices, flows) = figures.split_at(NODES);
    Pair { prices: (1..).zip(prices.iter().copied()).collect(), flows: (1..).zip(flows.iter().copied()).collect() }
}

/// A step with prices and flows; now and then another place, or a record that is none.
fn drawn(draw: &mut Draw) -> Question {
    let rule = draw.of(&[1, 2, 3, 3, 4, 5, 5, 5, 5, 5, 6, 6, 6, 7, 7, 7, 7]);
    let Scene { network, place } = scene_with_step(draw, rule);
    let pair = match step(&network, rule, place) {
        Some(change) => step_pair(draw, &network, &change),
        None => Pair::default(),
    };
    let mut record = network.record().words();
    if draw.chance(1) {
        damage_network(draw, &mut record);
    }
    let mut question = [0; ASKED];
    question[..3].copy_from_slice(&[rule as i32, place as i32, record.len() as i32]);
    if draw.chance(1) {
        question[draw.below(3)] = draw.of(&[-1, 0, 1, 2, 3, 4, 5, 6, 7, 8, 9, 10, 97, 161, i32::MAX, i32::MIN]);
    }
    question[3..3 + record.len()].copy_from_slice(&record);
    question[3 + ROOM..5 + ROOM].copy_from_slice(&[NODES as i32, ARCS as i32]);
    question[5 + ROOM..].copy_from_slice(&pair_words(&pair));
    question
}

/// The step asked about and the pair; none where the record is refused, no step where the rule gives none.
fn asked(question: &Question) -> Option<(Option<Change>, Pair)> {
    let (record, pair) = question[3..].split_at(ROOM);
    let network = Network::read(record_in(record, question[2])?).ok()?;
    let (rule, place) = (u8::try_from(question[0]), usize::try_from(question[1]));
    let change = step(&network, rule.unwrap_or(0), place.unwrap_or(0));
    Some((change, pair_of(&pair[2..])))
}

fn answer(question: &Question) -> Answer {
    let mut answer = [0; TOLD];
    answer[0] = match asked(question) {
        None => REFUSED,
        Some((None, _)) => NO_STEP,
        Some((Some(change), mut pair)) => match go_back(&change.back, &mut pair) {
            None => MISFIT,
            Some(()) => {
                answer[1..].copy_from_slice(&pair_words(&pair));
                FITS
            }
        },
    };
    answer
}

/// What one rule gave here.
#[derive(Default)]
struct Row {
    kinds: [usize; 4],
    /// Of the misfits, how many come from an operation of this name, and from no other.
    misfits: BTreeMap<&'static str, (usize, usize)>,
    second_prices: usize,
    second_larger: usize,
    /// Rule 6: how often an N has the lowest number of the four.
    negative_first: usize,
    /// Rule 7: how often all fits for g > 0 and for g < 0, where j takes its upper bound, and otherwise.
    capped: [usize; 2],
    uncapped: [usize; 2],
}

impl Row {
    fn count(&mut self, kind: i32, change: &Change, pair: &Pair) {
        let exactly = Exactly::new(&change.back, pair);
        let misfits = exactly.misfits();
        assert_eq!(kind == FITS, misfits.is_empty(), "this package's two ways agree");
        let names: BTreeSet<&'static str> = misfits.iter().copied().collect();
        for name in names {
            let (some, alone) = self.misfits.entry(name).or_default();
            *some += 1;
            *alone += (misfits.len() == 1) as usize;
        }
        if kind == FITS {
            self.second_prices += exactly.is_second_price as usize;
            self.second_larger += exactly.is_second_larger as usize;
            if let Back::ParallelArcs { g, .. } = &change.back {
                let counts = if exactly.is_upper_smaller { &mut self.capped } else { &mut self.uncapped };
                counts[g.is_negative() as usize] += 1;
            }
        }
        if let Back::Crossing { negative, numbers, .. } = &change.back {
            self.negative_first += (negative[0].0 == numbers[0]) as usize;
        }
    }

    fn print(&self, rule: usize) {
        let kinds: Vec<String> = NAMES.iter().zip(self.kinds).map(|(name, count)| format!("{name} {count}")).collect();
        println!("rule {rule}: {}", kinds.join(", "));
        for (name, (some, alone)) in &self.misfits {
            println!("    {name} doesn't fit: {some}, and nothing else: {alone}");
        }
        match rule {
            5 => println!("    fits with the second price: {}", self.second_prices),
            6 => println!("    fits with the second N's price: {}", self.second_larger),
            7 => {
                let ([plus, minus], [others_plus, others_minus]) = (self.capped, self.uncapped);
                println!("    fits with j at its upper bound, g > 0: {plus}, g < 0: {minus}");
                println!("    fits with j at flow - lower end, g > 0: {others_plus}, g < 0: {others_minus}");
            }
            _ => {}
        }
        if rule == 6 {
            println!("    an N has the lowest number: {}", self.negative_first);
        }
    }
}

/// Prints how often each rule gave each kind here, and which operations didn't fit.
fn print_tally(questions: &[Question], expected: &[Answer]) {
    let mut rows: BTreeMap<usize, Row> = (1..=RULES as usize).map(|rule| (rule, Row::default())).collect();
    for (question, told) in questions.iter().zip(expected) {
        if let Some(row) = rows.get_mut(&(question[0] as usize)) {
            row.kinds[told[0] as usize] += 1;
            if let Some((Some(change), pair)) = asked(question) {
                row.count(told[0], &change, &pair);
            }
        }
    }
    rows.iter().for_each(|(rule, row)| row.print(*rule));
}

fn main() {
    let (program, count, _) = arguments("compare_back", 30000);
    let mut draw = Draw::new(0x5EC0_4D06);
    let questions: Vec<Question> = (0..count).map(|_| drawn(&mut draw)).collect();
    let expected: Vec<Answer> = questions.iter().map(answer).collect();
    print_tally(&questions, &expected);
    let differ = count_differences(&program, About::Back, &questions, &expected, |question| {
        format!("rule {}, place {}: {:?}", question[0], question[1], asked(question))
    });
    println!("steps undone: {count} questions, {differ} differ");
    exit((differ > 0) as i32);
}
