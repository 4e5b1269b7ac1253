//! Compares another program's answers for one rule at one place of a network with this implementation's.
//! Argument 1: the program; argument 2: how many networks (30000 if absent).

use second::compare::{arguments, count_differences, record_in, About};
use second::draw::Draw;
use second::exact::Exact;
use second::fraction::{Bound, Fraction};
use second::network::{Arc, Network};
use second::parallel_cases::{met, Meets};
use second::reduce::RULES;
use second::rules::{apart_from_constant, place_is_arc, try_rule, Back, Change, Found};
use second::sample_texts::{damage_network, drop_constant};
use second::scenes::{scene, sign};
use std::collections::BTreeMap;
use std::process::exit;

/// Words for a network's record.
const ROOM: usize = 160;
/// Rule, place, the record's length, the record and zeros behind it.
const ASKED: usize = 3 + ROOM;
/// An arc's number, ends and figures.
const ARC_WORDS: usize = 13;
/// Kind; four arcs; two supplies of 3 words; the node dropped; the constant.
const SUPPLIES_AT: usize = 1 + 4 * ARC_WORDS;
const NODE_AT: usize = SUPPLIES_AT + 2 * 3;
const CONSTANT_AT: usize = NODE_AT + 1;
const TOLD: usize = CONSTANT_AT + 2;

type Question = [i32; ASKED];
type Answer = [i32; TOLD];

const NAMES: [&str; 4] = ["passes", "no flow", "step", "refused"];

fn question(rule: i32, place: i32, record: &[i32]) -> Question {
    let mut question = [0; ASKED];
    question[0] = rule;
    question[1] = place;
    question[2] = record.len() as i32;
    question[3..3 + record.len()].copy_from_slice(record);
    question
}

/// A rule at its place of a network shaped for it; now and then another place, rule or record.
fn drawn(draw: &mut Draw) -> Question {
    let rule = draw.of(&[1, 1, 2, 3, 3, 4, 4, 4, 5, 5, 5, 5, 6, 6, 6, 7, 7, 7, 7, 7]);
    let scene = scene(draw, rule);
    let mut record = scene.network.record().words();
    let (mut rule, mut place) = (rule as i32, scene.place as i32);
    if draw.chance(3) {
        place = draw.of(&[-1, 0, 1, 2, 3, 4, 5, 6, 7, 8, 9, 10, 32, 33, 34, 96, 97, 98, i32::MAX, i32::MIN]);
    }
    if draw.chance(2) {
        rule = draw.of(&[1, 2, 3, 4, 5, 6, 7, 0, 8, 9, -1, 257, 260, 263, i32::MAX, i32::MIN]);
    }
    match draw.below(100) {
        0 | 1 => damage_network(draw, &mut record),
        2 => drop(record.pop()),
        3 => record.push(draw.word()),
        4 => drop_constant(&mut record),
        _ => {}
    }
    let mut question = question(rule, place, &record);
    if draw.chance(1) {
        question[2] = draw.of(&[0, 161, 162, 1000, -1, i32::MAX, i32::MIN]);
    }
    question
}

fn record_of(question: &Question) -> Option<&[i32]> {
    record_in(&question[3..], question[2])
}

/// The network asked about, the rule and the place; 0 for a rule or place that there can't be.
fn asked(question: &Question) -> (Option<Network>, u8, usize) {
    let network = record_of(question).and_then(|record| Network::read(record).ok());
    let (rule, place) = (u8::try_from(question[0]), usize::try_from(question[1]));
    (network, rule.unwrap_or(0), place.unwrap_or(0))
}

fn put_figure(words: &mut [i32], (numerator, denominator): (i32, i32)) {
    words[0] = numerator;
    words[1] = denominator;
}

fn put_arc(words: &mut [i32], number: usize, arc: &Arc) {
    words[..3].copy_from_slice(&[number as i32, arc.from as i32, arc.to as i32]);
    let (lower, upper) = (arc.lower.words(), arc.upper.words());
    let figures = [arc.cost.words(), lower, upper, arc.at_from.words(), arc.at_to.words()];
    for (place, figure) in figures.into_iter().enumerate() {
        put_figure(&mut words[3 + 2 * place..], figure);
    }
}

/// New arcs come before dropped ones, of which only the number is told.
fn step_words(change: &Change) -> Answer {
    let mut answer = [0; TOLD];
    answer[0] = 2;
    for (at, (number, arc)) in change.new_arcs.iter().enumerate() {
        put_arc(&mut answer[1 + ARC_WORDS * at..], *number, arc);
    }
    for (at, number) in (change.new_arcs.len()..).zip(&change.dropped_arcs) {
        answer[1 + ARC_WORDS * at] = *number as i32;
    }
    for (at, (node, supply)) in change.new_supplies.iter().enumerate() {
        answer[SUPPLIES_AT + 3 * at] = *node as i32;
        put_figure(&mut answer[SUPPLIES_AT + 3 * at + 1..], supply.words());
    }
    answer[NODE_AT] = change.dropped_node.unwrap_or(0) as i32;
    put_figure(&mut answer[CONSTANT_AT..], change.constant.words());
    answer
}

fn kind_only(kind: i32) -> Answer {
    let mut answer = [0; TOLD];
    answer[0] = kind;
    answer
}

fn answer(question: &Question) -> Answer {
    let (network, rule, place) = asked(question);
    match network.map(|network| try_rule(&network, rule, place)) {
        None => kind_only(3),
        Some(None) => kind_only(0),
        Some(Some(Found::NoFlow)) => kind_only(1),
        Some(Some(Found::Step(change))) => step_words(&change),
    }
}

/// The network with each figure replaced by its sign.
fn signs(network: &Network) -> Network {
    let bound = |bound: Bound| bound.finite().map_or(bound, |figure| Bound::Finite(sign(figure)));
    let arc = |arc: &Arc| Arc {
        cost: sign(arc.cost),
        lower: bound(arc.lower),
        upper: bound(arc.upper),
        at_from: sign(arc.at_from),
        at_to: sign(arc.at_to),
        ..*arc
    };
    Network {
        constant: sign(network.constant),
        supplies: network.supplies.iter().map(|(&node, &supply)| (node, sign(supply))).collect(),
        arcs: network.arcs.iter().map(|(&number, it)| (number, arc(it))).collect(),
    }
}

/// Whether an arc costs more than root arcs at its ends, exactly.
fn is_costly(network: &Network, arc: &Arc) -> bool {
    let share = |node: usize, multiplier: Fraction| {
        let roots = network.arcs.values().filter(move |root| root.is_root() && root.from == node);
        let open = roots.filter(|root| root.upper == Bound::AbsentUpper);
        let suited = open.filter(move |root| root.at_from.is_positive() == multiplier.is_positive());
        let exact = move |root: &Arc| &Exact::from(root.cost) * &Exact::from(multiplier);
        suited.map(move |root| &exact(root) / &Exact::from(root.at_from)).min()
    };
    match (share(arc.from, arc.at_from), share(arc.to, arc.at_to)) {
        (Some(first), Some(second)) => !arc.is_root() && Exact::from(arc.cost) > &first + &second,
        _ => false,
    }
}

/// Whether only the width can keep the rule from a step or from no flow. The conditions of rules 2, 3, 5 and 6
/// rest on signs alone.
fn applies_but_for_width(network: &Network, rule: u8, place: usize) -> bool {
    if !place_is_arc(rule) {
        return try_rule(&signs(network), rule, place).is_some();
    }
    match network.arcs.get(&place) {
        Some(arc) if rule == 1 => arc.lower >= arc.upper,
        Some(_) if rule == 7 => met(network, place).iter().any(|(_, meets)| matches!(meets, Meets::Parallel(_))),
        Some(arc) => arc.lower.finite().is_some() && is_costly(network, arc),
        None => false,
    }
}

/// Whether a figure of a step is beyond 2^30 in either part.
fn is_wide(answer: &Answer) -> bool {
    answer.iter().any(|word| word.unsigned_abs() > 1 << 30)
}

/// What rule 7 met here.
#[derive(Default)]
struct Parallels {
    /// Of the arcs that it passed over, how many were unlike j in this, and for how many an operation of this name
    /// didn't fit, and no other.
    unlike: BTreeMap<&'static str, usize>,
    misfits: BTreeMap<&'static str, (usize, usize)>,
    /// The steps by their kind.
    steps: BTreeMap<&'static str, usize>,
}

impl Parallels {
    fn count(&mut self, network: &Network, place: usize) {
        let met = met(network, place);
        for (_, meets) in &met {
            match meets {
                Meets::OtherEnds => {}
                Meets::Unlike(what) => *self.unlike.entry(what).or_default() += 1,
                Meets::Parallel(misfits) => {
                    for name in misfits {
                        let (some, alone) = self.misfits.entry(name).or_default();
                        *some += 1;
                        *alone += (misfits.len() == 1) as usize;
                    }
                }
            }
        }
        let merged = met.last().filter(|(_, meets)| *meets == Meets::Parallel(vec![])).map(|(number, _)| vec![*number]);
        match try_rule(network, 7, place) {
            Some(Found::Step(change)) => {
                assert_eq!(merged.as_ref(), Some(&change.dropped_arcs), "this package's two ways agree");
                self.count_step(&change, &met[..met.len() - 1]);
            }
            _ => assert_eq!(merged, None, "this package's two ways agree"),
        }
    }

    fn count_step(&mut self, change: &Change, passed: &[(usize, Meets)]) {
        let Back::ParallelArcs { kept: (_, j), g, .. } = &change.back else {
            panic!("a step of rule 7");
        };
        let is_open = |arc: &Arc| arc.upper == Bound::AbsentUpper;
        let above = match (is_open(j), is_open(&change.new_arcs[0].1)) {
            (true, _) => "j has none above",
            (_, true) => "the image alone has none above",
            _ => "both have bounds above",
        };
        let is_passed = |which: fn(&Meets) -> bool| passed.iter().any(|(_, meets)| which(meets));
        let kinds = [
            (if g.is_negative() { "g < 0" } else { "g > 0" }, true),
            (above, true),
            ("of root arcs", j.is_root()),
            ("past an arc with a misfit", is_passed(|meets| matches!(meets, Meets::Parallel(_)))),
            ("past an unlike arc", is_passed(|meets| matches!(meets, Meets::Unlike(_)))),
        ];
        for (kind, _) in kinds.into_iter().filter(|(_, is_so)| *is_so) {
            *self.steps.entry(kind).or_default() += 1;
        }
    }

    fn print(&self) {
        self.steps.iter().for_each(|(kind, count)| println!("    steps, {kind}: {count}"));
        self.unlike.iter().for_each(|(what, count)| println!("    passed over for {what}: {count}"));
        for (name, (some, alone)) in &self.misfits {
            println!("    passed over since {name} doesn't fit: {some}, and nothing else: {alone}");
        }
    }
}

/// Prints how often each rule gave each kind here, and how often the width had a say.
fn print_tally(questions: &[Question], expected: &[Answer]) {
    const ROWS: usize = 1 + RULES as usize;
    let mut kinds = [[0usize; 4]; ROWS];
    let (mut stopped, mut by_constant, mut wide) = ([0usize; ROWS], [0usize; ROWS], [0usize; ROWS]);
    let mut parallels = Parallels::default();
    for (question, told) in questions.iter().zip(expected) {
        let (network, rule, place) = asked(question);
        let row = if rule > RULES { 0 } else { rule as usize };
        if let (7, Some(network)) = (rule, &network) {
            parallels.count(network, place);
        }
        kinds[row][told[0] as usize] += 1;
        wide[row] += is_wide(told) as usize;
        if let Some(network) = network.filter(|_| told[0] == 0 && row > 0) {
            stopped[row] += applies_but_for_width(&network, rule, place) as usize;
            by_constant[row] += apart_from_constant(&network, rule, place).is_some() as usize;
        }
    }
    for (row, counts) in kinds.iter().enumerate() {
        let counts: Vec<String> = NAMES.iter().zip(counts).map(|(name, count)| format!("{name} {count}")).collect();
        let name = if row == 0 { "no rule".to_string() } else { format!("rule {row}") };
        println!("{name}: {}; wide steps {}", counts.join(", "), wide[row]);
        println!("    stopped by the width alone {}, by that of the constant {}", stopped[row], by_constant[row]);
    }
    parallels.print();
}

fn main() {
    let (program, count, _) = arguments("compare_rules", 30000);
    let mut draw = Draw::new(0x5EC0_4D04);
    let questions: Vec<Question> = (0..count).map(|_| drawn(&mut draw)).collect();
    let expected: Vec<Answer> = questions.iter().map(answer).collect();
    print_tally(&questions, &expected);
    let differ = count_differences(&program, About::Rule, &questions, &expected, |asked| {
        format!("rule {}, place {}: {:?}", asked[0], asked[1], record_of(asked))
    });
    println!("rules: {count} networks, {differ} differ");
    exit((differ > 0) as i32);
}
