//! Compares the library for other languages with this implementation, call by call: the code, and every word of every
//! lent slice. Argument 1: how many calls (120000 if absent).

use second::calls::{reduce_call, restore_call, test_call, Told, REDUCING_ROOM, RESTORING_ROOM, TEST_ROOM};
use second::draw::Draw;
use second::network::Network;
use second::optimality::Pair;
use second::pairs::case;
use second::reduce::{reduce, End};
use second::sample_texts::{damage_length, damage_network, damaged_record, limit_record};
use second::samples::{network, Shape};
use second::trips::{change_pair_figure, damage_any, damage_pair_record, nearly_right_pair, survivors, Trip, Words};
use std::collections::BTreeMap;

#[path = "../../../include/patskvime.rs"]
mod patskvime;

/// Words on either side of a lent slice, that must stay as they are.
const BESIDE: usize = 4;

/// A lent slice, full of words that are not zero, in the middle of others.
struct Lent {
    words: Vec<i32>,
    garbage: i32,
}

impl Lent {
    fn new(draw: &mut Draw, length: usize) -> Lent {
        let garbage = draw.word() | 1;
        Lent { words: vec![garbage; length + 2 * BESIDE], garbage }
    }

    fn slice(&mut self) -> &mut [i32] {
        let end = self.words.len() - BESIDE;
        &mut self.words[BESIDE..end]
    }

    /// It has the record and zeros behind it, and nothing beside it has changed.
    fn has(&self, record: &[i32]) -> bool {
        let (before, rest) = self.words.split_at(BESIDE);
        let (lent, behind) = rest.split_at(rest.len() - BESIDE);
        lent.starts_with(record)
            && lent[record.len()..].iter().all(|&word| word == 0)
            && before.iter().chain(behind).all(|&word| word == self.garbage)
    }
}

/// Lengths to lend: mostly as asked or longer, now and then one of them shorter.
fn lengths<const N: usize>(draw: &mut Draw, asked: [usize; N]) -> [usize; N] {
    let mut lengths = asked;
    if draw.chance(50) {
        lengths = asked.map(|length| length + draw.of(&[0, 1, 2, 50]));
    }
    if draw.chance(3) {
        let which = draw.below(N);
        lengths[which] = draw.of(&[asked[which] - 1, asked[which] / 2, 1, 0]);
    }
    lengths
}

/// What was compared so far.
#[derive(Default)]
struct Calls {
    made: usize,
    differ: usize,
    full: usize,
    /// Pairs restored through a step of rule 7.
    merged: usize,
    codes: BTreeMap<(&'static str, String), usize>,
}

impl Calls {
    /// Makes one call and compares it.
    fn compare<const N: usize>(
        &mut self,
        draw: &mut Draw,
        (name, lengths): (&'static str, [usize; N]),
        told: Told<N>,
        given: &[&[i32]],
        call: impl FnOnce([&mut [i32]; N]) -> usize,
    ) {
        let mut lent = lengths.map(|length| Lent::new(draw, length));
        let code = call(lent.each_mut().map(Lent::slice));
        let same = code == told.code && lent.iter().zip(&told.records).all(|(lent, record)| lent.has(record));
        if !same {
            self.differ += 1;
            if self.differ <= 5 {
                let found = lent.map(|lent| lent.words);
                println!("{name} {given:?}, lent {lengths:?}\nhere {told:?}\nthere {code} {found:?}");
            }
        }
        self.made += 1;
        *self.codes.entry((name, named(code))).or_default() += 1;
    }

    fn reduce(&mut self, draw: &mut Draw, network: &[i32]) {
        let lengths = lengths(draw, REDUCING_ROOM);
        let told = reduce_call(network, lengths);
        self.compare(draw, ("reduce", lengths), told, &[network], |[out, stack, scratch]| {
            patskvime::reduce(network, out, stack, scratch)
        });
    }

    fn test(&mut self, draw: &mut Draw, network: &[i32], pair: &[i32]) {
        let lengths = lengths(draw, TEST_ROOM);
        let told = test_call(network, pair, lengths);
        self.compare(draw, ("test", lengths), told, &[network, pair], |[values]| {
            patskvime::test(network, pair, values)
        });
    }

    fn restore(&mut self, draw: &mut Draw, Words { network, stack, pair }: &Words) {
        let lengths = lengths(draw, RESTORING_ROOM);
        let told = restore_call(network, stack, pair, lengths);
        assert!(told.code != 0 || told.records[1][..2] == told.records[1][2..], "both values are the same");
        self.merged += (told.code == 0 && stack[1..=stack.len() / 2].contains(&7)) as usize;
        self.compare(draw, ("restore", lengths), told, &[network, stack, pair], |[out, values, scratch]| {
            patskvime::restore(network, stack, pair, out, values, scratch)
        });
    }

    /// All three on a network, its stack and a pair of the reduced network, then on damaged words.
    fn trip(&mut self, draw: &mut Draw, words: &Words, reduced: &[i32]) {
        self.full += (words.network[..2] == [32, 96]) as usize;
        self.reduce(draw, &words.network);
        self.test(draw, reduced, &words.pair);
        self.restore(draw, words);
        let mut damaged = words.clone();
        damage_any(draw, &mut damaged);
        self.reduce(draw, &damaged.network);
        self.restore(draw, &damaged);
        let widely = draw.chance(50);
        change_pair_figure(draw, &mut damaged.pair, widely);
        self.test(draw, reduced, &damaged.pair);
    }

    /// The parts of a pair of the whole network that belong to survivors are often optimal for the reduced network.
    fn whole_pair(&mut self, draw: &mut Draw, original: &Network, pair: &Pair) {
        let reduction = reduce(original);
        let kept = match &reduction.end {
            End::Reduced(kept) => kept.clone(),
            End::NoFlow { .. } => Network::default(),
        };
        let survivors = survivors(&reduction, pair).record().words();
        let words = Words { network: original.record().words(), stack: reduction.stack(), pair: survivors };
        self.trip(draw, &words, &kept.renumbered().record().words());
        self.test(draw, &words.network, &pair.record().words());
    }

    /// A trip with an optimal pair by the exact solver, or with one that is nearly right.
    fn solved_pair(&mut self, draw: &mut Draw, shape: Shape) {
        let original = network(draw, shape);
        let mut trip = Trip::of(draw, original);
        if draw.chance(25) {
            trip.pair = nearly_right_pair(draw, &trip).or(trip.pair);
        }
        let reduced = trip.reduced().map(Network::renumbered).unwrap_or_default();
        self.trip(draw, &trip.words(), &reduced.record().words());
    }

    /// Words that are mostly no network and no pair.
    fn damaged(&mut self, draw: &mut Draw) {
        let whole = case(draw);
        let (mut network, mut pair) = match draw.below(4) {
            0 => (damaged_record(draw), vec![]),
            1 => (limit_record(draw), vec![0, 0]),
            2 => ((0..draw.below(12)).map(|_| draw.word()).collect(), vec![0; draw.below(4)]),
            _ => (whole.network.record().words(), whole.pair.record().words()),
        };
        damage_network(draw, &mut network);
        damage_pair_record(draw, &mut pair);
        if draw.chance(10) && network.len() > 1 {
            damage_length(draw, &mut network);
        }
        self.reduce(draw, &network);
        self.test(draw, &network, &pair);
        self.restore(draw, &Words { network, stack: vec![0], pair });
    }
}

/// A code without its place.
fn named(code: usize) -> String {
    match code {
        0 => "success".to_string(),
        1..=255 => format!("refused {code:>2}"),
        _ => format!("no flow by rule {}", code / 256),
    }
}

fn main() {
    let count = std::env::args().nth(1).map_or(120_000, |text| text.parse().expect("a count"));
    let mut draw = Draw::new(0x5EC0_4D06);
    let mut calls = Calls::default();
    let shapes = [
        Shape::Small,
        Shape::Spoilt,
        Shape::Wide,
        Shape::Family,
        Shape::HeavyCrossing,
        Shape::SteepChain,
        Shape::SteepCostly,
        Shape::Doubled,
    ];
    for round in 0.. {
        if calls.made >= count {
            break;
        }
        match round % 100 {
            0 => calls.solved_pair(&mut draw, if round % 200 == 0 { Shape::Full } else { Shape::LongRun }),
            1..=16 => calls.solved_pair(&mut draw, shapes[round % 8]),
            17..=39 => calls.damaged(&mut draw),
            _ => {
                let whole = case(&mut draw);
                calls.whole_pair(&mut draw, &whole.network, &whole.pair);
            }
        }
    }
    for ((name, code), times) in &calls.codes {
        println!("{name} {code}: {times}");
    }
    println!("pairs restored through rule 7: {}", calls.merged);
    println!("calls: {}, of {} networks with 32 nodes and 96 arcs, {} differ", calls.made, calls.full, calls.differ);
    std::process::exit((calls.differ > 0) as i32);
}
