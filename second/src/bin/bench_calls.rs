//! Times calls of the library for other languages against this implementation, called directly, in one process; processor
//! time, so that other processes disturb little.
//! Without arguments: all sizes and kinds. With TASK KIND N M COUNT (reduce or restore; long, stuck, mixed, pairs or roots): so
//! many calls of the library alone, on one network, for a profiler.

use second::bench_networks::{Kind, KINDS, SEARCHES, SIZES};
use second::calls::{reduce_call, restore_call, REDUCING_ROOM, RESTORING_ROOM};
use second::draw::Draw;
use second::trips::Words;
use std::hint::black_box;

#[path = "../../../include/patskvime.rs"]
mod patskvime;

/// Networks of each size and kind.
const NETWORKS: usize = 10;
/// Times measured of each network, task and implementation; so many calls in each.
const ROUNDS: usize = 15;
const CALLS: usize = 4;
const SEED: u64 = 0x5EC0_4D07;

#[derive(Clone, Copy)]
enum Task {
    Reduce,
    Restore,
}

const TASKS: [Task; 2] = [Task::Reduce, Task::Restore];

impl Task {
    fn name(self) -> &'static str {
        match self {
            Task::Reduce => "reduce",
            Task::Restore => "restore",
        }
    }

    /// One call of the library; the code.
    fn library(self, words: &Words, lent: &mut Lent) -> usize {
        let Lent { out, stack, pair, values, scratch } = lent;
        match self {
            Task::Reduce => patskvime::reduce(&words.network, out, stack, scratch),
            Task::Restore => patskvime::restore(&words.network, &words.stack, &words.pair, pair, values, scratch),
        }
    }

    /// The same by this implementation, from words to words.
    fn second(self, words: &Words) -> usize {
        match self {
            Task::Reduce => black_box(reduce_call(&words.network, REDUCING_ROOM)).code,
            Task::Restore => black_box(restore_call(&words.network, &words.stack, &words.pair, RESTORING_ROOM)).code,
        }
    }
}

/// The slices lent in all calls.
struct Lent {
    out: Vec<i32>,
    stack: Vec<i32>,
    pair: Vec<i32>,
    values: Vec<i32>,
    scratch: Vec<i32>,
}

impl Lent {
    fn new() -> Lent {
        let [out, stack, scratch] = REDUCING_ROOM.map(|length| vec![0; length]);
        let [pair, values, _] = RESTORING_ROOM.map(|length| vec![0; length]);
        Lent { out, stack, pair, values, scratch }
    }
}

/// The processor time that this process has used so far, in microseconds: POSIX's `clock_gettime`, on Linux's clock 2.
fn processor_time() -> f64 {
    extern "C" {
        fn clock_gettime(clock: i32, time: *mut [i64; 2]) -> i32;
    }
    let mut time = [0; 2];
    let status = unsafe { clock_gettime(2, &mut time) };
    assert_eq!(status, 0, "the clock is there");
    time[0] as f64 * 1e6 + time[1] as f64 / 1e3
}

/// The time of one call, as the mean of a few.
fn time(mut call: impl FnMut() -> usize) -> f64 {
    let start = processor_time();
    for _ in 0..CALLS {
        assert_eq!(call(), 0, "the networks are reduced, and their pairs restored");
    }
    (processor_time() - start) / CALLS as f64
}

fn median(mut times: Vec<f64>) -> f64 {
    times.sort_by(f64::total_cmp);
    times[times.len() / 2]
}

/// The median times of the library and of this implementation, in microseconds. They take turns.
fn measure(task: Task, words: &Words, lent: &mut Lent) -> [f64; 2] {
    let mut times = [vec![], vec![]];
    for _ in 0..ROUNDS {
        times[0].push(time(|| task.library(words, lent)));
        times[1].push(time(|| task.second(words)));
    }
    times.map(median)
}

fn print_row(kind: Kind, (n, m): (usize, usize), draw: &mut Draw, lent: &mut Lent) {
    let cases: Vec<(Words, usize)> = (0..NETWORKS).map(|_| kind.words(draw, n, m)).collect();
    let steps = cases.iter().map(|case| case.1).sum::<usize>() / NETWORKS;
    for task in TASKS {
        let mut means = [0.0; 2];
        for (words, _) in &cases {
            let medians = measure(task, words, lent);
            (0..2).for_each(|which| means[which] += medians[which] / NETWORKS as f64);
        }
        let [library, second] = means;
        let name = format!("{} {}, {n}/{m}, {steps} steps", task.name(), kind.name());
        println!("{name:34} {library:9.1} {second:9.1} {:9.2}", library / second);
    }
}

/// Only calls of one task, on the first network of a kind and size.
fn repeat(arguments: &[String]) -> Option<()> {
    let [task, kind, n, m, count] = arguments else {
        return None;
    };
    let task = TASKS.into_iter().find(|it| it.name() == task)?;
    let mut kinds = KINDS.into_iter().chain(SEARCHES.map(|(kind, _)| kind));
    let kind = kinds.find(|it| it.name() == kind)?;
    let count: usize = count.parse().ok()?;
    let (words, steps) = kind.words(&mut Draw::new(SEED), n.parse().ok()?, m.parse().ok()?);
    let mut lent = Lent::new();
    for _ in 0..count {
        assert_eq!(task.library(&words, &mut lent), 0, "it succeeds");
    }
    println!("{count} calls of {}, {} {n}/{m}, {steps} steps", task.name(), kind.name());
    Some(())
}

fn main() {
    let arguments: Vec<String> = std::env::args().skip(1).collect();
    if !arguments.is_empty() {
        if repeat(&arguments).is_none() {
            eprintln!("bench_calls [reduce|restore long|stuck|mixed|pairs|roots N M COUNT]");
            std::process::exit(2);
        }
        return;
    }
    println!("microseconds of a call: library, second implementation, ratio");
    let (mut draw, mut lent) = (Draw::new(SEED), Lent::new());
    for size in SIZES {
        for kind in KINDS {
            print_row(kind, size, &mut draw, &mut lent);
        }
    }
    for (kind, size) in SEARCHES {
        print_row(kind, size, &mut draw, &mut lent);
    }
}
