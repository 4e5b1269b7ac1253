//! Times other programs against this package's on the same networks, reducing and restoring.
//! Argument 1: the other reducing program; 2: this package's; 3 and 4: likewise for restoring.

use second::bench_networks::{KINDS, SIZES};
use second::draw::Draw;
use second::network::Network;
use second::text::line;
use second::trips::Trip;
use std::io::Write;
use std::process::{Command, Stdio};
use std::time::{Duration, Instant};

/// Texts of each size and kind.
const TEXTS: usize = 20;
/// Runs of each program on each text.
const ROUNDS: usize = 30;
/// So many texts are run between two runs on the empty network.
const BETWEEN_EMPTY: usize = 6;
/// Refused before any network is made: beyond this, time on the empty network is work and not start-up.
const REFUSED: &str = "x\n";

/// A text, and the times of both programs on it.
struct Case {
    text: String,
    steps: usize,
    times: [Vec<Duration>; 2],
}

impl Case {
    /// Both programs must give the same answer, of the kind expected.
    fn new(text: String, steps: usize, programs: &[String; 2], expected: &str) -> Case {
        let answers = [0, 1].map(|which| run(&programs[which], &text).1);
        assert_eq!(answers[0], answers[1], "the programs' answers differ on\n{text}");
        assert!(answers[0].starts_with(expected), "not {expected}:\n{text}{}", answers[0]);
        Case { text, steps, times: [vec![], vec![]] }
    }

    /// One run of each program.
    fn run(&mut self, programs: &[String; 2], round: usize) {
        for turn in 0..2 {
            let which = (round + turn) % 2;
            self.times[which].push(run(&programs[which], &self.text).0);
        }
    }

    /// The median time in microseconds.
    fn median(&self, which: usize) -> f64 {
        let mut times = self.times[which].clone();
        times.sort();
        micros(times[times.len() / 2])
    }
}

/// Runs a program on a text: the wall time from its start to its end, and its answer.
fn run(program: &str, text: &str) -> (Duration, String) {
    let start = Instant::now();
    let mut child = Command::new(program)
        .stdin(Stdio::piped())
        .stdout(Stdio::piped())
        .spawn()
        .unwrap_or_else(|error| panic!("{program}: {error}"));
    child.stdin.take().expect("piped").write_all(text.as_bytes()).expect("the text is read");
    let output = child.wait_with_output().expect("the program ends");
    let time = start.elapsed();
    assert!(output.status.success(), "{program}: {}", output.status);
    (time, String::from_utf8(output.stdout).expect("an answer in ASCII"))
}

fn micros(time: Duration) -> f64 {
    time.as_secs_f64() * 1e6
}

fn mean(figures: impl Iterator<Item = f64>) -> f64 {
    let figures: Vec<f64> = figures.collect();
    figures.iter().sum::<f64>() / figures.len() as f64
}

/// The two programs of a task and their times.
struct Bench {
    programs: [String; 2],
    /// The first word of the answers.
    answer: &'static str,
    cases: Vec<Case>,
    empty: Case,
    refused: Case,
}

impl Bench {
    fn new(programs: [String; 2], answer: &'static str, empty: &[i32]) -> Bench {
        let case = |text, expected| Case::new(text, 0, &programs, expected);
        let (empty, refused) = (case(line(empty), answer), case(REFUSED.to_string(), "refused"));
        Bench { programs, answer, cases: vec![], empty, refused }
    }

    fn add(&mut self, words: &[i32], steps: usize) {
        self.cases.push(Case::new(line(words), steps, &self.programs, self.answer));
    }

    fn run(&mut self, number: usize, round: usize) {
        if number % BETWEEN_EMPTY == 0 {
            for case in [&mut self.empty, &mut self.refused] {
                case.run(&self.programs, round + number / BETWEEN_EMPTY);
            }
        }
        self.cases[number].run(&self.programs, round);
    }

    /// Prints and returns mean times over each row's texts, of each text's median less that of the empty network.
    /// With the rows of reducing there is one more column: the verified program's time over that of reducing.
    fn print_table(&self, reducing: Option<&[[f64; 2]]>) -> Vec<[f64; 2]> {
        let (start_up, refused) = ([0, 1].map(|which| self.empty.median(which)), &self.refused);
        println!("start-up (empty network, subtracted): verified {:.0}, Rust {:.0}", start_up[0], start_up[1]);
        println!("for comparison, a refused text: verified {:.0}, Rust {:.0}", refused.median(0), refused.median(1));
        let last = if reducing.is_some() { "  /reducing" } else { "" };
        println!("{:>5} {:>5} {:>6} {:>9} {:>9} {:>7}{last}", "n/m", "kind", "steps", "verified", "Rust", "ratio");
        let mut rows = vec![];
        for (row, cases) in self.cases.chunks(TEXTS).enumerate() {
            let (n, m) = SIZES[row / KINDS.len()];
            let steps = mean(cases.iter().map(|case| case.steps as f64));
            let [verified, rust] =
                [0, 1].map(|which| mean(cases.iter().map(|case| case.median(which))) - start_up[which]);
            let name = KINDS[row % KINDS.len()].name();
            let ratio = verified / rust;
            let last = reducing.map_or(String::new(), |rows| format!("{:>11.2}", verified / rows[row][0]));
            println!("{n:>2}/{m:<2} {name:>5} {steps:>6.1} {verified:>9.1} {rust:>9.1} {ratio:>7.2}{last}");
            rows.push([verified, rust]);
        }
        println!("growth from {} to {} nodes:", SIZES[0].0, SIZES[SIZES.len() - 1].0);
        let largest = &rows[rows.len() - KINDS.len()..];
        for (kind, (least, most)) in KINDS.iter().zip(rows.iter().zip(largest)) {
            println!("{:>11}  verified {:>6.1}, Rust {:>6.1}", kind.name(), most[0] / least[0], most[1] / least[1]);
        }
        let longest = micros(*self.cases.iter().flat_map(|case| &case.times[0]).max().expect("some run"));
        let slowest = self.cases.iter().map(|case| case.median(0)).fold(0.0, f64::max);
        println!("verified, start-up included: longest single run {longest:.0}, longest median {slowest:.0}");
        rows
    }
}

fn main() {
    let arguments: Vec<String> = std::env::args().skip(1).collect();
    let Ok([verified_reduce, rust_reduce, verified_restore, rust_restore]) = <[String; 4]>::try_from(arguments) else {
        eprintln!("bench_programs VERIFIED_REDUCE RUST_REDUCE VERIFIED_RESTORE RUST_RESTORE");
        std::process::exit(2);
    };
    let empty = Trip::at_rest(Network::default()).words();
    let mut reducing = Bench::new([verified_reduce, rust_reduce], "reduced", &empty.network);
    let mut restoring = Bench::new([verified_restore, rust_restore], "restored", &empty.all());

    let mut draw = Draw::new(0x5EC0_4D05);
    for (n, m) in SIZES {
        for kind in KINDS {
            for _ in 0..TEXTS {
                let (words, steps) = kind.words(&mut draw, n, m);
                reducing.add(&words.network, steps);
                restoring.add(&words.all(), steps);
            }
        }
    }
    for round in 0..ROUNDS {
        for number in 0..reducing.cases.len() {
            reducing.run(number, round);
            restoring.run(number, round);
        }
    }
    println!("{TEXTS} texts in a row, {ROUNDS} runs of each program on each; microseconds, without the start-up");
    println!("\nreducing");
    let rows = reducing.print_table(None);
    println!("\nrestoring");
    restoring.print_table(Some(&rows));
}
