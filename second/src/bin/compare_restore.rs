//! Compares another restoring program with this one, and checks that what is restored is optimal, and the values equal.
//! Argument 1: the other program; 2: how many texts (3000 if absent); 3: a folder for the differing texts.

use second::compare::{arguments, own_program, Comparison};
use second::draw::Draw;
use second::network::Refusal;
use second::programs::{read_and_restore, restoring};
use second::trips::{sample, Sample, Ways};

/// Instances A to D of document 01: the network and the stack, the flows offered, and what is printed.
const INSTANCE: &str = "3 3\n0 4 -5 2 1 2 1 0 3 1 -1 1 2 2 0 1 1 -1 3 2 7 0 1 1 -1\n\
                        1 1 1 1 1 1 1 1 1 1 1 1 1 1 1 0 1 1 1 1 1 1 0 1 2\n1\n3\n3\n2 2\n2 0 ";
const OFFERED: [(&str, &str); 4] = [
    ("3 1", "restored\n3 3\n2 0 7 3 1 2\n1 1 1 1 1 1\n19 1\n19 1\n"),
    ("2 2", "refused 12\n"),
    ("4 0", "refused 11\n"),
    ("3 2", "refused 10\n"),
];

/// What the trips themselves showed, whatever the other program says.
#[derive(Default)]
struct Checks {
    ways: Ways,
    kinds: usize,
    values: usize,
    optima: usize,
    complaints: usize,
}

impl Checks {
    fn check(&mut self, number: usize, sample: &Sample) {
        let mut complaint = sample.trip.complaint();
        self.kinds += 1;
        let answer = read_and_restore(&sample.text);
        if let Ok(restored) = &answer {
            complaint = complaint.or(restored.complaint());
            self.values += 1;
        }
        if sample.whole && sample.trip.pair.is_some() {
            complaint = complaint.or(sample.trip.complaint_about(&answer));
            match &answer {
                Ok(restored) => {
                    self.ways.count(&sample.trip, restored);
                    self.optima += 1;
                }
                Err(Refusal(13)) => self.ways.count_misfit(&sample.trip),
                _ => {}
            }
        }
        if let Some(complaint) = complaint {
            self.complaints += 1;
            println!("text {number}: {complaint}\n{}", String::from_utf8_lossy(&sample.text));
        }
    }

    fn print(&self) {
        for (rule, times) in self.ways.steps.iter().enumerate().skip(1) {
            println!("rule {rule} undone {times} times");
        }
        println!("rule 5 with its second price {} times", self.ways.second_prices);
        println!("rule 6 with two different prices {} times", self.ways.different_prices);
        println!("rule 7 with j at its upper bound, g > 0 and g < 0: {:?} times", self.ways.capped);
        println!("rule 7 with j at flow - lower end, g > 0 and g < 0: {:?} times", self.ways.uncapped);
        println!("13 by rules 1 to 7: {:?}, by the value: {}", &self.ways.misfits[1..], self.ways.misfits[0]);
        println!("{} originals solved beside their reduced networks", self.kinds);
        println!("{} restored pairs with the same value before and after", self.values);
        println!("{} restored pairs checked against the independent optimum", self.optima);
        println!("{} checks failed", self.complaints);
    }
}

fn main() {
    let (other, count, folder) = arguments("compare_restore", 3000);
    let mut comparison = Comparison::new(own_program("restore"), other, folder);
    for (flows, printed) in OFFERED {
        comparison.compare(format!("{INSTANCE}{flows}\n1 1 1 1\n").as_bytes(), printed);
    }
    let mut draw = Draw::new(0x5EC0_4D03);
    let mut checks = Checks::default();
    for number in 0..count {
        let sample = sample(&mut draw, number);
        comparison.compare(&sample.text, &restoring(&sample.text));
        checks.check(number, &sample);
    }
    checks.print();
    let status = comparison.finish("restoring");
    std::process::exit(if checks.complaints > 0 { 1 } else { status });
}
