//! Compares another reducing program with this one.
//! Argument 1: the other program; 2: how many texts (3000 if absent); 3: a folder for the differing texts.

use second::compare::{arguments, own_program, Comparison};
use second::draw::Draw;
use second::parallel_cases::{ByRule, Merges};
use second::programs::{read_and_reduce, reducing};
use second::sample_texts::reducing_text;

fn main() {
    let (other, count, folder) = arguments("compare_reduce", 3000);
    let mut comparison = Comparison::new(own_program("reduce"), other, folder);
    let mut draw = Draw::new(0x5EC0_4D02);
    let (mut fired, mut merges) = (ByRule::default(), Merges::default());
    for number in 0..count {
        let text = reducing_text(&mut draw, number);
        if let Ok(reduction) = read_and_reduce(&text) {
            for step in &reduction.steps {
                fired[step.rule as usize] += 1;
            }
            merges.count(&reduction);
        }
        comparison.compare(&text, &reducing(&text));
    }
    for (rule, times) in fired.iter().enumerate().skip(1) {
        println!("rule {rule} fired {times} times");
    }
    merges.print();
    std::process::exit(comparison.finish("reducing"));
}
