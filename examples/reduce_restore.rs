//! Instance A of document 01 through the library: reduces a network, tests a pair on the reduced network and restores it.
//! Exits with 1 where any word is not the one that the document prints.

#[path = "../include/patskvime.rs"]
mod patskvime;

const ORIGINAL: [i32; 52] = [
    3, 3, //
    0, 4, -5, 2, 1, 2, 1, 0, 3, 1, -1, 1, 2, 2, 0, 1, 1, -1, 3, 2, 7, 0, 1, 1, -1, //
    1, 1, 1, 1, 1, 1, 1, 1, 1, 1, 1, 1, 1, 1, 1, 0, 1, 1, 1, 1, 1, 1, 0, 1, 2,
];
const OFFERED: [i32; 10] = [2, 2, 2, 0, 3, 1, 1, 1, 1, 1];

/// What document 01 prints.
const REDUCED: [i32; 36] = [
    2, 2, //
    14, 4, -4, 1, 2, 1, 0, 3, 1, -1, 1, 2, 2, 0, 1, 1, -1, //
    1, 1, 1, 1, 1, 1, 1, 1, 1, 1, 1, 1, 1, 1, 0, 1, 1,
];
const STEPS: [i32; 3] = [1, 3, 3];
const RESTORED: [i32; 14] = [3, 3, 2, 0, 7, 3, 1, 2, 1, 1, 1, 1, 1, 1];

/// Shows a record in lent words; they must be those expected, with zeros behind them.
fn compare(name: &str, words: &[i32], expected: &[i32]) -> bool {
    println!("  {name}: {:?}", &words[..expected.len()]);
    words.starts_with(expected) && words[expected.len()..].iter().all(|&word| word == 0)
}

fn compare_code(name: &str, code: usize) -> bool {
    println!("{name}: {code}");
    code == 0
}

fn main() {
    let (mut out, mut stack) = ([7; patskvime::NETWORK], [7; patskvime::STACK]);
    let mut scratch = [7; patskvime::SCRATCH];
    let code = patskvime::reduce(&ORIGINAL, &mut out, &mut stack, &mut scratch);
    let mut same = compare_code("reduce", code);
    same &= compare("network", &out, &REDUCED);
    same &= compare("stack", &stack, &STEPS);
    same &= compare("scratch", &scratch, &[]);

    let mut value = [7; patskvime::VALUE];
    let code = patskvime::test(&out[..REDUCED.len()], &OFFERED, &mut value);
    same &= compare_code("test", code);
    same &= compare("value", &value, &[19, 1]);

    let (mut pair, mut values) = ([7; patskvime::PAIR], [7; patskvime::VALUES]);
    let steps = &stack[..1 + 2 * stack[0] as usize];
    let code = patskvime::restore(&ORIGINAL, steps, &OFFERED, &mut pair, &mut values, &mut scratch);
    same &= compare_code("restore", code);
    same &= compare("pair", &pair, &RESTORED);
    same &= compare("values", &values, &[19, 1, 19, 1]);
    same &= compare("scratch", &scratch, &[]);

    println!("{}", if same { "as document 01 prints it" } else { "differs from document 01" });
    std::process::exit(!same as i32);
}
