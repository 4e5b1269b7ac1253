//! The reducing program: text on standard input, answer on standard output.

fn main() {
    second::programs::run(second::programs::reducing);
}
