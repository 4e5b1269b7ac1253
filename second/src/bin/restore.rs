//! The restoring program: original network, stack and pair as text on standard input, answer on standard output.

fn main() {
    second::programs::run(second::programs::restoring);
}
