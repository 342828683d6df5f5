//! Prints the tables of docs/BENCHMARKS.md that need an earlier library too; `tools/before` builds it.
fn main() {
    juntreak_tests::bench::beside::run();
}
