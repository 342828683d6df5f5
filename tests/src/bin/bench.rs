//! The benchmarks: prints the tables of docs/BENCHMARKS.md. An argument names the file that the plot is written to.
use juntreak_tests::bench::{early, floor, growth, memory, plot, program, scheduler, stream, text, whole};

fn main() {
    whole::run();
    early::run();
    text::run();
    let speeds = stream::run();
    floor::run();
    scheduler::run();
    growth::run();
    memory::run();
    program::run();
    if let Some(file) = std::env::args().nth(1) {
        std::fs::write(&file, plot::svg(&speeds)).expect("the plot cannot be written");
    }
}
