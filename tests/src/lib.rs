//! The proved library as Rust sees it (`library`), the limits and refusal numbers of its C header (`header`), models written from the
//! documents alone (`model`, `known`, `reached`, `scheduled`, `noted`, `typed`, `viable`, `written`, `program`), calls beside the model's,
//! on sessions (`compared`) and on lists of records (`listed`), what the program rules tells (`message`), random input (`random`), where
//! programs are (`place`) and how they are run (`spawn`). For the benchmarks (`bench`): the formulas (`formulas`), and what the library and
//! the program are compared with (`naive`, `queue`, `twin`, `plain`, `plain_text`).
pub mod bench;
pub mod compared;
pub mod formulas;
pub mod header;
pub mod known;
pub mod library;
pub mod listed;
pub mod message;
pub mod model;
pub mod naive;
pub mod noted;
pub mod place;
pub mod plain;
pub mod plain_text;
pub mod program;
pub mod queue;
pub mod random;
pub mod reached;
pub mod scheduled;
pub mod spawn;
pub mod twin;
pub mod typed;
pub mod viable;
pub mod written;

/// Fails at the first place where two buffers differ.
pub fn same<T: PartialEq + std::fmt::Debug>(what: &str, got: &[T], want: &[T]) {
    assert_eq!(got.len(), want.len(), "length of {what}");
    if let Some(i) = (0..got.len()).find(|i| got[*i] != want[*i]) {
        panic!("{what} at {i}: {:?} instead of {:?}", got[i], want[i]);
    }
}

/// The answer of a call that only reads a buffer; fails where it wrote to it. The call gets a copy, and the copy passes a black box before it is
/// compared: the compiler may take what is lent by `&` as unchanged.
pub fn only_read<T: Clone + PartialEq + std::fmt::Debug, A>(what: &str, buffer: &[T], call: impl FnOnce(&[T]) -> A) -> A {
    let mut copy = buffer.to_vec();
    let answer = call(&copy);
    same(what, std::hint::black_box(&mut copy), buffer);
    answer
}
