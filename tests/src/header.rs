//! The limits, refusal numbers and early values of include/juntreak.h, without their JUNTREAK_; build.rs reads them from there.
include!(concat!(env!("OUT_DIR"), "/header.rs"));

/// More than every refusal number: the length of a list of counts by number.
pub const NUMBERS: usize = refusals::PLACE as usize + 1;

/// The least length of out for a whole trace of n states.
pub const fn whole_words(n: usize) -> usize {
    n.div_ceil(64)
}

/// Places in the bytes of a table, of a session and of status registers.
pub mod places {
    pub use super::limits::{ENABLE_AT, FIRST_NO_AT, INTERRUPT_AT, REFUSAL_AT, RULE_NUMBER_AT, SEEN_AT, STATUS_AT};

    /// Node i, of 8 bytes.
    pub const fn node_at(i: usize) -> usize {
        2 + 8 * i
    }

    /// Rule i, of 4 bytes.
    pub const fn rule_at(i: usize) -> usize {
        514 + 4 * i
    }
}
