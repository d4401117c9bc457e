//! Many ticks in one call.

/// What an advance that was done tells.
#[derive(Clone, Copy, Debug, PartialEq, Eq)]
pub struct Advanced<R> {
    /// What the last tick made told. Those before it told nothing.
    pub reply: R,
    /// How many ticks were made, 1 to the number asked for.
    pub made: u64,
}
