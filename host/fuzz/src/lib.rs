//! Any memory and any octets, handed to every function of the C face.
//!
//! A case is a run of calls on a box and a head, made from a seed. Each call
//! is held against what `include/crustnewt.h` promises of every call: the
//! number is the card's, too little lent is 100 and touches nothing, a refusal
//! changes nothing, what lies behind the part that is used stays, and nothing
//! rests on it; an advance says what it made; no message and no frame is from a
//! group or nobody; a report has the sets that it was asked for, and a notice
//! those of the REPORT that was heard. What a call should answer beyond that is
//! for `check` to say.

mod call;
mod guarded;
mod inputs;
mod judge;
mod world;

pub use call::{BoxCall, Face, HeadCall, Library};

use world::World;

/// Calls of one case.
pub const CALLS: usize = 60;

/// How often each number was answered.
pub type Tally = [u64; 256];

/// Makes the calls of a seed; what is wrong with one, if anything is.
pub fn fuzz(face: &dyn Face, seed: u64, tally: &mut Tally) -> Result<(), String> {
    let mut world = World::new(face, seed);
    for call in 1..=CALLS {
        let number = world
            .step()
            .map_err(|broken| format!("seed {seed}, call {call}: {broken}"))?;
        tally[usize::from(number)] += 1;
    }
    Ok(())
}
