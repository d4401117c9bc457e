//! A simulated night: a head and its boxes on a fibre.

mod desk;
mod fibre;
mod floor;
mod head_client;
mod progress;
mod queues;
mod record;
mod scenario;
mod timeline;
mod world;

use crustnewt_core::Core;
use std::io::{self, Write};
use timeline::Timeline;
use world::World;

pub use progress::Progress;
pub use scenario::Scenario;

/// How a night is to go.
#[derive(Clone, Copy, Debug)]
pub struct Options {
    /// What happens in it.
    pub scenario: Scenario,
    /// Number of boxes, 1 to 64.
    pub boxes: usize,
    /// Ticks from end to end of the fibre, at least 1.
    pub delay: u64,
    /// Frames lost of a thousand.
    pub loss: u64,
    /// Seed for losses, random waits and what comes into queues.
    pub seed: u64,
    /// The floor with a busy stretch, one by the seed where none is named.
    pub busy: Option<u32>,
    /// How many ticks it lasts.
    pub ticks: u64,
    /// Whether each tick is made one by one.
    pub every_tick: bool,
}

/// Simulates a night and writes its timeline and closing table; true if no
/// half-open pair lasted and no state turned out unsound.
pub fn run(
    core: &dyn Core,
    options: &Options,
    output: impl Write,
    progress: Progress<'_>,
) -> io::Result<bool> {
    World::new(core, options, Timeline { output, progress }).run()
}
