//! The replay language and the simulated night, over any core, and what the
//! command lines of the programs have in common.

pub mod cores;
pub mod dice;
pub mod night;
pub mod numbers;
pub mod options;
pub mod progress;
pub mod replay;
