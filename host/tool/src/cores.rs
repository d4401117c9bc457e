//! The cores that there are.

use crustnewt_core::{Core, PlainCore, ProvedCore};

/// Name of a core, and how to make it.
pub type Entry = (&'static str, fn() -> Box<dyn Core>);

/// Every core there is, the default first. A further one is a line here.
pub const CORES: &[Entry] = &[
    ("proved", || Box::new(ProvedCore)),
    ("plain", || Box::new(PlainCore)),
];

/// The core of that name.
pub fn core_named(name: &str) -> Option<Box<dyn Core>> {
    let (_, make) = CORES.iter().find(|(known, _)| *known == name)?;
    Some(make())
}

/// The core that is used when none is named.
pub fn default_core() -> Box<dyn Core> {
    let (_, make) = CORES[0];
    make()
}
