//! Holds two cores against each other, call by call.
//!
//! A case is a script of the replay language, made from a seed. Both cores
//! play it, and after each line what was printed, the states with all their
//! fields, the table and the whole lent output must be equal. An advance is
//! held against single ticks of both as well. A script on which they differ is
//! made as short as it goes.

mod compare;
mod generate;
mod shrink;
mod singly;
mod wide;

use compare::compare_up_to;
pub use compare::{compare, Difference};
use generate::fixed;
pub use generate::script;
pub use shrink::shrink;
pub use wide::compare_wide;

use crustnewt_core::Core;
use std::fmt;

/// A case in which two cores differ.
#[derive(Debug)]
pub struct Failure {
    /// Which case it is.
    pub case: String,
    /// The shortest script found on which they differ.
    pub script: Vec<String>,
    /// How they differ at its end.
    pub difference: Difference,
}

/// The failure as a replay script, with what differs in its comments.
impl fmt::Display for Failure {
    fn fmt(&self, f: &mut fmt::Formatter<'_>) -> fmt::Result {
        let Failure {
            case, difference, ..
        } = self;
        writeln!(f, "# {case}: the cores differ after {difference}")?;
        write!(f, "{}", self.script.join("\n"))
    }
}

/// Makes the case of this seed and plays it on both cores.
pub fn check(first: &dyn Core, second: &dyn Core, seed: u64) -> Result<(), Box<Failure>> {
    let case = format!("seed {seed}");
    check_script(&case, script(seed), |script| compare(first, second, script))
}

/// Plays the fixed cases on both cores; how many there are. Their advances are
/// held against all of their ticks.
pub fn check_fixed(first: &dyn Core, second: &dyn Core) -> Result<usize, Box<Failure>> {
    let cases = fixed::cases();
    let number = cases.len();
    for (name, script) in cases {
        check_script(name, script, |script| {
            compare_up_to(first, second, script, u64::MAX)
        })?;
    }
    Ok(number)
}

fn check_script(
    case: &str,
    script: Vec<String>,
    compare: impl Fn(&[String]) -> Option<Difference>,
) -> Result<(), Box<Failure>> {
    let Some(found) = compare(&script) else {
        return Ok(());
    };
    let failing = script[..=found.line].to_vec();
    let script = shrink(failing, |part| compare(part).is_some());
    // A core that answers by mood may agree when asked again.
    let difference = compare(&script).unwrap_or(found);
    Err(Box::new(Failure {
        case: case.to_owned(),
        script,
        difference,
    }))
}
