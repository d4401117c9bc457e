//! Head and floor box of an Ethernet passive optical network, in plain Rust.
//!
//! Written from the rules of head and box and their readings alone, as a
//! second opinion on the proved implementation. Comments cite rules by their
//! numbers in `docs/RULES.md`.
//!
//! Every call is total: it ends with an answer or a [`Refusal`] for every
//! state handed in, sound or not, and a refused call changes nothing.

mod address;
mod advance;
mod clock;
mod few;
mod floor_box;
pub mod frame;
mod grants;
mod head;
mod light;
mod link;
pub mod numbers;
mod queue_sets;
mod refusal;

pub use address::Address;
pub use advance::Advanced;
pub use clock::Count;
pub use few::Few;
pub use floor_box::{BoxAnswer, BoxNotice, BoxState, FloorBox, Next};
pub use frame::{Body, Frame, Gate, Message};
pub use grants::{Grant, GrantList, Granted};
pub use head::{
    GateRequest, Head, HeadAnswer, HeadNotice, HeadNoticeKind, Newcomer, OpenWindow, Window,
};
pub use light::Light;
pub use link::{Link, LinkState};
pub use queue_sets::{QueueSet, QueueSets};
pub use refusal::Refusal;
