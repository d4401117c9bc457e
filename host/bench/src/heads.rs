//! Calls of a head.

use crate::boxes::{ADVANCES, BOX};
use crate::frames::written;
use crate::kept::Kept;
use crate::measure::Case;
use crustnewt::sys::{self, HeadMemory, MOST_TICKS};
use crustnewt::{Body, Frame, Head, HeadParts, Link, Message, QueueSets, Table, VecTable, Window};
use crustnewt_tool::numbers::{plural, thousands};
use plain::{Address, HeadAnswer, Refusal};
use std::hint::black_box;

/// The head of the measurements.
pub const HEAD: u64 = 0x0200_0000_0001;

/// Ticks after which a head is set back, so that no timer ends.
const TICKS: u32 = 1_000_000;
/// Ticks without a REPORT until a link is dropped.
pub const WATCHDOG: u32 = 62_500_000;
/// Ticks between two GATEs for a box, and between two of its REPORTs.
pub const PERIOD: u32 = 3_125_000;

/// The independent head with its table and output.
#[derive(Clone)]
pub struct Plain {
    head: plain::Head,
    links: Vec<plain::Link>,
    output: Vec<u8>,
}

impl Plain {
    /// A tick.
    pub fn tick(&mut self) -> Result<HeadAnswer, Refusal> {
        self.head.tick(&mut self.links, &mut self.output)
    }

    fn hear(&mut self, link: u64, frame: &[u8]) -> Result<HeadAnswer, Refusal> {
        let message = plain::frame::read(frame)?;
        let (links, output) = (&mut self.links, &mut self.output);
        self.head.hear(links, output, link, &message)
    }
}

/// The same head for both.
#[derive(Clone)]
pub struct Pair {
    /// For the proved library.
    pub proved: Head<VecTable>,
    /// For the independent program.
    pub plain: Plain,
}

/// Addresses of the boxes that hold the links.
type Addresses = fn(usize) -> u64;

/// One after the other, as from one reel.
pub fn in_a_row(place: usize) -> u64 {
    BOX + place as u64
}

/// Without any order, as from many makers: local individual addresses, whose
/// other 46 bits are random. Always the same ones.
fn scattered(place: usize) -> u64 {
    const LOCAL: u64 = 0x0200_0000_0000;
    const GROUP: u64 = 0x0100_0000_0000;
    (random(place) >> 16) & !GROUP | LOCAL
}

/// The number at this place of a random row (SplitMix64).
fn random(place: usize) -> u64 {
    let state = (place as u64 + 1).wrapping_mul(0x9E37_79B9_7F4A_7C15);
    let mixed = (state ^ state >> 30).wrapping_mul(0xBF58_476D_1CE4_E5B9);
    let mixed = (mixed ^ mixed >> 27).wrapping_mul(0x94D0_49BB_1331_11EB);
    mixed ^ mixed >> 31
}

/// Ticks and a report heard, for tables of several sizes.
pub fn cases() -> Vec<Case> {
    let mut cases: Vec<Case> = SIZES
        .map(|links| ticking(&format!("head tick, {}", counted(links)), links, in_a_row))
        .into();
    cases.extend(SIZES.map(|links| {
        let name = format!("head tick, {}, scattered addresses", counted(links));
        ticking(&name, links, scattered)
    }));
    cases.push(c_ticking(8));
    cases.extend(SIZES.map(hearing));
    cases
}

/// Advances at which nothing ends, beside a tick of each.
pub fn advances() -> Vec<Case> {
    SIZES.map(advancing).into()
}

/// Links of the tables.
const SIZES: [usize; 3] = [1, 8, 64];

fn counted(links: usize) -> String {
    format!("{links} {}", plural(links as u64, "link", "links"))
}

/// A head with so many registered links, and every timer full.
pub fn pair(links: usize, addresses: Addresses) -> Pair {
    let table = (0..links).map(|place| Link::registered(addresses(place), WATCHDOG, PERIOD));
    let plain = Plain {
        head: plain::Head {
            address: Address(HEAD),
            ..plain::Head::default()
        },
        links: table.clone().map(plain_link).collect(),
        output: vec![0; 60 * links],
    };
    let proved = restored(table);
    Pair { proved, plain }
}

/// A head over these links, at count 0.
pub fn restored(links: impl Iterator<Item = Link>) -> Head<VecTable> {
    let parts = HeadParts {
        address: HEAD,
        count: 0,
        window: Window::Idle,
    };
    let table = VecTable::from_words(links.map(|link| link.words()).collect());
    let table = table.expect("it has 1 to 64 links");
    Head::restored(&parts, table).expect("it is sound")
}

fn plain_link(link: Link) -> plain::Link {
    plain::Link {
        state: plain::LinkState::Registered,
        address: Address(link.address),
        wait: link.wait,
        watchdog: link.watchdog,
        periodic: link.periodic,
    }
}

fn ticking(name: &str, links: usize, addresses: Addresses) -> Case {
    let Pair { proved, plain } = pair(links, addresses);
    Case::short(name, proved_ticking(proved), plain_ticking(plain))
}

fn c_ticking(links: usize) -> Case {
    let Pair { proved, plain } = pair(links, in_a_row);
    let words = (*proved.words(), proved.table().words().to_vec());
    let mut words = Kept::new(words, TICKS);
    let mut output = vec![0; sys::FRAME_OCTETS * links];
    let mut reply = [0; sys::HEAD_REPLY_WORDS];
    Case::short(
        format!("head tick, {}, the C call", counted(links)),
        move || {
            let (head, links) = words.next();
            black_box(sys::head_tick(HeadMemory {
                head,
                links,
                output: black_box(&mut output),
                reply: black_box(&mut reply),
            }));
        },
        plain_ticking(plain),
    )
}

fn proved_ticking(whole: Head<VecTable>) -> impl FnMut() {
    let mut proved = Kept::new(whole, TICKS);
    move || {
        black_box(&proved.next().tick());
    }
}

fn plain_ticking(whole: Plain) -> impl FnMut() {
    let mut plain = Kept::new(whole, TICKS);
    move || {
        black_box(&plain.next().tick());
    }
}

fn advancing(links: usize) -> Case {
    let whole = pair(links, in_a_row).proved;
    let mut proved = Kept::new(whole.clone(), ADVANCES);
    Case::short(
        format!(
            "head advance by {}, {}",
            thousands(MOST_TICKS),
            counted(links)
        ),
        move || {
            black_box(&proved.next().advance(black_box(MOST_TICKS)));
        },
        proved_ticking(whole),
    )
}

/// A REPORT on the last link; it leaves head and table as they are.
fn hearing(links: usize) -> Case {
    let frame = report(in_a_row(links - 1));
    let Pair {
        mut proved,
        mut plain,
    } = pair(links, in_a_row);
    Case::short(
        format!("head hears REPORT, {}", counted(links)),
        move || {
            black_box(&black_box(&mut proved).hear(links, black_box(&frame)));
        },
        move || {
            black_box(&black_box(&mut plain).hear(links as u64, black_box(&frame)));
        },
    )
}

fn report(address: u64) -> Frame {
    const EVERYONE: u64 = 0x0180_C200_0001;
    written(&Message::new(
        EVERYONE,
        address,
        0,
        &Body::Report(QueueSets::NONE),
    ))
}

#[cfg(test)]
mod tests {
    use super::*;
    use std::collections::HashSet;

    #[test]
    fn nothing_ends_while_a_head_is_measured() {
        for links in SIZES {
            let mut head = pair(links, scattered).proved;
            for _ in 0..ADVANCES {
                let told = head.advance(MOST_TICKS).unwrap();
                assert_eq!(told.made, MOST_TICKS);
                assert!(told.reply.frames().is_empty());
            }
            assert!(head.parts().count > TICKS);
        }
    }

    #[test]
    fn scattered_addresses_are_all_over_the_place() {
        let addresses: HashSet<u64> = (0..64).map(scattered).collect();
        assert_eq!(addresses.len(), 64);
        let (mut some, mut all) = (0, u64::MAX);
        for address in addresses {
            (some, all) = (some | address, all & address);
        }
        // Every bit but those of a local individual address is both.
        assert_eq!(some, 0xFEFF_FFFF_FFFF);
        assert_eq!(all, 0x0200_0000_0000);
    }
}
