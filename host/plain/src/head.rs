//! The head (R145 to R190): state, calls, and the order of tests.

mod advance;
mod hear;
mod post;

use crate::address::Address;
use crate::clock::Count;
use crate::frame::{granted, Body, Gate, RegisterFlag};
use crate::grants::{Grant, Granted};
use crate::link::{are_sound, Link, LinkState};
use crate::numbers::{
    needed_length, run_out, runs, FURTHEST_START, LONGEST, LONGEST_WINDOW, MOST_LINKS, PERIOD,
};
use crate::queue_sets::QueueSets;
use crate::refusal::{require, Refusal};
use post::Post;

/// The head (OLT), without the table and the output that each call is lent.
///
/// The fields may be set to anything; a call on an unsound head or table is
/// refused.
#[derive(Clone, Copy, Debug, Default, PartialEq, Eq)]
pub struct Head {
    /// Its own address.
    pub address: Address,
    /// Its counter.
    pub count: Count,
    /// The discovery window.
    pub window: Window,
}

/// The discovery window; `left` is the ticks left.
#[derive(Clone, Copy, Debug, Default, PartialEq, Eq)]
pub enum Window {
    /// None is planned.
    #[default]
    Idle,
    /// Planned.
    Before {
        /// Ticks until it opens.
        left: u32,
        /// Ticks that it will be open.
        length: u32,
    },
    /// Open.
    Inside {
        /// Ticks until it closes.
        left: u32,
    },
}

/// What opening a window asks for.
#[derive(Clone, Copy, Debug, PartialEq, Eq)]
pub struct OpenWindow {
    /// Start and length of the discovery grant.
    pub grant: Grant,
    /// Sync time that the head needs.
    pub sync: u32,
    /// Ticks that the head listens for requests.
    pub window: u32,
}

/// Whom admit and reject speak of.
#[derive(Clone, Copy, Debug, PartialEq, Eq)]
pub struct Newcomer {
    /// The box's address.
    pub address: Address,
    /// Pending grants to echo.
    pub pending: u8,
    /// Sync time to assign.
    pub sync: u32,
}

/// What gating a link asks for.
#[derive(Clone, Copy, Debug, PartialEq, Eq)]
pub struct GateRequest {
    /// Link number, from 1.
    pub link: u64,
    /// Force bits, bit 0 for grant 1.
    pub force: u8,
    /// Number of grants asked for, which may be more than are handed in.
    pub asked: u64,
    /// The first four grants at most; those above `asked` play no part.
    pub grants: [Grant; Gate::MOST],
}

/// What an accepted call of the head hands out, beside the output.
#[derive(Clone, Copy, Debug, Default, PartialEq, Eq)]
pub struct HeadAnswer {
    /// Frames packed from the output's start.
    pub frames: usize,
    /// Notice for the client.
    pub notice: Option<HeadNotice>,
}

/// What the head tells its client.
#[derive(Clone, Copy, Debug, PartialEq, Eq)]
pub struct HeadNotice {
    /// What was heard.
    pub kind: HeadNoticeKind,
    /// Link number, 0 for a request.
    pub link: u64,
    /// Round trip of the message, modulo 2^32.
    pub trip: u32,
    /// Queue sets of a report, none in any other notice (R151).
    pub sets: QueueSets,
}

/// Kinds of the head's notices.
#[derive(Clone, Copy, Debug, PartialEq, Eq)]
pub enum HeadNoticeKind {
    /// A box asks to register.
    Request,
    /// A box is registered.
    Registered,
    /// A box was dropped.
    Dropped,
    /// A report was heard.
    Report,
}

type Answer = Result<HeadAnswer, Refusal>;

impl Head {
    /// A fresh head over these links, all idle then. A refused one holds
    /// address zero and leaves the links as they were.
    pub fn fresh(address: Address, links: &mut [Link]) -> (Head, Answer) {
        let tested = require((1..=MOST_LINKS).contains(&links.len()), Refusal::Unsound)
            .and_then(|()| require(address.is_individual(), Refusal::OutOfRange));
        if let Err(refusal) = tested {
            return (Head::default(), Err(refusal));
        }
        links.fill(Link::IDLE);
        let head = Head {
            address,
            ..Head::default()
        };
        (head, Ok(HeadAnswer::default()))
    }

    /// Opens a discovery window and sends the discovery GATE.
    pub fn open_window(
        &mut self,
        links: &[Link],
        output: &mut [u8],
        request: &OpenWindow,
    ) -> Answer {
        self.require_ready(links, output)?;
        require(self.window == Window::Idle, Refusal::NotNow)?;
        let OpenWindow {
            grant,
            sync,
            window,
        } = *request;
        require(grant.in_range() && sync <= LONGEST, Refusal::OutOfRange)?;
        let serves = grant.length >= needed_length(sync) && runs(window, LONGEST_WINDOW);
        let left = self
            .count
            .ticks_until_grant(grant.start)
            .filter(|_| serves)
            .ok_or(Refusal::BadGrant)?;
        let granted = granted(grant.start, grant.length, false);
        let body = Body::Discovery { granted, sync };
        self.window = Window::planned(left, window);
        Post::one(self, output, Address::EVERYONE, body)
    }

    /// Takes a newcomer onto the lowest idle link.
    pub fn admit(&mut self, links: &mut [Link], output: &mut [u8], newcomer: &Newcomer) -> Answer {
        self.require_ready(links, output)?;
        newcomer.require_in_range()?;
        let address = newcomer.address;
        let held = links.iter().any(|link| link.address == address);
        require(!held, Refusal::AlreadyHeld)?;
        let idle = links.iter().position(|link| !link.is_held());
        let place = idle.ok_or(Refusal::TableFull)?;
        links[place] = Link::waiting(address);
        let body = register(place, RegisterFlag::Ack, newcomer.sync, newcomer.pending);
        Post::one(self, output, address, body)
    }

    /// Rejects a newcomer.
    pub fn reject(&self, links: &[Link], output: &mut [u8], newcomer: &Newcomer) -> Answer {
        self.require_ready(links, output)?;
        newcomer.require_in_range()?;
        let body = Body::Register {
            port: 0,
            flag: RegisterFlag::Nack,
            sync: newcomer.sync,
            pending: newcomer.pending,
        };
        Post::one(self, output, newcomer.address, body)
    }

    /// Has a registered box register again.
    pub fn reregister(
        &mut self,
        links: &mut [Link],
        output: &mut [u8],
        link: u64,
        sync: u32,
    ) -> Answer {
        self.require_ready(links, output)?;
        let place = registered_place(links, link)?;
        require(sync <= LONGEST, Refusal::OutOfRange)?;
        let address = links[place].address;
        links[place] = Link::waiting(address);
        let body = register(place, RegisterFlag::Reregister, sync, 0);
        Post::one(self, output, address, body)
    }

    /// Drops a registered box.
    pub fn deregister(&mut self, links: &mut [Link], output: &mut [u8], link: u64) -> Answer {
        self.require_ready(links, output)?;
        let place = registered_place(links, link)?;
        let mut post = Post::new(self, output);
        post.drop_link(place, &mut links[place]);
        Ok(post.answer(None))
    }

    /// Sends a GATE of up to four grants.
    pub fn gate(&mut self, links: &mut [Link], output: &mut [u8], request: &GateRequest) -> Answer {
        self.require_ready(links, output)?;
        let place = held_place(links, request.link)?;
        let handed = request.handed();
        let in_range = handed.iter().all(|grant| grant.in_range());
        require(in_range && request.force_in_place(), Refusal::OutOfRange)?;
        require(request.asked <= Gate::MOST as u64, Refusal::BadGrant)?;
        let mut all = [Granted::default(); Gate::MOST];
        for (bit, (all, &grant)) in all.iter_mut().zip(handed).enumerate() {
            let force = request.force >> bit & 1 == 1;
            *all = Granted { grant, force };
        }
        let gate = Gate::of(&all[..handed.len()]).ok_or(Refusal::BadGrant)?;
        let link = &mut links[place];
        if link.state == LinkState::Registered {
            link.periodic = PERIOD;
        }
        Post::one(self, output, link.address, Body::Gate(gate))
    }

    /// One quantum passes (R188).
    pub fn tick(&mut self, links: &mut [Link], output: &mut [u8]) -> Answer {
        self.require_ready(links, output)?;
        Ok(self.make_tick(links, output))
    }

    /// A tick that is not refused.
    fn make_tick(&mut self, links: &mut [Link], output: &mut [u8]) -> HeadAnswer {
        self.count = self.count.next();
        self.window.run();
        let mut post = Post::new(self, output);
        for (place, link) in links.iter_mut().enumerate() {
            post.run_link(place, link);
        }
        post.answer(None)
    }

    /// Tests 13 and 12, which every call that is lent an output begins with.
    fn require_ready(&self, links: &[Link], output: &[u8]) -> Result<(), Refusal> {
        require(self.is_sound(links), Refusal::Unsound)?;
        require(output.len() >= 60 * links.len(), Refusal::ShortOutput)
    }

    /// Whether every call may rest on this head and this table.
    fn is_sound(&self, links: &[Link]) -> bool {
        (1..=MOST_LINKS).contains(&links.len())
            && self.address.is_individual()
            && self.window.is_sound()
            && are_sound(links)
    }
}

impl Window {
    const fn planned(left: u32, length: u32) -> Window {
        match left {
            0 => Window::Inside { left: length },
            _ => Window::Before { left, length },
        }
    }

    fn is_sound(&self) -> bool {
        match *self {
            Window::Idle => true,
            Window::Before { left, length } => {
                runs(left, FURTHEST_START) && runs(length, LONGEST_WINDOW)
            }
            Window::Inside { left } => runs(left, LONGEST_WINDOW),
        }
    }

    fn run(&mut self) {
        let left = match self {
            Window::Idle => return,
            Window::Before { left, .. } | Window::Inside { left } => left,
        };
        if run_out(left) {
            *self = match *self {
                Window::Before { length, .. } => Window::Inside { left: length },
                Window::Inside { .. } | Window::Idle => Window::Idle,
            };
        }
    }
}

impl GateRequest {
    /// The grants that are both asked for and handed in.
    fn handed(&self) -> &[Grant] {
        let asked = usize::try_from(self.asked).unwrap_or(Gate::MOST);
        &self.grants[..asked.min(Gate::MOST)]
    }

    /// A force bit above the number of grants asked for, or above the fourth,
    /// is out of range.
    fn force_in_place(&self) -> bool {
        self.force >> self.handed().len() == 0
    }
}

impl Newcomer {
    /// Test 4 of admit and reject.
    fn require_in_range(&self) -> Result<(), Refusal> {
        require(
            self.address.is_individual() && self.sync <= LONGEST,
            Refusal::OutOfRange,
        )
    }
}

/// The place of a held link, for a link number from 1; else 6.
fn held_place(links: &[Link], link: u64) -> Result<usize, Refusal> {
    usize::try_from(link)
        .ok()
        .and_then(|number| number.checked_sub(1))
        .filter(|&place| links.get(place).is_some_and(Link::is_held))
        .ok_or(Refusal::NoSuchLink)
}

/// The place of a registered link; a waiting one is 7.
fn registered_place(links: &[Link], link: u64) -> Result<usize, Refusal> {
    let place = held_place(links, link)?;
    let registered = links[place].state == LinkState::Registered;
    require(registered, Refusal::NotNow)?;
    Ok(place)
}

/// A REGISTER for the link at `place`, whose number is its port (R146).
fn register(place: usize, flag: RegisterFlag, sync: u32, pending: u8) -> Body {
    Body::Register {
        port: (place + 1) as u16,
        flag,
        sync,
        pending,
    }
}
