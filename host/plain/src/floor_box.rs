//! The box (R89 to R144): state, calls, and the order of tests.

mod advance;
mod sound;
mod steps;

use crate::address::Address;
use crate::clock::Count;
use crate::few::Few;
use crate::frame::{Body, Frame, Message};
use crate::grants::{GrantList, Granted};
use crate::light::Light;
use crate::numbers::quanta_for;
use crate::queue_sets::QueueSets;
use crate::refusal::{require, Refusal};

/// The box at a floor (ONU).
///
/// The fields may be set to anything; a call on an unsound box is refused.
#[derive(Clone, Copy, Debug, Default, PartialEq, Eq)]
pub struct FloorBox {
    /// Its own address.
    pub address: Address,
    /// Its counter.
    pub count: Count,
    /// State of its Discovery process.
    pub state: BoxState,
    /// Ticks left of the wait for REGISTER, 0 when stopped.
    pub wait: u32,
    /// Ticks left of the watchdog, 0 when stopped.
    pub watchdog: u32,
    /// Ticks left until a periodic REPORT, 0 when stopped.
    pub report: u32,
    /// Port last assigned.
    pub port: u16,
    /// Sync time last assigned.
    pub sync: u32,
    /// The transmitter.
    pub light: Light,
    /// Grants to come.
    pub grants: GrantList,
}

/// State of the box's Discovery process.
#[derive(Clone, Copy, Debug, Default, PartialEq, Eq)]
pub enum BoxState {
    /// WAIT: not registered and not asked to be.
    #[default]
    Wait,
    /// REGISTERING: waits for a discovery window.
    Registering,
    /// REGISTER_REQ: has asked, waits for REGISTER.
    Requesting,
    /// REGISTERED.
    Registered,
}

/// What an accepted call of the box hands out.
#[derive(Clone, Copy, Debug, Default, PartialEq, Eq)]
pub struct BoxAnswer {
    /// Distance from the box's count to an accepted message's timestamp.
    pub drift: i32,
    /// Frames to send, in order: at most REGISTER_ACK and REPORT.
    pub frames: Few<Frame, 2>,
    /// Notices for the client, in order: at most one for each of a GATE's
    /// four grants.
    pub notices: Few<BoxNotice, 4>,
}

/// What the box tells its client.
#[derive(Clone, Copy, Debug, PartialEq, Eq)]
pub enum BoxNotice {
    /// A discovery window is open.
    Window,
    /// The head has registered the box.
    Registered,
    /// The head has rejected the box.
    Refused,
    /// The wait for REGISTER ran out; the box tries again.
    Retry,
    /// The box isn't registered any more.
    Deregistered,
    /// A grant was taken into the list.
    Grant(Granted),
    /// A normal grant's window opens.
    Open,
    /// A normal grant's window closes.
    Close,
}

/// The timers that ran out in a tick.
#[derive(Clone, Copy, Default, PartialEq, Eq)]
struct Ended {
    /// The wait for REGISTER or the watchdog.
    registration: bool,
    report: bool,
    light: bool,
}

/// Which of the waiting frames goes next.
#[derive(Clone, Copy, Debug, PartialEq, Eq)]
pub enum Next {
    /// The control frame.
    Control,
    /// The data frame.
    Data,
    /// Neither.
    Nothing,
}

impl FloorBox {
    /// A fresh box; with another than an individual address a refused one,
    /// which holds address zero.
    pub fn fresh(address: Address) -> (FloorBox, Result<BoxAnswer, Refusal>) {
        if !address.is_individual() {
            return (FloorBox::default(), Err(Refusal::OutOfRange));
        }
        let fresh = FloorBox {
            address,
            ..FloorBox::default()
        };
        (fresh, Ok(BoxAnswer::default()))
    }

    /// The client asks to register.
    pub fn register(&mut self) -> Result<BoxAnswer, Refusal> {
        require(self.is_sound(), Refusal::Unsound)?;
        require(self.state == BoxState::Wait, Refusal::NotNow)?;
        self.state = BoxState::Registering;
        Ok(BoxAnswer::default())
    }

    /// The client asks to deregister.
    pub fn deregister(&mut self) -> Result<BoxAnswer, Refusal> {
        require(self.is_sound(), Refusal::Unsound)?;
        require(self.state == BoxState::Registered, Refusal::NotNow)?;
        let mut answer = BoxAnswer::default();
        self.local_deregister(&mut answer);
        Ok(answer)
    }

    /// The client asks for a REPORT of so many queue sets, which are handed in
    /// as they stand in a frame (R242, R243).
    pub fn report(&mut self, number: u8, sets: &[u8]) -> Result<BoxAnswer, Refusal> {
        require(self.is_sound(), Refusal::Unsound)?;
        require(self.state == BoxState::Registered, Refusal::NotNow)?;
        let sets = QueueSets::of(number, sets).ok_or(Refusal::OutOfRange)?;
        let mut answer = BoxAnswer::default();
        self.send_report(sets, &mut answer);
        self.activate();
        Ok(answer)
    }

    /// A message arrives; `random` is for the random wait of a discovery
    /// grant.
    pub fn hear(&mut self, message: &Message, random: u32) -> Result<BoxAnswer, Refusal> {
        require(self.is_sound(), Refusal::Unsound)?;
        require(goes_down(&message.body), Refusal::WrongWay)?;
        require(self.is_addressed(message), Refusal::NotMine)?;
        require(message.in_range(), Refusal::OutOfRange)?;
        let mut answer = BoxAnswer {
            drift: self.count.distance_to(message.stamp),
            ..BoxAnswer::default()
        };
        // Steps already see the new count (R14).
        self.count = message.stamp;
        self.act_on(message, random, &mut answer);
        self.activate();
        Ok(answer)
    }

    /// One quantum passes (R136).
    pub fn tick(&mut self) -> Result<BoxAnswer, Refusal> {
        require(self.is_sound(), Refusal::Unsound)?;
        require(!self.opens_unasked(), Refusal::UnaskedWindow)?;
        Ok(self.make_tick())
    }

    /// The part to send now: the control frame, the data frame, or the empty
    /// part of the control frame's buffer.
    pub fn next_to_send<'a>(&self, control: &'a [u8], data: &'a [u8]) -> &'a [u8] {
        match self.next(control.len(), data.len()) {
            Next::Control => control,
            Next::Data => data,
            Next::Nothing => &control[..0],
        }
    }

    /// Which frame may go now, for frames of these many octets (0: none
    /// waits). A waiting control frame holds back the data frame.
    pub fn next(&self, control: usize, data: usize) -> Next {
        let registered = self.state == BoxState::Registered;
        if control > 0 && self.fits(control) {
            Next::Control
        } else if control == 0 && data > 0 && registered && self.fits(data) {
            Next::Data
        } else {
            Next::Nothing
        }
    }

    /// Whether a frame of `octets` octets fits the window's remaining ticks.
    fn fits(&self, octets: usize) -> bool {
        quanta_for(octets) as u64 <= u64::from(self.light.window())
    }

    /// A discovery GATE may come to everyone; all else to this box alone.
    fn is_addressed(&self, message: &Message) -> bool {
        let discovery = matches!(message.body, Body::Discovery { .. });
        message.to == self.address || discovery && message.to == Address::EVERYONE
    }
}

/// Whether the message goes from head to box.
fn goes_down(body: &Body) -> bool {
    match body {
        Body::Gate(_) | Body::Discovery { .. } | Body::Register { .. } => true,
        Body::Report(_) | Body::RegisterReq { .. } | Body::RegisterAck { .. } => false,
    }
}
