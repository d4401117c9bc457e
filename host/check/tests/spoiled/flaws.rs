//! What can be wrong with a core.

use crate::sets::highest_first;
use crustnewt_core::{Core, ProvedCore};
use plain::{Address, QueueSets};

/// What is wrong with a spoiled core.
#[derive(Clone, Copy, Debug, PartialEq, Eq)]
pub enum Flaw {
    None,
    /// A discovery GATE restarts the watchdog: floor 31 again.
    WatchdogOnDiscovery,
    /// Setting the count moves no timer, but here it does.
    CountMovesReport,
    /// One octet after the last frame is written.
    StrayOctet,
    /// A frame fits a window that is one tick short.
    FitsShortWindow,
    /// The writer keeps wide lengths.
    WritesWide,
    /// A refused tick still moves the head's count.
    RefusedTickCounts,
    /// The grant waited for is forgotten, in a field that no line prints.
    HiddenField,
    /// A gate leaves the periodic timer as it was.
    GateKeepsPeriodic,
    /// The round trip is taken as a plain difference: wrong at the wrap.
    TripAtWrap,
    /// A refused fresh head idles its links all the same.
    RefusedFreshIdles,
    /// A refusal of the head tells a notice.
    RefusalTells,
    /// The reader judges the pad.
    ReadsPad,
    /// A request ends in a panic.
    Panics,
    /// An advance of the head makes one tick more where it stops.
    OneTickMore,
    /// An advance of the box stops before the tick that it is to stop after.
    StopsBeforeRing,
    /// An advance of the head stops where its window opens.
    StopsAtWindow,
    /// An advance stamps the head's frames with the count that it began at.
    FirstCount,
    /// An advance leaves the watchdog of the head's first link as it was.
    TimerStands,
    /// The head judges how far to advance ahead of its output.
    NineBeforeTwelve,
    /// The box takes how far to advance modulo 2^32.
    Modulo,
    /// The head refuses to advance by 65,536.
    RefusesMost,
    /// The box makes 65,537 ticks if it is asked to.
    TakesMore,
    /// An advance that is to be refused with 14 is done, without a tick.
    FourteenLate,
    /// An advance is refused with 14 where only a later tick would be.
    FourteenEarly,
    /// A refused advance of the box says that it made a tick.
    MadeOfRefusal,
    /// An advance that hands out nothing writes into the output.
    SilentWrites,
    /// The head says that it is silent for a tick more than it is.
    HeadUntilMore,
    /// The head says that it is silent for a tick less than it is.
    HeadUntilLess,
    /// The box says that it is silent for a tick more than it is.
    BoxUntilMore,
    /// A group's source is read and heard.
    TakesGroup,
    /// A source of zero is read and heard.
    TakesZero,
    /// A group's destination is refused as a group's source is.
    JudgesDestination,
    /// A group's source is written.
    WritesGroup,
    /// A source of zero is written.
    WritesZero,
    /// The lengths of a set are read with the highest queue first.
    HighestFirst,
    /// A set that would run past the body is taken as if it weren't there.
    PassesOverPast,
    /// What is behind the sets stays in the message that is read.
    KeepsPad,
    /// What is behind the sets is told in the notice.
    TellsPad,
    /// A REPORT that isn't zero behind its sets is written, with zeros.
    WritesPad,
    /// The number of sets isn't counted among the forty octets.
    NumberUncounted,
    /// An octet behind the sets that a client asks for is passed over.
    PassesOverOctet,
    /// A client's sets are judged ahead of the state.
    FourBeforeSeven,
    /// A client's report restarts the watchdog.
    ReportRestartsWatchdog,
    /// A client's report leaves the report timer as it was.
    ReportKeepsTimer,
    /// A client's report isn't followed by activation.
    ReportActivatesNothing,
    /// A REPORT on a waiting link is told.
    WaitingTells,
    /// The sets that are told are those of the REPORT before.
    OtherSets,
    /// The transmitter is at rest when the laser is ordered off.
    RestsAtOrder,
    /// Light fades for a tick less than it should.
    FadesShort,
    /// Light that fades goes on in WAIT.
    FadesInWait,
    /// A wait for REGISTER that ends rests the transmitter.
    RetryRests,
    /// A discovery GATE acts while light fades.
    ActsInFading,
    /// The head's needed length has no laser-off time.
    OpensShort,
}

impl Flaw {
    /// The octets as they are handed to the proved core, which judges them;
    /// `None` where it is the flaw that refuses them.
    pub fn octets(self, frame: &[u8]) -> Option<Vec<u8>> {
        let mut octets = frame.to_vec();
        match (self, octets.get_mut(..12)) {
            (Flaw::JudgesDestination, Some(addresses)) => {
                let group = addresses[0] & 1 == 1;
                return (!group || ProvedCore.read(frame).is_err()).then_some(octets);
            }
            (Flaw::TakesGroup, Some(addresses)) => addresses[6] &= !1,
            (Flaw::TakesZero, Some(addresses)) if addresses[6..] == [0; 6] => addresses[6] = 2,
            (Flaw::PassesOverPast, Some(_)) if frame.get(15) == Some(&3) => {
                while octets.get(20) > Some(&0) && ProvedCore.read(&octets) == Err(4) {
                    octets[20] -= 1;
                }
            }
            _ => {}
        }
        Some(octets)
    }

    /// The sets of a REPORT that was read from these octets, spoiled.
    pub fn sets(self, sets: QueueSets, frame: &[u8]) -> QueueSets {
        match (self, frame.last_chunk()) {
            (Flaw::HighestFirst, _) => highest_first(&sets),
            (Flaw::KeepsPad, Some(body)) => QueueSets::of_octets(*body),
            _ => sets,
        }
    }

    /// The source that the proved core judges in the place of this one.
    pub fn source(self, source: Address) -> Address {
        match self {
            Flaw::WritesGroup => Address(source.0 & !(1 << 40)),
            Flaw::WritesZero if source == Address::ZERO => Address(2 << 40),
            _ => source,
        }
    }
}

/// The flaws of light that lingers.
pub const OF_FADING: [Flaw; 6] = [
    Flaw::RestsAtOrder,
    Flaw::FadesShort,
    Flaw::FadesInWait,
    Flaw::RetryRests,
    Flaw::ActsInFading,
    Flaw::OpensShort,
];

/// The flaws of REPORTs that a script shows.
pub const OF_REPORTS: [Flaw; 10] = [
    Flaw::HighestFirst,
    Flaw::PassesOverPast,
    Flaw::KeepsPad,
    Flaw::NumberUncounted,
    Flaw::FourBeforeSeven,
    Flaw::ReportRestartsWatchdog,
    Flaw::ReportKeepsTimer,
    Flaw::ReportActivatesNothing,
    Flaw::WaitingTells,
    Flaw::OtherSets,
];

/// The flaws of an advance, and of what is said of ticks to come.
pub const OF_ADVANCES: [Flaw; 16] = [
    Flaw::OneTickMore,
    Flaw::StopsBeforeRing,
    Flaw::StopsAtWindow,
    Flaw::FirstCount,
    Flaw::TimerStands,
    Flaw::NineBeforeTwelve,
    Flaw::Modulo,
    Flaw::RefusesMost,
    Flaw::TakesMore,
    Flaw::FourteenLate,
    Flaw::FourteenEarly,
    Flaw::MadeOfRefusal,
    Flaw::SilentWrites,
    Flaw::HeadUntilMore,
    Flaw::HeadUntilLess,
    Flaw::BoxUntilMore,
];
