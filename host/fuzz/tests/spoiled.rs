//! The fuzzer finds a face that breaks a promise, and reaches every number.

use crustnewt::sys::{BoxMemory, HeadMemory, MESSAGE_WORDS};
use crustnewt::{QueueSet, QueueSets};
use fuzz::{fuzz, BoxCall, Face, HeadCall, Library};
use std::cell::Cell;
use std::ops::Range;

/// What is wrong with a spoiled face.
#[derive(Clone, Copy, Debug, PartialEq, Eq)]
enum Flaw {
    None,
    /// A number that isn't of the card.
    StrangeNumber,
    /// A refused call counts the tick all the same.
    RefusalCounts,
    /// Short memory is touched.
    ShortIsTouched,
    /// An octet behind the last frame is written.
    StrayOctet,
    /// A word behind the last link is written.
    StrayLink,
    /// A refusal of the head tells of a frame.
    RefusalTells,
    /// A box is left with a timer that no state runs.
    LeavesUnsound,
    /// Answers turn on something that isn't handed in.
    Moody,
    /// A refused message leaves octets.
    HalfWritten,
    /// The last word of a message isn't looked at.
    WritesStray,
    /// The reader fills words behind the message.
    ReadsOn,
    /// A data frame of no octets goes next.
    SendsNothing,
    /// What the phase of a window doesn't hold isn't looked at.
    TakesNobodys,
    /// A notice's words are written where there is none.
    StrayNotice,
    /// A sound head is refused where its link 2 is held.
    RefusesSound,
    /// A refused advance of the box says that it made a tick.
    MadeOfRefusal,
    /// A refused advance of the head doesn't say what it made.
    MadeUnsaid,
    /// An advance of the box says one tick more than it was asked for.
    MadeTooMany,
    /// An advance of the head says that it made none.
    MadeNone,
    /// An advance says that it made one tick less than it did.
    MadeOneLess,
    /// A word behind the ticks made is written.
    MadeBehind,
    /// The ticks made are written though too little was lent.
    MadeOfShort,
    /// Too little for the ticks made is no reason to refuse.
    MadeUnlent,
    /// An advance by too many ticks makes as many as it may.
    TakesMore,
    /// A refused advance of the box counts all the same.
    RefusedAdvances,
    /// An advance of the head judges its number ahead of the output.
    NineBeforeTwelve,
    /// An advance of the box stops for no reason.
    StopsEarly,
    /// A box says that it is silent for a tick more than it is.
    UntilMore,
    /// An unsound head is said to be silent.
    UntilUnsound,
    /// A group's source is read.
    ReadsGroup,
    /// A source of zero is read.
    ReadsZero,
    /// A group's destination is refused.
    JudgesDestination,
    /// A group's source is written.
    WritesGroup,
    /// A source of zero is written, and so are the blank words.
    WritesZero,
    /// A box hears a group.
    HearsGroup,
    /// A head hears nobody.
    HearsZero,
    /// A box hands out a frame that is from a group.
    SendsGroup,
    /// A head hands out a frame that is from nobody.
    SendsZero,
    /// An octet that is lent behind the sets of a report is passed over.
    PassesOverOctet,
    /// An octet that a report lacks is taken from behind what is lent.
    TakesUnlent,
    /// A report of a box that isn't registered is answered by its sets.
    FourBeforeSeven,
    /// A report that is refused for its sets starts the timer all the same.
    RefusedRestarts,
    /// A report has something behind its sets.
    SendsPad,
    /// A report of sets is sent without them.
    SendsEmpty,
    /// The sets of a notice aren't written.
    SetsUntold,
    /// A notice tells a length that the REPORT doesn't have.
    OtherSets,
    /// A notice of something else tells sets.
    StraySets,
    /// Sets that run past a frame are read up to there.
    ReadsPast,
    /// What is behind the sets of a REPORT is read.
    ReadsPad,
    /// A REPORT that isn't zero behind its sets is written.
    WritesPad,
    /// A box that fades is refused, as if there were no such phase.
    RefusesFading,
    /// A box whose laser is ordered off fades for 33 ticks.
    FadesLonger,
    /// A box that enters WAIT while it fades goes on.
    FadesInWait,
    /// A control frame goes while a box fades.
    SendsFading,
    /// A box that fades says that it is silent for a tick more than it is.
    FadesSilently,
}

/// Where the words of a message have the body of a REPORT.
const SETS: Range<usize> = 4..9;
/// The kinds of a message and of a notice that have sets.
const REPORT_KIND: u64 = 2;
const REPORT_NOTICE: u64 = 4;

/// The octets, from a party where they were from a group.
fn ungrouped(octets: &[u8]) -> Vec<u8> {
    let mut octets = octets.to_vec();
    if let Some(first) = octets.get_mut(6) {
        *first &= !1;
    }
    octets
}

/// The octets, from a party where they were from nobody.
fn unzeroed(octets: &[u8]) -> Vec<u8> {
    let mut octets = octets.to_vec();
    match octets.get_mut(6..12) {
        Some(source) if *source == [0; 6] => source[0] = 2,
        _ => {}
    }
    octets
}

/// The octets, with the sets of a REPORT that run past left out.
fn without_past(octets: &[u8]) -> Vec<u8> {
    let mut octets = octets.to_vec();
    let report = octets.get(15) == Some(&3);
    let is_past = |octets: &[u8]| Library.read(octets, &mut [0; MESSAGE_WORDS]) == 4;
    while report && octets.get(20) > Some(&0) && is_past(&octets) {
        octets[20] -= 1;
    }
    octets
}

/// Zeros what is behind the sets of a REPORT.
fn without_pad(words: &mut [u64]) {
    let octets: Vec<u8> = words.iter().flat_map(|word| word.to_be_bytes()).collect();
    let sets = QueueSets::of_octets(octets.try_into().unwrap());
    let taken = |set: QueueSet| 1 + 2 * set.bitmap.count_ones() as usize;
    let taken = 1 + sets.iter().map(taken).sum::<usize>();
    let mut octets = sets.octets();
    octets[taken..].fill(0);
    for (word, octets) in words.iter_mut().zip(octets.as_chunks().0) {
        *word = u64::from_be_bytes(*octets);
    }
}

/// Where a box's words have its state, its transmitter's phase and that one's
/// timer.
const STATE: usize = 2;
const PHASE: usize = 8;
const LEFT: usize = 9;
/// WAIT, the phase of a box that fades, and how many phases there are.
const WAIT: u64 = 0;
const FADING: u64 = 8;
const PHASES: u64 = 9;

struct Spoiled {
    flaw: Flaw,
    calls: Cell<u64>,
    /// A bit for each phase that a call was asked in and done.
    phases: Cell<u64>,
}

impl Spoiled {
    fn is(&self, flaw: Flaw) -> bool {
        self.flaw == flaw
    }

    /// What a box is asked for, spoiled before it does it.
    fn spoil_box_call(&self, call: &BoxCall) -> BoxCall {
        match (self.flaw, call) {
            (Flaw::TakesMore, BoxCall::Advance(65_537..)) => BoxCall::Advance(65_536),
            (Flaw::StopsEarly, BoxCall::Advance(ticks @ 2..65_537)) => BoxCall::Advance(ticks / 2),
            (Flaw::HearsGroup, BoxCall::Hear(octets, random)) => {
                BoxCall::Hear(ungrouped(octets), *random)
            }
            (Flaw::PassesOverOctet, BoxCall::Report(number, sets, lent @ 1..)) => {
                let one_less = QueueSets::of(*number, &sets[..lent - 1]).is_some();
                BoxCall::Report(*number, sets.clone(), lent - usize::from(one_less))
            }
            (Flaw::TakesUnlent, BoxCall::Report(number, sets, lent)) => {
                let one_more = QueueSets::of(*number, &sets[..lent + 1]).is_some();
                BoxCall::Report(*number, sets.clone(), lent + usize::from(one_more))
            }
            _ => call.clone(),
        }
    }

    /// What a report has done, spoiled after it did.
    fn spoil_report(&self, asked: (u8, &[u8]), number: u8, memory: &mut BoxMemory<'_>) -> u8 {
        let (sets, octets) = asked;
        match (self.flaw, number) {
            (Flaw::FourBeforeSeven, 7) if QueueSets::of(sets, octets).is_none() => return 4,
            (Flaw::RefusedRestarts, 4) if memory.block[5] < 3_125_000 => {
                memory.block[5] = 3_125_000
            }
            (Flaw::SendsPad, 0) => memory.frames[59] |= 1,
            (Flaw::SendsEmpty, 0) => memory.frames[20..60].fill(0),
            _ => {}
        }
        number
    }

    /// What a box has done, spoiled after it did.
    fn spoil_box(&self, call: &BoxCall, number: u8, memory: &mut BoxMemory<'_>) -> u8 {
        match (self.flaw, number) {
            (Flaw::StrangeNumber, 7) => return 15,
            (Flaw::RefusalCounts, 7) => memory.block[1] ^= 1,
            (Flaw::ShortIsTouched, 100) => memory.reply.iter_mut().for_each(|word| *word = 0),
            (Flaw::StrayOctet, 0) => memory.frames[119] = 0,
            (Flaw::LeavesUnsound, 0) if *call == BoxCall::Register => memory.block[3] = 1,
            (Flaw::Moody, 0) => memory.block[1] ^= self.calls.get() & 1,
            (Flaw::RefusedAdvances, 9) => memory.block[1] ^= 1,
            (Flaw::SendsGroup, 0) if memory.reply[1] > 0 => memory.frames[6] |= 1,
            _ => {}
        }
        number
    }

    /// What a box has done that faded before or fades now, spoiled.
    fn spoil_fading(&self, before: &[u64], number: u8, memory: &mut BoxMemory<'_>) -> u8 {
        let block = &mut *memory.block;
        let faded = before.get(PHASE) == Some(&FADING);
        match (self.flaw, number) {
            (Flaw::RefusesFading, 7) if faded => return 13,
            (Flaw::FadesLonger, 0) if block[PHASE] == FADING && block[LEFT] == 32 => {
                block[LEFT] = 33;
            }
            (Flaw::FadesInWait, 0) if faded && block[STATE] == WAIT => {
                block[PHASE..=LEFT].copy_from_slice(&before[PHASE..=LEFT]);
            }
            _ => {}
        }
        number
    }

    /// The words of a notice, spoiled; `before` is what stood there.
    fn spoil_notice(&self, before: &[u64], notice: &mut [u64]) {
        let is_report = notice[0] == REPORT_NOTICE;
        match self.flaw {
            Flaw::SetsUntold => notice[3..8].copy_from_slice(&before[3..8]),
            Flaw::OtherSets if is_report && notice[3] != 0 => notice[3] ^= 1,
            Flaw::StraySets if !is_report => notice[3] = 1 << 56,
            _ => {}
        }
    }

    /// What a head is asked for, spoiled before it does it.
    fn spoil_head_call(&self, call: &HeadCall) -> HeadCall {
        match (self.flaw, call) {
            (Flaw::HearsZero, HeadCall::Hear(link, octets)) => {
                HeadCall::Hear(*link, unzeroed(octets))
            }
            _ => call.clone(),
        }
    }

    /// What a head has done, spoiled after it did.
    fn spoil_head(&self, call: &HeadCall, number: u8, memory: &mut HeadMemory<'_>) -> u8 {
        let behind = memory.links.len() / 5 * 5;
        match memory.links.get_mut(behind) {
            Some(word) if self.is(Flaw::StrayLink) && number == 0 => *word = 0,
            _ => {}
        }
        match (self.flaw, number) {
            (Flaw::RefusalTells, 6) => memory.reply[0] = 1,
            (Flaw::SendsZero, 0) if memory.reply[0] > 0 => memory.output[6..12].fill(0),
            (Flaw::StrayNotice, 0) if memory.reply[1] == 0 => memory.reply[2] = 0,
            (Flaw::RefusesSound, 6) if memory.links.get(6).is_some_and(|&state| state > 0) => {
                return 13
            }
            (Flaw::TakesNobodys, 13) if memory.head[2] == 0 && *call != HeadCall::Tick => return 6,
            _ => {}
        }
        number
    }

    /// What a box's advance says that it made, spoiled after it did.
    fn spoil_made(&self, number: u8, ticks: u64, made: &mut [u64]) {
        match (self.flaw, number) {
            (Flaw::MadeOfRefusal, 1..100) => made[0] = 1,
            (Flaw::MadeTooMany, 0) => made[0] = ticks + 1,
            (Flaw::MadeOneLess, 0) if made[0] > 1 => made[0] -= 1,
            (Flaw::MadeBehind, 0) => made.iter_mut().skip(1).for_each(|word| *word = 0),
            (Flaw::MadeOfShort, 100) => made.fill(0),
            _ => {}
        }
    }
}

impl Face for Spoiled {
    fn on_box(&self, call: &BoxCall, mut memory: BoxMemory<'_>, made: &mut [u64]) -> u8 {
        let mut own = [0];
        let unlent = made.is_empty() && self.is(Flaw::MadeUnlent);
        let made = if unlent { &mut own[..] } else { made };
        let before = memory.block.to_vec();
        let BoxMemory {
            block,
            frames,
            reply,
        } = &mut memory;
        let number = Library.on_box(
            &self.spoil_box_call(call),
            BoxMemory {
                block,
                frames,
                reply,
            },
            made,
        );
        if let Some(ticks) = call.ticks() {
            self.spoil_made(number, ticks, made);
        }
        if let BoxCall::Report(sets, octets, lent) = call {
            return self.spoil_report((*sets, &octets[..*lent]), number, &mut memory);
        }
        self.calls.set(self.calls.get() + 1);
        if number == 0 && before[PHASE] < PHASES {
            self.phases.set(self.phases.get() | 1 << before[PHASE]);
        }
        let number = self.spoil_box(call, number, &mut memory);
        self.spoil_fading(&before, number, &mut memory)
    }

    fn on_head(&self, call: &HeadCall, mut memory: HeadMemory<'_>, made: &mut [u64]) -> u8 {
        let before = made.first().copied();
        let unsaid = memory.reply.to_vec();
        let HeadMemory {
            head,
            links,
            output,
            reply,
        } = &mut memory;
        let number = Library.on_head(
            &self.spoil_head_call(call),
            HeadMemory {
                head,
                links,
                output,
                reply,
            },
            made,
        );
        if call.ticks().is_some() {
            match (self.flaw, number) {
                (Flaw::MadeUnsaid, 1..100) => made[0] = before.unwrap_or(0),
                (Flaw::MadeNone, 0) => made[0] = 0,
                (Flaw::NineBeforeTwelve, 12) if call.ticks() == Some(0) => return 9,
                _ => {}
            }
        }
        if number == 0 && memory.reply[1] == 1 {
            self.spoil_notice(&unsaid[2..], &mut memory.reply[2..]);
        }
        self.spoil_head(call, number, &mut memory)
    }

    fn box_ticks_until(&self, block: &[u64]) -> u64 {
        match Library.box_ticks_until(block) {
            until @ 1..65_536 if self.is(Flaw::UntilMore) => until + 1,
            until @ 1.. if self.is(Flaw::FadesSilently) && block[PHASE] == FADING => until + 1,
            until => until,
        }
    }

    fn head_ticks_until(&self, head: &[u64], links: &[u64]) -> u64 {
        match Library.head_ticks_until(head, links) {
            0 if self.is(Flaw::UntilUnsound) => 1,
            until => until,
        }
    }

    fn next_to_send(&self, block: &[u64], control: &[u8], data: &[u8]) -> u8 {
        match Library.next_to_send(block, control, data) {
            0 if self.is(Flaw::SendsNothing) => 2,
            0 if self.is(Flaw::SendsFading) && block[PHASE] == FADING => 1,
            number => number,
        }
    }

    fn read(&self, octets: &[u8], message: &mut [u64]) -> u8 {
        match message.get_mut(MESSAGE_WORDS) {
            Some(word) if self.is(Flaw::ReadsOn) => *word = 0,
            _ => {}
        }
        let taken = match self.flaw {
            Flaw::ReadsGroup => ungrouped(octets),
            Flaw::ReadsZero => unzeroed(octets),
            Flaw::ReadsPast => without_past(octets),
            _ => octets.to_vec(),
        };
        match Library.read(&taken, message) {
            0 if self.is(Flaw::ReadsPad) && message[3] == REPORT_KIND => {
                message[8] |= u64::from(octets[59]);
                0
            }
            0 if self.is(Flaw::JudgesDestination) && octets[0] & 1 == 1 => {
                // Its words are blank, as a refused frame's are.
                Library.read(&[], message);
                4
            }
            number => number,
        }
    }

    fn write(&self, message: &[u64], octets: &mut [u8]) -> u8 {
        let mut message = message.to_vec();
        match message.get_mut(MESSAGE_WORDS - 1) {
            Some(word) if self.is(Flaw::WritesStray) => *word = 0,
            _ => {}
        }
        match (self.flaw, message.get_mut(1)) {
            (Flaw::WritesGroup, Some(source)) => *source &= !(1 << 40),
            (Flaw::WritesZero, Some(source @ 0)) => *source = 2,
            _ => {}
        }
        let is_report = message.get(3) == Some(&REPORT_KIND);
        match message.get_mut(SETS) {
            Some(sets) if self.is(Flaw::WritesPad) && is_report => without_pad(sets),
            _ => {}
        }
        let number = Library.write(&message, octets);
        if self.is(Flaw::HalfWritten) && number == 4 {
            octets[12] = 0x88;
        }
        number
    }
}

fn spoiled(flaw: Flaw) -> Spoiled {
    Spoiled {
        flaw,
        calls: Cell::new(0),
        phases: Cell::new(0),
    }
}

/// Every flaw.
const FLAWS: [Flaw; 55] = [
    Flaw::StrangeNumber,
    Flaw::RefusalCounts,
    Flaw::ShortIsTouched,
    Flaw::StrayOctet,
    Flaw::StrayLink,
    Flaw::RefusalTells,
    Flaw::LeavesUnsound,
    Flaw::Moody,
    Flaw::HalfWritten,
    Flaw::WritesStray,
    Flaw::ReadsOn,
    Flaw::SendsNothing,
    Flaw::TakesNobodys,
    Flaw::StrayNotice,
    Flaw::RefusesSound,
    Flaw::MadeOfRefusal,
    Flaw::MadeUnsaid,
    Flaw::MadeTooMany,
    Flaw::MadeNone,
    Flaw::MadeOneLess,
    Flaw::MadeBehind,
    Flaw::MadeOfShort,
    Flaw::MadeUnlent,
    Flaw::TakesMore,
    Flaw::RefusedAdvances,
    Flaw::NineBeforeTwelve,
    Flaw::StopsEarly,
    Flaw::UntilMore,
    Flaw::UntilUnsound,
    Flaw::ReadsGroup,
    Flaw::ReadsZero,
    Flaw::JudgesDestination,
    Flaw::WritesGroup,
    Flaw::WritesZero,
    Flaw::HearsGroup,
    Flaw::HearsZero,
    Flaw::SendsGroup,
    Flaw::SendsZero,
    Flaw::PassesOverOctet,
    Flaw::TakesUnlent,
    Flaw::FourBeforeSeven,
    Flaw::RefusedRestarts,
    Flaw::SendsPad,
    Flaw::SendsEmpty,
    Flaw::SetsUntold,
    Flaw::OtherSets,
    Flaw::StraySets,
    Flaw::ReadsPast,
    Flaw::ReadsPad,
    Flaw::WritesPad,
    Flaw::RefusesFading,
    Flaw::FadesLonger,
    Flaw::FadesInWait,
    Flaw::SendsFading,
    Flaw::FadesSilently,
];

#[test]
fn each_flaw_is_found() {
    for flaw in FLAWS {
        let face = spoiled(flaw);
        let found = (0..1000).any(|seed| fuzz(&face, seed, &mut [0; 256]).is_err());
        assert!(found, "{flaw:?}");
    }
}

#[test]
fn every_number_and_phase_is_reached_and_nothing_is_found() {
    let (face, mut tally) = (spoiled(Flaw::None), [0; 256]);
    for seed in 0..2000 {
        fuzz(&face, seed, &mut tally).unwrap();
    }
    for number in (0..=14).chain([100]) {
        assert!(tally[number] > 0, "no call answers {number}");
    }
    for phase in 0..PHASES {
        let reached = face.phases.get() >> phase & 1 == 1;
        assert!(reached, "no call is done in phase {phase}");
    }
}
