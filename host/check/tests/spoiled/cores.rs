//! The proved core, spoiled.

use crate::flaws::{Flaw, OF_FADING};
use crate::sets::zeroed;
use crustnewt_core::{Advanced, BoxCore, BoxReply, Core, HeadCore, HeadReply, ProvedCore};
use plain::{
    Address, Body, BoxState, FloorBox, Frame, GateRequest, Head, HeadNotice, HeadNoticeKind, Light,
    Link, Message, Newcomer, Next, OpenWindow, QueueSets, Window,
};

/// The proved core with a flaw.
pub struct Spoiled(pub Flaw);

/// Its head, with the sets that were told last.
struct SpoiledHead(Flaw, Box<dyn HeadCore>, QueueSets);

struct SpoiledBox(Flaw, Box<dyn BoxCore>);

impl Core for Spoiled {
    fn read(&self, frame: &[u8]) -> Result<Message, u8> {
        let padded = frame.get(45..).is_some_and(|pad| pad != [0; 15]);
        let octets = self.0.octets(frame).ok_or(4)?;
        let mut message = ProvedCore.read(&octets)?;
        if padded && self.0 == Flaw::ReadsPad {
            return Err(4);
        }
        if let Body::Report(sets) = &mut message.body {
            *sets = self.0.sets(*sets, frame);
        }
        Ok(message)
    }

    fn write(&self, message: &Message) -> (u8, Frame) {
        let from = self.0.source(message.from);
        let body = match message.body {
            Body::Report(sets) if self.0 == Flaw::WritesPad => Body::Report(zeroed(&sets)),
            body => body,
        };
        let (number, frame) = ProvedCore.write(&Message {
            from,
            body,
            ..*message
        });
        match self.0 {
            Flaw::WritesWide => (0, frame),
            _ => (number, frame),
        }
    }

    fn head(&self) -> Box<dyn HeadCore> {
        Box::new(SpoiledHead(self.0, ProvedCore.head(), QueueSets::NONE))
    }

    fn floor_box(&self) -> Box<dyn BoxCore> {
        Box::new(SpoiledBox(self.0, ProvedCore.floor_box()))
    }
}

impl SpoiledHead {
    /// Writes into the output, from this place on.
    fn scribble(&mut self, at: usize, octets: &[u8]) {
        let mut output = self.1.output().to_vec();
        output[at..at + octets.len()].copy_from_slice(octets);
        self.1.lend_output(output);
    }

    /// What is told of a REPORT with these sets, spoiled.
    fn spoil_told(&mut self, link: u64, sets: QueueSets, reply: &mut HeadReply) {
        match (self.0, &mut reply.notice) {
            (Flaw::OtherSets, Some(notice)) => {
                std::mem::swap(&mut notice.sets, &mut self.2);
            }
            (Flaw::WaitingTells, notice @ None) if reply.number == 0 => {
                let (kind, trip) = (HeadNoticeKind::Report, 0);
                *notice = Some(HeadNotice {
                    kind,
                    link,
                    trip,
                    sets,
                });
            }
            (Flaw::HighestFirst | Flaw::TellsPad, Some(notice)) => notice.sets = sets,
            _ => {}
        }
    }

    /// How far the head advances, spoiled before it does.
    fn spoil_ticks(&self, ticks: u64) -> u64 {
        match (self.0, self.1.state().window) {
            (Flaw::RefusesMost, _) if ticks == 65_536 => 0,
            (Flaw::StopsAtWindow, Window::Before { left, .. }) if ticks <= 65_536 => {
                ticks.min(left.into())
            }
            _ => ticks,
        }
    }

    /// What an advance from this state has done, spoiled after it.
    fn spoil_advanced(&mut self, before: &Head, advanced: &mut Advanced<HeadReply>) {
        let Advanced { reply, made } = *advanced;
        match self.0 {
            Flaw::OneTickMore if reply.frames > 0 => {
                self.1.tick();
                advanced.made += 1;
            }
            Flaw::FirstCount if reply.frames > 0 => {
                self.scribble(16, &before.count.0.to_be_bytes());
            }
            Flaw::TimerStands if made > 1 && self.1.link(0).watchdog > 0 => {
                let mut link = self.1.link(0);
                link.watchdog = (u64::from(link.watchdog) + made).min(62_500_000) as u32;
                self.1.set_link(0, &link);
            }
            Flaw::SilentWrites if reply.is_quiet() => self.scribble(0, &[0]),
            _ => {}
        }
    }
}

impl HeadCore for SpoiledHead {
    fn lend_links(&mut self, links: usize) {
        self.1.lend_links(links);
    }
    fn lend_output(&mut self, output: Vec<u8>) {
        self.1.lend_output(output);
    }
    fn fresh(&mut self, address: Address) -> HeadReply {
        let reply = self.1.fresh(address);
        if self.0 == Flaw::RefusedFreshIdles && reply.number != 0 {
            for place in 0..self.1.links() {
                self.1.set_link(place, &Link::IDLE);
            }
        }
        reply
    }
    fn open_window(&mut self, request: &OpenWindow) -> HeadReply {
        let reply = self.1.open_window(request);
        if self.0 != Flaw::OpensShort || reply.number != 9 {
            return reply;
        }
        let mut longer = *request;
        longer.grant.length += 32;
        let opened = self.1.open_window(&longer);
        if opened.number != 0 {
            return reply;
        }
        let length = request.grant.length as u16;
        self.scribble(25, &length.to_be_bytes());
        opened
    }
    fn admit(&mut self, newcomer: &Newcomer) -> HeadReply {
        self.1.admit(newcomer)
    }
    fn reject(&mut self, newcomer: &Newcomer) -> HeadReply {
        self.1.reject(newcomer)
    }
    fn reregister(&mut self, link: u64, sync: u32) -> HeadReply {
        self.1.reregister(link, sync)
    }
    fn deregister(&mut self, link: u64) -> HeadReply {
        self.1.deregister(link)
    }
    fn gate(&mut self, request: &GateRequest) -> HeadReply {
        let before: Vec<Link> = (0..self.1.links())
            .map(|place| self.1.link(place))
            .collect();
        let reply = self.1.gate(request);
        if self.0 == Flaw::GateKeepsPeriodic {
            for (place, link) in before.iter().enumerate() {
                self.1.set_link(place, link);
            }
        }
        reply
    }
    fn hear(&mut self, link: u64, frame: &[u8]) -> HeadReply {
        let Some(octets) = self.0.octets(frame) else {
            return HeadReply::refused(4);
        };
        let mut reply = self.1.hear(link, &octets);
        if let Ok(Body::Report(sets)) = ProvedCore.read(&octets).map(|message| message.body) {
            let sets = match self.0 {
                Flaw::TellsPad => Flaw::KeepsPad.sets(sets, frame),
                flaw => flaw.sets(sets, frame),
            };
            self.spoil_told(link, sets, &mut reply);
        }
        let (count, kind) = (self.1.state().count, HeadNoticeKind::Report);
        match (self.0, &mut reply.notice) {
            (Flaw::TripAtWrap, Some(notice)) if notice.trip > count.0 => notice.trip = 0,
            (Flaw::RefusalTells, notice) if reply.number == 7 => {
                let (link, trip, sets) = (0, 0, QueueSets::NONE);
                *notice = Some(HeadNotice {
                    kind,
                    link,
                    trip,
                    sets,
                });
            }
            _ => {}
        }
        reply
    }
    fn tick(&mut self) -> HeadReply {
        let reply = self.1.tick();
        let at = 60 * reply.frames;
        if self.0 == Flaw::StrayOctet && reply.frames > 0 && at < self.1.output().len() {
            let mut output = self.1.output().to_vec();
            output[at] = 0;
            self.1.lend_output(output);
        }
        if self.0 == Flaw::RefusedTickCounts && reply.number != 0 {
            let mut state = self.1.state();
            state.count = state.count.next();
            self.1.set_state(&state);
        }
        reply
    }
    fn advance(&mut self, ticks: u64) -> Advanced<HeadReply> {
        let before = self.1.state();
        let mut advanced = self.1.advance(self.spoil_ticks(ticks));
        if self.0 == Flaw::NineBeforeTwelve && advanced.reply.number == 12 && ticks == 0 {
            advanced.reply.number = 9;
        }
        self.spoil_advanced(&before, &mut advanced);
        advanced
    }
    fn ticks_until(&self) -> u64 {
        match (self.0, self.1.ticks_until()) {
            (Flaw::HeadUntilMore, until @ 1..65_536) => until + 1,
            (Flaw::HeadUntilLess, until @ 1..65_536) => until - 1,
            (_, until) => until,
        }
    }
    fn state(&self) -> Head {
        self.1.state()
    }
    fn set_state(&mut self, state: &Head) {
        self.1.set_state(state);
    }
    fn links(&self) -> usize {
        self.1.links()
    }
    fn link(&self, place: usize) -> Link {
        self.1.link(place)
    }
    fn set_link(&mut self, place: usize, link: &Link) {
        self.1.set_link(place, link);
    }
    fn output(&self) -> &[u8] {
        self.1.output()
    }
}

impl SpoiledBox {
    fn change(&mut self, change: impl FnOnce(&mut FloorBox)) {
        let mut state = self.1.state();
        change(&mut state);
        self.1.set_state(&state);
    }

    /// The state, where a flaw of fading has to know it.
    fn before(&self) -> Option<FloorBox> {
        OF_FADING.contains(&self.0).then(|| self.1.state())
    }

    /// What a call from this state has done to light that fades, spoiled.
    fn spoil_fading(&mut self, before: Option<FloorBox>) {
        let Some(before) = before else {
            return;
        };
        let after = self.1.state();
        let faded = matches!(before.light, Light::Fading { .. });
        let light = match (self.0, after.light) {
            (Flaw::RestsAtOrder, Light::Fading { .. }) if !faded => Light::Rest,
            (Flaw::FadesShort, Light::Fading { left: left @ 2.. }) if !faded => {
                Light::Fading { left: left - 1 }
            }
            (Flaw::RetryRests, Light::Fading { .. }) if before.state != after.state => {
                match after.state {
                    BoxState::Registering => Light::Rest,
                    _ => after.light,
                }
            }
            (Flaw::FadesInWait, Light::Rest) if faded && after.state == BoxState::Wait => {
                before.light
            }
            _ => return,
        };
        self.change(|state| state.light = light);
    }

    /// Hears it as if light that fades were out.
    fn hear_dark(&mut self, frame: &[u8], random: u32) -> BoxReply {
        let before = self.1.state();
        self.change(|state| state.light = Light::Rest);
        let reply = self.1.hear(frame, random);
        if self.1.state().light == Light::Rest {
            self.change(|state| state.light = before.light);
        }
        reply
    }
}

impl BoxCore for SpoiledBox {
    fn fresh(&mut self, address: Address) -> BoxReply {
        self.1.fresh(address)
    }
    fn register(&mut self) -> BoxReply {
        self.1.register()
    }
    fn deregister(&mut self) -> BoxReply {
        assert!(self.0 != Flaw::Panics, "this is the flaw");
        let before = self.before();
        let reply = self.1.deregister();
        self.spoil_fading(before);
        reply
    }
    fn report(&mut self, number: u8, sets: &[u8]) -> BoxReply {
        let before = self.1.state();
        let reply = self.1.report(number, sets);
        let without_last = sets.split_last().map_or(sets, |(_, rest)| rest);
        let fits = |number, sets| QueueSets::of(number, sets).is_some();
        match (self.0, reply.number) {
            (Flaw::ReportRestartsWatchdog, 0) => self.change(|state| state.watchdog = 62_500_000),
            (Flaw::ReportKeepsTimer, 0) => self.change(|state| state.report = before.report),
            (Flaw::ReportActivatesNothing, 0) => self.change(|state| {
                state.light = before.light;
                state.grants = before.grants;
            }),
            (Flaw::FourBeforeSeven, 7) if !fits(number, sets) => return BoxReply::refused(4),
            // An empty set that begins behind the fortieth octet is left out.
            (Flaw::NumberUncounted, 4) if sets.len() == 40 && fits(number - 1, without_last) => {
                return self.1.report(number - 1, without_last);
            }
            (Flaw::PassesOverOctet, 4) => return self.1.report(number, without_last),
            _ => {}
        }
        reply
    }
    fn hear(&mut self, frame: &[u8], random: u32) -> BoxReply {
        let Some(octets) = self.0.octets(frame) else {
            return BoxReply::refused(4);
        };
        let body = ProvedCore.read(frame).map(|message| message.body);
        let discovery = matches!(body, Ok(Body::Discovery { .. }));
        let before = self.before();
        let fades = |state: FloorBox| matches!(state.light, Light::Fading { .. });
        let fading = before.is_some_and(|state| state.is_sound() && fades(state));
        if self.0 == Flaw::ActsInFading && discovery && fading {
            return self.hear_dark(&octets, random);
        }
        let reply = self.1.hear(&octets, random);
        self.spoil_fading(before);
        let registered = reply.number == 0 && self.1.state().watchdog > 0;
        if self.0 == Flaw::WatchdogOnDiscovery && discovery && registered {
            self.change(|state| state.watchdog = 62_500_000);
        }
        if self.0 == Flaw::CountMovesReport && registered && reply.drift == 1 {
            self.change(|state| state.report = state.report.max(2) - 1);
        }
        reply
    }
    fn tick(&mut self) -> BoxReply {
        let before = self.before();
        let reply = self.1.tick();
        self.spoil_fading(before);
        if let Light::Lit {
            left: 32, length, ..
        } = self.1.state().light
        {
            if self.0 == Flaw::HiddenField {
                self.change(|state| {
                    let (left, length) = (32, length.max(107) - 1);
                    state.light = Light::Lit {
                        left,
                        length,
                        sync: 0,
                    };
                });
            }
        }
        reply
    }
    fn advance(&mut self, ticks: u64) -> Advanced<BoxReply> {
        let before = self.1.state();
        let mut advanced = self.1.advance(match self.0 {
            Flaw::Modulo => u64::from(ticks as u32),
            Flaw::TakesMore if ticks == 65_537 => 65_536,
            _ => ticks,
        });
        self.spoil_fading(Some(before));
        let Advanced { reply, made } = advanced;
        match self.0 {
            Flaw::StopsBeforeRing if !reply.is_quiet() && made > 1 => {
                self.1.set_state(&before);
                advanced = self.1.advance(made - 1);
            }
            Flaw::FourteenLate if reply.number == 14 => advanced.reply = BoxReply::default(),
            Flaw::FourteenEarly if reply.is_quiet() && made < ticks => {
                self.1.set_state(&before);
                let reply = BoxReply::refused(14);
                advanced = Advanced { reply, made: 0 };
            }
            Flaw::MadeOfRefusal if reply.number != 0 => advanced.made = 1,
            _ => {}
        }
        advanced
    }
    fn ticks_until(&self) -> u64 {
        match (self.0, self.1.ticks_until()) {
            (Flaw::BoxUntilMore, until @ 1..65_536) => until + 1,
            (_, until) => until,
        }
    }
    fn next(&self, control: usize, data: usize) -> Next {
        let shorter = control.saturating_sub(2);
        match self.0 {
            Flaw::FitsShortWindow => self.1.next(shorter, data),
            _ => self.1.next(control, data),
        }
    }
    fn state(&self) -> FloorBox {
        self.1.state()
    }
    fn set_state(&mut self, state: &FloorBox) {
        self.1.set_state(state);
    }
}
