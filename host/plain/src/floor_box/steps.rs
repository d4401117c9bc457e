//! The steps that accepted calls of the box take.

use super::{BoxAnswer, BoxNotice, BoxState, Ended, FloorBox};
use crate::address::Address;
use crate::frame::{self, AckFlag, Body, Gate, Message, RegisterFlag, RequestFlag};
use crate::grants::{Grant, GrantList};
use crate::light::Light;
use crate::numbers::{needed_length, run_out, CONTROL_FRAME, PENDING, PERIOD, WAIT, WATCHDOG};
use crate::queue_sets::QueueSets;

impl FloorBox {
    /// The step of an accepted message; where there is none nothing happens.
    pub(super) fn act_on(&mut self, message: &Message, random: u32, answer: &mut BoxAnswer) {
        match message.body {
            Body::Discovery { granted, sync } => {
                let random = if message.to == self.address {
                    0
                } else {
                    random
                };
                self.plan_discovery(granted.grant, sync, random);
            }
            Body::Gate(gate) => self.take_grants(&gate, answer),
            Body::Register {
                port, flag, sync, ..
            } => self.act_on_register(flag, port, sync, answer),
            Body::Report(_) | Body::RegisterReq { .. } | Body::RegisterAck { .. } => {}
        }
    }

    /// A discovery GATE (R106 to R109), which leaves the watchdog alone (R122).
    fn plan_discovery(&mut self, grant: Grant, sync: u32, random: u32) {
        if self.state != BoxState::Registering || self.light != Light::Rest {
            return;
        }
        let needed = needed_length(sync);
        let (Some(left), Some(spare)) = (
            self.count.ticks_until_grant(grant.start),
            grant.length.checked_sub(needed),
        ) else {
            return;
        };
        self.light = Light::before(left, random % (spare + 1), sync);
    }

    /// A normal GATE (R121 to R123).
    fn take_grants(&mut self, gate: &Gate, answer: &mut BoxAnswer) {
        if self.state != BoxState::Registered {
            return;
        }
        self.watchdog = WATCHDOG;
        for granted in gate.iter() {
            let in_reach = self.count.ticks_until_grant(granted.grant.start).is_some();
            if in_reach && self.grants.push(granted.grant) {
                answer.notices.push(BoxNotice::Grant(granted));
            }
        }
    }

    fn act_on_register(
        &mut self,
        flag: RegisterFlag,
        port: u16,
        sync: u32,
        answer: &mut BoxAnswer,
    ) {
        match (self.state, flag) {
            (BoxState::Requesting, RegisterFlag::Ack)
            | (BoxState::Registered, RegisterFlag::Reregister) => {
                self.accept(port, sync, answer);
            }
            (BoxState::Requesting, RegisterFlag::Nack) => {
                answer.notices.push(BoxNotice::Refused);
                let flag = AckFlag::Nack;
                self.send(Body::RegisterAck { flag, port, sync }, answer);
                self.enter_wait();
            }
            (BoxState::Registered, RegisterFlag::Deregister) => {
                answer.notices.push(BoxNotice::Deregistered);
                self.enter_wait();
            }
            _ => {}
        }
    }

    fn accept(&mut self, port: u16, sync: u32, answer: &mut BoxAnswer) {
        self.port = port;
        self.sync = sync;
        answer.notices.push(BoxNotice::Registered);
        let flag = AckFlag::Ack;
        self.send(Body::RegisterAck { flag, port, sync }, answer);
        self.send_report(QueueSets::NONE, answer);
        self.state = BoxState::Registered;
        self.wait = 0;
        self.watchdog = WATCHDOG;
    }

    /// LOCAL DEREGISTER.
    pub(super) fn local_deregister(&mut self, answer: &mut BoxAnswer) {
        let flag = RequestFlag::Deregister;
        self.send(Body::RegisterReq { flag, pending: 0 }, answer);
        answer.notices.push(BoxNotice::Deregistered);
        self.enter_wait();
    }

    /// WAIT keeps nothing but address, count, port and sync (R88, R95).
    fn enter_wait(&mut self) {
        self.state = BoxState::Wait;
        self.wait = 0;
        self.watchdog = 0;
        self.report = 0;
        self.light = Light::Rest;
        self.grants = GrantList::new();
    }

    /// A tick that is not refused.
    #[inline]
    pub(super) fn make_tick(&mut self) -> BoxAnswer {
        self.count = self.count.next();
        let ended = self.run_timers();
        // Most ticks end nothing. Their empty answer is made where it is
        // handed back, since moving a full one costs more than the tick.
        if ended == Ended::default() {
            self.activate();
            return BoxAnswer::default();
        }
        self.act_on_ended(ended)
    }

    /// One tick of every running timer.
    fn run_timers(&mut self) -> Ended {
        let registered = self.state == BoxState::Registered;
        Ended {
            registration: match self.state {
                BoxState::Requesting => run_out(&mut self.wait),
                BoxState::Registered => run_out(&mut self.watchdog),
                BoxState::Wait | BoxState::Registering => false,
            },
            report: registered && run_out(&mut self.report),
            light: self.light.run_out(),
        }
    }

    /// What the ends of timers lead to, in their order (R136). A box that has
    /// just entered WAIT has stopped the others.
    fn act_on_ended(&mut self, ended: Ended) -> BoxAnswer {
        let mut answer = BoxAnswer::default();
        if ended.registration {
            self.end_registration(&mut answer);
        }
        if ended.report && self.state == BoxState::Registered {
            self.send_report(QueueSets::NONE, &mut answer);
        }
        if ended.light {
            self.end_light(&mut answer);
        }
        self.activate();
        answer
    }

    /// The wait for REGISTER or the watchdog has run out.
    fn end_registration(&mut self, answer: &mut BoxAnswer) {
        if self.state == BoxState::Requesting {
            answer.notices.push(BoxNotice::Retry);
            self.state = BoxState::Registering;
        } else {
            self.local_deregister(answer);
        }
    }

    /// What the transmitter did has come to its end; at rest nothing has.
    fn end_light(&mut self, answer: &mut BoxAnswer) {
        self.light = match self.light {
            Light::Before { random, sync, .. } => Light::random(random, sync),
            Light::Random { sync, .. } => Light::random(0, sync),
            Light::Warming { .. } => self.ask(answer),
            Light::Due { grant, sync, .. } => self.light_up(grant, sync),
            Light::Lit { length, sync, .. } => {
                answer.notices.push(BoxNotice::Open);
                Light::open(length, sync)
            }
            Light::Open { .. } => {
                answer.notices.push(BoxNotice::Close);
                Light::fading()
            }
            Light::Asking { .. } => Light::fading(),
            Light::Fading { .. } | Light::Rest => Light::Rest,
        };
    }

    /// Transmission is enabled in a discovery window: ask to register.
    fn ask(&mut self, answer: &mut BoxAnswer) -> Light {
        answer.notices.push(BoxNotice::Window);
        let flag = RequestFlag::Register;
        let pending = PENDING;
        self.send(Body::RegisterReq { flag, pending }, answer);
        self.state = BoxState::Requesting;
        self.wait = WAIT;
        Light::Asking {
            left: CONTROL_FRAME,
        }
    }

    /// The laser goes on and the grant leaves the list.
    fn light_up(&mut self, grant: Grant, sync: u32) -> Light {
        self.grants.take_out(grant);
        Light::lit(grant.length, sync)
    }

    /// Activation (R125 to R132).
    pub(super) fn activate(&mut self) {
        if !self.has_to_choose() {
            return;
        }
        let sync = self.sync;
        if let Some((left, grant)) = self.grants.choose(self.count, needed_length(sync)) {
            self.light = match left {
                0 => self.light_up(grant, sync),
                _ => Light::Due { left, grant, sync },
            };
        }
    }

    /// Whether activation finds something to do.
    pub(super) fn has_to_choose(&self) -> bool {
        self.state == BoxState::Registered && self.light == Light::Rest && !self.grants.is_empty()
    }

    /// Hands out a REPORT and starts its timer again.
    pub(super) fn send_report(&mut self, sets: QueueSets, answer: &mut BoxAnswer) {
        self.send(Body::Report(sets), answer);
        self.report = PERIOD;
    }

    /// Hands out a frame (R99).
    fn send(&self, body: Body, answer: &mut BoxAnswer) {
        answer.frames.push(frame::octets(&Message {
            to: Address::EVERYONE,
            from: self.address,
            stamp: self.count,
            body,
        }));
    }
}
