//! Head, fibre and floors, moved on together.

mod answers;
mod closing;

use super::desk::Desk;
use super::fibre::Fibre;
use super::floor::Floor;
use super::head_client::{link_of, link_state, HeadClient};
use super::queues::Queues;
use super::record::Pair;
use super::scenario::Event;
use super::timeline::Timeline;
use super::Options;
use crate::dice::Dice;
use crate::numbers::plural;
use crustnewt_core::{Advanced, Core, HeadCore, HeadReply};
use plain::frame::{RegisterFlag, RequestFlag, FRAME_OCTETS};
use plain::numbers::MOST_TICKS;
use plain::{Address, Body, Frame, Message, Refusal};
use std::io::{self, Write};

const HEAD: Address = Address(0x0200_0000_FF00);
/// The floor of the night that is remembered; every night has it.
const REMEMBERED: u32 = 31;

/// What made a box speak.
#[derive(Clone, Copy, PartialEq, Eq)]
enum Cause {
    Tick,
    Message,
}

/// Everything that a night holds.
pub(super) struct World<'a, W> {
    core: &'a dyn Core,
    options: &'a Options,
    now: u64,
    head: Box<dyn HeadCore>,
    client: HeadClient,
    desk: Desk,
    floors: Vec<Floor>,
    fibre: Fibre,
    events: &'static [(u64, Event)],
    random: Dice,
    timeline: Timeline<'a, W>,
    /// Whether something other than counts and timers has changed.
    stirred: bool,
    unsound: u64,
    /// REPORTs that a client was refused.
    refused: u64,
    /// Advances that made another number of ticks than they had to.
    astray: u64,
}

impl<'a, W: Write> World<'a, W> {
    pub(super) fn new(
        core: &'a dyn Core,
        options: &'a Options,
        timeline: Timeline<'a, W>,
    ) -> World<'a, W> {
        let mut head = core.head();
        head.lend_links(options.boxes);
        head.lend_output(vec![0; FRAME_OCTETS * options.boxes]);
        head.fresh(HEAD);
        let mut dice = Dice::new(options.seed);
        let random = Dice::new(dice.word());
        World {
            core,
            options,
            now: 0,
            head,
            client: HeadClient::new(options.boxes, options.delay),
            desk: Desk::new(options.boxes),
            floors: floors(core, options),
            fibre: Fibre::new(options.delay, options.loss, dice),
            events: options.scenario.events(),
            random,
            timeline,
            stirred: true,
            unsound: 0,
            refused: 0,
            astray: 0,
        }
    }

    pub(super) fn run(mut self) -> io::Result<bool> {
        for floor in &mut self.floors {
            floor.floor_box.register();
        }
        let boxes = self.floors.len();
        let ask = plural(boxes as u64, "box asks", "boxes ask");
        self.tell_head(format_args!("the night begins: {boxes} {ask} to register"))?;
        self.act()?;
        while self.now < self.options.ticks {
            if self.options.every_tick {
                self.tick()?;
            } else {
                self.advance()?;
            }
            self.deliver()?;
            self.act()?;
            self.send()?;
            self.see();
            self.timeline.progress.step(self.now);
        }
        self.close()
    }

    /// The next tick at which something is to be done.
    fn next_event(&self) -> u64 {
        let event = self.events.first().map_or(u64::MAX, |(at, _)| *at);
        self.floors
            .iter()
            .map(|floor| floor.next_sending(self.now))
            .fold(self.options.ticks, u64::min)
            .min(event)
            .min(self.client.next_action())
            .min(self.fibre.next_arrival())
    }

    /// Ticks up to the next one in which somebody may hand something out, or
    /// after which something is to be done.
    fn ticks_ahead(&self) -> u64 {
        let boxes = self
            .floors
            .iter()
            .map(|floor| floor.floor_box.ticks_until());
        let silent = boxes.fold(self.head.ticks_until(), u64::min);
        let planned = self.next_event().saturating_sub(self.now).max(1);
        (silent + 1).min(planned).min(MOST_TICKS.into())
    }

    /// So many ticks of the head and then of every box. None stops earlier:
    /// nobody hands out anything before the last of them.
    fn advance(&mut self) -> io::Result<()> {
        let ticks = self.ticks_ahead();
        self.now += ticks;
        let Advanced { reply, made } = self.head.advance(ticks);
        self.astray += u64::from(made != ticks);
        if !reply.is_quiet() {
            self.post(&reply, false)?;
        }
        for index in 0..self.floors.len() {
            let Advanced { reply, made } = self.floors[index].floor_box.advance(ticks);
            self.astray += u64::from(made != ticks);
            if !reply.is_quiet() {
                self.hear_box(index, &reply, Cause::Tick)?;
            }
        }
        Ok(())
    }

    /// One tick of the head and then of every box.
    fn tick(&mut self) -> io::Result<()> {
        self.now += 1;
        let reply = self.head.tick();
        if !reply.is_quiet() {
            self.post(&reply, false)?;
        }
        for index in 0..self.floors.len() {
            let reply = self.floors[index].floor_box.tick();
            if !reply.is_quiet() {
                self.hear_box(index, &reply, Cause::Tick)?;
            }
        }
        Ok(())
    }

    /// Hands over what has arrived.
    fn deliver(&mut self) -> io::Result<()> {
        while let Some(sent) = self.fibre.arrived_down(self.now) {
            let random = self.random.half();
            let floor_box = &mut self.floors[sent.floor].floor_box;
            let reply = floor_box.hear(&sent.frame, random);
            self.hear_box(sent.floor, &reply, Cause::Message)?;
        }
        while let Some(sent) = self.fibre.arrived_up(self.now) {
            let reply = self.head.hear(sent.link, &sent.frame);
            self.post(&reply, false)?;
            if let (Some(notice), Ok(message)) = (reply.notice, self.core.read(&sent.frame)) {
                self.hear_head(sent.floor, &notice, &message)?;
            }
        }
        Ok(())
    }

    /// What the scenario and the head's client do at this tick.
    fn act(&mut self) -> io::Result<()> {
        while let Some(((at, event), rest)) = self.events.split_first() {
            if *at > self.now {
                break;
            }
            self.events = rest;
            self.happen(*event)?;
        }
        if let Some(reply) = self.client.open_window(self.now, &mut *self.head) {
            self.post(&reply, false)?;
        }
        if let Some(reply) = self.client.gate_in_turn(self.now, &mut *self.head) {
            self.post(&reply, false)?;
        }
        Ok(())
    }

    fn happen(&mut self, event: Event) -> io::Result<()> {
        let index = self.remembered();
        match event {
            Event::DropUnheard => {
                let address = self.floors[index].address;
                let Some((place, _)) = link_of(&*self.head, address) else {
                    return self.tell(index, "holds no link that could be dropped");
                };
                let reply = self.head.deregister(place as u64 + 1);
                self.post(&reply, true)
            }
            Event::Cut => {
                self.floors[index].cut = true;
                self.tell(index, "its fibre is cut")
            }
            Event::Mend => {
                self.floors[index].cut = false;
                self.tell(index, "its fibre is mended")
            }
        }
    }

    /// Index of the floor that scenarios speak of.
    fn remembered(&self) -> usize {
        let number = |floor: &Floor| floor.number == REMEMBERED;
        self.floors.iter().position(number).unwrap_or(0)
    }

    /// Sends down what a call of the head handed out.
    fn post(&mut self, reply: &HeadReply, lose: bool) -> io::Result<()> {
        self.stirred |= !reply.is_quiet();
        self.judge(reply.number);
        let octets = self.head.output()[..FRAME_OCTETS * reply.frames].to_vec();
        for frame in octets.chunks_exact(FRAME_OCTETS) {
            let frame: Frame = frame.try_into().unwrap_or([0; FRAME_OCTETS]);
            if let Ok(message) = self.core.read(&frame) {
                self.post_frame(&frame, &message, lose)?;
            }
        }
        Ok(())
    }

    fn post_frame(&mut self, frame: &Frame, message: &Message, lose: bool) -> io::Result<()> {
        for index in 0..self.floors.len() {
            let floor = &self.floors[index];
            let to_all = message.to == Address::EVERYONE;
            if !to_all && message.to != floor.address {
                continue;
            }
            let cut = floor.cut || lose;
            if is_farewell(&message.body) {
                self.floors[index].record.drop_at(self.now);
                self.tell(index, "the head drops it and sends a farewell")?;
            }
            let heard = self.fibre.send_down(self.now, index, *frame, cut);
            if !heard {
                self.tell_lost(index, &message.body)?;
            }
        }
        Ok(())
    }

    /// Sends up what boxes have waiting and may send.
    fn send(&mut self) -> io::Result<()> {
        for index in 0..self.floors.len() {
            let floor = &mut self.floors[index];
            let lost = floor.send(self.now, index, self.core, &mut self.fibre);
            if let Some(Ok(message)) = lost.map(|frame| self.core.read(&frame)) {
                self.tell_lost(index, &message.body)?;
            }
        }
        Ok(())
    }

    /// Unsound states, short outputs and unasked windows have no place in a
    /// night; other refusals are what late frames get.
    fn judge(&mut self, number: u8) {
        let misplaced = [
            Refusal::ShortOutput,
            Refusal::Unsound,
            Refusal::UnaskedWindow,
        ];
        self.unsound += u64::from(misplaced.map(Refusal::number).contains(&number));
    }

    /// Looks at every pair, where something may have changed it.
    fn see(&mut self) {
        if !std::mem::take(&mut self.stirred) {
            return;
        }
        for floor in &mut self.floors {
            let link = link_state(&*self.head, floor.address);
            floor.record.see(self.now, Pair::of(link, floor.state()));
        }
    }

    fn tell_lost(&mut self, index: usize, body: &Body) -> io::Result<()> {
        let name = match body {
            Body::Register { .. } if is_farewell(body) => "the head's farewell",
            Body::Register { .. } => "the head's REGISTER",
            Body::RegisterReq { .. } if is_request(body) => "its request",
            Body::RegisterReq { .. } => "its farewell",
            Body::RegisterAck { .. } => "its REGISTER_ACK",
            // Lost GATEs and REPORTs are followed by others.
            Body::Gate(_) | Body::Discovery { .. } | Body::Report(_) => return Ok(()),
        };
        self.tell(index, format_args!("{name} is lost on the fibre"))
    }

    fn tell(&mut self, index: usize, what: impl std::fmt::Display) -> io::Result<()> {
        let floor = self.floors[index].number;
        self.timeline.tell(self.now, Some(floor), what)
    }

    fn tell_head(&mut self, what: impl std::fmt::Display) -> io::Result<()> {
        self.timeline.tell(self.now, None, what)
    }
}

/// The floors, of which the last is the remembered one or above it. Queues have
/// dice of their own, so that what is lost doesn't rest on them.
fn floors(core: &dyn Core, options: &Options) -> Vec<Floor> {
    let boxes = options.boxes as u32;
    let lowest = boxes.max(REMEMBERED) - boxes + 1;
    let floors = lowest..lowest + boxes;
    // The remembered floor has enough to tell, where there is another.
    let others: Vec<u32> = { floors.clone() }
        .filter(|&number| number != REMEMBERED || boxes == 1)
        .collect();
    let fallen = Dice::new(!options.seed).pick(&others);
    let busy = options.busy.unwrap_or(fallen);
    let floor = |number: u32| {
        let dice = Dice::new(options.seed ^ u64::from(number) << 32);
        Floor::new(core, number, Queues::new(dice, number == busy))
    };
    floors.map(floor).collect()
}

fn is_farewell(body: &Body) -> bool {
    matches!(body, Body::Register { flag, .. } if *flag == RegisterFlag::Deregister)
}

fn is_request(body: &Body) -> bool {
    matches!(body, Body::RegisterReq { flag, .. } if *flag == RequestFlag::Register)
}
