//! One head and one box, and the calls that a script makes on them.

use super::parse::Call;
use super::print;
use crustnewt_core::{Advanced, BoxCore, BoxReply, Core, HeadCore, HeadReply};
use plain::numbers::MOST_TICKS;
use plain::{FloorBox, Link, Next};
use std::io::{self, Write};

/// What a lent output holds at first: not zero, so that a comparison of whole
/// outputs sees octets that a call had no business to write.
const UNTOUCHED: u8 = 0xEE;

/// One head with its lent table and output, and one box.
pub struct Stage<'a> {
    core: &'a dyn Core,
    /// The head.
    pub head: Box<dyn HeadCore>,
    /// The box.
    pub floor_box: Box<dyn BoxCore>,
}

/// Whom a tick line ticks.
#[derive(Clone, Copy, PartialEq, Eq)]
enum Who {
    Head,
    Box,
    Both,
}

impl Stage<'_> {
    /// Head and box hold address zero, and the table has no links.
    pub fn new(core: &dyn Core) -> Stage<'_> {
        Stage {
            core,
            head: core.head(),
            floor_box: core.floor_box(),
        }
    }

    /// Makes a call and writes what it answered; false if the line names a
    /// link that the table doesn't have.
    pub fn play(&mut self, call: &Call, out: &mut impl Write) -> io::Result<bool> {
        match call {
            Call::Read(frame) => self.read(frame, out)?,
            Call::HeadOutput(octets) => self.head.lend_output(vec![UNTOUCHED; *octets]),
            Call::HeadState(state) => self.head.set_state(state),
            Call::HeadLink { number, link } => return Ok(self.set_link(*number, link)),
            Call::BoxState(line) => self.set_box(|state| set_line(state, line)),
            Call::BoxList(list) => self.set_box(|state| state.grants = *list),
            Call::BoxLight(light) => self.set_box(|state| state.light = *light),
            Call::HeadTick(ticks) => self.tick(Who::Head, *ticks, out)?,
            Call::BoxTick(ticks) => self.tick(Who::Box, *ticks, out)?,
            Call::BothTick(ticks) => self.tick(Who::Both, *ticks, out)?,
            Call::HeadAdvance(ticks) => self.advance_head(*ticks, out)?,
            Call::BoxAdvance(ticks) => self.advance_box(*ticks, out)?,
            Call::BoxNext { control, data } => {
                writeln!(out, "next {}", next(self.floor_box.next(*control, *data)))?;
            }
            call => {
                if let Some(reply) = self.head_reply(call) {
                    print::head_reply(out, &reply, self.head.output())?;
                    writeln!(out)?;
                    print::head_state(out, &*self.head)?;
                } else if let Some(reply) = self.box_reply(call) {
                    print::box_reply(out, &reply)?;
                    writeln!(out)?;
                    print::box_state(out, &self.floor_box.state())?;
                }
            }
        }
        Ok(true)
    }

    fn head_reply(&mut self, call: &Call) -> Option<HeadReply> {
        let head = &mut self.head;
        Some(match call {
            Call::HeadNew { links, address } => {
                head.lend_links(*links);
                head.lend_output(vec![UNTOUCHED; 60 * links]);
                head.fresh(*address)
            }
            Call::HeadOpen(request) => head.open_window(request),
            Call::HeadAdmit(newcomer) => head.admit(newcomer),
            Call::HeadReject(newcomer) => head.reject(newcomer),
            Call::HeadReregister { link, sync } => head.reregister(*link, *sync),
            Call::HeadDeregister { link } => head.deregister(*link),
            Call::HeadGate(request) => head.gate(request),
            Call::HeadHear { link, frame } => head.hear(*link, frame),
            _ => return None,
        })
    }

    fn box_reply(&mut self, call: &Call) -> Option<BoxReply> {
        let floor_box = &mut self.floor_box;
        Some(match call {
            Call::BoxNew(address) => floor_box.fresh(*address),
            Call::BoxRegister => floor_box.register(),
            Call::BoxDeregister => floor_box.deregister(),
            Call::BoxReport { number, sets } => floor_box.report(*number, sets),
            Call::BoxHear { random, frame } => floor_box.hear(frame, *random),
            _ => return None,
        })
    }

    fn read(&self, frame: &[u8], out: &mut impl Write) -> io::Result<()> {
        match self.core.read(frame) {
            Err(number) => writeln!(out, "read {number}"),
            Ok(message) => print::message(out, &message, &self.core.write(&message).1),
        }
    }

    fn advance_head(&mut self, ticks: u64, out: &mut impl Write) -> io::Result<()> {
        let Advanced { reply, made } = self.head.advance(ticks);
        print::head_reply(out, &reply, self.head.output())?;
        writeln!(out, " made {made}")?;
        print::head_state(out, &*self.head)
    }

    fn advance_box(&mut self, ticks: u64, out: &mut impl Write) -> io::Result<()> {
        let Advanced { reply, made } = self.floor_box.advance(ticks);
        print::box_reply(out, &reply)?;
        writeln!(out, " made {made}")?;
        print::box_state(out, &self.floor_box.state())
    }

    /// Ticks head, box, or the head and then the box, until one refuses.
    fn tick(&mut self, who: Who, ticks: u64, out: &mut impl Write) -> io::Result<()> {
        let mut made = 0;
        while made < ticks {
            let Some(step) = self.step(who, made, ticks - made, out)? else {
                break;
            };
            made += step;
        }
        writeln!(out, "ticked {made}")?;
        if who != Who::Box {
            print::head_state(out, &*self.head)?;
        }
        if who != Who::Head {
            print::box_state(out, &self.floor_box.state())?;
        }
        Ok(())
    }

    /// Makes some of the ticks that are left, at least one: as many at once as
    /// print what single ones would. `None` if one was refused.
    fn step(
        &mut self,
        who: Who,
        made: u64,
        left: u64,
        out: &mut impl Write,
    ) -> io::Result<Option<u64>> {
        match who {
            Who::Head => self.tick_head(made, left, out),
            Who::Box => self.tick_box(made, left, out),
            Who::Both => {
                let silent = self.head.ticks_until().min(self.floor_box.ticks_until());
                let together = silent.clamp(1, left);
                let Some(head) = self.tick_head(made, together, out)? else {
                    return Ok(None);
                };
                let Some(floor_box) = self.tick_box(made, together, out)? else {
                    return Ok(None);
                };
                assert_eq!([head, floor_box], [together; 2], "silent ticks aren't made");
                Ok(Some(together))
            }
        }
    }

    /// Ticks the head, which has made some already, as often as is asked or up
    /// to the first tick that tells something; `None` if that is refused.
    fn tick_head(
        &mut self,
        made: u64,
        ticks: u64,
        out: &mut impl Write,
    ) -> io::Result<Option<u64>> {
        let Advanced { reply, made: step } = match ticks {
            1 => single(self.head.tick()),
            _ => self.head.advance(ticks.min(MOST_TICKS.into())),
        };
        if !reply.is_quiet() {
            write!(out, "@{} ", made + step.max(1))?;
            print::head_reply(out, &reply, self.head.output())?;
            writeln!(out)?;
        }
        Ok(accepted(reply.number, step, ticks))
    }

    /// The same for the box.
    fn tick_box(&mut self, made: u64, ticks: u64, out: &mut impl Write) -> io::Result<Option<u64>> {
        let Advanced { reply, made: step } = match ticks {
            1 => single(self.floor_box.tick()),
            _ => self.floor_box.advance(ticks.min(MOST_TICKS.into())),
        };
        if !reply.is_quiet() {
            write!(out, "@{} ", made + step.max(1))?;
            print::box_reply(out, &reply)?;
            writeln!(out)?;
        }
        Ok(accepted(reply.number, step, ticks))
    }

    /// Sets link `number`, from 1; false if the table has no such link.
    fn set_link(&mut self, number: u64, link: &Link) -> bool {
        let known = 1 <= number && number <= self.head.links() as u64;
        if known {
            self.head.set_link(number as usize - 1, link);
        }
        known
    }

    fn set_box(&mut self, set: impl FnOnce(&mut FloorBox)) {
        let mut state = self.floor_box.state();
        set(&mut state);
        self.floor_box.set_state(&state);
    }
}

/// Sets what `box state` names; the transmitter and the list stay.
fn set_line(state: &mut FloorBox, line: &FloorBox) {
    *state = FloorBox {
        light: state.light,
        grants: state.grants,
        ..*line
    };
}

/// A single tick as an advance by one.
fn single<R>(reply: R) -> Advanced<R> {
    Advanced { reply, made: 1 }
}

/// The ticks made, `None` if they were refused. A core that tells a number
/// that can't be would be asked for ever.
fn accepted(number: u8, made: u64, asked: u64) -> Option<u64> {
    if number != 0 {
        return None;
    }
    let known = (1..=asked).contains(&made);
    assert!(known, "{made} of {asked} ticks were made");
    Some(made)
}

fn next(next: Next) -> &'static str {
    match next {
        Next::Control => "control",
        Next::Data => "data",
        Next::Nothing => "empty",
    }
}
