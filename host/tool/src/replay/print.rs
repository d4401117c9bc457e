//! Replies and states as the replay language writes them.

use crustnewt_core::{BoxReply, HeadCore, HeadReply};
use plain::frame::FRAME_OCTETS;
use plain::{
    Body, BoxNotice, BoxState, FloorBox, Grant, HeadNoticeKind, LinkState, Message, QueueSets,
    Window,
};
use std::fmt::{self, Display};
use std::io::{self, Write};

/// Octets as hexadecimal digits, `-` for none.
pub fn hex(octets: &[u8]) -> impl Display + '_ {
    Hex(octets)
}

struct Hex<'a>(&'a [u8]);

impl Display for Hex<'_> {
    fn fmt(&self, f: &mut fmt::Formatter<'_>) -> fmt::Result {
        if self.0.is_empty() {
            return f.write_str("-");
        }
        self.0.iter().try_for_each(|octet| write!(f, "{octet:02x}"))
    }
}

/// A read message, with the writer's octets last.
pub(super) fn message(out: &mut impl Write, message: &Message, frame: &[u8]) -> io::Result<()> {
    let Message {
        to, from, stamp, ..
    } = *message;
    write!(out, "read 0 to {to} from {from} stamp {} ", stamp.0)?;
    body(out, &message.body)?;
    writeln!(out, " frame {}", hex(frame))
}

fn body(out: &mut impl Write, body: &Body) -> io::Result<()> {
    match *body {
        Body::Gate(gate) => {
            write!(out, "gate {}", gate.iter().count())?;
            gate.iter().try_for_each(|granted| {
                write!(out, " {} {}", pair(granted.grant), u8::from(granted.force))
            })
        }
        Body::Discovery { granted, sync } => {
            let force = u8::from(granted.force);
            write!(out, "discovery {} {force} {sync}", pair(granted.grant))
        }
        Body::Report(sets) => {
            write!(out, "report")?;
            queue_sets(out, &sets)
        }
        Body::RegisterReq { flag, pending } => {
            write!(out, "register_req {} {pending}", flag as u8)
        }
        Body::Register {
            port,
            flag,
            sync,
            pending,
        } => write!(out, "register {port} {} {sync} {pending}", flag as u8),
        Body::RegisterAck { flag, port, sync } => {
            write!(out, "register_ack {} {port} {sync}", flag as u8)
        }
    }
}

/// What a call of the head answered, without the line's end.
pub(super) fn head_reply(out: &mut impl Write, reply: &HeadReply, output: &[u8]) -> io::Result<()> {
    write!(out, "head {}", reply.number)?;
    for frame in output.chunks(FRAME_OCTETS).take(reply.frames) {
        write!(out, " frame {}", hex(frame))?;
    }
    if let Some(notice) = reply.notice {
        let kind = match notice.kind {
            HeadNoticeKind::Request => "request",
            HeadNoticeKind::Registered => "registered",
            HeadNoticeKind::Dropped => "dropped",
            HeadNoticeKind::Report => "report",
        };
        write!(out, " notice {kind} {} {}", notice.link, notice.trip)?;
        queue_sets(out, &notice.sets)?;
    }
    Ok(())
}

/// How many sets there are and each of them; nothing where there is none.
fn queue_sets(out: &mut impl Write, sets: &QueueSets) -> io::Result<()> {
    if sets.number() > 0 {
        write!(out, " {}", sets.number())?;
    }
    for set in sets.iter() {
        write!(out, " {}", set.bitmap)?;
        for (_, length) in set.queues() {
            write!(out, " {length}")?;
        }
    }
    Ok(())
}

/// What a call of the box answered, without the line's end.
pub(super) fn box_reply(out: &mut impl Write, reply: &BoxReply) -> io::Result<()> {
    write!(out, "box {} drift {}", reply.number, reply.drift)?;
    for frame in reply.frames.iter() {
        write!(out, " frame {}", hex(frame))?;
    }
    for notice in reply.notices.iter() {
        box_notice(out, notice)?;
    }
    Ok(())
}

fn box_notice(out: &mut impl Write, notice: &BoxNotice) -> io::Result<()> {
    let plain = match *notice {
        BoxNotice::Window => "window",
        BoxNotice::Registered => "registered",
        BoxNotice::Refused => "refused",
        BoxNotice::Retry => "retry",
        BoxNotice::Deregistered => "deregistered",
        BoxNotice::Open => "open",
        BoxNotice::Close => "close",
        BoxNotice::Grant(granted) => {
            let force = u8::from(granted.force);
            return write!(out, " notice grant {} {force}", pair(granted.grant));
        }
    };
    write!(out, " notice {plain}")
}

/// The head's state, with its table.
pub(super) fn head_state(out: &mut impl Write, head: &dyn HeadCore) -> io::Result<()> {
    let state = head.state();
    let (window, left, length) = match state.window {
        Window::Idle => ("idle", 0, 0),
        Window::Before { left, length } => ("before", left, length),
        Window::Inside { left } => ("inside", left, 0),
    };
    let (address, count) = (state.address, state.count.0);
    write!(
        out,
        "  head {address} count {count} window {window} {left} {length}"
    )?;
    write!(out, " links {}", head.links())?;
    for place in 0..head.links() {
        let link = head.link(place);
        let state = match link.state {
            LinkState::Idle => "idle",
            LinkState::Waiting => "waiting",
            LinkState::Registered => "registered",
        };
        write!(out, " {state} {}", link.address)?;
        write!(out, " {} {} {}", link.wait, link.watchdog, link.periodic)?;
    }
    writeln!(out)
}

/// The box's state.
pub(super) fn box_state(out: &mut impl Write, state: &FloorBox) -> io::Result<()> {
    let name = match state.state {
        BoxState::Wait => "wait",
        BoxState::Registering => "registering",
        BoxState::Requesting => "requesting",
        BoxState::Registered => "registered",
    };
    write!(
        out,
        "  box {} count {} {name}",
        state.address, state.count.0
    )?;
    write!(out, " {} {} {}", state.wait, state.watchdog, state.report)?;
    write!(out, " port {} sync {}", state.port, state.sync)?;
    write!(out, " light {} {}", state.light.name(), state.light.left())?;
    let grants = state.grants.as_slice();
    write!(out, " grants {}", grants.len())?;
    for grant in grants {
        write!(out, " {}", pair(*grant))?;
    }
    writeln!(out)
}

/// Start and length.
fn pair(grant: Grant) -> impl Display {
    struct Pair(Grant);
    impl Display for Pair {
        fn fmt(&self, f: &mut fmt::Formatter<'_>) -> fmt::Result {
            write!(f, "{} {}", self.0.start.0, self.0.length)
        }
    }
    Pair(grant)
}
