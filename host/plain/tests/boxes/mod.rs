//! Boxes, and messages to them, that tests of the box begin with.

use plain::frame::RegisterFlag;
use plain::{
    Address, Body, BoxAnswer, BoxNotice, BoxState, Count, FloorBox, Gate, Grant, Granted, Message,
};

pub const BOX: Address = Address(0x0200_0000_0031);
pub const HEAD: Address = Address(0x0A0B_0C0D_0E0F);

pub fn grant(start: u32, length: u32) -> Grant {
    let start = Count(start);
    Grant { start, length }
}

pub fn to_box(stamp: u32, body: Body) -> Message {
    Message {
        to: BOX,
        from: HEAD,
        stamp: Count(stamp),
        body,
    }
}

pub fn gate(stamp: u32, grants: &[Grant]) -> Message {
    let forced = |&grant| Granted {
        grant,
        force: false,
    };
    let grants: Vec<Granted> = grants.iter().map(forced).collect();
    to_box(stamp, Body::Gate(Gate::of(&grants).unwrap()))
}

pub fn discovery(stamp: u32, start: u32, length: u32, sync: u32) -> Message {
    let grant = grant(start, length);
    let granted = Granted {
        grant,
        force: false,
    };
    Message {
        to: Address::EVERYONE,
        ..to_box(stamp, Body::Discovery { granted, sync })
    }
}

pub fn register(stamp: u32, flag: RegisterFlag, port: u16, sync: u32) -> Message {
    let body = Body::Register {
        port,
        flag,
        sync,
        pending: 16,
    };
    to_box(stamp, body)
}

pub fn registering() -> FloorBox {
    let (mut floor_box, fresh) = FloorBox::fresh(BOX);
    assert_eq!(fresh, Ok(BoxAnswer::default()));
    floor_box.register().unwrap();
    floor_box
}

/// Registered at this count with this sync, watchdog and report timer fresh.
pub fn registered(count: u32, sync: u32) -> FloorBox {
    FloorBox {
        count: Count(count),
        state: BoxState::Registered,
        watchdog: 62_500_000,
        report: 3_125_000,
        port: 1,
        sync,
        ..registering()
    }
}

pub fn notices(answer: &BoxAnswer) -> Vec<BoxNotice> {
    answer.notices.iter().copied().collect()
}
