//! A head and a floor box in a program without `std` and without an allocator:
//! the box registers, is dropped, registers again, and tells the head of its
//! queues. The exit status is 0 if all went well.
//!
//! It has a panic handler of its own, so it isn't compiled where `crustnewt`
//! brings in `std`.
#![no_std]
#![no_main]

use core::panic::PanicInfo;
use crustnewt::{
    ArrayTable, BoxState, FloorBox, Frame, Grant, Head, OpenWindow, QueueSet, QueueSets, Refusal,
};

// It has `memcpy` and its like too, which `core` and the library need.
#[link(name = "c")]
extern "C" {
    fn abort() -> !;
}

#[panic_handler]
fn panic(_: &PanicInfo<'_>) -> ! {
    // SAFETY: it asks for nothing.
    unsafe { abort() }
}

const BOX: u64 = 0x0200_0000_0031;

#[no_mangle]
extern "C" fn main() -> i32 {
    match run() {
        Ok((BoxState::Registered, 772)) => 0,
        Ok(_) => 1,
        Err(refusal) => refusal.number().into(),
    }
}

/// The state that the box has come to, and how long the head takes its longest
/// queue to be. It registers, the head drops it, and it registers again.
fn run() -> Result<(BoxState, u16), Refusal> {
    let mut head = Head::fresh(0x0200_0000_0001, ArrayTable::<4>::new())?;
    let mut floor_box = FloorBox::fresh(BOX)?;
    join(&mut head, &mut floor_box)?;
    let farewell = head.deregister(1)?;
    floor_box.hear(&farewell.frames()[0], 0)?;
    join(&mut head, &mut floor_box)?;
    let longest = tell_of_queues(&mut head, &mut floor_box)?;
    Ok((floor_box.state(), longest))
}

/// The box's client asks for a REPORT, and the head's is told the longest queue
/// in it.
fn tell_of_queues(
    head: &mut Head<ArrayTable<4>>,
    floor_box: &mut FloorBox,
) -> Result<u16, Refusal> {
    let set = QueueSet {
        bitmap: 0b101,
        lengths: [258, 0, 772, 0, 0, 0, 0, 0],
    };
    let sets = QueueSets::of_sets(&[set]).ok_or(Refusal::Range)?;
    let report = floor_box.report_sets(&sets)?;
    let heard = head.hear(1, &report.frames()[0])?;
    let told = heard.notice().map_or(QueueSets::NONE, |notice| notice.sets);
    let lengths = told.iter().flat_map(|set| set.lengths);
    Ok(lengths.max().unwrap_or(0))
}

/// A box in WAIT stays there unless its client asks; the head's client opens a
/// window for it.
fn join(head: &mut Head<ArrayTable<4>>, floor_box: &mut FloorBox) -> Result<(), Refusal> {
    floor_box.register()?;
    let grant = Grant {
        start: head.parts().count + 100,
        length: 174,
    };
    let sent = head.open_window(&OpenWindow {
        grant,
        sync: 0,
        window: 174,
    })?;
    floor_box.hear(&sent.frames()[0], 250)?;
    let mut left = 300;
    while left > 0 {
        let advanced = floor_box.advance(left)?;
        let made = advanced.made;
        let asked = advanced.reply.frames().first().copied();
        // None of its timers ends so soon.
        head.advance(made)?;
        if let Some(request) = asked {
            admit(head, floor_box, &request)?;
        }
        left -= made;
    }
    Ok(())
}

/// The head's client takes the box, and the box hears of it.
fn admit(
    head: &mut Head<ArrayTable<4>>,
    floor_box: &mut FloorBox,
    request: &Frame,
) -> Result<(), Refusal> {
    head.hear(0, request)?;
    let register = head.admit(BOX, 16, 10)?;
    let answers = floor_box.hear(&register.frames()[0], 0)?;
    for answer in answers.frames() {
        head.hear(1, answer)?;
    }
    Ok(())
}
