//! REPORTs of every number, bitmap and place at which sets may end, and what a
//! client asks for in every state.

use super::{
    box_lines, boxes, digits, head_with, link_in, link_line, Body, Link, QueueSets, Window, BOX,
    HEAD, LINK_STATES,
};

/// Octets of the sets that a body has room for.
const ROOM: usize = QueueSets::OCTETS - 1;

/// Two sets with all queues, and these octets.
fn behind_two_full(rest: &[u8]) -> Vec<u8> {
    let full = [&[0xFF][..], &[0; 16]].concat();
    [&full, &full, rest].concat()
}

/// Bodies at whose last octets it is decided whether the sets fit.
fn at_the_end() -> Vec<(u8, Vec<u8>)> {
    vec![
        (2, vec![0x05, 1, 2, 3, 4, 0x80, 0xFF, 0xFF]),
        (39, vec![0; ROOM]),
        (40, vec![0; ROOM]),
        (13, [1, 0, 0].repeat(13)),
        (14, [1, 0, 0].repeat(13)),
        (3, behind_two_full(&[3, 0, 0, 0, 0])),
        (3, behind_two_full(&[7, 0, 0, 0, 0])),
        (5, behind_two_full(&[1, 0, 0, 0, 0])),
        (5, behind_two_full(&[1, 0, 0, 0, 1])),
        (6, behind_two_full(&[1, 0, 0, 0, 0])),
        (0, vec![0xA5; ROOM]),
    ]
}

/// Every number and every bitmap; a set of every bitmap behind so many empty
/// ones that it just fits, and one further.
fn every_body() -> Vec<(u8, Vec<u8>)> {
    let mut bodies = at_the_end();
    for octet in 0..=255_u8 {
        bodies.extend([0, 1, 0x11, 0xFF].map(|sets| (octet, vec![sets; ROOM])));
        bodies.push((1, [&[octet][..], &[0xC3; ROOM - 1]].concat()));
        let empty = ROOM - 1 - 2 * octet.count_ones() as usize;
        for empty in [empty, empty + 1] {
            let mut sets = vec![0; empty];
            sets.push(octet);
            sets.resize(ROOM, 0x3C);
            bodies.push((empty as u8 + 1, sets));
        }
    }
    bodies
}

/// The frame of a REPORT of this body, in range or not, as digits.
fn report(number: u8, sets: &[u8]) -> String {
    let mut frame = digits(HEAD, BOX, Body::Report(QueueSets::NONE));
    let mut body = format!("{number:02x}");
    body.extend(sets.iter().map(|octet| format!("{octet:02x}")));
    frame.replace_range(40..40 + body.len(), &body);
    frame
}

/// Read, and heard by a link in every state.
pub(super) fn heard() -> Vec<String> {
    let mut script = vec![format!("head new 2 {HEAD}")];
    for (number, sets) in every_body() {
        let frame = report(number, &sets);
        script.push(format!("read {frame}"));
        for state in LINK_STATES {
            script.push(head_with(Window::Idle));
            script.push(link_line(1, &link_in(state)));
            script.push(link_line(2, &Link::IDLE));
            script.push(format!("head hear 1 {frame}"));
        }
    }
    script
}

/// Asked for in every state with every phase of the transmitter.
pub(super) fn asked() -> Vec<String> {
    let empty = |number| format!("box report {number}{}", " 0".repeat(number));
    let one_queue = |number| format!("box report {number}{}", " 1 9".repeat(number));
    let eight = " 255 1 2 3 4 5 6 7 8".repeat(2);
    let mut lines = vec![
        "box report 2 5 258 772 128 65535".to_owned(),
        format!("box report 3{eight} 3 9 10"),
        format!("box report 3{eight} 7 9 10 11"),
        format!("box report 5{eight} 1 9 0 0"),
        format!("box report 5{eight} 1 9 0 1 10"),
    ];
    lines.extend([0, 1, 38, 39, 40, 255].map(empty));
    lines.extend([13, 14].map(one_queue));
    let mut script = Vec::new();
    for floor_box in boxes(9) {
        for line in &lines {
            script.extend(box_lines(&floor_box));
            script.push(line.clone());
            script.push("box tick 1".to_owned());
        }
    }
    script
}
