//! Words are one state's, or nobody's. Those that are nobody's (one is too wide
//! for its field, a state or phase is unknown, a word isn't 0 where nothing is
//! held) are answered 13, and every word stays. The states that a run goes
//! through are taken, word for word.

use crustnewt::sys::{self, BoxMemory, HeadMemory};
use crustnewt::{
    ArrayTable, BoxParts, FloorBox, Frame, Grant, Head, HeadParts, OpenWindow, Refusal, Table,
};

const UNSOUND: u8 = 13;
const WIDE: u64 = 1 << 32;

const HEAD_ADDRESS: u64 = 0x0200_0000_0001;
const BOX_ADDRESS: u64 = 0x0200_0000_0031;

const STATE: usize = 2;
const LIGHT: usize = 8;
const LIGHT_GRANT: usize = 10;
const LIGHT_SYNC: usize = 11;
const GRANTS: usize = 12;
const LIST: usize = 13;

type Block = [u64; sys::BOX_WORDS];

/// REGISTERED, with this transmitter: phase, timer, grant, sync.
const fn registered(light: [u64; 4]) -> Block {
    let mut words = [0; sys::BOX_WORDS];
    words[0] = BOX_ADDRESS;
    words[1] = 7;
    words[STATE] = 3;
    words[4] = 1000;
    words[5] = 1000;
    words[6] = 1;
    words[7] = 10;
    [
        words[LIGHT],
        words[9],
        words[LIGHT_GRANT],
        words[LIGHT_SYNC],
    ] = light;
    words
}

/// Lit: a grant of 200 with sync 10, of whose 42 ticks 5 are left.
const LIT_BOX: Block = registered([6, 5, 200, 10]);

/// Open: transmission is enabled for 100 ticks.
const OPEN_BOX: Block = registered([7, 100, 0, 0]);

/// A window of 100 opens in 5 ticks; link 1 is registered, link 2 idle.
const HEAD: [u64; sys::HEAD_WORDS] = [HEAD_ADDRESS, 7, 1, 5, 100];
const LINKS: [u64; 2 * sys::LINK_WORDS] = [BOX_ADDRESS, 2, 0, 1000, 1000, 0, 0, 0, 0, 0];

/// A tick's, a client's three wishes' and an advance's.
fn numbers_of_box(block: &Block) -> [u8; 5] {
    let report = |memory: BoxMemory<'_>| sys::box_report(1, &[0], memory);
    let advance = |memory: BoxMemory<'_>| sys::box_advance(1, memory, &mut [0]);
    let calls: [fn(BoxMemory<'_>) -> u8; 5] = [
        sys::box_tick,
        sys::box_register,
        sys::box_deregister,
        report,
        advance,
    ];
    calls.map(|call| {
        let mut left = *block;
        let number = call(BoxMemory {
            block: &mut left,
            frames: &mut [0; sys::BOX_FRAMES_OCTETS],
            reply: &mut [0; sys::BOX_REPLY_WORDS],
        });
        assert!(number == 0 || left == *block);
        number
    })
}

/// Whether these words let out a control frame, a data frame of 60 octets, or
/// the data frame beside a control frame.
fn lets_out(block: &Block) -> [u8; 3] {
    let frame = [0; sys::FRAME_OCTETS];
    let waiting: [(&[u8], &[u8]); 3] = [(&frame, &[]), (&[], &frame), (&frame, &frame)];
    waiting.map(|(control, data)| sys::box_next_to_send(block, control, data))
}

fn require_unsound_box(block: &Block, what: &str) {
    assert_eq!(numbers_of_box(block), [UNSOUND; 5], "{what}");
    assert_eq!(sys::box_ticks_until(block), 0, "{what}");
    assert_eq!(
        FloorBox::from_words(*block),
        Err(Refusal::Unsound),
        "{what}"
    );
}

fn require_nobodys_box(block: &Block, what: &str) {
    require_unsound_box(block, what);
    assert_eq!(lets_out(block), [0; 3], "{what}");
    assert_eq!(BoxParts::of_words(block), None, "{what}");
}

/// A tick's, which is an advance's too.
fn number_of_head(head: &[u64], links: &[u64]) -> u8 {
    let advance = |memory: HeadMemory<'_>| sys::head_advance(1, memory, &mut [0]);
    let calls: [fn(HeadMemory<'_>) -> u8; 2] = [sys::head_tick, advance];
    let [tick, advance] = calls.map(|call| {
        let (mut left, mut table) = (head.to_vec(), links.to_vec());
        let number = call(HeadMemory {
            head: &mut left,
            links: &mut table,
            output: &mut [0; 2 * sys::FRAME_OCTETS],
            reply: &mut [0; sys::HEAD_REPLY_WORDS],
        });
        assert!(number == 0 || (left == head && table == links));
        number
    });
    assert_eq!(tick, advance);
    assert_eq!(tick == 0, sys::head_ticks_until(head, links) > 0);
    tick
}

/// The word at a place, made larger.
fn widened<const WORDS: usize>(words: &[u64; WORDS], place: usize, more: u64) -> [u64; WORDS] {
    let mut words = *words;
    words[place] += more;
    words
}

#[test]
fn no_word_of_a_box_is_cut() {
    assert_eq!(numbers_of_box(&LIT_BOX), [0, 7, 0, 0, 0]);
    assert_eq!(lets_out(&OPEN_BOX), [1, 2, 1]);
    for block in [LIT_BOX, OPEN_BOX] {
        let wide = (1..GRANTS).map(|place| (place, WIDE));
        for (place, wide) in wide.chain([(6, 1 << 16)]) {
            require_nobodys_box(&widened(&block, place, wide), &format!("word {place}"));
        }
        for (place, wide) in [(0, 1 << 48), (GRANTS, WIDE)] {
            require_unsound_box(&widened(&block, place, wide), &format!("word {place}"));
        }
    }
}

#[test]
fn no_unknown_state_or_phase_of_a_box_is_taken() {
    for (place, number) in [(STATE, 4), (LIGHT, 9), (STATE, u64::MAX), (LIGHT, u64::MAX)] {
        let mut block = LIT_BOX;
        block[place] = number;
        require_nobodys_box(&block, &format!("word {place}"));
    }
    for phase in [9, 15, WIDE + 8, u64::MAX] {
        require_nobodys_box(&registered([phase, 5, 0, 0]), &format!("phase {phase}"));
    }
    for state in [4, 9, WIDE, WIDE + 3, u64::MAX] {
        let mut strange = OPEN_BOX;
        strange[STATE] = state;
        require_nobodys_box(&strange, &format!("state {state}"));
    }
}

/// A transmitter of each phase: what it holds, and which of grant and sync it
/// doesn't hold.
const PHASES: [([u64; 4], &[usize]); 9] = [
    ([0, 0, 0, 0], &[9, LIGHT_GRANT, LIGHT_SYNC]),
    ([1, 5, 100, 10], &[]),
    ([2, 5, 0, 10], &[LIGHT_GRANT]),
    ([3, 5, 0, 0], &[LIGHT_GRANT, LIGHT_SYNC]),
    ([4, 5, 0, 0], &[LIGHT_GRANT, LIGHT_SYNC]),
    ([5, 5, 77 << 32 | 200, 10], &[]),
    ([6, 5, 200, 10], &[]),
    ([7, 5, 0, 0], &[LIGHT_GRANT, LIGHT_SYNC]),
    ([8, 5, 0, 0], &[LIGHT_GRANT, LIGHT_SYNC]),
];

#[test]
fn what_a_phase_does_not_hold_is_0() {
    for (light, empty) in PHASES {
        let mut block = registered(light);
        if light[0] == 5 {
            (block[GRANTS], block[LIST]) = (1, light[2]);
        }
        assert_eq!(numbers_of_box(&block)[1], 7, "{light:?}");
        for &place in empty {
            for more in [1, 77, WIDE, 1 << 63] {
                let strange = widened(&block, place, more);
                require_nobodys_box(&strange, &format!("{light:?}, word {place}"));
            }
        }
    }
}

/// Fading runs for 32 ticks, and only where the box isn't in WAIT.
#[test]
fn a_fading_box_lets_nothing_out_and_is_judged_by_its_timer() {
    for left in [1, 32] {
        let fading = registered([8, left, 0, 0]);
        assert_eq!(numbers_of_box(&fading), [0, 7, 0, 0, 0]);
        assert_eq!(lets_out(&fading), [0; 3]);
    }
    for left in [0, 33, WIDE - 1] {
        require_unsound_box(&registered([8, left, 0, 0]), &format!("{left} left"));
    }
    let mut waiting = [0; sys::BOX_WORDS];
    waiting[0] = BOX_ADDRESS;
    assert_eq!(numbers_of_box(&waiting)[0], 0);
    (waiting[LIGHT], waiting[9]) = (8, 32);
    require_unsound_box(&waiting, "in WAIT");
}

#[test]
fn nothing_stands_behind_the_list() {
    for number in 0..=16 {
        let mut block = registered([0, 0, 0, 0]);
        block[GRANTS] = number as u64;
        block[LIST..LIST + number].fill(77 << 32 | 200);
        assert_eq!(numbers_of_box(&block)[1], 7, "{number}");
        for place in LIST + number..sys::BOX_WORDS {
            let strange = widened(&block, place, 77 << 32 | 200);
            require_nobodys_box(&strange, &format!("{number} grants, word {place}"));
        }
    }
    let mut block = registered([0, 0, 0, 0]);
    block[GRANTS] = 17;
    block[LIST..].fill(77 << 32 | 200);
    require_unsound_box(&block, "17 grants");
}

#[test]
fn no_word_of_a_head_is_cut() {
    assert_eq!(number_of_head(&HEAD, &LINKS), 0);
    let wide = (1..sys::HEAD_WORDS).map(|place| (place, WIDE));
    for (place, wide) in wide.chain([(0, 1 << 48), (2, 2)]) {
        let head = widened(&HEAD, place, wide);
        assert_eq!(number_of_head(&head, &LINKS), UNSOUND, "word {place}");
    }
}

#[test]
fn what_a_window_does_not_hold_is_0() {
    for (head, number) in [
        ([HEAD_ADDRESS, 0, 0, 0, 0], 0),
        ([HEAD_ADDRESS, 0, 0, 7, 9], UNSOUND),
        ([HEAD_ADDRESS, 0, 0, 7, 0], UNSOUND),
        ([HEAD_ADDRESS, 0, 0, 0, 9], UNSOUND),
        ([HEAD_ADDRESS, 0, 1, 7, 9], 0),
        ([HEAD_ADDRESS, 0, 2, 7, 0], 0),
        ([HEAD_ADDRESS, 0, 2, 7, 9], UNSOUND),
    ] {
        assert_eq!(number_of_head(&head, &LINKS), number, "{head:?}");
        let parts = HeadParts::of_words(&head);
        assert_eq!(parts.is_some(), number == 0, "{head:?}");
    }
}

#[test]
fn no_word_of_a_link_is_cut() {
    let wide = (0..LINKS.len()).map(|place| (place, WIDE << 16));
    for (place, wide) in wide.chain([(1, 1), (6, 3), (3, WIDE), (4, WIDE), (2, WIDE)]) {
        let links = widened(&LINKS, place, wide);
        assert_eq!(number_of_head(&HEAD, &links), UNSOUND, "word {place}");
    }
}

/// Numbers below a bound, the same ones each time.
struct Dice(u64);

impl Dice {
    fn below(&mut self, bound: u64) -> u64 {
        self.0 = self.0.wrapping_mul(0x5851_F42D_4C95_7F2D).wrapping_add(1);
        (self.0 >> 33) % bound
    }
}

fn require_taken(head: &Head<ArrayTable<2>>, floor_box: &FloorBox) {
    assert_eq!(
        FloorBox::from_words(*floor_box.words()).as_ref(),
        Ok(floor_box)
    );
    assert_eq!(floor_box.parts().words(), *floor_box.words());
    let (links, _) = head.table().words().as_chunks();
    let table = ArrayTable::from_words([links[0], links[1]]);
    let again = Head::from_words(*head.words(), table).unwrap();
    assert_eq!(again.table().words(), head.table().words());
    assert_eq!(head.parts().words(), *head.words());
    assert!(head
        .links()
        .zip(links)
        .all(|(link, words)| link.words() == *words));
}

/// What a call handed out, if it was done.
fn sent(frames: Result<&[Frame], Refusal>) -> Vec<Frame> {
    frames.map(<[Frame]>::to_vec).unwrap_or_default()
}

/// What the head's client asks for, or a tick.
fn ask_head(dice: &mut Dice, head: &mut Head<ArrayTable<2>>) -> Vec<Frame> {
    let count = head.parts().count;
    let grants = [0; 4].map(|_| Grant {
        start: count.wrapping_add(dice.below(90) as u32),
        length: 100 + dice.below(90) as u32,
    });
    let (sync, window) = (dice.below(40) as u32, 400);
    let grant = grants[0];
    let reply = match dice.below(20) {
        0 => head.open_window(&OpenWindow {
            grant,
            sync,
            window,
        }),
        1 => head.gate(1, &grants[..dice.below(5) as usize], 0),
        2 if dice.below(20) == 0 => head.deregister(1),
        _ => head.tick(),
    };
    sent(reply.map(|reply| reply.frames()))
}

/// What the box's client asks for, or a tick.
fn ask_box(dice: &mut Dice, floor_box: &mut FloorBox) -> Vec<Frame> {
    let reply = match dice.below(100) {
        0..5 => floor_box.register(),
        5 if dice.below(5) == 0 => floor_box.deregister(),
        6 => floor_box.report(1, &[1, dice.below(256) as u8, 0]),
        _ => floor_box.tick(),
    };
    sent(reply.map(|reply| reply.frames()))
}

/// A call of each, and then frames to and fro until nobody has one to send.
fn step(dice: &mut Dice, head: &mut Head<ArrayTable<2>>, floor_box: &mut FloorBox) {
    let (mut down, mut up) = (ask_head(dice, head), ask_box(dice, floor_box));
    while !down.is_empty() || !up.is_empty() {
        for frame in std::mem::take(&mut down) {
            let random = dice.below(1 << 31) as u32;
            up.extend(sent(
                floor_box.hear(&frame, random).map(|reply| reply.frames()),
            ));
            require_taken(head, floor_box);
        }
        for frame in std::mem::take(&mut up) {
            // A request comes on link 0, and is admitted at once.
            if head.hear(0, &frame).is_ok() {
                let sync = dice.below(40) as u32;
                down.extend(sent(
                    head.admit(BOX_ADDRESS, 16, sync)
                        .map(|reply| reply.frames()),
                ));
            }
            down.extend(sent(head.hear(1, &frame).map(|reply| reply.frames())));
            require_taken(head, floor_box);
        }
    }
    require_taken(head, floor_box);
}

#[test]
fn every_state_of_a_run_is_taken_word_for_word() {
    let mut phases = [0; 9];
    for seed in 0..40 {
        let mut dice = Dice(seed);
        let mut head = Head::fresh(HEAD_ADDRESS, ArrayTable::<2>::new()).unwrap();
        let mut floor_box = FloorBox::fresh(BOX_ADDRESS).unwrap();
        for _ in 0..1000 {
            step(&mut dice, &mut head, &mut floor_box);
            phases[floor_box.words()[LIGHT] as usize] += 1;
        }
    }
    assert!(phases.iter().all(|&times| times > 0), "{phases:?}");
}
