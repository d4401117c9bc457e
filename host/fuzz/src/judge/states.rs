//! Which words are a sound state's, and which are no state's, judged beside the
//! library: the header says what the words hold, and the independent program
//! what is sound.

use crustnewt::sys::{BOX_WORDS, FRAME_OCTETS, HEAD_WORDS, LINK_WORDS};
use plain::{
    Address, BoxState, Count, FloorBox, Grant, GrantList, Head, Light, Link, LinkState, Refusal,
    Window,
};

/// Where a box's words have its number of grants, and the first of them.
const GRANTS: usize = 12;
const LIST: usize = 13;
const MOST_GRANTS: u64 = (BOX_WORDS - LIST) as u64;

/// What a box's words tell.
pub enum Told {
    /// They are no state's.
    Nothing,
    /// All but a list that is longer than any.
    Unlisted(FloorBox),
    /// A state.
    State(FloorBox),
}

/// What the words of a block tell.
pub fn told(block: &[u64]) -> Told {
    let grants = &block[LIST..BOX_WORDS];
    let (held, behind) = grants.split_at(block[GRANTS].min(MOST_GRANTS) as usize);
    let held: Vec<Grant> = held.iter().map(|&word| grant(word)).collect();
    match (front(block), GrantList::of(&held)) {
        (Some(front), Some(grants)) if behind.iter().all(|&word| word == 0) => {
            let state = FloorBox { grants, ..front };
            match block[GRANTS] {
                0..=MOST_GRANTS => Told::State(state),
                _ => Told::Unlisted(state),
            }
        }
        _ => Told::Nothing,
    }
}

/// Whether a block is a sound box's.
pub fn is_sound_box(block: &[u64]) -> bool {
    matches!(told(block), Told::State(state) if state.is_sound())
}

/// Everything that a block tells of a box but its grants.
fn front(block: &[u64]) -> Option<FloorBox> {
    Some(FloorBox {
        address: Address(block[0]),
        count: Count(half(block[1])?),
        state: match block[2] {
            0 => BoxState::Wait,
            1 => BoxState::Registering,
            2 => BoxState::Requesting,
            3 => BoxState::Registered,
            _ => return None,
        },
        wait: half(block[3])?,
        watchdog: half(block[4])?,
        report: half(block[5])?,
        port: u16::try_from(block[6]).ok()?,
        sync: half(block[7])?,
        light: light(&block[8..GRANTS])?,
        grants: GrantList::new(),
    })
}

/// Of phase, timer, grant and sync.
fn light(words: &[u64]) -> Option<Light> {
    let (left, sync) = (half(words[1])?, half(words[3])?);
    let light = match words[0] {
        0 => Light::Rest,
        1 => Light::Before {
            left,
            random: half(words[2])?,
            sync,
        },
        2 => Light::Random { left, sync },
        3 => Light::Warming { left },
        4 => Light::Asking { left },
        5 => Light::Due {
            left,
            grant: grant(words[2]),
            sync,
        },
        6 => Light::Lit {
            left,
            length: half(words[2])?,
            sync,
        },
        7 => Light::Open { left },
        8 => Light::Fading { left },
        _ => return None,
    };
    let (has_left, has_grant, has_sync) = match words[0] {
        0 => (false, false, false),
        1 | 5 | 6 => (true, true, true),
        2 => (true, false, true),
        _ => (true, false, false),
    };
    let holds = |held, word| held || word == 0;
    let held = holds(has_left, words[1]) && holds(has_grant, words[2]) && holds(has_sync, words[3]);
    held.then_some(light)
}

/// The head and the table of these words; `None` where they are nobody's.
pub fn head_of(head: &[u64], links: &[u64]) -> Option<(Head, Vec<Link>)> {
    let table: Option<Vec<Link>> = links.chunks_exact(LINK_WORDS).map(link).collect();
    Some((window(head)?, table?))
}

/// Whether head and table are sound.
pub fn is_sound_head(head: &[u64], links: &[u64]) -> bool {
    let Some((mut head, mut table)) = head_of(head, links) else {
        return false;
    };
    let mut output = vec![0; FRAME_OCTETS * table.len()];
    // No table has this link, so only an unsound one is refused otherwise.
    let asked = head.deregister(&mut table, &mut output, u64::MAX);
    asked != Err(Refusal::Unsound)
}

fn window(words: &[u64]) -> Option<Head> {
    let (left, length) = (half(words[3])?, half(words[4])?);
    Some(Head {
        address: Address(words[0]),
        count: Count(half(words[1])?),
        window: match words[2..HEAD_WORDS] {
            [0, 0, 0] => Window::Idle,
            [1, _, _] => Window::Before { left, length },
            [2, _, 0] => Window::Inside { left },
            _ => return None,
        },
    })
}

fn link(words: &[u64]) -> Option<Link> {
    Some(Link {
        address: Address(words[0]),
        state: match words[1] {
            0 => LinkState::Idle,
            1 => LinkState::Waiting,
            2 => LinkState::Registered,
            _ => return None,
        },
        wait: half(words[2])?,
        watchdog: half(words[3])?,
        periodic: half(words[4])?,
    })
}

/// A word of a field of 32 bits.
pub fn half(word: u64) -> Option<u32> {
    u32::try_from(word).ok()
}

/// The grant of a word.
pub fn grant(word: u64) -> Grant {
    Grant {
        start: Count((word >> 32) as u32),
        length: word as u32,
    }
}
