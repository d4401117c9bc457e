//! Lines of a script as calls.

use plain::{
    Address, BoxState, Count, FloorBox, Gate, GateRequest, Grant, GrantList, Head, Light, Link,
    LinkState, Newcomer, OpenWindow, Window,
};

/// Most links, and most octets of output, that a script can lend.
const MOST_LENT: u64 = 4096;
/// Most octets of a frame asked about with `box next`.
const MOST_OCTETS: u64 = 2000;
/// Most digits of a number.
const MOST_DIGITS: usize = 20;

/// What a line is.
#[derive(Clone, Debug, PartialEq, Eq)]
pub enum Script {
    /// Empty or a comment.
    Nothing,
    /// A call, or a state handed in.
    Call(Call),
    /// Not of the language.
    Unknown,
}

/// A line that does something.
#[derive(Clone, Debug, PartialEq, Eq)]
#[allow(missing_docs)] // each is the line of its name
pub enum Call {
    Read(Vec<u8>),
    HeadNew { links: usize, address: Address },
    HeadOutput(usize),
    HeadOpen(OpenWindow),
    HeadAdmit(Newcomer),
    HeadReject(Newcomer),
    HeadReregister { link: u64, sync: u32 },
    HeadDeregister { link: u64 },
    HeadGate(GateRequest),
    HeadHear { link: u64, frame: Vec<u8> },
    HeadTick(u64),
    HeadAdvance(u64),
    HeadState(Head),
    HeadLink { number: u64, link: Link },
    BoxNew(Address),
    BoxRegister,
    BoxDeregister,
    BoxReport { number: u8, sets: Vec<u8> },
    BoxHear { random: u32, frame: Vec<u8> },
    BoxNext { control: usize, data: usize },
    BoxTick(u64),
    BoxAdvance(u64),
    BoxState(FloorBox),
    BoxList(GrantList),
    BoxLight(Light),
    BothTick(u64),
}

/// What a line is, without its newline.
pub fn parse(line: &[u8]) -> Script {
    if line.is_empty() || line.starts_with(b"#") {
        return Script::Nothing;
    }
    let mut words = Words { rest: Some(line) };
    match call(&mut words) {
        Some(call) if words.rest.is_none() => Script::Call(call),
        _ => Script::Unknown,
    }
}

fn call(words: &mut Words<'_>) -> Option<Call> {
    match words.word()? {
        b"read" => Some(Call::Read(words.frame()?)),
        b"head" => head_call(words),
        b"box" => box_call(words),
        b"both" => match words.word()? {
            b"tick" => Some(Call::BothTick(words.number()?)),
            _ => None,
        },
        _ => None,
    }
}

fn head_call(words: &mut Words<'_>) -> Option<Call> {
    Some(match words.word()? {
        b"new" => Call::HeadNew {
            links: words.at_most(MOST_LENT)?,
            address: words.address()?,
        },
        b"output" => Call::HeadOutput(words.at_most(MOST_LENT)?),
        b"open" => Call::HeadOpen(OpenWindow {
            grant: words.grant()?,
            sync: words.quanta()?,
            window: words.number()?,
        }),
        b"admit" => Call::HeadAdmit(words.newcomer()?),
        b"reject" => Call::HeadReject(words.newcomer()?),
        b"reregister" => Call::HeadReregister {
            link: words.number()?,
            sync: words.quanta()?,
        },
        b"deregister" => Call::HeadDeregister {
            link: words.number()?,
        },
        b"gate" => Call::HeadGate(gate_request(words)?),
        b"hear" => Call::HeadHear {
            link: words.number()?,
            frame: words.frame()?,
        },
        b"tick" => Call::HeadTick(words.number()?),
        b"advance" => Call::HeadAdvance(words.number()?),
        b"state" => Call::HeadState(Head {
            address: words.address()?,
            count: Count(words.number()?),
            window: window(words)?,
        }),
        b"link" => Call::HeadLink {
            number: words.number()?,
            link: link(words)?,
        },
        _ => return None,
    })
}

fn box_call(words: &mut Words<'_>) -> Option<Call> {
    Some(match words.word()? {
        b"new" => Call::BoxNew(words.address()?),
        b"register" => Call::BoxRegister,
        b"deregister" => Call::BoxDeregister,
        b"report" => report(words)?,
        b"hear" => Call::BoxHear {
            random: words.number()?,
            frame: words.frame()?,
        },
        b"next" => Call::BoxNext {
            control: words.at_most(MOST_OCTETS)?,
            data: words.at_most(MOST_OCTETS)?,
        },
        b"tick" => Call::BoxTick(words.number()?),
        b"advance" => Call::BoxAdvance(words.number()?),
        b"state" => Call::BoxState(box_line(words)?),
        b"list" => Call::BoxList(grant_list(words)?),
        b"light" => Call::BoxLight(light(words)?),
        _ => return None,
    })
}

/// As many sets as are asked for, and of each as many lengths as its bitmap
/// has bits set: octets as they stand in a frame.
fn report(words: &mut Words<'_>) -> Option<Call> {
    let number = words.number()?;
    let mut sets = Vec::new();
    for _ in 0..number {
        let bitmap: u8 = words.number()?;
        sets.push(bitmap);
        for _ in 0..bitmap.count_ones() {
            sets.extend(words.number::<u16>()?.to_be_bytes());
        }
    }
    Some(Call::BoxReport { number, sets })
}

/// As many pairs as are asked for, but four at most.
fn gate_request(words: &mut Words<'_>) -> Option<GateRequest> {
    let (link, force, asked) = (words.number()?, words.number()?, words.number()?);
    let mut grants = [Grant::default(); Gate::MOST];
    for (_, grant) in (0..asked).zip(&mut grants) {
        *grant = words.grant()?;
    }
    Some(GateRequest {
        link,
        force,
        asked,
        grants,
    })
}

/// A window's timer and length are always given; those that play no part in
/// its state are dropped.
fn window(words: &mut Words<'_>) -> Option<Window> {
    let state = words.word()?;
    let (left, length) = (words.number()?, words.number()?);
    match state {
        b"idle" => Some(Window::Idle),
        b"before" => Some(Window::Before { left, length }),
        b"inside" => Some(Window::Inside { left }),
        _ => None,
    }
}

fn link(words: &mut Words<'_>) -> Option<Link> {
    let state = match words.word()? {
        b"idle" => LinkState::Idle,
        b"waiting" => LinkState::Waiting,
        b"registered" => LinkState::Registered,
        _ => return None,
    };
    Some(Link {
        state,
        address: words.address()?,
        wait: words.number()?,
        watchdog: words.number()?,
        periodic: words.number()?,
    })
}

/// What `box state` sets; the transmitter and the list of this box play no part.
fn box_line(words: &mut Words<'_>) -> Option<FloorBox> {
    Some(FloorBox {
        address: words.address()?,
        count: Count(words.number()?),
        state: match words.word()? {
            b"wait" => BoxState::Wait,
            b"registering" => BoxState::Registering,
            b"requesting" => BoxState::Requesting,
            b"registered" => BoxState::Registered,
            _ => return None,
        },
        wait: words.number()?,
        watchdog: words.number()?,
        report: words.number()?,
        port: words.number()?,
        sync: words.quanta()?,
        ..FloorBox::default()
    })
}

fn grant_list(words: &mut Words<'_>) -> Option<GrantList> {
    let grants: usize = words.at_most(GrantList::ROOM as u64)?;
    let mut list = GrantList::new();
    for _ in 0..grants {
        list.push(words.grant()?);
    }
    Some(list)
}

fn light(words: &mut Words<'_>) -> Option<Light> {
    let phase = words.word()?;
    if phase == b"rest" {
        return Some(Light::Rest);
    }
    let left = words.number()?;
    Some(match phase {
        b"before" => Light::Before {
            left,
            random: words.number()?,
            sync: words.quanta()?,
        },
        b"random" => Light::Random {
            left,
            sync: words.quanta()?,
        },
        b"warming" => Light::Warming { left },
        b"asking" => Light::Asking { left },
        b"due" => Light::Due {
            left,
            grant: words.grant()?,
            sync: words.quanta()?,
        },
        b"lit" => Light::Lit {
            left,
            length: words.quanta()?,
            sync: words.quanta()?,
        },
        b"open" => Light::Open { left },
        b"fading" => Light::Fading { left },
        _ => return None,
    })
}

/// The words of a line, one space between them.
struct Words<'a> {
    /// What follows the last word taken; `None` after the last word.
    rest: Option<&'a [u8]>,
}

impl<'a> Words<'a> {
    /// The next word; two spaces, or a space at an end, leave none.
    fn word(&mut self) -> Option<&'a [u8]> {
        let rest = self.rest?;
        let word = match rest.iter().position(|&octet| octet == b' ') {
            Some(space) => {
                self.rest = Some(&rest[space + 1..]);
                &rest[..space]
            }
            None => {
                self.rest = None;
                rest
            }
        };
        (!word.is_empty()).then_some(word)
    }

    /// A number that fits its type.
    fn number<T: TryFrom<u64>>(&mut self) -> Option<T> {
        let digits = self.word()?;
        if digits.len() > MOST_DIGITS {
            return None;
        }
        let mut number = 0_u64;
        for digit in digits {
            let digit = digit.checked_sub(b'0').filter(|&digit| digit <= 9)?;
            number = number.checked_mul(10)?.checked_add(u64::from(digit))?;
        }
        T::try_from(number).ok()
    }

    fn at_most(&mut self, most: u64) -> Option<usize> {
        let number = self.number::<u64>()?;
        (number <= most).then_some(number as usize)
    }

    /// A length or sync time of 16 bits.
    fn quanta(&mut self) -> Option<u32> {
        self.number::<u16>().map(u32::from)
    }

    fn grant(&mut self) -> Option<Grant> {
        Some(Grant {
            start: Count(self.number()?),
            length: self.quanta()?,
        })
    }

    fn newcomer(&mut self) -> Option<Newcomer> {
        Some(Newcomer {
            address: self.address()?,
            pending: self.number()?,
            sync: self.quanta()?,
        })
    }

    fn address(&mut self) -> Option<Address> {
        let digits = self.word().filter(|digits| digits.len() == 12)?;
        let octets = octets(digits)?;
        let shifted = |number, &octet| number << 8 | u64::from(octet);
        Some(Address(octets.iter().fold(0, shifted)))
    }

    fn frame(&mut self) -> Option<Vec<u8>> {
        match self.word()? {
            b"-" => Some(Vec::new()),
            digits => octets(digits),
        }
    }
}

/// The octets of lower-case hexadecimal digits, two to an octet.
fn octets(digits: &[u8]) -> Option<Vec<u8>> {
    let pair = |pair: &[u8]| match *pair {
        [high, low] => Some(nibble(high)? << 4 | nibble(low)?),
        _ => None,
    };
    digits.chunks(2).map(pair).collect()
}

fn nibble(digit: u8) -> Option<u8> {
    match digit {
        b'0'..=b'9' => Some(digit - b'0'),
        b'a'..=b'f' => Some(digit - b'a' + 10),
        _ => None,
    }
}

#[cfg(test)]
mod tests {
    use super::*;

    fn known(line: &str) -> bool {
        matches!(parse(line.as_bytes()), Script::Call(_))
    }

    #[test]
    fn empty_lines_and_comments_do_nothing() {
        assert_eq!(parse(b""), Script::Nothing);
        assert_eq!(parse(b"# head tick 1"), Script::Nothing);
        assert_eq!(parse(b" "), Script::Unknown);
        assert_eq!(parse(b"\r"), Script::Unknown);
    }

    #[test]
    fn numbers_fit_their_width() {
        assert!(known("head tick 18446744073709551615"));
        assert!(!known("head tick 18446744073709551616"));
        assert!(known("head tick 00000000000000000001"));
        assert!(!known("head tick 000000000000000000001"));
        assert!(known("box advance 18446744073709551615"));
        assert!(!known("head advance 18446744073709551616"));
        assert!(known("box hear 4294967295 -"));
        assert!(!known("box hear 4294967296 -"));
        assert!(known("head reregister 1 65535"));
        assert!(!known("head reregister 1 65536"));
        assert!(!known("head tick -1") && !known("head tick +1") && !known("head tick 1x"));
    }

    #[test]
    fn one_space_between_words_and_none_at_the_ends() {
        assert!(known("box register"));
        assert!(!known("box  register"));
        assert!(!known(" box register"));
        assert!(!known("box register "));
        assert!(!known("box register\r"));
        assert!(!known("box register now"));
        assert!(!known("head advance") && !known("both advance 1"));
    }

    #[test]
    fn hexadecimal_is_lower_case_and_in_pairs() {
        assert!(known("box new 0200000000ab"));
        assert!(!known("box new 0200000000AB"));
        assert!(!known("box new 200000000ab"));
        assert!(known("read 00ff") && known("read -"));
        assert!(!known("read 00f") && !known("read 0F") && !known("read"));
    }

    #[test]
    fn a_gate_has_as_many_pairs_as_it_asks_for_up_to_four() {
        assert!(known("head gate 1 0 0"));
        assert!(!known("head gate 1 0 0 5 6"));
        assert!(known("head gate 1 0 2 5 6 7 8"));
        assert!(!known("head gate 1 0 2 5 6 7"));
        assert!(known("head gate 1 0 9 1 2 3 4 5 6 7 8"));
        assert!(!known("head gate 1 0 5 1 2 3 4 5 6 7 8 9 10"));
        assert!(!known("head gate 1 256 0"));
    }

    #[test]
    fn a_report_has_a_length_for_each_bit_of_its_bitmaps() {
        assert!(known("box report 0") && known("box report 1 0"));
        assert!(!known("box report") && !known("box report 0 0") && !known("box report 1"));
        assert!(known("box report 2 5 258 772 128 65535"));
        assert!(!known("box report 2 5 258 772 128"));
        assert!(!known("box report 2 5 258 772 128 65535 0"));
        assert!(!known("box report 1 1 65536") && !known("box report 1 256"));
        assert!(known(&format!("box report 255{}", " 0".repeat(255))));
        assert!(!known(&format!("box report 256{}", " 0".repeat(256))));
    }

    #[test]
    fn the_sets_of_a_report_are_as_in_a_frame() {
        let sets = vec![5, 1, 2, 3, 4, 128, 255, 255];
        let call = Call::BoxReport { number: 2, sets };
        let line = b"box report 2 5 258 772 128 65535";
        assert_eq!(parse(line), Script::Call(call));
    }

    #[test]
    fn lists_and_loans_have_their_bounds() {
        let pairs = " 1 2".repeat(16);
        assert!(known(&format!("box list 16{pairs}")));
        assert!(!known(&format!("box list 17{pairs} 1 2")));
        assert!(known("box list 0"));
        assert!(known("head new 4096 020000000001"));
        assert!(!known("head new 4097 020000000001"));
        assert!(known("head output 4096") && !known("head output 4097"));
        assert!(known("box next 2000 0") && !known("box next 2001 0"));
    }
}
