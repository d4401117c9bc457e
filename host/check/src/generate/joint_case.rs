//! Head and box together, over a fibre with delay and loss, on which a few
//! frames come to have another source.
//!
//! What they say depends on what they hear, so the script is written while
//! the plain core plays it; the comparison then plays it again.

use super::box_case::{self, next, ticks};
use super::head_case::{self, gate, open};
use super::queue_sets;
use super::states::{around_end, box_lines, head_line, link_line};
use super::values::{count, near, other_source, running, BOX, HEAD};
use crustnewt_core::PlainCore;
use crustnewt_tool::dice::Dice;
use crustnewt_tool::replay::{parse, Script, Stage};
use plain::{BoxState, Count, Grant, Head, Link, Window};
use std::collections::VecDeque;

/// A frame on its way, as digits.
struct Sent {
    arrives: u64,
    digits: String,
}

struct Joint<'a> {
    dice: &'a mut Dice,
    stage: Stage<'a>,
    script: Vec<String>,
    now: u64,
    delay: u64,
    loss: u64,
    down: VecDeque<Sent>,
    up: VecDeque<Sent>,
}

pub(crate) fn script(dice: &mut Dice) -> Vec<String> {
    let delay = dice.below(120);
    let loss = dice.pick(&[0, 0, 50, 300]);
    let turns = 10 + dice.below(50);
    let mut joint = Joint {
        dice,
        stage: Stage::new(&PlainCore),
        script: Vec::new(),
        now: 0,
        delay,
        loss,
        down: VecDeque::new(),
        up: VecDeque::new(),
    };
    joint.begin();
    for _ in 0..turns {
        joint.turn();
    }
    joint.script
}

impl Joint<'_> {
    /// Both fresh, with counts that may stand just before the wrap.
    fn begin(&mut self) {
        let links = self.dice.pick(&[1, 1, 2, 4]);
        self.say(format!("head new {links} {HEAD}"));
        self.say(format!("box new {BOX}"));
        if self.dice.chance(500) {
            let mut head = self.stage.head.state();
            head.count = count(self.dice);
            self.say(head_line(&head));
            let mut floor_box = self.stage.floor_box.state();
            floor_box.count = near(self.dice, head.count);
            self.say_box(&floor_box);
        }
        self.say("box register".to_owned());
    }

    fn turn(&mut self) {
        let Head {
            count: now, window, ..
        } = self.stage.head.state();
        // Calls that are bound to be refused are made now and then only.
        let rash = self.dice.chance(100);
        let idle = rash || window == Window::Idle;
        let held = rash || self.stage.head.link(0).is_held();
        let registered = self.stage.floor_box.state().state == BoxState::Registered;
        match self.dice.below(12) {
            0..=2 if idle => self.open_soon(now),
            3 if held => self.gate(now),
            4 if held => self.gate_soon(now),
            5 if self.dice.chance(300) => self.say("box register".to_owned()),
            5 if self.dice.chance(200) => self.say("box deregister".to_owned()),
            6 if self.dice.chance(200) => self.say("head deregister 1".to_owned()),
            6 if self.dice.chance(200) => self.say("head reregister 1 7".to_owned()),
            7 => {
                let window = self.stage.floor_box.state().light.window();
                let line = next(self.dice, window);
                self.say(line);
            }
            8 if self.dice.chance(300) => self.hurry(),
            9 if self.dice.chance(500) => self.look_ahead(),
            10 if rash || registered => {
                let sets = queue_sets::asked(self.dice);
                self.say(queue_sets::line(&sets));
            }
            _ => {}
        }
        let ticks = ticks(self.dice);
        self.pass(ticks);
    }

    /// A window that the box can hear of in time.
    fn open_soon(&mut self, now: Count) {
        let line = if self.dice.chance(200) {
            open(self.dice, now)
        } else {
            let start = now.0.wrapping_add(self.dice.below(300) as u32);
            let length = 106 + self.dice.below(300);
            format!("head open {start} {length} 0 {}", 400 + 2 * self.delay)
        };
        self.say(line);
    }

    fn gate(&mut self, now: Count) {
        let line = gate(self.dice, 1, now);
        self.say(line);
    }

    /// A grant that the box can hear of in time, and another around its end.
    fn gate_soon(&mut self, now: Count) {
        let first = Grant {
            start: Count(now.0.wrapping_add(self.dice.below(300) as u32)),
            length: 106 + self.dice.below(300) as u32,
        };
        let second = around_end(self.dice, first);
        let asked = 1 + self.dice.below(2);
        let mut line = format!("head gate 1 0 {asked}");
        for start in [first.start, second].into_iter().take(asked as usize) {
            line.push_str(&format!(" {} {}", start.0, first.length));
        }
        self.say(line);
    }

    /// Brings running timers close to their ends.
    fn hurry(&mut self) {
        let mut floor_box = self.stage.floor_box.state();
        for timer in [
            &mut floor_box.wait,
            &mut floor_box.watchdog,
            &mut floor_box.report,
        ] {
            hurry(self.dice, timer);
        }
        self.say_box(&floor_box);
        let mut link: Link = self.stage.head.link(0);
        for timer in [&mut link.wait, &mut link.watchdog, &mut link.periodic] {
            hurry(self.dice, timer);
        }
        self.say(link_line(1, &link));
    }

    /// Advances both from where the run has led them, and sets them back: what
    /// is handed out isn't sent, and the run goes on as if nothing had been.
    fn look_ahead(&mut self) {
        let floor_box = self.stage.floor_box.state();
        let lines = box_case::advance_and_back(self.dice, &floor_box);
        self.script.extend(lines);
        let head = &self.stage.head;
        let table: Vec<Link> = (0..head.links()).map(|place| head.link(place)).collect();
        let lines = head_case::advance_and_back(self.dice, &head.state(), &table);
        self.script.extend(lines);
    }

    /// Ticks on, handing over frames as they arrive.
    fn pass(&mut self, mut ticks: u64) {
        while ticks > 0 {
            let next = [&self.down, &self.up]
                .map(|queue| queue.front().map_or(u64::MAX, |sent| sent.arrives));
            let step = next[0]
                .min(next[1])
                .saturating_sub(self.now)
                .clamp(1, ticks);
            self.say(format!("both tick {step}"));
            self.now += step;
            ticks -= step;
            self.deliver();
        }
    }

    fn deliver(&mut self) {
        while let Some(sent) = arrived(&mut self.down, self.now) {
            let random = self.dice.half();
            self.say(format!("box hear {random} {}", sent.digits));
        }
        while let Some(sent) = arrived(&mut self.up, self.now) {
            // A newcomer's request is told by its opcode and flag.
            let link = u64::from(&sent.digits[28..32] != "0004" || &sent.digits[40..42] != "01");
            self.say(format!("head hear {link} {}", sent.digits));
        }
    }

    fn say_box(&mut self, floor_box: &plain::FloorBox) {
        for line in box_lines(floor_box) {
            self.say(line);
        }
    }

    /// Plays a line, keeps it, and puts what it sent on the fibre.
    fn say(&mut self, line: String) {
        let mut said = Vec::new();
        if let Script::Call(call) = parse(line.as_bytes()) {
            // Writing into a vector doesn't fail.
            let _ = self.stage.play(&call, &mut said);
        }
        self.script.push(line);
        let said = String::from_utf8_lossy(&said).into_owned();
        for answer in said.lines() {
            self.hear_answer(answer);
        }
    }

    fn hear_answer(&mut self, answer: &str) {
        let mut words = answer.split(' ').peekable();
        let ticked = words.next_if(|word| word.starts_with('@'));
        let at = ticked.and_then(|word| word[1..].parse::<u64>().ok());
        let to_box = words.peek() == Some(&"head");
        let requested = answer.contains(" notice request ");
        while let Some(word) = words.next() {
            if let Some(digits) = words.peek().filter(|_| word == "frame") {
                self.send(at.unwrap_or(0), to_box, digits);
            }
        }
        if requested {
            let verb = self.dice.pick(&["admit", "admit", "admit", "reject"]);
            self.say(format!("head {verb} {BOX} 16 3"));
        }
    }

    fn send(&mut self, at: u64, to_box: bool, digits: &str) {
        if self.dice.chance(self.loss) {
            return;
        }
        let arrives = self.now + at + self.delay;
        let (own, queue) = match to_box {
            true => (HEAD, &mut self.down),
            false => (BOX, &mut self.up),
        };
        let mut digits = digits.to_owned();
        if self.dice.chance(20) {
            let source = other_source(self.dice, own).to_string();
            digits.replace_range(12..24, &source);
        }
        queue.push_back(Sent { arrives, digits });
    }
}

fn hurry(dice: &mut Dice, timer: &mut u32) {
    if *timer > 0 {
        *timer = running(dice, 300.min(*timer));
    }
}

fn arrived(queue: &mut VecDeque<Sent>, now: u64) -> Option<Sent> {
    let due = queue.front().is_some_and(|sent| sent.arrives <= now);
    due.then(|| queue.pop_front()).flatten()
}
