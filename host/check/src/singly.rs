//! An advance held against the single ticks that define it, and `ticks_until`
//! against ticks that must hand out nothing.
//!
//! Both cores advance from the state at hand, and both tick from it; what each
//! advance answers and leaves must be what the ticks of either do.

use crustnewt_core::{Advanced, BoxCore, BoxReply, Core, HeadCore, HeadReply};
use crustnewt_tool::replay::{Call, Stage};
use plain::numbers::MOST_TICKS;
use plain::{FloorBox, Head, Link, Refusal};
use std::fmt::Debug;

/// Single ticks that are made of each advance in a case of a seed. Of a longer
/// one only these are held against it; fixed cases make all.
pub(crate) const SOME: u64 = 1000;

/// A box or a head apart from the stage's, to be moved on.
trait End {
    type Reply: Copy + Debug + Default + PartialEq;
    /// All that it holds.
    type Held: Debug + PartialEq;
    /// Whether the tick behind those that are surely silent tells something.
    const EXACT: bool;

    fn tick(&mut self) -> Self::Reply;
    fn advance(&mut self, ticks: u64) -> Advanced<Self::Reply>;
    fn ticks_until(&self) -> u64;
    fn held(&self) -> Self::Held;
    fn number(reply: &Self::Reply) -> u8;
    fn refused(number: u8) -> Self::Reply;

    fn is_quiet(reply: &Self::Reply) -> bool {
        *reply == Self::Reply::default()
    }
}

struct BoxEnd(Box<dyn BoxCore>);

impl BoxEnd {
    fn of(core: &dyn Core, stage: &Stage<'_>) -> BoxEnd {
        let mut floor_box = core.floor_box();
        floor_box.set_state(&stage.floor_box.state());
        BoxEnd(floor_box)
    }
}

impl End for BoxEnd {
    type Reply = BoxReply;
    type Held = FloorBox;
    const EXACT: bool = false;

    fn tick(&mut self) -> BoxReply {
        self.0.tick()
    }
    fn advance(&mut self, ticks: u64) -> Advanced<BoxReply> {
        self.0.advance(ticks)
    }
    fn ticks_until(&self) -> u64 {
        self.0.ticks_until()
    }
    fn held(&self) -> FloorBox {
        self.0.state()
    }
    fn number(reply: &BoxReply) -> u8 {
        reply.number
    }
    fn refused(number: u8) -> BoxReply {
        BoxReply::refused(number)
    }
}

struct HeadEnd(Box<dyn HeadCore>);

impl HeadEnd {
    fn of(core: &dyn Core, stage: &Stage<'_>) -> HeadEnd {
        let links = stage.head.links();
        let mut head = core.head();
        head.lend_links(links);
        head.lend_output(stage.head.output().to_vec());
        head.set_state(&stage.head.state());
        for place in 0..links {
            head.set_link(place, &stage.head.link(place));
        }
        HeadEnd(head)
    }

    /// The same with an output that is long enough: how long a head is silent
    /// doesn't rest on what it is lent.
    fn with_room(core: &dyn Core, stage: &Stage<'_>) -> HeadEnd {
        let mut end = HeadEnd::of(core, stage);
        end.0.lend_output(vec![0; 60 * stage.head.links()]);
        end
    }
}

impl End for HeadEnd {
    type Reply = HeadReply;
    type Held = (Head, Vec<Link>, Vec<u8>);
    const EXACT: bool = true;

    fn tick(&mut self) -> HeadReply {
        self.0.tick()
    }
    fn advance(&mut self, ticks: u64) -> Advanced<HeadReply> {
        self.0.advance(ticks)
    }
    fn ticks_until(&self) -> u64 {
        self.0.ticks_until()
    }
    fn held(&self) -> (Head, Vec<Link>, Vec<u8>) {
        let links = (0..self.0.links()).map(|place| self.0.link(place));
        (self.0.state(), links.collect(), self.0.output().to_vec())
    }
    fn number(reply: &HeadReply) -> u8 {
        reply.number
    }
    fn refused(number: u8) -> HeadReply {
        HeadReply::refused(number)
    }
}

/// What an advance answers, and what it leaves.
type Left<E> = (Advanced<<E as End>::Reply>, <E as End>::Held);

/// What single ticks lead to.
#[derive(Debug)]
enum Ticked<L> {
    /// All that an advance is to answer and to leave.
    Ended(L),
    /// So many ticks were silent, and there are more to make.
    GoesOn(u64),
}

fn allows<E: End>(ticked: &Ticked<Left<E>>, left: &Left<E>) -> bool {
    match ticked {
        Ticked::Ended(expected) => expected == left,
        Ticked::GoesOn(most) => E::number(&left.0.reply) == 0 && left.0.made >= *most,
    }
}

/// Where a call advances: how an advance differs from single ticks, of which
/// so many are made at most.
pub(crate) fn hold(
    cores: [&dyn Core; 2],
    stage: &Stage<'_>,
    call: &Call,
    most: u64,
) -> Option<[String; 2]> {
    match *call {
        Call::BoxAdvance(ticks) => {
            let make = |core: &dyn Core| BoxEnd::of(core, stage);
            hold_advance(cores, make, ticks, most).or_else(|| hold_until(cores, make, most))
        }
        Call::HeadAdvance(ticks) => {
            let make = |core: &dyn Core| HeadEnd::of(core, stage);
            let roomy = |core: &dyn Core| HeadEnd::with_room(core, stage);
            hold_advance(cores, make, ticks, most).or_else(|| hold_until(cores, roomy, most))
        }
        _ => None,
    }
}

fn hold_advance<E: End>(
    cores: [&dyn Core; 2],
    make: impl Fn(&dyn Core) -> E,
    ticks: u64,
    most: u64,
) -> Option<[String; 2]> {
    let ticked = cores.map(|core| by_ticks(|| make(core), ticks, most));
    let advanced = cores.map(|core| {
        let mut end = make(core);
        (end.advance(ticks), end.held())
    });
    let pairs = advanced
        .iter()
        .flat_map(|a| ticked.iter().map(move |t| (a, t)));
    let (left, ticked) = { pairs }.find(|(left, ticked)| !allows::<E>(ticked, left))?;
    Some([
        format!("advance {ticks}: {left:?}"),
        format!("single ticks: {ticked:?}"),
    ])
}

/// Ticks one by one, as an advance by so many is defined.
fn by_ticks<E: End>(make: impl Fn() -> E, ticks: u64, most: u64) -> Ticked<Left<E>> {
    let mut end = make();
    let first = make().tick();
    let unready = [Refusal::Unsound, Refusal::ShortOutput].map(Refusal::number);
    let number = E::number(&first);
    let refused = |reply| Advanced { reply, made: 0 };
    if !unready.contains(&number) && !(1..=u64::from(MOST_TICKS)).contains(&ticks) {
        let reply = E::refused(Refusal::BadGrant.number());
        return Ticked::Ended((refused(reply), end.held()));
    }
    if number != 0 {
        return Ticked::Ended((refused(first), end.held()));
    }
    let mut last = Advanced::default();
    while last.made < ticks && E::is_quiet(&last.reply) {
        if last.made == most {
            return Ticked::GoesOn(most);
        }
        let reply = end.tick();
        if E::number(&reply) != 0 {
            break;
        }
        let made = last.made + 1;
        last = Advanced { reply, made };
    }
    Ticked::Ended((last, end.held()))
}

fn hold_until<E: End>(
    cores: [&dyn Core; 2],
    make: impl Fn(&dyn Core) -> E,
    most: u64,
) -> Option<[String; 2]> {
    let untils = cores.map(|core| make(core).ticks_until());
    let furthest = untils[0].max(untils[1]);
    let most = most.min(MOST_TICKS.into()).min(furthest.saturating_add(1));
    cores.into_iter().find_map(|core| {
        let silent = silent_ticks(make(core), most);
        let wrong = |until: &&u64| match E::EXACT {
            true => (**until).min(most) != silent,
            false => (**until).min(most) > silent,
        };
        let until = untils.iter().find(wrong)?;
        Some([
            format!("ticks_until: {until}"),
            format!("single ticks: {silent} of {most} are silent"),
        ])
    })
}

/// Ticks that hand out nothing and are done, so many at most.
fn silent_ticks<E: End>(mut end: E, most: u64) -> u64 {
    let mut ticks = 0;
    while ticks < most && E::is_quiet(&end.tick()) {
        ticks += 1;
    }
    ticks
}
