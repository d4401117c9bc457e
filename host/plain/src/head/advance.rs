//! Many ticks of the head in one call.

use super::{Head, HeadAnswer, Window};
use crate::advance::{asked, Advanced};
use crate::link::Link;
use crate::numbers::MOST_TICKS;
use crate::refusal::Refusal;

impl Head {
    /// So many quanta pass, 1 to 65,536, or fewer: a tick that sends a frame
    /// is the last. The window may open and close on the way.
    pub fn advance(
        &mut self,
        links: &mut [Link],
        output: &mut [u8],
        ticks: u64,
    ) -> Result<Advanced<HeadAnswer>, Refusal> {
        self.require_ready(links, output)?;
        let asked = asked(ticks)?;
        let silent = silent(links).min(asked);
        self.pass(links, silent);
        if silent == asked {
            let answer = HeadAnswer::default();
            return Ok(Advanced {
                answer,
                made: asked,
            });
        }
        let answer = self.make_tick(links, output);
        let made = silent + 1;
        Ok(Advanced { answer, made })
    }

    /// How many ticks from now surely are done and hand out nothing, up to
    /// 65,536; where it is fewer, the tick behind them hands out a frame. None
    /// of an unsound head or table.
    pub fn ticks_until(&self, links: &[Link]) -> u32 {
        if self.is_sound(links) {
            silent(links).min(MOST_TICKS)
        } else {
            0
        }
    }

    /// So many ticks in which no link sends.
    fn pass(&mut self, links: &mut [Link], ticks: u32) {
        self.count = self.count.after(ticks);
        self.window = self.window.after(ticks);
        for link in links {
            link.pass(ticks);
        }
    }
}

impl Window {
    /// The window so many ticks later; it may open on the way, and close.
    fn after(self, ticks: u32) -> Window {
        match self {
            Window::Before { left, length } if ticks < left => Window::Before {
                left: left - ticks,
                length,
            },
            Window::Before { left, length } => Window::Inside { left: length }.after(ticks - left),
            Window::Inside { left } if ticks < left => Window::Inside { left: left - ticks },
            Window::Inside { .. } | Window::Idle => Window::Idle,
        }
    }
}

/// Ticks from now in which no link of a sound table sends. Every end of a
/// link's timer sends a frame, and nothing else does in a tick.
fn silent(links: &[Link]) -> u32 {
    links.iter().map(Link::before_ring).fold(u32::MAX, u32::min)
}
