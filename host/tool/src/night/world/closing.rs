//! The end of a night: its tables, and whether all went well.

use super::World;
use crate::night::floor::Floor;
use crate::night::record::Record;
use crate::night::scenario::Scenario;
use crate::night::timeline::{seconds, ticks};
use crate::numbers::thousands;
use plain::numbers::WATCHDOG;
use std::io::{self, Write};

impl<W: Write> World<'_, W> {
    /// The closing tables, and whether all went well.
    pub(super) fn close(mut self) -> io::Result<bool> {
        self.tell_head("the night ends")?;
        let output = &mut self.timeline.output;
        Record::write_titles(output)?;
        for floor in &mut self.floors {
            floor.record.close(self.now);
            floor.record.write(output, floor.number)?;
        }
        self.desk.write_table(output, &self.floors)?;
        let kept = self.write_promise()?;
        self.write_faults()?;
        self.write_queues()?;
        let told = matches!(self.options.scenario, Scenario::Floor31 | Scenario::Dark);
        if told {
            let floor = &self.floors[self.remembered()];
            let output = &mut self.timeline.output;
            floor.record.write_story(output, floor.number)?;
        }
        self.timeline.output.flush()?;
        Ok(kept && self.unsound == 0 && self.refused == 0 && self.astray == 0)
    }

    /// What came into the queues and went, and which floor waits.
    fn write_queues(&mut self) -> io::Result<()> {
        let [mut come, mut gone, mut waiting] = [0; 3];
        for floor in &mut self.floors {
            floor.queues.fill(self.now);
            let traffic = floor.queues.traffic();
            come += traffic.come;
            gone += traffic.gone;
            waiting += traffic.waiting;
        }
        let [come, gone, waiting] = [come, gone, waiting].map(thousands);
        let output = &mut self.timeline.output;
        writeln!(
            output,
            "Data frames: {come} came to the boxes, {gone} went, {waiting} wait."
        )?;
        self.desk.write_verdict(output, &self.floors)
    }

    /// Whether no half-open pair lasted, measured by the longest way that a
    /// frame took from its hand-out.
    fn write_promise(&mut self) -> io::Result<bool> {
        let most = |of: fn(&Floor) -> u64| self.floors.iter().map(of).max().unwrap_or(0);
        let way = most(|floor| floor.longest_wait) + self.options.delay;
        let longest = most(|floor| floor.record.longest_half_open);
        let bound = way + u64::from(WATCHDOG);
        let kept = longest <= bound;
        let output = &mut self.timeline.output;
        writeln!(
            output,
            "\nFrames lost on the fibre: {}.",
            thousands(self.fibre.lost)
        )?;
        let way = ticks(way);
        writeln!(
            output,
            "Longest way of a frame, waiting for its window included: {way}."
        )?;
        let verdict = if kept { "kept" } else { "BROKEN" };
        let (bound, time) = (ticks(bound), seconds(bound));
        writeln!(
            output,
            "No pair half-open for more than {bound} ({time} s): {verdict}."
        )?;
        Ok(kept)
    }

    /// What has no place in a night, if it has happened.
    fn write_faults(&mut self) -> io::Result<()> {
        for (what, times) in [
            ("Calls refused with 12, 13 or 14", self.unsound),
            ("REPORTs refused to a client", self.refused),
            ("Advances that didn't make their ticks", self.astray),
        ] {
            if times > 0 {
                let times = thousands(times);
                writeln!(self.timeline.output, "{what}: {times}.")?;
            }
        }
        Ok(())
    }
}
