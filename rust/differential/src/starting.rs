//! The branches of a router that starts (document 02, W-201; RFC 8706, 3.3.2), as they can be told apart from outside.
use crate::calls::Call;
use crate::coverage::Coverage;
use crate::frames::Meant;
use crate::side::Answer;
use crate::watch::Seen;
use isis_gr::{Ack, Flags, Freed, Overload, Phase, Received, Refusal, Standing, Timers};
use isis_gr_reference::{Kind, Levels, Mode, Settings};

/// What a T1 has had, by the answers.
#[derive(Clone, Copy)]
struct T1 {
    /// An acknowledgement came before it began.
    early: bool,
    /// Those of its levels whose CSNP set is to come.
    wanted: Levels,
}

/// What the answers told of a start.
pub struct Start {
    /// The mode is Starting.
    on: bool,
    tries: u8,
    /// By place: see `watch`.
    t1: Vec<T1>,
}

impl Start {
    /// Of a gateway that was set up so.
    pub fn new(settings: &Settings) -> Start {
        let t1 = settings.circuits.iter().flat_map(|own| match own.kind {
            Kind::Lan => [Levels { two: false, ..own.levels }, Levels { one: false, ..own.levels }],
            Kind::PointToPoint => [own.levels, Levels::NONE],
        });
        let t1 = t1.map(|wanted| T1 { early: false, wanted }).collect();
        Start { on: settings.mode == Mode::Starting, tries: settings.tries, t1 }
    }

    /// The branches that a call shows.
    pub fn count(&mut self, c: &mut Coverage, seen: &Seen) {
        if !self.on {
            return;
        }
        match (seen.call, seen.answer) {
            (&Call::Receive(n, _, _, _, meant), Ok(Answer::Received(got))) => self.count_frame(c, seen, n, got, meant),
            (&Call::Receive(.., meant), Err(Refusal::WrongNeighbor)) => {
                let up = seen.stood.is_some_and(|record| record.phase != Phase::Init);
                c.hit_if(!meant.damaged && !meant.wrong_system && !up, "wrong circuit ID refused while Starting");
            }
            (Call::Tick(_), Ok(Answer::Ticked(tick))) => {
                let stops = seen.before.running & !seen.watch.t1s.running != 0 && matches!(tick.timers, Timers::GoOn { .. });
                c.hit_if(stops && self.tries == 1, "T1 of one try stops while Starting");
                self.count_end(c, tick.timers, "a start ends by a tick");
            }
            (&Call::Csnp(n, level), Ok(Answer::Timers(timers))) => {
                let place = seen.watch.place(n, level);
                c.hit_if(!seen.before.has_begun(place), "CSNP set before T1 began");
                self.t1[place].wanted = without(self.t1[place].wanted, level);
                self.count_early(c, seen, place);
                self.count_end(c, timers, "a start ends by a notice");
            }
            (Call::Database(_), Ok(Answer::Timers(timers))) => {
                let none = seen.before.begun == 0;
                c.hit_if(none && matches!(timers, Timers::Ended { .. }), "a start ends before any T1 began");
                self.count_end(c, timers, "a start ends by a notice");
            }
            _ => {}
        }
    }

    fn count_frame(&mut self, c: &mut Coverage, seen: &Seen, n: u8, got: Received, meant: Meant) {
        let place = seen.watch.place(n, got.change.level.map_or(0, |level| level.number()));
        let begun = seen.before.has_begun(place);
        let rises = got.change.before != Standing::Up && got.change.after == Standing::Up;
        let begins = got.hello == Some(Flags::SA);
        let stopped = !seen.watch.t1s.runs(place);
        c.hit_if(begins, "hello with SA ordered");
        c.hit_if(begins && stopped && got.freed == Freed::Stopped, "T1 begins and stops by one frame without the TLV");
        c.hit_if(begins && stopped && got.freed == Freed::Kept, "T1 begins and stops by one acknowledgement");
        c.hit_if(rises && begun, "a second record becomes UP");
        c.hit_if(rises && begun && !seen.before.runs(place), "a record becomes UP, and T1 is over");
        c.hit_if(rises && got.timers.overload() == Overload::Set, "overload set by a record becoming UP");
        c.hit_if(got.timers.overload() == Overload::Both, "both by one frame");
        c.hit_if(got.freed == Freed::Stopped, "T1 stopped while Starting");
        c.hit_if(got.change.after == Standing::None, "no record is kept while Starting");
        c.hit_if(got.reply.is_some_and(|reply| reply.ack == Ack::Restart), "reply RA while Starting");
        c.hit_if(got.reply.is_some_and(|reply| reply.ack == Ack::Planned), "reply PA while Starting");
        let early = meant.acknowledges && !meant.damaged && !begun && !begins;
        c.hit_if(early, "acknowledgement before T1 began");
        self.t1[place].early |= early;
        self.count_early(c, seen, place);
        self.count_end(c, got.timers, "a start ends by a frame");
    }

    /// T1 runs with its sets complete: no acknowledgement counted.
    fn count_early(&self, c: &mut Coverage, seen: &Seen, place: usize) {
        let T1 { early, wanted } = self.t1[place];
        let waits = early && wanted.is_empty() && seen.watch.t1s.runs(place);
        c.hit_if(waits, "T1 waits for an acknowledgement, though an early one came");
    }

    fn count_end(&mut self, c: &mut Coverage, timers: Timers, by: &str) {
        c.hit_if(!timers.spf().is_empty(), "SPF ordered while Starting");
        if matches!(timers, Timers::Ended { .. }) {
            self.on = false;
            c.hit(by);
            c.hit_if(timers.overload() == Overload::Clear, "overload clear at a start's end");
        }
    }
}

fn without(levels: Levels, level: u8) -> Levels {
    Levels { one: levels.one && level != 1, two: levels.two && level != 2 }
}
