//! The branches of T1 by level (document 02, W-202; RFC 8706, 3.3.3), as they can be told apart from outside.
use crate::calls::Call;
use crate::coverage::Coverage;
use crate::frames::Meant;
use crate::side::Answer;
use crate::watch::{has, mask, timers_of, Seen, Watch};
use isis_gr::{Flags, Hellos, Overload, Received, Refusal, Ticked, Timers};
use isis_gr_reference::{Kind, Levels, Mode, Settings};

/// T3 of a restart: when it ends, and the acknowledgement that lowered it last.
struct T3 {
    end: u64,
    /// On a LAN, its level, and whether T1 of that level was over.
    by: Option<(u8, bool)>,
    /// A damaged frame may have been one too.
    unsure: bool,
}

/// What the answers told of a restart or start, level by level.
pub struct ByLevel {
    /// The mode, and Running once that ended.
    mode: Mode,
    /// The levels whose T2 is done.
    done: Levels,
    /// Of the T1s of LANs, those acknowledged and those whose CSNP set is complete, by place.
    acknowledged: u16,
    complete: u16,
    t3: T3,
}

/// Every branch that must be reached.
pub fn branches() -> Vec<String> {
    let mut all: Vec<String> = [
        "set up orders both hellos of a LAN",
        "set up orders the one hello of P2P with both levels",
        "set up orders the last hello of sixteen",
        "more T1s run than there are circuits",
        "the lowest circuit waits in the upper place alone",
        "flags differ between the levels of a LAN while Restarting",
        "flags differ between the levels of a LAN while Starting",
        "RR at both levels of P2P",
        "T1 of P2P with both levels counts once",
        "tick orders one level's hello on a LAN, though the other's T1 runs",
        "the mode ends by a notice while a T1 of the other level runs",
    ]
    .map(str::to_owned)
    .to_vec();
    for (level, other) in [(1, 2), (2, 1)] {
        all.extend([
            format!("set up orders level {level}'s hello alone on a LAN"),
            format!("set up orders the one hello of P2P with level {level} alone"),
            format!("level {level}'s T1 of a LAN stops by its acknowledgement, level {other}'s runs on"),
            format!("level {level}'s T1 of a LAN stops by its CSNP set, level {other}'s runs on"),
            format!("RA at level {other} leaves level {level}'s T1, whose CSNP set is complete"),
            format!("CSNP set of level {other} leaves level {level}'s T1, which is acknowledged"),
            format!("T2 of level {level} cancelled by its notice while a T1 of the other level runs"),
            format!("T2 of level {level} held by T1s of P2P alone"),
            format!("T2 of level {level} held by T1s of LANs alone"),
            format!("T2 of level {level} cancelled while T1 of P2P with level {other} alone runs"),
            format!("level {level}'s T1 of a LAN begins after level {other}'s"),
            format!("T1 of level {level} begins, whose T2 is done"),
            format!("tick orders level {level}'s hello alone on a LAN with both"),
            format!("flags refused 1: level {level} is not enabled on P2P"),
            format!("flags refused 1: level {level} is not enabled on a LAN"),
            format!("T3 expires, lowered by RA at level {level}"),
            format!("T3 expires, lowered by RA at level {level}, whose T1 was over"),
        ]);
    }
    all
}

fn count_set_up(c: &mut Coverage, watch: &Watch, ordered: u16) {
    for (at, own) in watch.circuits.iter().enumerate() {
        let only = if own.levels.one { 1 } else { 2 };
        match (own.kind, own.levels.one && own.levels.two, ordered >> (2 * at) & 3) {
            (Kind::Lan, true, 3) => c.hit("set up orders both hellos of a LAN"),
            (Kind::Lan, false, 1 | 2) => c.hit(&format!("set up orders level {only}'s hello alone on a LAN")),
            (Kind::PointToPoint, true, 1) => c.hit("set up orders the one hello of P2P with both levels"),
            (Kind::PointToPoint, false, 1) => c.hit(&format!("set up orders the one hello of P2P with level {only} alone")),
            _ => {}
        }
    }
    c.hit_if(ordered >> 15 == 1, "set up orders the last hello of sixteen");
}

impl ByLevel {
    /// Of a gateway that was set up so, and ordered these hellos.
    pub fn new(c: &mut Coverage, settings: &Settings, watch: &Watch, hellos: Hellos) -> ByLevel {
        count_set_up(c, watch, mask(hellos));
        let t3 = T3 { end: watch.clock + 65_535, by: None, unsure: false };
        ByLevel { mode: settings.mode, done: Levels::NONE, acknowledged: 0, complete: 0, t3 }
    }

    /// The branches that a call shows.
    pub fn count(&mut self, c: &mut Coverage, seen: &Seen) {
        match (seen.call, seen.answer) {
            (&Call::Flags(n, level), Err(Refusal::NoCircuit)) => count_refused(c, seen.watch, n, level),
            (&Call::Receive(n, _, _, _, meant), Ok(Answer::Received(got))) => self.count_frame(c, seen, n, got, meant),
            (&Call::Csnp(n, level), Ok(Answer::Timers(_))) => self.count_set(c, seen, n, level),
            (&Call::Database(level), Ok(Answer::Timers(timers))) => self.count_database(c, seen, level, timers),
            (Call::Tick(_), Ok(Answer::Ticked(tick))) => self.count_tick(c, seen, tick),
            (Call::Waiting, _) => {
                let running = seen.before.running;
                let [one, two] = [1, 2].map(|level| running & seen.watch.having(Kind::PointToPoint, level));
                c.hit_if(one & two != 0, "T1 of P2P with both levels counts once");
                c.hit_if(running.count_ones() as usize > seen.watch.circuits.len(), "more T1s run than there are circuits");
                c.hit_if(running != 0 && running.trailing_zeros() % 2 == 1, "the lowest circuit waits in the upper place alone");
            }
            _ => {}
        }
        let timers = seen.answer.map_or(Timers::Idle, timers_of);
        for (level, other) in [(1, 2), (2, 1)] {
            let cancelled = timers.spf().iter().any(|of| of.number() == level) && !matches!(seen.call, Call::Tick(_));
            let p2p = seen.watch.having(Kind::PointToPoint, other) & !seen.watch.having(Kind::PointToPoint, level);
            let runs = seen.watch.t1s.running & p2p != 0;
            c.hit_if(cancelled && runs, &format!("T2 of level {level} cancelled while T1 of P2P with level {other} alone runs"));
        }
        self.done.one |= timers.spf().one;
        self.done.two |= timers.spf().two;
        if matches!(timers, Timers::Ended { .. }) {
            self.mode = Mode::Running;
        }
    }

    /// The flags that the flags call gave for a level and, where that is enabled too, for the other: on P2P the one answer.
    pub fn count_flags(&self, c: &mut Coverage, lan: bool, flags: Flags, other: Option<Flags>) {
        let Some(other) = other else { return };
        let differ = other != flags;
        assert!(lan || !differ, "two answers for the one hello of P2P");
        c.hit_if(differ && self.mode == Mode::Restarting, "flags differ between the levels of a LAN while Restarting");
        c.hit_if(differ && self.mode == Mode::Starting, "flags differ between the levels of a LAN while Starting");
        c.hit_if(!lan && flags.has(Flags::RR), "RR at both levels of P2P");
    }

    fn count_frame(&mut self, c: &mut Coverage, seen: &Seen, n: u8, got: Received, meant: Meant) {
        let acknowledges = meant.acknowledges && !meant.damaged;
        self.lower_t3(seen, n, meant);
        let Some(level) = got.change.level.map(|level| level.number()) else { return };
        let (place, now) = (seen.watch.place(n, level), seen.watch.t1s);
        if got.hello.is_some() {
            let done = has(self.done, level);
            c.hit_if(done, &format!("T1 of level {level} begins, whose T2 is done"));
        }
        self.acknowledged |= u16::from(acknowledges && now.has_begun(place)) << place;
        let Some(partner) = seen.watch.partner(place) else { return };
        let other = 3 - level;
        let begins_after = got.hello.is_some() && seen.before.has_begun(partner);
        c.hit_if(begins_after, &format!("level {level}'s T1 of a LAN begins after level {other}'s"));
        let stops = seen.before.runs(place) && !now.runs(place) && now.runs(partner);
        c.hit_if(stops, &format!("level {level}'s T1 of a LAN stops by its acknowledgement, level {other}'s runs on"));
        let left = acknowledges && now.runs(partner) && self.complete >> partner & 1 == 1;
        c.hit_if(left, &format!("RA at level {level} leaves level {other}'s T1, whose CSNP set is complete"));
    }

    fn lower_t3(&mut self, seen: &Seen, n: u8, meant: Meant) {
        let Meant { damaged, acknowledges, shows_up, remaining, level, .. } = meant;
        self.t3.unsure |= damaged;
        let end = seen.watch.clock + u64::from(remaining);
        if !damaged && acknowledges && shows_up && end < self.t3.end {
            let by = (level > 0).then(|| (level, !seen.before.runs(seen.watch.place(n, level))));
            self.t3 = T3 { end, by, ..self.t3 };
        }
    }

    fn count_set(&mut self, c: &mut Coverage, seen: &Seen, n: u8, level: u8) {
        let (place, now) = (seen.watch.place(n, level), seen.watch.t1s);
        self.complete |= 1 << place;
        let Some(partner) = seen.watch.partner(place) else { return };
        let other = 3 - level;
        let stops = seen.before.runs(place) && !now.runs(place) && now.runs(partner);
        c.hit_if(stops, &format!("level {level}'s T1 of a LAN stops by its CSNP set, level {other}'s runs on"));
        let left = now.runs(partner) && self.acknowledged >> partner & 1 == 1;
        c.hit_if(left, &format!("CSNP set of level {level} leaves level {other}'s T1, which is acknowledged"));
    }

    fn count_database(&self, c: &mut Coverage, seen: &Seen, level: u8, timers: Timers) {
        let [p2p, lan] = [Kind::PointToPoint, Kind::Lan].map(|kind| seen.before.running & seen.watch.having(kind, level));
        let cancelled = timers.spf().iter().any(|of| of.number() == level);
        let others = seen.before.running & !(p2p | lan) != 0;
        c.hit_if(cancelled && others, &format!("T2 of level {level} cancelled by its notice while a T1 of the other level runs"));
        let ended = others && matches!(timers, Timers::Ended { .. });
        c.hit_if(ended, "the mode ends by a notice while a T1 of the other level runs");
        let held = !cancelled && !has(self.done, level);
        c.hit_if(held && lan == 0, &format!("T2 of level {level} held by T1s of P2P alone"));
        c.hit_if(held && p2p == 0, &format!("T2 of level {level} held by T1s of LANs alone"));
    }

    fn count_tick(&self, c: &mut Coverage, seen: &Seen, tick: Ticked) {
        let ordered = mask(tick.hellos);
        for (place, other) in (0..2 * seen.watch.circuits.len()).filter_map(|place| Some((place, seen.watch.partner(place)?))) {
            let alone = ordered >> place & 1 == 1 && ordered >> other & 1 == 0;
            c.hit_if(alone, &format!("tick orders level {}'s hello alone on a LAN with both", place % 2 + 1));
            let though = alone && seen.watch.t1s.runs(other);
            c.hit_if(though, "tick orders one level's hello on a LAN, though the other's T1 runs");
        }
        let expires = self.mode == Mode::Restarting && matches!(tick.timers.overload(), Overload::Set | Overload::Both);
        if let (true, false, Some((level, over))) = (expires, self.t3.unsure, self.t3.by) {
            assert!(self.t3.end <= seen.watch.clock, "T3 expires before its end");
            c.hit(&format!("T3 expires, lowered by RA at level {level}"));
            c.hit_if(over, &format!("T3 expires, lowered by RA at level {level}, whose T1 was over"));
        }
    }
}

/// Which level the flags call was refused for, on a circuit that is there.
fn count_refused(c: &mut Coverage, watch: &Watch, n: u8, level: u8) {
    let own = usize::from(n).checked_sub(1).and_then(|at| watch.circuits.get(at));
    let Some(kind) = own.filter(|_| matches!(level, 1 | 2)).map(|own| own.kind) else { return };
    let link = if kind == Kind::Lan { "a LAN" } else { "P2P" };
    c.hit(&format!("flags refused 1: level {level} is not enabled on {link}"));
}
