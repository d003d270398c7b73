//! The timers of our own restart or start (document 01, "Timers while Restarting"; document 02, W-201 and W-202; RFC 8706, 3.1,
//! 3.3.1, 3.3.2, 3.3.3 and 3.4).

use crate::adjacency::Own;
use crate::answers::{Freed, Hellos, Overload, TimerOutcome};
use crate::frame::{Hello, Link};
use crate::settings::{Level, Levels, Settings};
use crate::t1::{self, T1s};
use crate::tlvs::{Flags, RestartTlv, ThreeWay, ThreeWayState};

/// The length of T3 at the start, in seconds.
const T3_LENGTH: u64 = 65_535;

#[derive(Clone, Copy, Debug, PartialEq, Eq)]
enum T2 {
    Stopped,
    Running(u64),
}

#[derive(Clone, Copy, Debug, PartialEq, Eq)]
enum T3 {
    Running(u64),
    /// Overload was ordered.
    Expired,
}

/// The mode, with the timer that only a restart has.
#[derive(Clone, Copy, Debug, PartialEq, Eq)]
enum Phase {
    Restarting(T3),
    Starting,
}

/// The timers of a restart or start. The gateway holds them exactly in the modes Restarting and Starting.
#[derive(Clone, Debug, PartialEq, Eq)]
pub(crate) struct Timers {
    phase: Phase,
    t1s: T1s,
    /// T2 of level 1 and of level 2.
    t2: [T2; 2],
    /// The levels whose database notice came.
    databases: Levels,
}

/// What a frame does to the timers.
pub(crate) struct Heard {
    /// The flags of the hello that is ordered, if one is.
    pub(crate) hello: Option<Flags>,
    pub(crate) freed: Freed,
    pub(crate) outcome: TimerOutcome,
}

impl Heard {
    /// There are no timers.
    pub(crate) const IDLE: Heard = Heard { hello: None, freed: Freed::Kept, outcome: TimerOutcome::Idle };
}

impl Timers {
    /// Starts every T1, T2 for every enabled level and T3, and orders a hello for every T1. The settings are in range.
    pub(crate) fn restart(settings: &Settings) -> (Timers, Hellos) {
        let t3 = T3::Running(u64::from(settings.clock) + T3_LENGTH);
        let mut timers = Timers::new(settings, Phase::Restarting(t3));
        let begun = timers.t1s.begin_all(settings.clock);
        let hellos = Hellos::of(begun, timers.request());
        (timers, hellos)
    }

    /// Starts T2 for every enabled level. A T1 begins with the first UP record of its circuit and, on a LAN, level, and there
    /// is no T3. The settings are in range.
    pub(crate) fn start(settings: &Settings) -> Timers {
        Timers::new(settings, Phase::Starting)
    }

    /// T2 runs for every enabled level, and no T1 has begun.
    fn new(settings: &Settings, phase: Phase) -> Timers {
        let mut timers = Timers { phase, t1s: T1s::new(settings), t2: [T2::Stopped; 2], databases: Levels::NONE };
        let end = u64::from(settings.clock) + u64::from(settings.t2);
        for level in Level::ALL {
            if settings.circuits.iter().any(|circuit| circuit.levels.has(level)) {
                timers.t2[level.place()] = T2::Running(end);
            }
        }
        timers
    }

    /// Whether the mode is Restarting; else it is Starting.
    pub(crate) fn restarting(&self) -> bool {
        matches!(self.phase, Phase::Restarting(_))
    }

    /// The T1s that run, as a mask.
    pub(crate) fn waiting(&self) -> u16 {
        self.t1s.running()
    }

    /// The flags of a hello that asks for an acknowledgement.
    fn request(&self) -> Flags {
        match self.phase {
            Phase::Restarting(_) => Flags::RR,
            Phase::Starting => Flags::RR.and(Flags::SA),
        }
    }

    /// The flags of the next hello at a level that the circuit at this place has. A restart asks while T1 runs. A start has SA
    /// in every hello, and asks from the first expiry of T1 on, while it runs.
    pub(crate) fn flags(&self, at: usize, level: Level) -> Flags {
        let which = self.t1s.of(at, level);
        match self.phase {
            Phase::Restarting(_) if self.t1s.runs(which) => self.request(),
            Phase::Restarting(_) => Flags::NONE,
            Phase::Starting if self.t1s.repeats(which) => self.request(),
            Phase::Starting => Flags::SA,
        }
    }

    /// An accepted frame on the circuit at this place; `rises` tells that its record becomes UP with it. In a start this
    /// orders overload set, and the first such record begins T1, with a hello of SA, before anything else is looked at. On a
    /// LAN all is about the T1 of the frame's level.
    pub(crate) fn hear(&mut self, at: usize, hello: &Hello, own: &Own, rises: bool) -> Heard {
        let which = match hello.link {
            Link::Lan { level, .. } => self.t1s.of(at, level),
            Link::PointToPoint(_) => t1::lower(at),
        };
        let set = rises && self.phase == Phase::Starting;
        let order = (set && self.t1s.begin(which, own.clock)).then_some(Flags::SA);
        let freed = match (hello.restart, hello.link) {
            (RestartTlv::Present { flags, remaining, neighbour }, link) if flags.has(Flags::RA) => {
                if matches!(link, Link::PointToPoint(_)) || neighbour == own.system {
                    self.acknowledge(which, hello.shows_us_up(), u64::from(own.clock) + u64::from(remaining));
                }
                Freed::Kept
            }
            (RestartTlv::Absent, Link::PointToPoint(three)) if self.t1s.runs(which) => self.free(which, &three, own.id),
            _ => Freed::Kept,
        };
        Heard { hello: order, freed, outcome: self.settle(Levels::NONE, set) }
    }

    /// An acknowledgement of the T1 at this place. One that shows us Up lowers a running T3 to `end`, whichever its level.
    fn acknowledge(&mut self, which: usize, shown_up: bool, end: u64) {
        self.t1s.acknowledge(which);
        if let Phase::Restarting(T3::Running(deadline)) = &mut self.phase {
            if shown_up && end < *deadline {
                *deadline = end;
            }
        }
    }

    /// Stops a running T1 for want of the TLV. Only a restart makes the adjacency reinitialise (RFC 8706, 3.3.1): the
    /// neighbour of a start has done so already (RFC 8706, 3.3.2).
    fn free(&mut self, which: usize, three: &ThreeWay, id: u32) -> Freed {
        self.t1s.stop(which);
        if self.restarting() && three.state == ThreeWayState::Up && three.circuit == Some(id) {
            Freed::Reinitialise
        } else {
            Freed::Stopped
        }
    }

    /// The CSNP set of a level is complete on the circuit at this place, which has that level.
    pub(crate) fn csnp_complete(&mut self, at: usize, level: Level) -> TimerOutcome {
        self.t1s.csnp_complete(self.t1s.of(at, level), level);
        self.settle(Levels::NONE, false)
    }

    /// The database of a level is complete.
    pub(crate) fn database_complete(&mut self, level: Level) -> TimerOutcome {
        self.databases = self.databases.with(level);
        self.settle(Levels::NONE, false)
    }

    /// A tick, after the records: T1, T2 expiry, T2 cancelling, T3, T2 cancelling again.
    pub(crate) fn tick(&mut self, clock: u32) -> (Hellos, TimerOutcome) {
        let now = u64::from(clock);
        let hellos = Hellos::of(self.t1s.expire(now), self.request());
        let spf = self.expire_t2(now).union(self.cancel_t2());
        let overload = self.expire_t3(now);
        (hellos, self.settle(spf, overload))
    }

    /// Stops each T2 at its deadline; answers the levels.
    fn expire_t2(&mut self, now: u64) -> Levels {
        self.stop_t2(|_, deadline| deadline <= now)
    }

    /// Cancels T2 of each level whose database notice came, if no T1 that has the level runs; answers the levels.
    fn cancel_t2(&mut self) -> Levels {
        let ready = Level::ALL.map(|level| self.databases.has(level) && !self.t1s.any_runs(level));
        self.stop_t2(|level, _| ready[level.place()])
    }

    fn stop_t2(&mut self, stops: impl Fn(Level, u64) -> bool) -> Levels {
        let mut stopped = Levels::NONE;
        for level in Level::ALL {
            let t2 = &mut self.t2[level.place()];
            if matches!(*t2, T2::Running(deadline) if stops(level, deadline)) {
                *t2 = T2::Stopped;
                stopped = stopped.with(level);
            }
        }
        stopped
    }

    /// T3 expires if the clock reached it and some running T2 has a later deadline; then all T1 stop.
    fn expire_t3(&mut self, now: u64) -> bool {
        let reached = matches!(self.phase, Phase::Restarting(T3::Running(deadline)) if deadline <= now);
        let later = self.t2.iter().any(|t2| matches!(*t2, T2::Running(deadline) if deadline > now));
        if reached && later {
            self.phase = Phase::Restarting(T3::Expired);
            self.t1s.stop_all();
        }
        reached && later
    }

    /// Cancels what T2 can be cancelled, and ends the mode when none runs. `spf` and `set` are the orders already made in
    /// this call. The end of a start orders overload clear, set before or not. At an end the gateway drops the timers, which
    /// stops T3 and all T1.
    fn settle(&mut self, spf: Levels, set: bool) -> TimerOutcome {
        let spf = spf.union(self.cancel_t2());
        if self.t2 != [T2::Stopped; 2] {
            return TimerOutcome::Goes { spf, overload: if set { Overload::Set } else { Overload::Quiet } };
        }
        let overload = match (set, self.phase) {
            (true, _) => Overload::Both,
            (false, Phase::Restarting(T3::Expired) | Phase::Starting) => Overload::Clear,
            (false, Phase::Restarting(T3::Running(_))) => Overload::Quiet,
        };
        TimerOutcome::Ended { spf, overload }
    }
}
