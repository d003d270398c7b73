//! Which T1s run, followed by the answers alone: how many wait and the lowest circuit are asked, and never which. A T1 is known by its place, that of its
//! hello in an order: two for each circuit, on a LAN level 1's and level 2's, on P2P its one in the lower (document 02, W-202).
use crate::calls::Call;
use crate::side::Answer;
use isis_gr::{Hellos, Overload, Record, Refusal, Timers, Waiting};
use isis_gr_reference::{CircuitSettings, Kind, Levels, Settings};

/// T1s as masks over their places.
#[derive(Clone, Copy, Debug, PartialEq, Eq)]
pub struct T1s {
    /// Those that have begun.
    pub begun: u16,
    /// Those that run.
    pub running: u16,
}

impl T1s {
    /// Whether the T1 of a place runs.
    pub fn runs(self, place: usize) -> bool {
        self.running >> place & 1 == 1
    }

    /// Whether it has begun.
    pub fn has_begun(self, place: usize) -> bool {
        self.begun >> place & 1 == 1
    }
}

/// A call and what it came to.
pub struct Seen<'a> {
    /// The call.
    pub call: &'a Call,
    /// Its answer.
    pub answer: Result<Answer, Refusal>,
    /// The record of a frame's key before it.
    pub stood: Option<Record>,
    /// The T1s before it.
    pub before: T1s,
    /// The T1s after it, and what they are of.
    pub watch: &'a Watch,
}

/// The T1s of a gateway.
#[derive(Clone, Debug)]
pub struct Watch {
    /// The circuits that it was set up with.
    pub circuits: Vec<CircuitSettings>,
    /// The clock.
    pub clock: u64,
    /// How its T1s stand.
    pub t1s: T1s,
    length: u64,
    deadlines: [u64; 16],
}

/// The mask of the hellos of an order.
pub fn mask(hellos: Hellos) -> u16 {
    hellos.orders.iter().fold(0, |mask, (circuit, level)| mask | 1 << (2 * (circuit.number() - 1) + level.number() - 1))
}

/// Whether a level is in a set.
pub fn has(levels: Levels, level: u8) -> bool {
    if level == 1 {
        levels.one
    } else {
        levels.two
    }
}

/// The timers of an answer.
pub fn timers_of(answer: Answer) -> Timers {
    match answer {
        Answer::Received(got) => got.timers,
        Answer::Ticked(tick) => tick.timers,
        Answer::Timers(timers) => timers,
        _ => Timers::Idle,
    }
}

impl Watch {
    /// Of a gateway that was set up so, and ordered these hellos.
    pub fn new(settings: &Settings, hellos: Hellos) -> Watch {
        let (clock, length, all) = (u64::from(settings.clock), u64::from(settings.t1), mask(hellos));
        let t1s = T1s { begun: all, running: all };
        Watch { circuits: settings.circuits.clone(), clock, t1s, length, deadlines: [clock + length; 16] }
    }

    /// The place of the T1 of a circuit, on a LAN of a level.
    pub fn place(&self, circuit: u8, level: u8) -> usize {
        let lower = 2 * (usize::from(circuit) - 1);
        match self.circuits[lower / 2].kind {
            Kind::Lan => lower + usize::from(level) - 1,
            Kind::PointToPoint => lower,
        }
    }

    /// The place of the other level's T1, on a LAN of both levels.
    pub fn partner(&self, place: usize) -> Option<usize> {
        let own = self.circuits[place / 2];
        (own.kind == Kind::Lan && own.levels.one && own.levels.two).then_some(place ^ 1)
    }

    /// The places of the T1s of this kind of circuit that have a level, as a mask.
    pub fn having(&self, kind: Kind, level: u8) -> u16 {
        let those = (1..).zip(&self.circuits).filter(|(_, own)| own.kind == kind && has(own.levels, level));
        those.fold(0, |mask, (number, _)| mask | 1 << self.place(number, level))
    }

    /// Follows a call, and compares with how many wait after it, and with the lowest.
    pub fn follow(&mut self, call: &Call, answer: Answer, waits: Waiting) {
        match (call, answer) {
            (&Call::Receive(n, ..), Answer::Received(got)) => {
                let place = self.place(n, got.change.level.map_or(0, |level| level.number()));
                if got.hello.is_some() {
                    self.t1s.begun |= 1 << place;
                    self.t1s.running |= 1 << place;
                    self.deadlines[place] = self.clock + self.length;
                }
                self.stop_if_fewer(place, waits);
            }
            (&Call::Csnp(n, level), Answer::Timers(_)) => self.stop_if_fewer(self.place(n, level), waits),
            (&Call::Tick(clock), Answer::Ticked(tick)) => {
                self.clock = u64::from(clock);
                self.expire(mask(tick.hellos));
                if tick.timers.overload() == Overload::Set {
                    self.t1s.running = 0;
                }
            }
            _ => {}
        }
        if matches!(timers_of(answer), Timers::Ended { .. }) {
            self.t1s.running = 0;
        }
        let running = self.t1s.running;
        assert_eq!(waits.count, running.count_ones(), "T1s that run");
        let lowest = (running != 0).then(|| running.trailing_zeros() / 2 + 1);
        assert_eq!(waits.lowest.map(|circuit| u32::from(circuit.number())), lowest, "the lowest circuit with one");
    }

    fn stop_if_fewer(&mut self, place: usize, waits: Waiting) {
        if waits.count < self.t1s.running.count_ones() {
            self.t1s.running &= !(1 << place);
        }
    }

    /// A T1 at its deadline orders its hello, or stops.
    fn expire(&mut self, ordered: u16) {
        assert_eq!(ordered & !self.t1s.running, 0, "a hello is ordered, and its T1 does not run");
        for place in 0..16 {
            if ordered >> place & 1 == 1 {
                self.deadlines[place] = self.clock + self.length;
            } else if self.deadlines[place] <= self.clock {
                self.t1s.running &= !(1 << place);
            }
        }
    }
}
