//! The timers T1 of our own restart or start (document 01, "Timers while Restarting"; document 02, W-201 and W-202; RFC 8706,
//! 3.1, 3.3.1 and 3.3.2): one for each enabled level of a LAN, and one for all levels of a point-to-point circuit (RFC 8706,
//! 3.3.3).
//!
//! A T1 is known by its place, which is also its bit in a mask: two for each circuit, circuit 1 first. A LAN has level 1 in
//! the lower and level 2 in the upper; point-to-point has its one T1 in the lower.

use crate::settings::{Kind, Level, Levels, Settings, MAX_CIRCUITS};

/// What one T1 waits for. Whether it runs is a bit of [`T1s::running`].
#[derive(Clone, Copy, Debug, PartialEq, Eq)]
struct T1 {
    /// It runs or ran; it begins only once. Acknowledgements count from here on.
    begun: bool,
    deadline: u64,
    expiries: u8,
    acknowledged: bool,
    /// Those of its levels whose CSNP set is complete, noticed before it began or since.
    complete: Levels,
    /// Its levels: one on a LAN, all of the circuit's on point-to-point. A place without a T1 has none.
    levels: Levels,
}

impl T1 {
    const UNUSED: T1 = T1 { begun: false, deadline: 0, expiries: 0, acknowledged: false, complete: Levels::NONE, levels: Levels::NONE };

    fn satisfied(&self) -> bool {
        self.acknowledged && self.complete == self.levels
    }
}

/// The T1s of all circuits.
#[derive(Clone, Debug, PartialEq, Eq)]
pub(crate) struct T1s {
    /// The length of T1.
    interval: u16,
    tries: u8,
    /// Those that run, as a mask.
    running: u16,
    each: [T1; 2 * MAX_CIRCUITS],
    /// For level 1 and for level 2, the T1s that have it, as a mask.
    having: [u16; 2],
}

/// The place of the one T1 of the point-to-point circuit at this place; of a LAN, level 1's.
pub(crate) fn lower(at: usize) -> usize {
    2 * at
}

/// The places in a mask, the lowest first.
fn places(mut mask: u16) -> impl Iterator<Item = usize> {
    std::iter::from_fn(move || {
        let which = (mask != 0).then(|| mask.trailing_zeros() as usize)?;
        mask &= mask - 1;
        Some(which)
    })
}

impl T1s {
    /// None has begun.
    pub(crate) fn new(settings: &Settings) -> T1s {
        let mut t1s =
            T1s { interval: settings.t1, tries: settings.tries, running: 0, each: [T1::UNUSED; 2 * MAX_CIRCUITS], having: [0; 2] };
        for (at, circuit) in settings.circuits.iter().enumerate() {
            for level in Level::ALL.into_iter().filter(|&level| circuit.levels.has(level)) {
                let which = match circuit.kind {
                    Kind::Lan => lower(at) + level.place(),
                    Kind::PointToPoint => lower(at),
                };
                t1s.each[which].levels = t1s.each[which].levels.with(level);
                t1s.having[level.place()] |= 1 << which;
            }
        }
        t1s
    }

    /// The place of the T1 that has this level, which is enabled on the circuit at this place.
    pub(crate) fn of(&self, at: usize, level: Level) -> usize {
        let lower = lower(at);
        if self.each[lower].levels.has(level) {
            lower
        } else {
            lower + 1
        }
    }

    /// Those that run, as a mask.
    pub(crate) fn running(&self) -> u16 {
        self.running
    }

    pub(crate) fn runs(&self, which: usize) -> bool {
        self.running & (1 << which) != 0
    }

    /// Whether it runs and has expired before.
    pub(crate) fn repeats(&self, which: usize) -> bool {
        self.runs(which) && self.each[which].expiries > 0
    }

    /// Whether one that has this level runs. One that has not begun does not run (RFC 8706, 3.4: "the interfaces that have an
    /// adjacency at this level").
    pub(crate) fn any_runs(&self, level: Level) -> bool {
        self.running & self.having[level.place()] != 0
    }

    /// Begins it, unless it has begun; answers whether it did.
    pub(crate) fn begin(&mut self, which: usize, clock: u32) -> bool {
        let t1 = &mut self.each[which];
        if t1.begun {
            return false;
        }
        t1.begun = true;
        t1.deadline = u64::from(clock) + u64::from(self.interval);
        self.running |= 1 << which;
        true
    }

    /// Begins all; answers them as a mask.
    pub(crate) fn begin_all(&mut self, clock: u32) -> u16 {
        for which in places(self.having[0] | self.having[1]) {
            self.begin(which, clock);
        }
        self.running
    }

    pub(crate) fn stop(&mut self, which: usize) {
        self.running &= !(1 << which);
    }

    pub(crate) fn stop_all(&mut self) {
        self.running = 0;
    }

    /// An acknowledgement. It counts only if T1 has begun.
    pub(crate) fn acknowledge(&mut self, which: usize) {
        if self.each[which].begun {
            self.each[which].acknowledged = true;
            self.stop_satisfied(which);
        }
    }

    /// The CSNP set of a level that it has is complete.
    pub(crate) fn csnp_complete(&mut self, which: usize, level: Level) {
        self.each[which].complete = self.each[which].complete.with(level);
        self.stop_satisfied(which);
    }

    fn stop_satisfied(&mut self, which: usize) {
        if self.each[which].satisfied() {
            self.stop(which);
        }
    }

    /// Each at its deadline runs from this clock, or stops at its last expiry; answers those that run on, as a mask.
    pub(crate) fn expire(&mut self, now: u64) -> u16 {
        let mut again = 0;
        for which in places(self.running) {
            let t1 = &mut self.each[which];
            if t1.deadline > now {
                continue;
            }
            t1.expiries += 1;
            if t1.expiries >= self.tries {
                self.stop(which);
            } else {
                t1.deadline = now + u64::from(self.interval);
                again |= 1 << which;
            }
        }
        again
    }
}
