//! What a gateway is set up with (document 01, "What the gateway holds").

use crate::refusal::Refusal;

/// A System ID of six octets.
pub type SystemId = [u8; 6];

/// A MAC address.
pub type Mac = [u8; 6];

/// The greatest number of circuits.
pub const MAX_CIRCUITS: usize = 8;

/// The greatest router priority.
const MAX_PRIORITY: u8 = 127;

/// The greatest configured wide metric: that of the link of last resort.
pub(crate) const MAX_METRIC: u32 = 16_777_214;

/// A circuit's kind.
#[derive(Clone, Copy, Debug, PartialEq, Eq)]
pub enum Kind {
    /// Point-to-point.
    PointToPoint,
    /// A LAN.
    Lan,
}

/// How the gateway begins.
#[derive(Clone, Copy, Debug, PartialEq, Eq)]
pub enum Mode {
    /// In service: it helps neighbours that restart.
    Running,
    /// Its control plane restarts (RFC 8706, 3.3.1).
    Restarting,
    /// It starts without forwarding tables (RFC 8706, 3.3.2; document 02, W-201).
    Starting,
}

/// One of the two levels.
#[derive(Clone, Copy, Debug, PartialEq, Eq)]
pub(crate) enum Level {
    One,
    Two,
}

impl Level {
    pub(crate) const ALL: [Level; 2] = [Level::One, Level::Two];

    /// The level's place in an array with one entry for each.
    pub(crate) fn place(self) -> usize {
        match self {
            Level::One => 0,
            Level::Two => 1,
        }
    }

    pub(crate) fn number(self) -> u8 {
        match self {
            Level::One => 1,
            Level::Two => 2,
        }
    }

    pub(crate) fn from_number(number: u8) -> Option<Level> {
        match number {
            1 => Some(Level::One),
            2 => Some(Level::Two),
            _ => None,
        }
    }
}

/// A set of levels.
#[derive(Clone, Copy, Debug, Default, PartialEq, Eq)]
pub struct Levels {
    /// Level 1 is in the set.
    pub one: bool,
    /// Level 2 is in the set.
    pub two: bool,
}

impl Levels {
    /// No level.
    pub const NONE: Levels = Levels { one: false, two: false };

    /// Whether the set is empty.
    pub fn is_empty(self) -> bool {
        self == Levels::NONE
    }

    pub(crate) fn has(self, level: Level) -> bool {
        match level {
            Level::One => self.one,
            Level::Two => self.two,
        }
    }

    pub(crate) fn only(level: Level) -> Levels {
        Levels::NONE.with(level)
    }

    pub(crate) fn with(mut self, level: Level) -> Levels {
        match level {
            Level::One => self.one = true,
            Level::Two => self.two = true,
        }
        self
    }

    pub(crate) fn union(self, other: Levels) -> Levels {
        Levels { one: self.one || other.one, two: self.two || other.two }
    }
}

/// The settings of one circuit.
#[derive(Clone, Copy, Debug, PartialEq, Eq)]
pub struct CircuitSettings {
    /// Point-to-point or LAN.
    pub kind: Kind,
    /// The enabled levels, at least one.
    pub levels: Levels,
    /// Our own MAC.
    pub mac: Mac,
    /// Our own priority, 0 to 127.
    pub priority: u8,
    /// The configured holding time in seconds, 1 to 65,535.
    pub hold: u16,
    /// The configured wide metric, 0 to 16,777,214.
    pub metric: u32,
    /// Our own extended circuit ID; a LAN has none and does not read it.
    pub id: u32,
}

/// The settings of a gateway.
#[derive(Clone, Debug, PartialEq, Eq)]
pub struct Settings {
    /// Our own System ID.
    pub system: SystemId,
    /// The length of T1 in seconds, 1 to 65,535.
    pub t1: u16,
    /// The length of T2 in seconds, 1 to 65,535.
    pub t2: u16,
    /// After so many expiries T1 stops, 1 to 255.
    pub tries: u8,
    /// The clock in seconds.
    pub clock: u32,
    /// Running, Restarting or Starting.
    pub mode: Mode,
    /// The circuits in the order of their numbers, 1 to 8 of them.
    pub circuits: Vec<CircuitSettings>,
}

impl CircuitSettings {
    fn in_range(&self) -> bool {
        !self.levels.is_empty() && self.priority <= MAX_PRIORITY && self.hold >= 1 && self.metric <= MAX_METRIC
    }
}

impl Settings {
    /// Refuses (12) a setting out of range. The timers are checked in Running mode too.
    pub(crate) fn check(&self) -> Result<(), Refusal> {
        let whole = self.t1 >= 1 && self.t2 >= 1 && self.tries >= 1;
        let count = (1..=MAX_CIRCUITS).contains(&self.circuits.len());
        if whole && count && self.circuits.iter().all(CircuitSettings::in_range) {
            Ok(())
        } else {
            Err(Refusal::Setting)
        }
    }
}
