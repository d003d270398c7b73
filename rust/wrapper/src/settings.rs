//! The settings that a gateway is set up with (document 01, "What the gateway holds").
use crate::ffi::{CIRCUITS, SETTINGS_OCTETS};
use crate::names::{Levels, Mac, SystemId};
use core::fmt;

/// The kind of a circuit (of ISO 10589: there is no other).
#[derive(Clone, Copy, PartialEq, Eq, Hash, Debug)]
pub enum Kind {
    /// A LAN, with room for 16 records over both levels.
    Lan,
    /// Point-to-point, with room for one record.
    P2p,
}

/// The mode that a gateway is set up in.
#[derive(Clone, Copy, PartialEq, Eq, Hash, Debug)]
#[non_exhaustive]
pub enum Mode {
    /// It helps neighbours that restart.
    Running,
    /// It restarts itself, and forwarding went on (RFC 8706, 3.3.1).
    Restarting,
    /// It starts without forwarding tables (RFC 8706, 3.3.2).
    Starting,
}

impl Mode {
    fn number(self) -> u8 {
        match self {
            Mode::Running => 0,
            Mode::Restarting => 1,
            Mode::Starting => 2,
        }
    }
}

/// One circuit's settings. Where a method is not called: priority 64, holding time 30 s, metric 10, extended circuit ID 0.
#[derive(Clone, Copy, PartialEq, Eq, Debug)]
pub struct CircuitSettings {
    pub(crate) kind: Kind,
    pub(crate) levels: Levels,
    pub(crate) mac: Mac,
    pub(crate) priority: u8,
    pub(crate) hold: u16,
    pub(crate) metric: u32,
    pub(crate) id: u32,
}

impl CircuitSettings {
    /// A circuit of a kind with its enabled levels and our own MAC there.
    pub fn new(kind: Kind, levels: Levels, mac: Mac) -> CircuitSettings {
        CircuitSettings { kind, levels, mac, priority: 64, hold: 30, metric: 10, id: 0 }
    }

    /// Our priority, 0 to 127.
    pub fn priority(self, priority: u8) -> CircuitSettings {
        CircuitSettings { priority, ..self }
    }

    /// The configured holding time in seconds, 1 to 65,535.
    pub fn hold(self, hold: u16) -> CircuitSettings {
        CircuitSettings { hold, ..self }
    }

    /// The configured wide metric, 0 to 16,777,214.
    pub fn metric(self, metric: u32) -> CircuitSettings {
        CircuitSettings { metric, ..self }
    }

    /// Our own extended circuit ID, of a P2P circuit.
    pub fn extended_circuit_id(self, id: u32) -> CircuitSettings {
        CircuitSettings { id, ..self }
    }
}

/// A gateway's settings. Where a method is not called: T1 3 s, T2 60 s, 3 tries.
#[derive(Clone, Copy, PartialEq, Eq, Debug)]
pub struct Settings {
    pub(crate) system: SystemId,
    pub(crate) mode: Mode,
    pub(crate) clock: u32,
    pub(crate) t1: u16,
    pub(crate) t2: u16,
    pub(crate) tries: u8,
    pub(crate) count: usize,
    pub(crate) circuits: [CircuitSettings; CIRCUITS],
}

/// The first setting that is out of its range.
#[derive(Clone, Copy, PartialEq, Eq, Debug)]
pub struct SettingError {
    /// Its name, as the method that sets it.
    pub field: &'static str,
    /// The circuit that it is of, from 1, where it is of one.
    pub circuit: Option<usize>,
}

impl fmt::Display for SettingError {
    fn fmt(&self, f: &mut fmt::Formatter<'_>) -> fmt::Result {
        match self.circuit {
            Some(number) => write!(f, "circuit {number}: {} is out of its range", self.field),
            None => write!(f, "{} is out of its range", self.field),
        }
    }
}

impl core::error::Error for SettingError {}

impl Settings {
    /// A gateway with no circuit yet: our own System ID, the mode, and the clock in seconds.
    pub fn new(system: SystemId, mode: Mode, clock: u32) -> Settings {
        let blank = CircuitSettings::new(Kind::Lan, Levels::BOTH, Mac([0; 6]));
        Settings { system, mode, clock, t1: 3, t2: 60, tries: 3, count: 0, circuits: [blank; CIRCUITS] }
    }

    /// One more circuit; the first has the number 1.
    pub fn circuit(mut self, circuit: CircuitSettings) -> Settings {
        if let Some(place) = self.circuits.get_mut(self.count) {
            *place = circuit;
        }
        self.count += 1;
        self
    }

    /// T1's length in seconds, 1 to 65,535.
    pub fn t1(self, t1: u16) -> Settings {
        Settings { t1, ..self }
    }

    /// T2's length in seconds, 1 to 65,535.
    pub fn t2(self, t2: u16) -> Settings {
        Settings { t2, ..self }
    }

    /// How often T1 is tried, 1 to 255.
    pub fn tries(self, tries: u8) -> Settings {
        Settings { tries, ..self }
    }

    /// The first setting that is out of its range, of settings that the archive refused, as the archive says it.
    pub(crate) fn fault(&self) -> SettingError {
        let word = crate::ffi::fault(&self.octets());
        let field = match word & 0xFF {
            1 => "version",
            2 => "t1",
            3 => "t2",
            4 => "tries",
            5 => "mode",
            6 => "circuit",
            7 => "kind",
            8 => "levels",
            9 => "priority",
            10 => "hold",
            _ => "metric",
        };
        let circuit = (word >> 8) as usize;
        SettingError { field, circuit: (circuit != 0).then_some(circuit) }
    }

    /// The octets that the archive takes.
    pub(crate) fn octets(&self) -> [u8; SETTINGS_OCTETS] {
        let mut out = [0; SETTINGS_OCTETS];
        out[..6].copy_from_slice(&self.system.0);
        out[6..8].copy_from_slice(&self.t1.to_be_bytes());
        out[8..10].copy_from_slice(&self.t2.to_be_bytes());
        out[10] = self.tries;
        out[11..15].copy_from_slice(&self.clock.to_be_bytes());
        out[15] = self.mode.number();
        out[16] = u8::try_from(self.count).unwrap_or(u8::MAX);
        for (circuit, at) in self.circuits.iter().zip(out[17..].chunks_exact_mut(19)) {
            at[0] = u8::from(circuit.kind == Kind::P2p);
            at[1] = circuit.levels.mask();
            at[2..8].copy_from_slice(&circuit.mac.0);
            at[8] = circuit.priority;
            at[9..11].copy_from_slice(&circuit.hold.to_be_bytes());
            at[11..15].copy_from_slice(&circuit.metric.to_be_bytes());
            at[15..19].copy_from_slice(&circuit.id.to_be_bytes());
        }
        out
    }
}
