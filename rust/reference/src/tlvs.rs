//! The values of the TLVs that are read (document 01, "TLVs read").

use crate::settings::SystemId;

/// A rule of "TLVs read" is broken.
#[derive(Clone, Copy, Debug, PartialEq, Eq)]
pub(crate) struct Broken;

/// The flags octet of a Restart TLV; RFC 8706, 3.2. The reserved bits mean nothing.
#[derive(Clone, Copy, Debug, PartialEq, Eq)]
pub(crate) struct Flags(u8);

impl Flags {
    pub(crate) const NONE: Flags = Flags(0);
    pub(crate) const RR: Flags = Flags(1);
    pub(crate) const RA: Flags = Flags(2);
    pub(crate) const SA: Flags = Flags(4);
    pub(crate) const PR: Flags = Flags(8);
    pub(crate) const PA: Flags = Flags(16);

    pub(crate) const fn octet(self) -> u8 {
        self.0
    }

    pub(crate) fn has(self, flag: Flags) -> bool {
        self.0 & flag.0 != 0
    }

    pub(crate) const fn and(self, other: Flags) -> Flags {
        Flags(self.0 | other.0)
    }

    const fn without(self, flag: Flags) -> Flags {
        Flags(self.0 & !flag.0)
    }

    /// The flags that count: the five known ones, without PR where RR stands (house).
    fn in_force(self) -> Flags {
        const KNOWN: Flags = Flags::RR.and(Flags::RA).and(Flags::SA).and(Flags::PR).and(Flags::PA);
        let known = Flags(self.0 & KNOWN.0);
        if known.has(Flags::RR) {
            known.without(Flags::PR)
        } else {
            known
        }
    }

    /// Several flags are valid only as RR with SA; "Received TLVs that have invalid flag combinations set MUST be ignored"
    /// (RFC 8706, 3.2).
    fn valid_together(self) -> bool {
        self.0.count_ones() <= 1 || self == Flags::RR.and(Flags::SA)
    }
}

/// The Restart TLV of a frame.
#[derive(Clone, Copy, Debug, PartialEq, Eq)]
pub(crate) enum RestartTlv {
    /// The frame has none.
    Absent,
    /// The frame has one whose flags may not stand together: it counts as there, and says nothing.
    Ignored,
    /// The frame has one.
    Present {
        flags: Flags,
        /// The Remaining Time; required with RA, PR and PA, and used only there.
        remaining: u16,
        /// The Restarting Neighbor System ID; required with RA and PA, and used only there.
        neighbour: SystemId,
    },
}

impl RestartTlv {
    /// Length 1 to 9; at least 3 with PR; 9 with RA or PA (house). The lengths go by the octet as it came.
    pub(crate) fn decode(value: &[u8]) -> Result<RestartTlv, Broken> {
        let [octet, fields @ ..] = value else { return Err(Broken) };
        let flags = Flags(*octet);
        let needed = if flags.has(Flags::RA) || flags.has(Flags::PA) {
            9
        } else if flags.has(Flags::PR) {
            3
        } else {
            1
        };
        if value.len() < needed || value.len() > 9 {
            return Err(Broken);
        }
        let flags = flags.in_force();
        if !flags.valid_together() {
            return Ok(RestartTlv::Ignored);
        }
        let remaining = match fields {
            [high, low, ..] => u16::from_be_bytes([*high, *low]),
            _ => 0,
        };
        let neighbour = match fields {
            [_, _, a, b, c, d, e, f] => [*a, *b, *c, *d, *e, *f],
            _ => [0; 6],
        };
        Ok(RestartTlv::Present { flags, remaining, neighbour })
    }

    pub(crate) fn has(self, flag: Flags) -> bool {
        match self {
            RestartTlv::Present { flags, .. } => flags.has(flag),
            RestartTlv::Absent | RestartTlv::Ignored => false,
        }
    }
}

/// The sender's three-way state (RFC 5303).
#[derive(Clone, Copy, Debug, PartialEq, Eq)]
pub(crate) enum ThreeWayState {
    Up,
    Initializing,
    Down,
}

/// The three-way TLV of a point-to-point hello, without the sender's own circuit ID: nothing reads that.
#[derive(Clone, Copy, Debug, PartialEq, Eq)]
pub(crate) struct ThreeWay {
    pub(crate) state: ThreeWayState,
    /// The Neighbor System ID, if present.
    pub(crate) neighbour: Option<SystemId>,
    /// The Neighbor Extended Circuit ID, if present.
    pub(crate) circuit: Option<u32>,
}

impl ThreeWay {
    /// Length 1, 5, 11 or 15; state 0, 1 or 2.
    pub(crate) fn decode(value: &[u8]) -> Result<ThreeWay, Broken> {
        let (state, neighbour, circuit) = match *value {
            [state] | [state, _, _, _, _] => (state, None, None),
            [state, _, _, _, _, a, b, c, d, e, f] => (state, Some([a, b, c, d, e, f]), None),
            [state, _, _, _, _, a, b, c, d, e, f, i, j, k, l] => (state, Some([a, b, c, d, e, f]), Some(u32::from_be_bytes([i, j, k, l]))),
            _ => return Err(Broken),
        };
        let state = match state {
            0 => ThreeWayState::Up,
            1 => ThreeWayState::Initializing,
            2 => ThreeWayState::Down,
            _ => return Err(Broken),
        };
        Ok(ThreeWay { state, neighbour, circuit })
    }

    /// A Neighbor System ID is present and not ours.
    pub(crate) fn wrong_system(&self, system: &SystemId) -> bool {
        self.neighbour.is_some_and(|named| named != *system)
    }

    /// A Neighbor Extended Circuit ID is present and not ours.
    pub(crate) fn wrong_circuit(&self, id: u32) -> bool {
        self.circuit.is_some_and(|named| named != id)
    }
}

/// A neighbour's reverse metric (RFC 8500, 2).
#[derive(Clone, Copy, Debug, PartialEq, Eq)]
pub struct Reverse {
    /// The offset to add to our metric, 24 bits.
    pub offset: u32,
    /// W: the whole LAN is meant.
    pub whole: bool,
    /// U: the sum may reach the metric of an unreachable link.
    pub unreachable: bool,
}

impl Reverse {
    const W: u8 = 1;
    const U: u8 = 2;

    /// Length at least 5, of which the sub-TLV length is the rest. None where the whole TLV must be ignored, because it
    /// holds the Traffic Engineering Metric more than once (RFC 8500, 2).
    pub(crate) fn decode(value: &[u8]) -> Result<Option<Reverse>, Broken> {
        let [flags, high, middle, low, length, inner @ ..] = value else { return Err(Broken) };
        if usize::from(*length) != inner.len() {
            return Err(Broken);
        }
        if te_metrics(inner) > 1 {
            return Ok(None);
        }
        Ok(Some(Reverse {
            offset: u32::from_be_bytes([0, *high, *middle, *low]),
            whole: flags & Reverse::W != 0,
            unreachable: flags & Reverse::U != 0,
        }))
    }
}

/// How many whole sub-TLVs of type 18 there are; a sub-TLV that passes the end ends the walk and breaks no rule.
fn te_metrics(mut inner: &[u8]) -> usize {
    const TE_METRIC: u8 = 18;
    let mut count = 0;
    while let [kind, length, rest @ ..] = inner {
        let Some((_, next)) = rest.split_at_checked(usize::from(*length)) else { break };
        count += usize::from(*kind == TE_METRIC);
        inner = next;
    }
    count
}
