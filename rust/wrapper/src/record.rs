//! The record of a neighbour (the adjacency entry of ISO 10589), and what a frame makes of it.
use crate::names::{Level, SystemId};

/// A mark of an UP record.
#[derive(Clone, Copy, PartialEq, Eq, Hash, Debug)]
#[non_exhaustive]
pub enum Mark {
    /// None.
    Clear,
    /// The neighbour restarts.
    Restart,
    /// The neighbour plans to restart.
    Planned,
}

/// A record's state (of ISO 10589: there is no other).
#[derive(Clone, Copy, PartialEq, Eq, Hash, Debug)]
pub enum Phase {
    /// INIT.
    Init,
    /// UP, with its mark.
    Up(Mark),
}

/// The reverse metric of a neighbour's last frame (RFC 8500).
#[derive(Clone, Copy, PartialEq, Eq, Hash, Debug)]
pub struct ReverseMetric {
    /// The offset.
    pub offset: u32,
    /// The W flag.
    pub whole_lan: bool,
    /// The U flag.
    pub unreachable: bool,
}

/// The record of a neighbour (the adjacency entry of ISO 10589).
#[derive(Clone, Copy, PartialEq, Eq, Hash, Debug)]
pub struct Record {
    /// INIT or UP.
    pub phase: Phase,
    /// Whether it goes into our LSPs: it is UP and not suppressed.
    pub advertised: bool,
    /// The clock at which a tick removes it.
    pub expiry: u64,
    /// Mark Suppressed: from a hello with SA to one with SA clear, or without the Restart TLV.
    pub suppressed: bool,
    /// Of its last accepted frame the priority.
    pub priority: u8,
    /// Whether that frame had a Restart TLV.
    pub tlv: bool,
    /// The reverse metric, if exactly one came.
    pub reverse: Option<ReverseMetric>,
}

impl Record {
    pub(crate) fn of_words(answer: u32, [expiry, word]: [u64; 2]) -> Option<Record> {
        let bit = |at: u32| word >> at & 1 == 1;
        let mark = match word & 3 {
            0 => Mark::Clear,
            1 => Mark::Restart,
            _ => Mark::Planned,
        };
        let phase = match (answer >> 8) as u8 {
            0 => return None,
            1 => Phase::Init,
            _ => Phase::Up(mark),
        };
        let reverse = bit(4).then(|| ReverseMetric { offset: (word >> 32) as u32, whole_lan: bit(5), unreachable: bit(6) });
        Some(Record {
            phase,
            advertised: answer >> 16 & 1 == 1,
            expiry,
            suppressed: bit(2),
            priority: (word >> 8) as u8,
            tlv: bit(3),
            reverse,
        })
    }
}

/// Whether a record stands, and its state (of ISO 10589: there is no other).
#[derive(Clone, Copy, PartialEq, Eq, Hash, Debug)]
pub enum Standing {
    /// There is none.
    None,
    /// INIT.
    Init,
    /// UP.
    Up,
}

/// What became of the record of a frame.
#[derive(Clone, Copy, PartialEq, Eq, Hash, Debug)]
pub struct Change {
    /// The level of its key; none on P2P.
    pub level: Option<Level>,
    /// The System ID of its key.
    pub system: SystemId,
    /// How it stood before the frame.
    pub before: Standing,
    /// How it stands after it.
    pub after: Standing,
    /// Whether it goes into our LSPs after it: it is UP and not suppressed.
    pub advertised: bool,
}

impl Change {
    pub(crate) fn of_word(word: u64) -> Change {
        let standing = |at: u32| match word >> at & 3 {
            0 => Standing::None,
            1 => Standing::Init,
            _ => Standing::Up,
        };
        let level = match word >> 48 & 3 {
            1 => Some(Level::One),
            2 => Some(Level::Two),
            _ => None,
        };
        let [_, _, system @ ..] = word.to_be_bytes();
        Change { level, system: SystemId(system), before: standing(50), after: standing(52), advertised: word >> 54 & 1 == 1 }
    }
}
