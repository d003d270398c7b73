//! Why a call was refused (document 01, "Refusals by number"; document 02, W-205 and W-206).

/// A refusal. Those of one call are checked in the order of their numbers, but that 13 and 14 come right after 1.
#[derive(Clone, Copy, Debug, PartialEq, Eq)]
pub enum Refusal {
    /// No. 1: no circuit of that number, or a level not enabled there.
    NoCircuit,
    /// No. 2: the reply buffer has under 11 octets.
    ReplyRoom,
    /// No. 3: not a hello that fits the circuit.
    NotAHello,
    /// No. 4: a length of the header is wrong.
    HeaderLength,
    /// No. 5: a TLV passes the PDU Length.
    TlvPastEnd {
        /// Its type octet, counted from 1.
        position: u16,
    },
    /// No. 6: a rule of "TLVs read" is broken, or the circuit type is 0.
    TlvRule {
        /// The type octet of the first TLV that breaks one, counted from 1; 9 for the circuit type; the PDU Length plus 1 for a three-way TLV that
        /// is missing.
        position: u16,
    },
    /// No. 7: the LAN level is not enabled, or the source is ourselves.
    NotForUs,
    /// No. 8: the three-way TLV names another system or circuit.
    OtherNeighbour,
    /// No. 9: the circuit's room is full.
    RoomFull,
    /// No. 10: the clock is lower than the held clock.
    ClockBack,
    /// No. 11: a notice outside the modes Restarting and Starting (document 02, W-201).
    NotRestarting,
    /// No. 12: a setting out of range.
    Setting,
    /// No. 13: a chunk or an end, and no frame is begun.
    NotBegun,
    /// No. 14: more than 1,500 octets joined.
    TooLong,
}

impl Refusal {
    /// The refusal's number in documents 01 and 02.
    pub fn number(self) -> u8 {
        match self {
            Refusal::NoCircuit => 1,
            Refusal::ReplyRoom => 2,
            Refusal::NotAHello => 3,
            Refusal::HeaderLength => 4,
            Refusal::TlvPastEnd { .. } => 5,
            Refusal::TlvRule { .. } => 6,
            Refusal::NotForUs => 7,
            Refusal::OtherNeighbour => 8,
            Refusal::RoomFull => 9,
            Refusal::ClockBack => 10,
            Refusal::NotRestarting => 11,
            Refusal::Setting => 12,
            Refusal::NotBegun => 13,
            Refusal::TooLong => 14,
        }
    }

    /// The position that it brings, if it is one of those that do.
    pub fn position(self) -> Option<u16> {
        match self {
            Refusal::TlvPastEnd { position } | Refusal::TlvRule { position } => Some(position),
            _ => None,
        }
    }
}
