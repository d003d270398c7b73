//! What is wrong at the position that a refusal brings, in words (document 02, W-206). Nothing here decides: the archive found the place, and the frame is
//! read again there alone.
use crate::refusals::Refusal;
use core::fmt;

const TYPE: usize = 4;
const CIRCUIT_TYPE: usize = 8;
const P2P_HELLO: u8 = 17;
const P2P_HEADER: usize = 20;
const LAN_HEADER: usize = 27;

const IS_NEIGHBOURS: u8 = 6;
const REVERSE_METRIC: u8 = 16;
const RESTART: u8 = 211;
const THREE_WAY: u8 = 240;

/// The flags of a Restart TLV that ask for a length.
const RA: u8 = 2;
const PR: u8 = 8;
const PA: u8 = 16;

impl Refusal {
    /// What is wrong with the frame that was refused, in words that name the TLV, its octet and the rule. A refusal without a position prints as it does
    /// by itself. Any other frame is safe too, but the words are then of no use.
    ///
    /// ```
    /// # use isis_gr::{Circuit, CircuitSettings, Gateway, Kind, Levels, Mac, Mode, Refusal, Settings, SystemId, REPLY_OCTETS};
    /// # let p2p = CircuitSettings::new(Kind::P2p, Levels::TWO, Mac([2; 6]));
    /// # let mut gateway = Gateway::new();
    /// # gateway.set_up(&Settings::new(SystemId([1; 6]), Mode::Running, 0).circuit(p2p)).expect("in range");
    /// # let (first, peer) = (Circuit::new(1).expect("1 to 8"), Mac([2, 0, 0, 0, 0, 2]));
    /// let mut frame = vec![0x83, 20, 1, 0, 17, 1, 0, 0, 3, 2, 2, 2, 2, 2, 2, 0, 27, 0, 40, 1];
    /// frame.extend([240, 1, 0]); // octets 21 to 23: three-way, Up
    /// frame.extend([8, 11, 0, 0, 0, 0, 0, 0, 0, 0, 0, 0, 0]); // octets 24 to 36: padding
    /// frame.extend([211, 2, 8, 0]); // octets 37 to 40: the Restart TLV with PR, and one octet of its Remaining Time
    /// let refusal = gateway.receive(first, peer, &frame, &mut [0; REPLY_OCTETS]).unwrap_err();
    /// assert_eq!(refusal, Refusal::BadTlv { position: 37 });
    /// assert_eq!(refusal.in_frame(&frame).to_string(), "TLV 211 at octet 37: length 2, at least 3 with PR");
    /// ```
    pub fn in_frame(self, frame: &[u8]) -> InFrame<'_> {
        InFrame { refusal: self, frame }
    }
}

/// A refusal and the frame that was refused; it prints what is wrong there.
#[derive(Clone, Copy, PartialEq, Eq, Hash, Debug)]
pub struct InFrame<'a> {
    refusal: Refusal,
    frame: &'a [u8],
}

/// The rule that a TLV breaks.
enum Broken {
    Second { allowed: &'static str },
    Length(&'static str),
    State(u8),
    SubTlvs { told: u8, left: usize },
    PassesEnd { left: usize },
    NoLength,
}

impl InFrame<'_> {
    /// The octets that count: the first PDU Length of those lent.
    fn pdu(&self) -> &[u8] {
        match self.frame {
            [_, _, _, _, _, _, _, _, _, _, _, _, _, _, _, _, _, high, low, ..] => {
                let length = usize::from(u16::from_be_bytes([*high, *low]));
                self.frame.get(..length).unwrap_or(self.frame)
            }
            short => short,
        }
    }

    fn is_p2p(&self) -> bool {
        self.frame.get(TYPE).is_some_and(|octet| octet % 32 == P2P_HELLO)
    }

    /// Whether a TLV of this type stands before a place.
    fn came_before(&self, kind: u8, place: usize) -> bool {
        let pdu = self.pdu();
        let mut at = if self.is_p2p() { P2P_HEADER } else { LAN_HEADER };
        while at < place {
            let [found, length, ..] = pdu.get(at..).unwrap_or_default() else { return false };
            if *found == kind {
                return true;
            }
            at += 2 + usize::from(*length);
        }
        false
    }

    /// The rule that the TLV at a place breaks, with its type and its length.
    fn broken(&self, at: usize) -> Option<(u8, u8, Broken)> {
        let (kind, rest) = self.pdu().get(at..)?.split_first()?;
        let Some((length, rest)) = rest.split_first() else { return Some((*kind, 0, Broken::NoLength)) };
        let (kind, length) = (*kind, *length);
        let Some(value) = rest.get(..usize::from(length)) else { return Some((kind, length, Broken::PassesEnd { left: rest.len() })) };
        let rule = match kind {
            RESTART if self.came_before(RESTART, at) => Broken::Second { allowed: "at most one" },
            RESTART => Broken::Length(restart_rule(value)?),
            THREE_WAY if !self.is_p2p() => return None,
            THREE_WAY if self.came_before(THREE_WAY, at) => Broken::Second { allowed: "exactly one" },
            THREE_WAY => match value {
                [state, ..] if matches!(value.len(), 1 | 5 | 11 | 15) => Broken::State(Some(*state).filter(|state| *state > 2)?),
                _ => Broken::Length("one of 1, 5, 11 and 15"),
            },
            IS_NEIGHBOURS if !self.is_p2p() && value.len() % 6 != 0 => Broken::Length("a multiple of 6"),
            REVERSE_METRIC => match value {
                [_, _, _, _, told, left @ ..] if usize::from(*told) != left.len() => Broken::SubTlvs { told: *told, left: left.len() },
                [_, _, _, _, _, ..] => return None,
                _ => Broken::Length("at least 5"),
            },
            _ => return None,
        };
        Some((kind, length, rule))
    }
}

/// The length that a Restart TLV's flags ask for, where its value has another.
fn restart_rule(value: &[u8]) -> Option<&'static str> {
    let flags = match value {
        [flags, ..] if value.len() <= 9 => *flags,
        _ => return Some("1 to 9"),
    };
    if flags & RA != 0 && value.len() < 9 {
        Some("9 with RA")
    } else if flags & PA != 0 && value.len() < 9 {
        Some("9 with PA")
    } else if flags & PR != 0 && value.len() < 3 {
        Some("at least 3 with PR")
    } else {
        None
    }
}

impl fmt::Display for InFrame<'_> {
    /// As `TLV 211 at octet 37: length 2, at least 3 with PR`.
    fn fmt(&self, f: &mut fmt::Formatter<'_>) -> fmt::Result {
        let Some(position) = self.refusal.position() else { return self.refusal.fmt(f) };
        let end = self.pdu().len();
        let Some(at) = usize::from(position).checked_sub(1) else { return self.refusal.fmt(f) };
        if at == CIRCUIT_TYPE && end > at {
            return write!(f, "circuit type at octet {position}: {}, its low two bits are 0", self.frame[at]);
        }
        if at == end && self.is_p2p() {
            return write!(f, "no TLV {THREE_WAY} up to octet {end}, the last of the PDU: exactly one");
        }
        let Some((kind, length, rule)) = self.broken(at) else { return self.refusal.fmt(f) };
        write!(f, "TLV {kind} at octet {position}: ")?;
        match rule {
            Broken::Second { allowed } => write!(f, "the second, {allowed}"),
            Broken::Length(asked) => write!(f, "length {length}, {asked}"),
            Broken::State(state) => write!(f, "state {state}, one of 0, 1 and 2"),
            Broken::SubTlvs { told, left } => write!(f, "length {length} and sub-TLV length {told}, {left} octets of sub-TLVs"),
            Broken::PassesEnd { left } => write!(f, "length {length}, {left} octets left up to the PDU Length, {end}"),
            Broken::NoLength => write!(f, "no length octet up to the PDU Length, {end}"),
        }
    }
}
