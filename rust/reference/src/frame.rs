//! Hello frames: the header, the walk over the TLVs, and refusals 3 to 6 (document 01, "Hello frames", "TLVs read").
//!
//! ```text
//! octet   1     2      3    4     5     6    7      8      9        10-15   16-17    18-19   20         21-27
//!       +-----+------+---+------+------+---+------+------+---------+------+---------+-------+----------+--------+
//!       |0x83 |header| 1 |  ID  | PDU  | 1 | rsvd | area | circuit |source| Holding |  PDU  | LAN: prio| LAN ID |
//!       |     |length|   |length| type |   |      | count| type    |  ID  |  Time   | Length| P2P: circuit ID   |
//!       +-----+------+---+------+------+---+------+------+---------+------+---------+-------+----------+--------+
//! ```
//!
//! Document 01 counts octets from 1, the code from 0.

use crate::refusal::Refusal;
use crate::settings::{Kind, Level, Mac, SystemId};
use crate::tlvs::{Broken, RestartTlv, Reverse, ThreeWay, ThreeWayState};

/// The greatest PDU Length that is accepted.
const MAX_PDU_LENGTH: usize = 1_492;
const COMMON_HEADER: usize = 8;
const LAN_HEADER: usize = 27;
const P2P_HEADER: usize = 20;
const CIRCUIT_TYPE: usize = 8;

const IS_NEIGHBOURS: u8 = 6;
const REVERSE_METRIC: u8 = 16;
/// The type of the Restart TLV.
pub(crate) const RESTART: u8 = 211;
const THREE_WAY: u8 = 240;

/// What a hello says that depends on the circuit's kind.
#[derive(Clone, Copy, Debug, PartialEq, Eq)]
pub(crate) enum Link {
    Lan {
        level: Level,
        priority: u8,
        /// A type 6 TLV lists our MAC.
        listed: bool,
    },
    PointToPoint(ThreeWay),
}

/// A well-formed hello.
#[derive(Clone, Copy, Debug, PartialEq, Eq)]
pub(crate) struct Hello {
    pub(crate) source: SystemId,
    pub(crate) hold: u16,
    pub(crate) restart: RestartTlv,
    pub(crate) reverse: Option<Reverse>,
    pub(crate) link: Link,
}

impl Hello {
    /// Whether the sender shows us Up: three-way state Up, or our MAC listed.
    pub(crate) fn shows_us_up(&self) -> bool {
        match self.link {
            Link::Lan { listed, .. } => listed,
            Link::PointToPoint(three) => three.state == ThreeWayState::Up,
        }
    }
}

/// The layout that the PDU type selects.
#[derive(Clone, Copy)]
enum Layout {
    Lan(Level),
    PointToPoint,
}

impl Layout {
    /// By the type's low five bits, all others refused (3), as is one of the circuit's other kind.
    fn select(pdu_type: u8, kind: Kind) -> Result<Layout, Refusal> {
        match (pdu_type & 0x1f, kind) {
            (15, Kind::Lan) => Ok(Layout::Lan(Level::One)),
            (16, Kind::Lan) => Ok(Layout::Lan(Level::Two)),
            (17, Kind::PointToPoint) => Ok(Layout::PointToPoint),
            _ => Err(Refusal::NotAHello),
        }
    }

    fn header(self) -> usize {
        match self {
            Layout::Lan(_) => LAN_HEADER,
            Layout::PointToPoint => P2P_HEADER,
        }
    }
}

/// How often a TLV type came, with its value if once.
#[derive(Clone, Copy)]
enum Found<'a> {
    Never,
    Once(&'a [u8]),
    More,
}

impl<'a> Found<'a> {
    fn add(&mut self, value: &'a [u8]) {
        *self = match self {
            Found::Never => Found::Once(value),
            Found::Once(_) | Found::More => Found::More,
        };
    }
}

/// What the walk over the TLVs finds.
struct Walk<'a> {
    restart: Found<'a>,
    three_way: Found<'a>,
    reverse: Found<'a>,
    /// A type 6 TLV lists our MAC.
    listed: bool,
    /// A type 6 TLV has a length that is no multiple of 6.
    ragged: bool,
}

/// A TLV that passes the end, and what is left of the PDU from it on.
struct PastEnd {
    left: usize,
}

impl<'a> Walk<'a> {
    /// One pass to the end; refuses (5) a TLV that passes it. The rules are looked at afterwards, since 5 comes before 6.
    fn over(mut rest: &'a [u8], mac: &Mac) -> Result<Walk<'a>, PastEnd> {
        let mut walk = Walk { restart: Found::Never, three_way: Found::Never, reverse: Found::Never, listed: false, ragged: false };
        while let [kind, after @ ..] = rest {
            let past_end = PastEnd { left: rest.len() };
            let [length, after @ ..] = after else { return Err(past_end) };
            let Some((value, next)) = after.split_at_checked(usize::from(*length)) else { return Err(past_end) };
            match *kind {
                RESTART => walk.restart.add(value),
                THREE_WAY => walk.three_way.add(value),
                REVERSE_METRIC => walk.reverse.add(value),
                IS_NEIGHBOURS => {
                    let sixes = value.chunks_exact(mac.len());
                    walk.ragged |= !sixes.remainder().is_empty();
                    walk.listed = walk.listed || sixes.into_iter().any(|six| six == mac);
                }
                _ => {}
            }
            rest = next;
        }
        Ok(walk)
    }
}

/// Reads a hello on a circuit of the given kind, where our own MAC is `mac`; refusals 3 to 6.
pub(crate) fn read_hello(frame: &[u8], kind: Kind, mac: &Mac) -> Result<Hello, Refusal> {
    if frame.len() < COMMON_HEADER || frame[0] != 0x83 || frame[2] != 1 || !matches!(frame[3], 0 | 6) || frame[5] != 1 {
        return Err(Refusal::NotAHello);
    }
    let layout = Layout::select(frame[4], kind)?;
    let header = layout.header();
    if frame.len() < header || usize::from(frame[1]) != header {
        return Err(Refusal::HeaderLength);
    }
    let length = usize::from(u16::from_be_bytes([frame[17], frame[18]]));
    if length < header || length > frame.len() || length > MAX_PDU_LENGTH {
        return Err(Refusal::HeaderLength);
    }

    let pdu = &frame[..length];
    let walk = Walk::over(&pdu[header..], mac).map_err(|PastEnd { left }| Refusal::TlvPastEnd { position: octet_number(length - left) })?;
    if pdu[CIRCUIT_TYPE] & 3 == 0 {
        return Err(Refusal::TlvRule { position: octet_number(CIRCUIT_TYPE) });
    }
    let broken = || Refusal::TlvRule { position: octet_number(first_broken(pdu, layout)) };
    let restart = match walk.restart {
        Found::Never => RestartTlv::Absent,
        Found::Once(value) => RestartTlv::decode(value).map_err(|Broken| broken())?,
        Found::More => return Err(broken()),
    };
    let reverse = match walk.reverse {
        Found::Once(value) => Reverse::decode(value).map_err(|Broken| broken())?,
        Found::Never | Found::More => None,
    };
    let link = match layout {
        Layout::Lan(_) if walk.ragged => return Err(broken()),
        Layout::Lan(level) => Link::Lan { level, priority: frame[19] & 0x7f, listed: walk.listed },
        Layout::PointToPoint => match walk.three_way {
            Found::Once(value) => Link::PointToPoint(ThreeWay::decode(value).map_err(|Broken| broken())?),
            Found::Never | Found::More => return Err(broken()),
        },
    };
    Ok(Hello {
        source: [frame[9], frame[10], frame[11], frame[12], frame[13], frame[14]],
        hold: u16::from_be_bytes([frame[15], frame[16]]),
        restart,
        reverse,
        link,
    })
}

/// Document 01's number of the octet at an index of a PDU, which has no more than 1,492.
fn octet_number(at: usize) -> u16 {
    at as u16 + 1
}

/// Where the first TLV stands that breaks a rule, whatever the rule; where none does the three-way TLV is missing, and it is the end of the PDU. Counted from 0.
#[cold]
#[inline(never)]
fn first_broken(pdu: &[u8], layout: Layout) -> usize {
    let (mut restart, mut three_way, mut reverse) = (false, false, Found::Never);
    let (mut first, mut reverse_at) = (pdu.len(), 0);
    let mut at = layout.header();
    while let Some([kind, length, rest @ ..]) = pdu.get(at..) {
        let value = &rest[..usize::from(*length)];
        let broken = match (*kind, layout) {
            (RESTART, _) => std::mem::replace(&mut restart, true) || RestartTlv::decode(value).is_err(),
            (THREE_WAY, Layout::PointToPoint) => std::mem::replace(&mut three_way, true) || ThreeWay::decode(value).is_err(),
            (IS_NEIGHBOURS, Layout::Lan(_)) => value.len() % 6 != 0,
            (REVERSE_METRIC, _) => {
                reverse.add(value);
                reverse_at = at;
                false
            }
            _ => false,
        };
        if broken {
            first = first.min(at);
        }
        at += 2 + value.len();
    }
    // of type 16 one alone is looked at
    match reverse {
        Found::Once(value) if Reverse::decode(value).is_err() => first.min(reverse_at),
        _ => first,
    }
}
