//! What one accepted frame does to one record (document 01, "The state step", "Marks and holding time").

use crate::answers::ReplyKind;
use crate::frame::{Hello, Link};
use crate::settings::SystemId;
use crate::tlvs::{Flags, RestartTlv, Reverse, ThreeWay, ThreeWayState};

/// The mark of a record; Restart and Planned never stand together, and neither on a record that is not UP.
#[derive(Clone, Copy, Debug, PartialEq, Eq)]
pub enum Mark {
    /// Neither.
    Clear,
    /// The neighbour restarts.
    Restart,
    /// The neighbour is about to restart.
    Planned,
}

/// A record: the adjacency entry of ISO 10589.
#[derive(Clone, Copy, Debug, PartialEq, Eq)]
pub struct Record {
    /// The state: UP, or else INIT.
    pub up: bool,
    /// The clock at which it ends.
    pub expiry: u64,
    /// Restart or Planned.
    pub mark: Mark,
    /// Suppressed: the neighbour asks not to be advertised.
    pub suppressed: bool,
    /// The priority in the last frame; 0 on point-to-point.
    pub priority: u8,
    /// The last frame had a Restart TLV.
    pub tlv: bool,
    /// The reverse metric in the last frame.
    pub reverse: Option<Reverse>,
}

impl Record {
    /// A record is advertised exactly when it is UP and not Suppressed.
    pub fn advertised(&self) -> bool {
        self.up && !self.suppressed
    }
}

/// What the step must know of ourselves.
#[derive(Clone, Copy)]
pub(crate) struct Own {
    pub(crate) system: SystemId,
    /// The circuit's extended circuit ID.
    pub(crate) id: u32,
    /// The circuit's configured holding time.
    pub(crate) hold: u16,
    pub(crate) clock: u32,
    /// The mode is Restarting; Starting steps as Running does (document 02, W-201).
    pub(crate) restarting: bool,
}

/// What a frame does.
#[derive(Clone, Copy)]
pub(crate) struct Reaction {
    /// The record afterwards; none only where none stood before.
    pub(crate) record: Option<Record>,
    pub(crate) reply: Option<ReplyKind>,
    /// Line 1 was taken, the one that asks for CSNPs.
    pub(crate) kept_up: bool,
}

enum Step {
    NoRecord,
    Init,
    Up,
}

fn is_up(record: Option<&Record>) -> bool {
    record.is_some_and(|record| record.up)
}

/// Refusal 8: the three-way TLV names another system or circuit, and nothing excuses it. A restart request excuses it on
/// a record that is UP. While we restart, a wrong circuit ID alone is excused on one that is not: the sender may not have
/// heard our new ID yet (RFC 8706, 3.3.1).
pub(crate) fn names_another(three: &ThreeWay, hello: &Hello, before: Option<&Record>, own: &Own) -> bool {
    let system = three.wrong_system(&own.system);
    let circuit = three.wrong_circuit(own.id);
    let up = is_up(before);
    let asked = up && hello.restart.has(Flags::RR);
    let early = !up && own.restarting && !system;
    (system || circuit) && !asked && !early
}

/// The state afterwards. With RR a record that is UP stays so, whatever the frame says of us (RFC 8706, 3.2.1).
fn step(hello: &Hello, before: Option<&Record>, own: &Own) -> Step {
    if is_up(before) && hello.restart.has(Flags::RR) {
        return Step::Up;
    }
    match hello.link {
        Link::Lan { listed: true, .. } => Step::Up,
        Link::Lan { listed: false, .. } => Step::Init,
        Link::PointToPoint(three) if own.restarting && three.wrong_circuit(own.id) => Step::Init,
        Link::PointToPoint(three) => match three.state {
            ThreeWayState::Down => Step::Init,
            ThreeWayState::Up if before.is_none() && !own.restarting => Step::NoRecord,
            ThreeWayState::Up | ThreeWayState::Initializing => Step::Up,
        },
    }
}

/// The record, reply and CSNP request that an accepted frame gives.
pub(crate) fn react(hello: &Hello, before: Option<&Record>, own: &Own) -> Reaction {
    let up = match step(hello, before, own) {
        Step::NoRecord => {
            let reply = hello.restart.has(Flags::RR).then_some(ReplyKind::Ra);
            return Reaction { record: None, reply, kept_up: false };
        }
        Step::Init => false,
        Step::Up => true,
    };
    let was_up = is_up(before);
    let (mark, suppressed, expiry) = match before {
        Some(record) => (record.mark, record.suppressed, record.expiry),
        None => (Mark::Clear, false, 0),
    };
    let mut record = Record {
        up,
        expiry,
        mark,
        suppressed,
        priority: match hello.link {
            Link::Lan { priority, .. } => priority,
            Link::PointToPoint(_) => 0,
        },
        tlv: hello.restart != RestartTlv::Absent,
        reverse: hello.reverse,
    };
    let reply = set_marks(&mut record, was_up, hello, own);
    if !record.up {
        record.mark = Mark::Clear;
    }
    Reaction { record: Some(record), reply, kept_up: was_up && hello.restart.has(Flags::RR) }
}

/// The first of lines 1 to 5 that fits, and mark Suppressed. A frame without the TLV is read as one with all flags clear (document 02, W-203). One
/// whose TLV is ignored says nothing of SA, so Suppressed stays (RFC 8706, 3.2.2).
fn set_marks(record: &mut Record, was_up: bool, hello: &Hello, own: &Own) -> Option<ReplyKind> {
    let clock = u64::from(own.clock);
    let holding = clock + u64::from(hello.hold);
    let configured = clock + u64::from(own.hold);
    let (flags, remaining) = match hello.restart {
        RestartTlv::Absent | RestartTlv::Ignored => (Flags::NONE, 0),
        RestartTlv::Present { flags, remaining, .. } => (flags, remaining),
    };
    if hello.restart != RestartTlv::Ignored {
        record.suppressed = flags.has(Flags::SA);
    }

    if flags.has(Flags::RR) {
        if was_up {
            match record.mark {
                Mark::Planned => record.expiry = configured,
                Mark::Clear => record.expiry = holding,
                // No refresh: repeated restarts may not keep the record for ever.
                Mark::Restart => {}
            }
            record.mark = Mark::Restart;
        } else {
            record.expiry = holding;
        }
        return Some(ReplyKind::Ra);
    }
    if flags.has(Flags::PR) && was_up && record.up {
        if record.mark != Mark::Planned {
            record.mark = Mark::Planned;
            record.expiry = clock + u64::from(remaining);
        }
        return Some(ReplyKind::Pa);
    }
    record.expiry = if record.mark == Mark::Planned { configured } else { holding };
    record.mark = Mark::Clear;
    None
}
