//! Why a neighbour is not advertised, why it vanished, why no CSNPs were ordered (document 02, W-204): the call is made on a copy, and the copy is looked
//! at beside the original.

use crate::adjacency::{Mark, Record};
use crate::answers::Received;
use crate::frame::RESTART;
use crate::gateway::Gateway;
use crate::refusal::Refusal;
use crate::settings::{Mac, SystemId};
use crate::table::Senior;
use crate::tlvs::Flags;

/// What is asked.
#[derive(Clone, Copy, Debug, PartialEq, Eq)]
pub enum Question {
    /// Why is this neighbour not advertised?
    NotAdvertised,
    /// Why did it vanish?
    Vanished,
    /// Why did we not order CSNPs?
    NoCsnps,
}

/// A circuit and a record's key there.
#[derive(Clone, Copy, Debug, PartialEq, Eq)]
pub struct Asked {
    /// The circuit's number.
    pub circuit: u8,
    /// The level; not looked at on point-to-point.
    pub level: u8,
    /// The System ID.
    pub system: SystemId,
    /// The source MAC; not looked at on point-to-point.
    pub mac: Mac,
}

/// A call that is asked about: all but setup and those that hand a frame over in chunks.
#[derive(Debug, PartialEq, Eq)]
pub enum Call<'a> {
    /// Receive.
    Receive {
        /// The circuit.
        circuit: u8,
        /// The source MAC.
        source: Mac,
        /// The frame.
        frame: &'a [u8],
        /// The reply buffer.
        reply: &'a mut [u8],
    },
    /// Tick, to a clock.
    Tick(u32),
    /// Release, on a circuit.
    Release(u8),
    /// Clear, on a circuit.
    Clear(u8),
    /// CSNP set complete: circuit and level.
    CsnpComplete(u8, u8),
    /// Database complete, of a level.
    DatabaseComplete(u8),
    /// A call that only asks: look up, link metric, flags of the next hello, T1s that still run.
    Asks,
}

/// The reason.
#[derive(Clone, Copy, Debug, PartialEq, Eq)]
pub enum Reason {
    /// It is not as the question says.
    NotSo,
    /// The record is INIT.
    Init,
    /// The record is UP and Suppressed.
    Suppressed,
    /// There is no record.
    NoRecord,
    /// The frame was refused.
    Refused(Refusal),
    /// A tick reached its expiry.
    Expired,
    /// It was Planned, and released.
    Released,
    /// Its circuit was cleared.
    Cleared,
    /// This line fitted the frame, 2 to 5.
    Line(u8),
    /// Another router has the duty.
    Outranked {
        /// Its System ID.
        system: SystemId,
        /// Its priority.
        priority: u8,
        /// Its MAC.
        mac: Mac,
    },
}

/// What the call was, as the questions tell calls apart.
enum Made<'a> {
    Frame { circuit: u8, source: Mac, frame: &'a [u8], answer: Result<Received, Refusal> },
    Removed(Reason),
    Other,
}

impl Gateway {
    /// The reason, of this gateway before a call; and the gateway as the call leaves it. Nothing refuses a question.
    pub fn why(&self, question: Question, call: Call<'_>, asked: Asked) -> (Reason, Gateway) {
        let mut after = self.clone();
        let made = after.make(call);
        let reason = match question {
            Question::NotAdvertised => after.not_advertised(asked, &made),
            Question::Vanished if self.find(asked).is_some() && after.find(asked).is_none() => match made {
                Made::Removed(by) => by,
                Made::Frame { .. } | Made::Other => unreachable!("such a call removes no record"),
            },
            Question::Vanished => Reason::NotSo,
            Question::NoCsnps => self.no_csnps(&after, &made),
        };
        (reason, after)
    }

    /// Makes the call; only of a frame does its answer count.
    fn make<'a>(&mut self, call: Call<'a>) -> Made<'a> {
        match call {
            Call::Receive { circuit, source, frame, reply } => {
                Made::Frame { circuit, source, frame, answer: self.receive(circuit, source, frame, reply) }
            }
            Call::Tick(clock) => {
                let _ = self.tick(clock);
                Made::Removed(Reason::Expired)
            }
            Call::Release(circuit) => {
                let _ = self.release(circuit);
                Made::Removed(Reason::Released)
            }
            Call::Clear(circuit) => {
                let _ = self.clear(circuit);
                Made::Removed(Reason::Cleared)
            }
            Call::CsnpComplete(circuit, level) => {
                let _ = self.csnp_complete(circuit, level);
                Made::Other
            }
            Call::DatabaseComplete(level) => {
                let _ = self.database_complete(level);
                Made::Other
            }
            Call::Asks => Made::Other,
        }
    }

    /// A circuit that is not there, or a level that is not enabled there, has no record.
    fn find(&self, Asked { circuit, level, system, mac }: Asked) -> Option<Record> {
        self.look_up(circuit, level, system, mac).ok().flatten()
    }

    /// Of the gateway after the call: "the first that holds: .. INIT, Suppressed, the number of a receive refused there, or 'no record'".
    fn not_advertised(&self, asked: Asked, made: &Made) -> Reason {
        match (self.find(asked), made) {
            (Some(record), _) if record.advertised() => Reason::NotSo,
            (Some(record), _) if !record.up => Reason::Init,
            (Some(_), _) => Reason::Suppressed,
            (None, Made::Frame { circuit, answer: Err(refusal), .. }) if *circuit == asked.circuit => Reason::Refused(*refusal),
            (None, _) => Reason::NoRecord,
        }
    }

    /// "the refusal's number, the fitting line from 2 to 5, or the greatest pair (priority, MAC) that has the duty"
    fn no_csnps(&self, after: &Gateway, made: &Made) -> Reason {
        let Made::Frame { circuit, source, frame, answer } = made else { return Reason::NotSo };
        let received = match answer {
            Ok(received) if received.csnps.is_some() => return Reason::NotSo,
            Ok(received) => received,
            Err(refusal) => return Reason::Refused(*refusal),
        };
        let key = Asked { circuit: *circuit, level: received.change.level, system: received.change.system, mac: *source };
        match line(frame, self.find(key), after.find(key)) {
            1 => {
                let Senior { system, priority, mac } = after.senior(key.circuit, key.level).expect("line 1 orders, unless there is one");
                Reason::Outranked { system, priority, mac }
            }
            other => Reason::Line(other),
        }
    }
}

/// The first line of "Marks and holding time" that fits an accepted frame, by the record of its key before and after it.
fn line(frame: &[u8], before: Option<Record>, after: Option<Record>) -> u8 {
    let up = |record: Option<Record>| record.is_some_and(|record| record.up);
    let flags = flags(frame);
    if flags & RR != 0 {
        return if up(before) { 1 } else { 2 };
    }
    if flags & PR != 0 && up(before) && up(after) {
        return 3;
    }
    if before.is_some_and(|record| record.mark == Mark::Planned) {
        4
    } else {
        5
    }
}

const RR: u8 = Flags::RR.octet();
const SA: u8 = Flags::SA.octet();
const PR: u8 = Flags::PR.octet();

/// The flags that count in an accepted frame: all are clear where there is no Restart TLV (document 02), or where they may not stand together
/// (RFC 8706, 3.2); PR is dropped beside RR (house).
fn flags(frame: &[u8]) -> u8 {
    let length = usize::from(u16::from_be_bytes([frame[17], frame[18]]));
    let mut tlvs = &frame[usize::from(frame[1])..length];
    while let [kind, count, rest @ ..] = tlvs {
        let (value, next) = rest.split_at(usize::from(*count));
        if *kind == RESTART {
            let known = value[0] & 0x1f;
            let counted = if known & RR != 0 { known & !PR } else { known };
            return if counted.count_ones() < 2 || counted == RR | SA { counted } else { 0 };
        }
        tlvs = next;
    }
    0
}
