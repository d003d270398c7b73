//! Why a neighbour is not advertised, why it vanished, why no CSNPs were ordered (document 02, W-204).
use crate::gateway::NO_LEVEL;
use crate::names::{Circuit, Level, Mac, SystemId};
use crate::refusals::Refusal;
use core::fmt;

/// What is asked.
#[derive(Clone, Copy, PartialEq, Eq, Hash, Debug)]
#[non_exhaustive]
pub enum Question {
    /// Why is this neighbour not advertised?
    NotAdvertised,
    /// Why did it vanish?
    Vanished,
    /// Why did we not order CSNPs? It goes by the call alone, whatever circuit and key are named.
    NoCsnps,
}

impl Question {
    /// Its number in `include/isis_gr.h`.
    pub(crate) fn number(self) -> u8 {
        match self {
            Question::NotAdvertised => 0,
            Question::Vanished => 1,
            Question::NoCsnps => 2,
        }
    }
}

/// What a record is known by.
#[derive(Clone, Copy, PartialEq, Eq, Hash, Debug)]
pub enum Key {
    /// On P2P its System ID alone. On a LAN no record has this key.
    P2p(SystemId),
    /// On a LAN level, System ID and source MAC. On P2P the level and the MAC count for nothing.
    Lan {
        /// The level.
        level: Level,
        /// The System ID.
        system: SystemId,
        /// The source MAC.
        mac: Mac,
    },
}

/// A circuit and a key as the archive takes them.
pub(crate) struct Asked {
    pub(crate) circuit: u8,
    pub(crate) level: u8,
    pub(crate) system: [u8; 6],
    pub(crate) mac: [u8; 6],
}

impl Key {
    pub(crate) fn asked(self, circuit: Circuit) -> Asked {
        let (level, system, mac) = match self {
            Key::P2p(SystemId(system)) => (NO_LEVEL, system, [0; 6]),
            Key::Lan { level, system: SystemId(system), mac: Mac(mac) } => (level.number(), system, mac),
        };
        Asked { circuit: circuit.number(), level, system, mac }
    }
}

/// A call that is asked about, with its own arguments. The key of a look-up is the one that is asked about.
#[derive(PartialEq, Eq, Debug)]
#[non_exhaustive]
pub enum Call<'a> {
    /// [`receive`](crate::Gateway::receive).
    Receive {
        /// The circuit.
        circuit: Circuit,
        /// The source MAC.
        from: Mac,
        /// The frame.
        frame: &'a [u8],
        /// The reply buffer, which is written as the call writes it.
        reply: &'a mut [u8],
    },
    /// [`tick`](crate::Gateway::tick).
    Tick {
        /// The clock in seconds.
        clock: u32,
    },
    /// [`release`](crate::Gateway::release).
    Release {
        /// The circuit.
        circuit: Circuit,
    },
    /// [`clear`](crate::Gateway::clear).
    Clear {
        /// The circuit.
        circuit: Circuit,
    },
    /// [`csnp_complete`](crate::Gateway::csnp_complete).
    CsnpComplete {
        /// The circuit.
        circuit: Circuit,
        /// The level.
        level: Level,
    },
    /// [`database_complete`](crate::Gateway::database_complete).
    DatabaseComplete {
        /// The level.
        level: Level,
    },
    /// [`look_up_p2p`](crate::Gateway::look_up_p2p) or [`look_up_lan`](crate::Gateway::look_up_lan).
    LookUp {
        /// The circuit.
        circuit: Circuit,
    },
    /// [`link_metric`](crate::Gateway::link_metric).
    LinkMetric {
        /// The circuit.
        circuit: Circuit,
    },
    /// [`next_hello_flags`](crate::Gateway::next_hello_flags).
    NextHelloFlags {
        /// The circuit.
        circuit: Circuit,
        /// The level.
        level: Level,
    },
    /// [`waiting`](crate::Gateway::waiting).
    Waiting,
}

/// A call as the archive takes it: numbers, and what it lends.
pub(crate) struct Given<'a> {
    pub(crate) call: u8,
    pub(crate) circuit: u8,
    pub(crate) level: u8,
    pub(crate) clock: u32,
    pub(crate) source: [u8; 6],
    pub(crate) frame: &'a [u8],
    pub(crate) reply: &'a mut [u8],
}

impl<'a> Call<'a> {
    pub(crate) fn given(self) -> Given<'a> {
        let of = |call, circuit: Option<Circuit>, level: Option<Level>| Given {
            call,
            circuit: circuit.map_or(0, Circuit::number),
            level: level.map_or(0, Level::number),
            clock: 0,
            source: [0; 6],
            frame: &[],
            reply: &mut [],
        };
        match self {
            Call::Receive { circuit, from, frame, reply } => Given { source: from.0, frame, reply, ..of(0, Some(circuit), None) },
            Call::Tick { clock } => Given { clock, ..of(1, None, None) },
            Call::Release { circuit } => of(2, Some(circuit), None),
            Call::Clear { circuit } => of(3, Some(circuit), None),
            Call::CsnpComplete { circuit, level } => of(4, Some(circuit), Some(level)),
            Call::DatabaseComplete { level } => of(5, None, Some(level)),
            Call::LookUp { circuit } => of(6, Some(circuit), None),
            Call::LinkMetric { circuit } => of(7, Some(circuit), None),
            Call::NextHelloFlags { circuit, level } => of(8, Some(circuit), Some(level)),
            Call::Waiting => of(9, None, None),
        }
    }
}

/// The first line that fits a frame, of those that order no CSNPs (document 01, "Marks and holding time": there is no other).
#[derive(Clone, Copy, PartialEq, Eq, PartialOrd, Ord, Hash, Debug)]
pub enum Line {
    /// Line 2.
    Two,
    /// Line 3.
    Three,
    /// Line 4.
    Four,
    /// Line 5.
    Five,
}

impl Line {
    /// Its number, 2 to 5.
    pub const fn number(self) -> u8 {
        match self {
            Line::Two => 2,
            Line::Three => 3,
            Line::Four => 4,
            Line::Five => 5,
        }
    }

    /// What a frame says that it fits.
    pub const fn text(self) -> &'static str {
        match self {
            Line::Two => "RR from a neighbour that was not UP",
            Line::Three => "PR announces a planned restart",
            Line::Four => "a planned restart is over",
            Line::Five => "an ordinary hello",
        }
    }
}

/// The reason that is named.
#[derive(Clone, Copy, PartialEq, Eq, Hash, Debug)]
#[non_exhaustive]
pub enum Reason {
    /// In turn: the record is advertised after the call; it did not go in the call; the call ordered CSNPs, or is no receive.
    NotSo,
    /// Not advertised: the record is INIT after the call.
    Init,
    /// Not advertised: it is UP and Suppressed (RFC 8706, 3.2.2).
    Suppressed,
    /// Not advertised: there is none.
    NoRecord,
    /// Not advertised: there is none, and the call is a receive that was refused on that circuit, whatever the frame's key. No CSNPs: the frame was
    /// refused.
    Refused(Refusal),
    /// Vanished: by a tick.
    Expired,
    /// Vanished: by release.
    Released,
    /// Vanished: by clear.
    Cleared,
    /// No CSNPs: the first line that fits the frame is not line 1.
    Fits(Line),
    /// No CSNPs: on a LAN another router has the duty (RFC 8706, 3.2.1).
    Outranked {
        /// The router with the greatest pair; of several System IDs with that pair the lowest.
        system: SystemId,
        /// Its priority.
        priority: u8,
        /// Its MAC.
        mac: Mac,
    },
}

impl Reason {
    /// Its text, that of `isis_gr_reason_text` in `include/isis_gr.h`.
    pub const fn text(self) -> &'static str {
        match self {
            Reason::NotSo => "not so",
            Reason::Init => "INIT, the neighbour does not hear us yet",
            Reason::Suppressed => "suppressed until a hello with SA clear arrives",
            Reason::NoRecord => "there is no record",
            Reason::Refused(_) => "the frame was refused",
            Reason::Expired => "its holding time ran out",
            Reason::Released => "released, while it planned a restart",
            Reason::Cleared => "cleared, as its link went down",
            Reason::Fits(_) => "a line that orders none fits the frame",
            Reason::Outranked { .. } => "another router has the greater pair",
        }
    }

    /// The archive gives no number but these to a question and a call that it knows.
    pub(crate) fn of_words(answer: u64, pair: u64) -> Reason {
        let detail = (answer >> 8) as u8;
        match answer as u8 {
            0 => Reason::NotSo,
            1 => Reason::Init,
            2 => Reason::Suppressed,
            3 => Reason::NoRecord,
            4 => Reason::Refused(Refusal::of_number(u32::from(detail), (answer >> 16) as u16).expect("a number of the table")),
            5 => Reason::Expired,
            6 => Reason::Released,
            7 => Reason::Cleared,
            8 => Reason::Fits(match detail {
                2 => Line::Two,
                3 => Line::Three,
                4 => Line::Four,
                _ => Line::Five,
            }),
            9 => {
                let [system @ .., _, _] = answer.to_be_bytes();
                let [_, priority, mac @ ..] = pair.to_be_bytes();
                Reason::Outranked { system: SystemId(system), priority, mac: Mac(mac) }
            }
            number => unreachable!("reason {number}: every question and every call is known"),
        }
    }
}

/// A reason with its question. It prints as the sentence that a technician reads.
#[derive(Clone, Copy, PartialEq, Eq, Hash, Debug)]
pub struct Why {
    /// What was asked.
    pub question: Question,
    /// The reason.
    pub reason: Reason,
}

impl fmt::Display for Why {
    /// As `not advertised: INIT, the neighbour does not hear us yet`.
    fn fmt(&self, f: &mut fmt::Formatter<'_>) -> fmt::Result {
        let (asked, not_so) = match self.question {
            Question::NotAdvertised => ("not advertised", "it is advertised"),
            Question::Vanished => ("vanished", "it did not go in this call"),
            Question::NoCsnps => ("no CSNPs ordered", "CSNPs were ordered, or the call is no receive"),
        };
        match self.reason {
            Reason::NotSo => write!(f, "not so: {not_so}"),
            Reason::Refused(refusal) => write!(f, "{asked}: the frame was refused {refusal}"),
            Reason::Fits(line) => write!(f, "{asked}: line {} fits the frame ({})", line.number(), line.text()),
            Reason::Outranked { system, priority, mac } => write!(f, "{asked}: {system:?} has the greater pair ({priority}, {mac:?})"),
            other => write!(f, "{asked}: {}", other.text()),
        }
    }
}
