//! What the calls answer. An order is an action that the caller must take.
use crate::hellos::{Flags, HelloOrders, Hellos};
use crate::names::{Circuit, Circuits, Levels};
use crate::record::Change;

/// What a reply acknowledges.
#[derive(Clone, Copy, PartialEq, Eq, Hash, Debug)]
#[non_exhaustive]
pub enum Ack {
    /// RA: a restart.
    Restart,
    /// PA: a planned restart.
    Planned,
}

/// The Restart TLV that was written to the reply buffer. Order: send it in a hello on the circuit now (RFC 8706,
/// 3.2.1; PA: 3.2.3).
#[derive(Clone, Copy, PartialEq, Eq, Hash, Debug)]
pub struct Reply {
    /// RA or PA.
    pub ack: Ack,
    /// Its Remaining Time in seconds.
    pub remaining: u16,
}

/// Whether a frame with no Restart TLV stopped the running T1 of its P2P circuit (RFC 8706, 3.3.1 and 3.3.2).
#[derive(Clone, Copy, PartialEq, Eq, Hash, Debug)]
#[non_exhaustive]
pub enum Freed {
    /// No.
    Kept,
    /// Yes.
    Stopped,
    /// Yes, and the neighbour shows us Up with our own extended circuit ID. Order: make the adjacency reinitialise, by a hello with three-way
    /// state Down. Never in the mode Starting.
    Reinitialise,
}

/// The overload bit of our LSPs (RFC 8706, 3.4.1.1); of a router that starts, that of its zeroth LSP (RFC 8706, 3.4.1.2).
#[derive(Clone, Copy, PartialEq, Eq, Hash, Debug)]
#[non_exhaustive]
pub enum Overload {
    /// No order: it stays as it is.
    Keep,
    /// Order: set it.
    Set,
    /// Order: clear it.
    Clear,
    /// Order: set it, then clear it.
    Both,
}

/// How the timers of a router that restarts or starts ended, and what they order.
#[derive(Clone, Copy, PartialEq, Eq, Hash, Debug)]
#[non_exhaustive]
pub enum Timers {
    /// The mode was Running.
    Idle,
    /// The mode is Restarting or Starting still.
    GoOn {
        /// Order: run the SPF of these levels (RFC 8706, 3.4.1.1).
        spf: Levels,
        /// The overload order.
        overload: Overload,
    },
    /// The mode is Running from this call on.
    Ended {
        /// Order: run the SPF of these levels (RFC 8706, 3.4.1.1).
        spf: Levels,
        /// The overload order.
        overload: Overload,
    },
}

impl Timers {
    /// The order of either: run the SPF of these levels (RFC 8706, 3.4.1.1).
    pub fn spf(self) -> Levels {
        match self {
            Timers::Idle => Levels::default(),
            Timers::GoOn { spf, .. } | Timers::Ended { spf, .. } => spf,
        }
    }

    /// The overload order of either.
    pub fn overload(self) -> Overload {
        match self {
            Timers::Idle => Overload::Keep,
            Timers::GoOn { overload, .. } | Timers::Ended { overload, .. } => overload,
        }
    }

    pub(crate) fn of_word(word: u64) -> Timers {
        let octet = (word >> 32) as u8;
        let spf = Levels::of_mask(octet >> 2 & 3);
        let overload = match octet >> 4 & 3 {
            0 => Overload::Keep,
            1 => Overload::Set,
            2 => Overload::Clear,
            _ => Overload::Both,
        };
        match octet & 3 {
            0 => Timers::Idle,
            1 => Timers::GoOn { spf, overload },
            _ => Timers::Ended { spf, overload },
        }
    }
}

/// What an accepted frame came to.
#[derive(Clone, Copy, PartialEq, Eq, Hash, Debug)]
pub struct Received {
    /// The reply, if one was written.
    pub reply: Option<Reply>,
    /// Order: send a complete set of CSNPs at these levels on the circuit, and set SRM flags (RFC 8706, 3.2.1).
    pub csnps: Levels,
    /// Order: send a hello with these flags on the circuit now, on a LAN of the frame's level, which `change` has (RFC 8706, 3.3.2).
    pub hello: Option<Flags>,
    /// Whether T1 was stopped for want of a Restart TLV.
    pub freed: Freed,
    /// How the timers ended.
    pub timers: Timers,
    /// What became of the frame's record.
    pub change: Change,
}

impl Received {
    pub(crate) fn of_words(word: u64, change: u64) -> Received {
        let remaining = (word >> 40) as u16;
        let reply = match (word >> 8) as u8 {
            2 => Some(Reply { ack: Ack::Restart, remaining }),
            16 => Some(Reply { ack: Ack::Planned, remaining }),
            _ => None,
        };
        let freed = match (word >> 24) as u8 {
            0 => Freed::Kept,
            1 => Freed::Stopped,
            _ => Freed::Reinitialise,
        };
        let csnps = Levels::of_mask((word >> 16) as u8);
        let hello = Some(Flags((word >> 56) as u8)).filter(|flags| !flags.is_empty());
        Received { reply, csnps, hello, freed, timers: Timers::of_word(word), change: Change::of_word(change) }
    }
}

/// What a tick came to.
#[derive(Clone, Copy, PartialEq, Eq, Hash, Debug)]
pub struct Ticked {
    /// The circuits that lost a record.
    pub lost: Circuits,
    /// The hellos that are ordered: their T1s expired.
    pub hellos: Hellos,
    /// How the timers ended.
    pub timers: Timers,
}

impl Ticked {
    pub(crate) fn of_word(word: u64) -> Ticked {
        let hellos = Hellos { orders: HelloOrders((word >> 16) as u16), flags: Flags((word >> 40) as u8) };
        Ticked { lost: Circuits((word >> 8) as u8), hellos, timers: Timers::of_word(word) }
    }
}

/// The T1s that still run: of a LAN one for each level, of a P2P circuit one (RFC 8706, 3.3.3).
#[derive(Clone, Copy, PartialEq, Eq, Hash, Debug)]
pub struct Waiting {
    /// How many, 0 to 16.
    pub count: u32,
    /// The lowest circuit with one.
    pub lowest: Option<Circuit>,
}
