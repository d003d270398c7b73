//! What the calls answer.

use crate::settings::{Levels, SystemId, MAX_CIRCUITS};
use crate::tlvs::Flags;

/// Orders for hellos.
#[derive(Clone, Copy, Debug, PartialEq, Eq)]
pub struct Hellos {
    /// For each circuit, circuit 1 first: on a LAN, whether the hello of level 1 and that of level 2 are ordered; on
    /// point-to-point, whether the one hello is, in the first place, and the second is never (RFC 8706, 3.3.3).
    pub orders: [[bool; 2]; MAX_CIRCUITS],
    /// The flags of the Restart TLV in all of them; 0 where none is ordered.
    pub flags: u8,
}

impl Hellos {
    /// No order.
    pub const NONE: Hellos = Hellos { orders: [[false; 2]; MAX_CIRCUITS], flags: 0 };

    /// A hello with these flags for each T1 of the mask, two bits for each circuit.
    pub(crate) fn of(t1s: u16, flags: Flags) -> Hellos {
        if t1s == 0 {
            return Hellos::NONE;
        }
        let order = |which: usize| t1s & (1 << which) != 0;
        Hellos { orders: std::array::from_fn(|at| [order(2 * at), order(2 * at + 1)]), flags: flags.octet() }
    }
}

/// The kind of a reply: the one flag that it carries.
#[derive(Clone, Copy, Debug, PartialEq, Eq)]
pub enum ReplyKind {
    /// RA: restart acknowledgement.
    Ra,
    /// PA: planned restart acknowledgement.
    Pa,
}

/// A reply that was written to the reply buffer.
#[derive(Clone, Copy, Debug, PartialEq, Eq)]
pub struct Reply {
    /// RA or PA.
    pub kind: ReplyKind,
    /// The Remaining Time in it.
    pub remaining: u16,
}

/// An order about the overload bit of our own LSP; in a start, of the zeroth one (RFC 8706, 3.4.1.2).
#[derive(Clone, Copy, Debug, PartialEq, Eq)]
pub enum Overload {
    /// No order.
    Quiet,
    /// Set it.
    Set,
    /// Clear it.
    Clear,
    /// Set it, then clear it: the call that ordered it set also ended the mode.
    Both,
}

/// What a call did to the timers.
#[derive(Clone, Copy, Debug, PartialEq, Eq)]
pub enum TimerOutcome {
    /// The mode was Running already: no timer runs.
    Idle,
    /// The restart or start goes on.
    Goes {
        /// The levels whose SPF is ordered.
        spf: Levels,
        /// The order about the overload bit.
        overload: Overload,
    },
    /// The restart or start ended with this call; the mode is Running.
    Ended {
        /// The levels whose SPF is ordered.
        spf: Levels,
        /// The order about the overload bit.
        overload: Overload,
    },
}

/// What a frame without a Restart TLV did to T1 of a point-to-point circuit (RFC 8706, 3.3.1 and 3.3.2).
#[derive(Clone, Copy, Debug, PartialEq, Eq)]
pub enum Freed {
    /// No T1 was stopped for want of the TLV.
    Kept,
    /// It stopped a running T1.
    Stopped,
    /// It stopped a running T1 of a restart, and shows us Up with our own extended circuit ID: the adjacency must be made
    /// to reinitialise, by a normal hello with three-way state Down. A start has no such case.
    Reinitialise,
}

/// What became of the record of a frame.
#[derive(Clone, Copy, Debug, PartialEq, Eq)]
pub struct Change {
    /// The level of its key; 0 on point-to-point.
    pub level: u8,
    /// The System ID of its key.
    pub system: SystemId,
    /// Whether it was UP, if it stood before the frame.
    pub before: Option<bool>,
    /// Whether it is UP, if it stands after it.
    pub after: Option<bool>,
    /// Whether it is advertised after it.
    pub advertised: bool,
}

impl Change {
    /// The record becomes UP, from none or INIT.
    pub(crate) fn rises(&self) -> bool {
        self.before != Some(true) && self.after == Some(true)
    }
}

/// The answer to an accepted frame.
#[derive(Clone, Copy, Debug, PartialEq, Eq)]
pub struct Received {
    /// The reply, if one was written.
    pub reply: Option<Reply>,
    /// The levels for which CSNPs and flooding marks are ordered on this circuit, if they are.
    pub csnps: Option<Levels>,
    /// The flags of the hello that is ordered on this circuit, on a LAN at the frame's level, if one is: T1 began (RFC 8706,
    /// 3.3.2).
    pub hello: Option<u8>,
    /// What it did to the timers.
    pub timers: TimerOutcome,
    /// Whether it stopped T1 for want of a Restart TLV.
    pub freed: Freed,
    /// What became of the frame's record.
    pub change: Change,
}

/// The answer to a tick.
#[derive(Clone, Copy, Debug, PartialEq, Eq)]
pub struct Ticked {
    /// The circuits that lost a record.
    pub marks: [bool; MAX_CIRCUITS],
    /// The hellos that are ordered.
    pub hellos: Hellos,
    /// What it did to the timers.
    pub timers: TimerOutcome,
}
