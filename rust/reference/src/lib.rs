//! Restart signaling (RFC 8706) and reverse metric (RFC 8500) for an IS-IS gateway, in ordinary Rust.
//!
//! Written from documents 01 and 02 and the RFCs alone, as an independent oracle and as a baseline of speed. It does no I/O and
//! reads no clock: hello frames and ticks go in; records, replies, orders and link metrics come out. Only [`Gateway::set_up`],
//! [`Gateway::why`] and the first [`Gateway::begin_frame`] on a circuit allocate. An order is an action that the caller must take.
//!
//! All calls are methods of [`Gateway`]. A refused call changes neither the gateway nor the reply buffer, but that an end of a
//! frame in chunks drops the frame where it is refused 2 to 9.

#![forbid(unsafe_code)]
#![deny(missing_docs)]

mod adjacency;
mod answers;
mod chunks;
mod frame;
mod gateway;
mod metric;
mod refusal;
mod settings;
mod t1;
mod table;
mod timers;
mod tlvs;
mod why;

pub use adjacency::{Mark, Record};
pub use answers::{Change, Freed, Hellos, Overload, Received, Reply, ReplyKind, Ticked, TimerOutcome};
pub use gateway::Gateway;
pub use refusal::Refusal;
pub use settings::{CircuitSettings, Kind, Levels, Mac, Mode, Settings, SystemId, MAX_CIRCUITS};
pub use tlvs::Reverse;
pub use why::{Asked, Call, Question, Reason};
