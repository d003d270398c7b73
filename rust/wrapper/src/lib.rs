//! Restart signaling (RFC 8706) and reverse metric (RFC 8500) for an IS-IS router.
//!
//! A safe wrapper of `libisis_gr.a`, for frames in chunks `libisis_gr_chunks.a`, and for [`Gateway::why`] `libisis_gr_why.a`, whose every call is proved
//! against its definition. It adds no rule: each method hands its arguments on and names what comes back ([`Refusal::in_frame`] reads a refused frame again, to
//! say in words what the archive found). There is no I/O, no allocation and no clock
//! inside: hello frames and clock ticks go in; records, Restart TLVs, orders (actions that the caller must take) and link metrics come out.
//!
//! A gateway is memory of its owner's. [`Gateway::new`] is a constant, so that a `static` holds it and no stack has to:
//!
//! ```
//! use isis_gr::{Circuit, CircuitSettings, Gateway, Kind, Levels, Mac, Mode, Refusal, Settings, SystemId, REPLY_OCTETS};
//! use std::sync::Mutex;
//!
//! static GATEWAY: Mutex<Gateway> = Mutex::new(Gateway::new());
//!
//! let mut gateway = GATEWAY.lock().expect("nobody panicked");
//! let p2p = CircuitSettings::new(Kind::P2p, Levels::BOTH, Mac([2, 0, 0, 0, 0, 1])).extended_circuit_id(7);
//! let settings = Settings::new(SystemId([0x19, 0x21, 0x68, 0, 0x10, 1]), Mode::Running, 100).circuit(p2p);
//! let hellos = gateway.set_up(&settings)?;
//! assert!(hellos.is_empty(), "a router in the mode Running asks for nothing");
//!
//! let mut reply = [0; REPLY_OCTETS];
//! let first = Circuit::new(1).expect("1 to 8");
//! let answer = gateway.receive(first, Mac([2, 0, 0, 0, 0, 2]), b"no hello", &mut reply);
//! assert_eq!(answer, Err(Refusal::NotHello));
//! # Ok::<(), isis_gr::SettingError>(())
//! ```
//!
//! A frame may also come in chunks: [`Gateway::begin_frame`], [`Gateway::add_chunk`] and [`Gateway::end_frame`], with a [`Frames`] beside the gateway.
//!
//! The crate needs no `std`: where there is none, a `static` of another kind of lock holds the gateway as well, or a field of the program's
//! one state.
#![no_std]
#![deny(missing_docs)]
#![deny(unsafe_op_in_unsafe_fn)]

mod answers;
mod faults;
mod ffi;
mod frames;
mod gateway;
mod hellos;
mod names;
mod record;
mod refusals;
mod settings;
mod why;

pub use answers::{Ack, Freed, Overload, Received, Reply, Ticked, Timers, Waiting};
pub use faults::InFrame;
pub use frames::Frames;
pub use gateway::{Gateway, REPLY_OCTETS};
pub use hellos::{Flags, HelloOrders, Hellos};
pub use names::{Circuit, Circuits, Level, Levels, Mac, SystemId};
pub use record::{Change, Mark, Phase, Record, ReverseMetric, Standing};
pub use refusals::Refusal;
pub use settings::{CircuitSettings, Kind, Mode, SettingError, Settings};
pub use why::{Call, Key, Line, Question, Reason, Why};
