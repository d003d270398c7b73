//! The proved archive against the reference, on random calls through the Rust wrapper: every answer, every record by look-up, every reply octet,
//! every unfinished frame, and memory unchanged by a refusal; a question before every call of document 01, why; demand 3 tried on the running code; and the
//! archive's words checked as they are.
#![deny(missing_docs)]

pub mod calls;
pub mod chunks;
pub mod compare;
pub mod coverage;
pub mod frames;
pub mod isolation;
pub mod levels;
pub mod marks;
pub mod memory;
pub mod places;
pub mod proved;
pub mod radio;
pub mod random;
pub mod reference;
pub mod side;
pub mod starting;
pub mod watch;
pub mod why;
pub mod words;
