//! The functions of the proved archives `libisis_gr.a`, of frames in chunks `libisis_gr_chunks.a` and of why `libisis_gr_why.a`, as they are: words and
//! octets. `include/isis_gr.h` says what each word holds, and what the proofs assume of a caller: pointers valid for the sizes named here, and buffers that
//! neither overlap nor change during a call. The crate `isis-gr` is the safe way to use them.
#![no_std]
#![deny(missing_docs)]

include!(concat!(env!("OUT_DIR"), "/sizes.rs"));

/// The two words of a frame's answer: what receive answers, and what became of the frame's record; of a refused frame the position that refusals 5 and 6
/// bring, else 0.
#[repr(C)]
#[derive(Clone, Copy, PartialEq, Eq, Debug)]
pub struct ReceivedWords {
    /// The answer.
    pub answer: u64,
    /// The record, or the position.
    pub change: u64,
}

/// The two words of a reason: `answer` has its number in the lowest octet, the refusal's number or the line in the next, and in the upper six the refusal's
/// position or the System ID of the router that has the duty; `pair` has that router's MAC in the lower six octets, and its priority in the next.
#[repr(C)]
#[derive(Clone, Copy, PartialEq, Eq, Debug)]
pub struct ReasonWords {
    /// The reason, and a System ID.
    pub answer: u64,
    /// The pair.
    pub pair: u64,
}

extern "C" {
    /// The words of a gateway in this archive.
    pub fn isis_gr_raw_gateway_words() -> u32;
    /// The octets of a memory for frames in the archive of frames in chunks.
    pub fn isis_gr_raw_frame_octets() -> u32;
    /// A new gateway in `GATEWAY_WORDS` words, of `SETTINGS_OCTETS` octets; `layout` is `LAYOUT`.
    pub fn isis_gr_raw_set_up(layout: u32, gateway: *mut u64, settings: *const u8) -> u32;
    /// Which setting a set up with these would refuse.
    pub fn isis_gr_raw_fault(layout: u32, settings: *const u8) -> u32;
    /// Takes one hello frame; the source MAC is six octets.
    pub fn isis_gr_raw_receive(
        gateway: *mut u64,
        circuit: u8,
        source: *const u8,
        frame: *const u8,
        frame_len: usize,
        reply: *mut u8,
        reply_len: usize,
    ) -> ReceivedWords;
    /// Begins a frame that comes in chunks; the source MAC is six octets.
    pub fn isis_gr_raw_begin_frame(gateway: *mut u64, circuit: u8, source: *const u8) -> u32;
    /// Joins a chunk to a circuit's unfinished frame, in `FRAME_OCTETS` octets.
    pub fn isis_gr_raw_add_chunk(gateway: *mut u64, frames: *mut u8, circuit: u8, octets: *const u8, octets_len: usize) -> u32;
    /// Ends a circuit's unfinished frame: receive, of the octets joined.
    pub fn isis_gr_raw_end_frame(gateway: *mut u64, frames: *const u8, circuit: u8, reply: *mut u8, reply_len: usize) -> ReceivedWords;
    /// The clock.
    pub fn isis_gr_raw_tick(gateway: *mut u64, clock: u32) -> u64;
    /// Removes a circuit's Planned records.
    pub fn isis_gr_raw_release(gateway: *mut u64, circuit: u8) -> u32;
    /// Removes all records of a circuit.
    pub fn isis_gr_raw_clear(gateway: *mut u64, circuit: u8) -> u32;
    /// The CSNP set of a level is complete on a circuit.
    pub fn isis_gr_raw_csnp_complete(gateway: *mut u64, circuit: u8, level: u8) -> u64;
    /// The database of a level is complete.
    pub fn isis_gr_raw_database_complete(gateway: *mut u64, level: u8) -> u64;
    /// The record with a key, in two words; the System ID and the MAC are six octets each.
    pub fn isis_gr_raw_look_up(gateway: *const u64, circuit: u8, level: u8, system: *const u8, mac: *const u8, record: *mut u64) -> u32;
    /// The metric of a circuit's link.
    pub fn isis_gr_raw_link_metric(gateway: *const u64, circuit: u8) -> u64;
    /// The flags of the next hello on a circuit at a level.
    pub fn isis_gr_raw_next_hello_flags(gateway: *const u64, circuit: u8, level: u8) -> u32;
    /// The T1s that still run.
    pub fn isis_gr_raw_waiting_t1s(gateway: *const u64) -> u32;
    /// Why, of the gateway before a call, the call, which is made on the words of `after`, and a circuit with a record's key; the source MAC, the
    /// System ID and the MAC of the key are six octets each, the source also where the call is no receive.
    pub fn isis_gr_raw_why(
        before: *const u64,
        after: *mut u64,
        question: u8,
        call: u8,
        call_circuit: u8,
        call_level: u8,
        clock: u32,
        source: *const u8,
        frame: *const u8,
        frame_len: usize,
        reply: *mut u8,
        reply_len: usize,
        circuit: u8,
        level: u8,
        system: *const u8,
        mac: *const u8,
    ) -> ReasonWords;
}
