//! The archive's functions over references. All unsafe code of the crate is here.
use crate::why::{Asked, Given};
use isis_gr_sys as raw;

pub(crate) use raw::{CIRCUITS, FRAME_OCTETS, GATEWAY_WORDS, SETTINGS_OCTETS};

pub(crate) type Words = [u64; GATEWAY_WORDS];
pub(crate) type Octets = [u8; FRAME_OCTETS];

pub(crate) fn set_up(words: &mut Words, settings: &[u8; SETTINGS_OCTETS]) -> u32 {
    // SAFETY: both references are valid for the sizes that their types say, and do not overlap.
    unsafe { raw::isis_gr_raw_set_up(raw::LAYOUT, words.as_mut_ptr(), settings.as_ptr()) }
}

pub(crate) fn fault(settings: &[u8; SETTINGS_OCTETS]) -> u32 {
    // SAFETY: the reference is valid for the size that its type says.
    unsafe { raw::isis_gr_raw_fault(raw::LAYOUT, settings.as_ptr()) }
}

pub(crate) fn receive(words: &mut Words, circuit: u8, source: &[u8; 6], frame: &[u8], reply: &mut [u8]) -> raw::ReceivedWords {
    // SAFETY: each slice is valid for the length that is handed on with it; the borrows do not overlap.
    unsafe {
        raw::isis_gr_raw_receive(words.as_mut_ptr(), circuit, source.as_ptr(), frame.as_ptr(), frame.len(), reply.as_mut_ptr(), reply.len())
    }
}

pub(crate) fn begin_frame(words: &mut Words, circuit: u8, source: &[u8; 6]) -> u32 {
    // SAFETY: both references are valid for the sizes that their types say, and do not overlap.
    unsafe { raw::isis_gr_raw_begin_frame(words.as_mut_ptr(), circuit, source.as_ptr()) }
}

pub(crate) fn add_chunk(words: &mut Words, frames: &mut Octets, circuit: u8, octets: &[u8]) -> u32 {
    // SAFETY: the references are valid for the sizes that their types say, the slice for the length that is handed on with it; the borrows do
    // not overlap.
    unsafe { raw::isis_gr_raw_add_chunk(words.as_mut_ptr(), frames.as_mut_ptr(), circuit, octets.as_ptr(), octets.len()) }
}

pub(crate) fn end_frame(words: &mut Words, frames: &Octets, circuit: u8, reply: &mut [u8]) -> raw::ReceivedWords {
    // SAFETY: the references are valid for the sizes that their types say, the slice for the length that is handed on with it; the borrows do
    // not overlap.
    unsafe { raw::isis_gr_raw_end_frame(words.as_mut_ptr(), frames.as_ptr(), circuit, reply.as_mut_ptr(), reply.len()) }
}

pub(crate) fn tick(words: &mut Words, clock: u32) -> u64 {
    // SAFETY: the reference is valid for the words of a gateway.
    unsafe { raw::isis_gr_raw_tick(words.as_mut_ptr(), clock) }
}

pub(crate) fn release(words: &mut Words, circuit: u8) -> u32 {
    // SAFETY: the reference is valid for the words of a gateway.
    unsafe { raw::isis_gr_raw_release(words.as_mut_ptr(), circuit) }
}

pub(crate) fn clear(words: &mut Words, circuit: u8) -> u32 {
    // SAFETY: the reference is valid for the words of a gateway.
    unsafe { raw::isis_gr_raw_clear(words.as_mut_ptr(), circuit) }
}

pub(crate) fn csnp_complete(words: &mut Words, circuit: u8, level: u8) -> u64 {
    // SAFETY: the reference is valid for the words of a gateway.
    unsafe { raw::isis_gr_raw_csnp_complete(words.as_mut_ptr(), circuit, level) }
}

pub(crate) fn database_complete(words: &mut Words, level: u8) -> u64 {
    // SAFETY: the reference is valid for the words of a gateway.
    unsafe { raw::isis_gr_raw_database_complete(words.as_mut_ptr(), level) }
}

pub(crate) fn look_up(words: &Words, circuit: u8, level: u8, system: &[u8; 6], mac: &[u8; 6], record: &mut [u64; 2]) -> u32 {
    // SAFETY: all references are valid for the sizes that their types say; the one that is written overlaps none.
    unsafe { raw::isis_gr_raw_look_up(words.as_ptr(), circuit, level, system.as_ptr(), mac.as_ptr(), record.as_mut_ptr()) }
}

pub(crate) fn link_metric(words: &Words, circuit: u8) -> u64 {
    // SAFETY: the reference is valid for the words of a gateway.
    unsafe { raw::isis_gr_raw_link_metric(words.as_ptr(), circuit) }
}

pub(crate) fn next_hello_flags(words: &Words, circuit: u8, level: u8) -> u32 {
    // SAFETY: the reference is valid for the words of a gateway.
    unsafe { raw::isis_gr_raw_next_hello_flags(words.as_ptr(), circuit, level) }
}

pub(crate) fn waiting(words: &Words) -> u32 {
    // SAFETY: the reference is valid for the words of a gateway.
    unsafe { raw::isis_gr_raw_waiting_t1s(words.as_ptr()) }
}

pub(crate) fn why(before: &Words, after: &mut Words, question: u8, given: Given<'_>, asked: &Asked) -> raw::ReasonWords {
    let Given { call, circuit, level, clock, source, frame, reply } = given;
    // SAFETY: all references are valid for the sizes that their types say, and each slice for the length that is handed on with it; those that are
    // written overlap none.
    unsafe {
        raw::isis_gr_raw_why(
            before.as_ptr(),
            after.as_mut_ptr(),
            question,
            call,
            circuit,
            level,
            clock,
            source.as_ptr(),
            frame.as_ptr(),
            frame.len(),
            reply.as_mut_ptr(),
            reply.len(),
            asked.circuit,
            asked.level,
            asked.system.as_ptr(),
            asked.mac.as_ptr(),
        )
    }
}
