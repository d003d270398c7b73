//! The memory for the octets of frames that come in chunks (document 02, W-205).
use crate::ffi::{Octets, FRAME_OCTETS};

/// Memory of 12,000 octets for one gateway's unfinished frames, 1,500 for each circuit, circuit 1 first. It may hold anything at first: which octets count
/// is in the gateway's words, so all chunks of a frame and its end take the same memory. A gateway whose frames come whole needs none.
#[derive(Clone)]
pub struct Frames {
    octets: Octets,
}

impl Frames {
    /// The octets of such a memory.
    pub const OCTETS: usize = FRAME_OCTETS;

    /// Memory of octets 0; a constant, so that a `static` holds it.
    pub const fn new() -> Frames {
        Frames::from_octets([0; FRAME_OCTETS])
    }

    /// Memory with these octets, such as another's.
    pub const fn from_octets(octets: [u8; Frames::OCTETS]) -> Frames {
        Frames { octets }
    }

    /// Its octets. Those of a frame that was ended stand until the next chunk on its circuit.
    pub const fn octets(&self) -> &[u8; Frames::OCTETS] {
        &self.octets
    }

    pub(crate) fn octets_mut(&mut self) -> &mut Octets {
        &mut self.octets
    }
}

impl Default for Frames {
    fn default() -> Frames {
        Frames::new()
    }
}

impl core::fmt::Debug for Frames {
    fn fmt(&self, f: &mut core::fmt::Formatter<'_>) -> core::fmt::Result {
        f.debug_struct("Frames").finish_non_exhaustive()
    }
}
