//! A circuit's unfinished frame: one that is handed over in chunks (document 02, W-205).

use crate::refusal::Refusal;
use crate::settings::Mac;

/// The most octets of a frame, all its chunks joined.
const MAX_OCTETS: usize = 1_500;

/// At most one frame that was begun and not ended. The buffer is kept when the frame goes, so that a circuit allocates once.
#[derive(Clone, Debug, PartialEq, Eq)]
pub(crate) struct Unfinished {
    /// The source MAC; none where no frame is begun.
    source: Option<Mac>,
    /// The octets joined so far; empty where no frame is begun.
    octets: Vec<u8>,
}

impl Unfinished {
    pub(crate) const NONE: Unfinished = Unfinished { source: None, octets: Vec::new() };

    /// The source MAC and the octets joined so far, if a frame is begun.
    pub(crate) fn get(&self) -> Option<(Mac, &[u8])> {
        self.source.map(|source| (source, &self.octets[..]))
    }

    /// Begins a frame. One that was begun before is dropped.
    pub(crate) fn begin(&mut self, source: Mac) {
        self.source = Some(source);
        self.octets.clear();
        self.octets.reserve_exact(MAX_OCTETS);
    }

    /// Adds a chunk: all of it, or nothing. Refusals 13 and 14.
    pub(crate) fn add(&mut self, chunk: &[u8]) -> Result<(), Refusal> {
        if self.source.is_none() {
            return Err(Refusal::NotBegun);
        }
        if chunk.len() > MAX_OCTETS - self.octets.len() {
            return Err(Refusal::TooLong);
        }
        self.octets.extend_from_slice(chunk);
        Ok(())
    }

    /// Takes the frame out: its source MAC, and its octets in their buffer. Refusal 13.
    pub(crate) fn take(&mut self) -> Result<(Mac, Vec<u8>), Refusal> {
        let source = self.source.take().ok_or(Refusal::NotBegun)?;
        Ok((source, std::mem::take(&mut self.octets)))
    }

    /// Gives the buffer back, for the next frame.
    pub(crate) fn give_back(&mut self, mut buffer: Vec<u8>) {
        buffer.clear();
        self.octets = buffer;
    }
}
