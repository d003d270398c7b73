//! The two memories that the archive is lent: a gateway's words, the last of which are two for each circuit's unfinished frame, and the octets of those
//! frames (document 02, W-205). What an unfinished frame is, of both; and what a call may change of them.
use crate::calls::Call;
use isis_gr_reference::Mac;
use isis_gr_sys::{CIRCUITS, FRAME_OCTETS, GATEWAY_WORDS, MOST_OCTETS};

/// A gateway's words.
pub type Words = [u64; GATEWAY_WORDS];

/// The octets of its unfinished frames.
pub type Octets = [u8; FRAME_OCTETS];

/// The words of an unfinished frame.
const SLOT_WORDS: usize = 2;

/// The words of a gateway without those of its unfinished frames.
const OWN_WORDS: usize = GATEWAY_WORDS - SLOT_WORDS * CIRCUITS;

/// The gateway's own words.
pub fn own(words: &Words) -> &[u64] {
    &words[..OWN_WORDS]
}

/// The words of a circuit's unfinished frame: 0, or 1 more than its octets; and its MAC.
fn slot(words: &Words, at: usize) -> [u64; SLOT_WORDS] {
    let first = OWN_WORDS + SLOT_WORDS * at;
    [words[first], words[first + 1]]
}

/// The octets that a circuit has.
fn part(octets: &Octets, at: usize) -> &[u8] {
    &octets[MOST_OCTETS * at..][..MOST_OCTETS]
}

/// A circuit's unfinished frame: its source MAC, and the octets joined so far. Any words mean one or none.
pub fn unfinished<'a>(words: &Words, octets: &'a Octets, n: u8) -> Option<(Mac, &'a [u8])> {
    let at = usize::from(n).checked_sub(1).filter(|at| *at < CIRCUITS)?;
    let [tag, mac] = slot(words, at);
    let length = tag.checked_sub(1).filter(|length| *length <= MOST_OCTETS as u64)?;
    let [_, _, mac @ ..] = mac.to_be_bytes();
    Some((mac, &part(octets, at)[..length as usize]))
}

/// Which parts of the memories a call may change.
struct May {
    own: bool,
    /// The circuit whose frame's words may change, from 0.
    slot: Option<usize>,
    /// The circuit whose octets may change, from 0.
    octets: Option<usize>,
}

impl May {
    /// A refusal changes nothing, but that an end which receive refuses drops its frame.
    fn of(call: &Call, code: u32) -> May {
        let done = code == 0;
        let there = |n: u8, so: bool| Some(usize::from(n).wrapping_sub(1)).filter(|_| so);
        match *call {
            Call::LookUpP2p(..) | Call::LookUpLan(..) | Call::Metric(_) | Call::Flags(..) | Call::Waiting => {
                May { own: false, slot: None, octets: None }
            }
            Call::Begin(n, _) => May { own: false, slot: there(n, done), octets: None },
            Call::Chunk(n, _) => May { own: false, slot: there(n, done), octets: there(n, done) },
            Call::End(n, ..) => May { own: done, slot: there(n, done || (2..=9).contains(&code)), octets: None },
            Call::Receive(..) | Call::Tick(_) | Call::Release(_) | Call::Clear(_) | Call::Csnp(..) | Call::Database(_) => {
                May { own: done, slot: None, octets: None }
            }
        }
    }
}

/// Holds a call with its code, 0 or the number of its refusal, to what it may change.
pub fn check(call: &Call, code: u32, before: (&Words, &Octets), after: (&Words, &Octets)) {
    let may = May::of(call, code);
    assert!(may.own || own(before.0) == own(after.0), "the gateway's own words changed");
    let same = std::ptr::eq(before.1, after.1);
    for at in 0..CIRCUITS {
        let n = at + 1;
        assert!(may.slot == Some(at) || slot(before.0, at) == slot(after.0, at), "the words of circuit {n}'s frame changed");
        assert!(same || may.octets == Some(at) || part(before.1, at) == part(after.1, at), "the octets of circuit {n} changed");
    }
}
