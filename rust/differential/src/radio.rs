//! Frames that come in chunks (document 02, W-205): a random frame, cut at random places, one call at a time, on several circuits at once; now and then a
//! frame that begins too early, a chunk or an end that nobody waits for, and chunks that are too long.
use crate::calls::{receive, Call};
use crate::random::Random;
use isis_gr_reference::{Settings, MAX_CIRCUITS};

/// The most octets that are joined.
const MOST: usize = 1_500;

/// What is to come of each circuit's frame, last first; and the circuit of the last call.
#[derive(Clone, Debug, Default)]
pub struct Radio {
    to_come: [Vec<Call>; MAX_CIRCUITS],
    last: Option<u8>,
}

/// Places to cut so many octets at, in order. Equal ones make an empty chunk.
fn cuts(r: &mut Random, length: usize) -> Vec<usize> {
    let mut places: Vec<usize> = (0..r.below(5)).map(|_| r.below(1 + length as u64) as usize).collect();
    if r.chance(20) {
        places.extend([places.first().copied().unwrap_or(0); 2]);
    }
    if r.chance(5) && length > 0 {
        places.push(length - 1);
    }
    places.extend([0, length]);
    places.sort_unstable();
    places
}

/// A frame for a circuit: its begin, and what is to come, last first. A few are filled up to the most octets or past them, mostly behind the PDU; in a few a
/// chunk that is too long, mostly by one octet, stands between two that fit.
fn frame(r: &mut Random, s: &Settings, n: u8) -> (Call, Vec<Call>) {
    let Call::Receive(_, source, mut octets, room, mut meant) = receive(r, s, n) else { unreachable!("it is a receive") };
    if r.chance(4) {
        let length = r.pick(&[1_492, 1_499, MOST, MOST, MOST + 1, MOST + 60]);
        octets.resize(length.max(octets.len()), 0xD3);
        if r.chance(15) {
            octets[17..19].copy_from_slice(&(length as u16).to_be_bytes());
            meant.damaged = true;
        }
    }
    let places = cuts(r, octets.len());
    let long = if r.chance(5) { r.below(places.len() as u64) as usize } else { places.len() };
    let mut calls = Vec::new();
    for (at, pair) in places.windows(2).enumerate() {
        let [from, to] = [pair[0], pair[1]];
        if at == long {
            let over = (MOST + 1).saturating_sub(from) + r.pick(&[0, 0, 0, 1, from]);
            calls.push(Call::Chunk(n, vec![0x83; over]));
        }
        calls.push(Call::Chunk(n, octets[from..to].to_vec()));
    }
    if octets.is_empty() || r.chance(2) {
        calls.clear();
    }
    calls.push(Call::End(n, room, octets, meant));
    calls.reverse();
    (Call::Begin(n, source), calls)
}

/// A chunk or an end that is not what comes next.
fn stray(r: &mut Random, s: &Settings, n: u8) -> Call {
    match frame(r, s, n) {
        (_, calls) if r.chance(40) => calls.into_iter().next().expect("an end at least"),
        (begin, _) if r.chance(10) => begin,
        _ => {
            let length = r.pick(&[0, 1, 8, 700, MOST - 1, MOST, MOST + 1]);
            Call::Chunk(n, (0..length).map(|_| r.octet()).collect())
        }
    }
}

impl Radio {
    /// The next call, on this circuit or, more often, on that of the last call where its frame goes on.
    pub fn call(&mut self, r: &mut Random, s: &Settings, n: u8) -> Call {
        let goes_on = |n: &u8| !self.to_come[usize::from(*n) - 1].is_empty();
        let n = self.last.filter(goes_on).filter(|_| r.chance(60)).unwrap_or(n);
        let Some(to_come) = usize::from(n).checked_sub(1).and_then(|at| self.to_come.get_mut(at)) else { return stray(r, s, n) };
        self.last = Some(n);
        if r.chance(4) {
            return stray(r, s, n);
        }
        match to_come.pop().filter(|_| !r.chance(2)) {
            Some(call) => call,
            None => {
                let (begin, rest) = frame(r, s, n);
                *to_come = rest;
                begin
            }
        }
    }
}
