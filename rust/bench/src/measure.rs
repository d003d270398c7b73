//! One shape measured: the archive and the reference in turns, and of each the least of many batches. Both are brought to the same state, and compared,
//! by the trait that they share; what is measured is the archive as C calls it, whose answer is the word that it returns.
use crate::shapes::{lan, listed, settings};
use isis_gr::{Received, Refusal};
use isis_gr_differential::memory::{Octets, Words};
use isis_gr_differential::proved::{self, Proved};
use isis_gr_differential::reference::Reference;
use isis_gr_differential::side::Side;
use isis_gr_reference::{Gateway, Mac, Settings};
use isis_gr_sys::{isis_gr_raw_add_chunk, isis_gr_raw_begin_frame, isis_gr_raw_end_frame};
use isis_gr_sys::{isis_gr_raw_look_up, isis_gr_raw_receive, isis_gr_raw_tick};
use std::hint::black_box;
use std::time::Instant;

const BATCH: u32 = 500;
const BATCHES: u32 = 400;

/// Gateways in a batch of ticks that remove records. They stay in the nearest cache.
const RING: usize = 4;

/// Nanoseconds a call: the archive's, the reference's.
pub type Pair = (f64, f64);

/// A shape, and how one round of it is measured.
pub struct Shape {
    pub name: String,
    pub round: Box<dyn FnMut() -> Pair>,
}

/// A gateway of each, alike.
#[derive(Clone)]
pub struct Both {
    proved: Proved,
    reference: Reference,
}

impl Both {
    pub fn new() -> Both {
        Both::of(&settings())
    }

    pub fn of(settings: &Settings) -> Both {
        let (proved, _) = Proved::new(settings).expect("in range");
        let (reference, _) = Reference::new(settings).expect("in range");
        Both { proved, reference }
    }

    /// Takes a frame; both must answer alike.
    pub fn fed(mut self, circuit: u8, source: Mac, frame: &[u8]) -> Both {
        let mut reply = [0; 11];
        let a = self.proved.receive(circuit, source, frame, &mut reply);
        assert_eq!(a, self.reference.receive(circuit, source, frame, &mut reply));
        self
    }

    /// So many records on a LAN circuit.
    pub fn filled(mut self, circuit: u8, count: u8) -> Both {
        for router in 1..=count {
            self = self.fed(circuit, [2, 0, 0, 0, 0, router], &lan(router, &listed()));
        }
        self
    }
}

fn nanoseconds(calls: u32, mut batch: impl FnMut()) -> f64 {
    let start = Instant::now();
    batch();
    start.elapsed().as_nanos() as f64 / f64::from(calls)
}

/// The least of the batches of each, in turns.
fn turns(mut ours: impl FnMut(), mut theirs: impl FnMut()) -> Pair {
    let (mut a, mut b) = (f64::MAX, f64::MAX);
    for _ in 0..BATCHES {
        a = a.min(nanoseconds(BATCH, || (0..BATCH).for_each(|_| ours())));
        b = b.min(nanoseconds(BATCH, || (0..BATCH).for_each(|_| theirs())));
    }
    (a, b)
}

/// Receive, the same frame again and again.
pub fn receive(name: &str, both: Both, circuit: u8, source: Mac, frame: &[u8], room: usize) -> Shape {
    let Both { mut proved, mut reference } = both;
    let frame = frame.to_vec();
    let (mut x, mut y) = (vec![0; room], vec![0; room]);
    let a = proved.receive(circuit, source, &frame, &mut x);
    assert_eq!(a, reference.receive(circuit, source, &frame, &mut y), "{name}");
    assert_eq!(x, y, "{name}");
    let answer = match a {
        Ok(_) => String::new(),
        Err(why) => format!(" (refused {})", why.number()),
    };
    let (mut words, Reference(mut reference)) = (*proved.words(), reference);
    let round = move || {
        turns(
            || {
                let source = black_box(source);
                let frame = black_box(&frame[..]);
                // SAFETY: every pointer is of a live buffer, and goes with its length.
                black_box(unsafe {
                    isis_gr_raw_receive(words.as_mut_ptr(), circuit, source.as_ptr(), frame.as_ptr(), frame.len(), x.as_mut_ptr(), x.len())
                });
            },
            || {
                black_box(reference.receive(circuit, black_box(source), black_box(&frame[..]), &mut y)).ok();
            },
        )
    };
    Shape { name: format!("{name}{answer}"), round: Box::new(round) }
}

/// The octets of a chunk.
const CHUNK: usize = 64;

/// A frame handed over to the archive: its begin, its chunks and its end.
fn hand_over(words: &mut Words, frames: &mut Octets, circuit: u8, source: Mac, frame: &[u8], reply: &mut [u8]) {
    let (gateway, octets) = (words.as_mut_ptr(), frames.as_mut_ptr());
    // SAFETY: every pointer is of a live buffer, and goes with its length or has the size that the archive reads or writes.
    unsafe {
        black_box(isis_gr_raw_begin_frame(gateway, circuit, source.as_ptr()));
        for chunk in frame.chunks(CHUNK) {
            black_box(isis_gr_raw_add_chunk(gateway, octets, circuit, chunk.as_ptr(), chunk.len()));
        }
        black_box(isis_gr_raw_end_frame(gateway, octets, circuit, reply.as_mut_ptr(), reply.len()));
    }
}

/// The same on either side, for its answer.
fn handed(side: &mut impl Side, circuit: u8, source: Mac, frame: &[u8], reply: &mut [u8]) -> Result<Received, Refusal> {
    side.begin_frame(circuit, source)?;
    frame.chunks(CHUNK).try_for_each(|chunk| side.add_chunk(circuit, chunk))?;
    side.end_frame(circuit, reply)
}

/// A frame from its begin to its end, in chunks of 64 octets, the same again and again.
pub fn in_chunks(name: &str, both: Both, circuit: u8, source: Mac, frame: &[u8]) -> Shape {
    let Both { mut proved, mut reference } = both;
    let (frame, mut x, mut y) = (frame.to_vec(), [0; 11], [0; 11]);
    let a = handed(&mut proved, circuit, source, &frame, &mut x);
    assert_eq!((a, x), (handed(&mut reference, circuit, source, &frame, &mut y), y), "{name}");
    assert!(a.is_ok(), "{name}");
    let (mut words, mut frames, Reference(mut reference)) = (*proved.words(), Box::new(*proved.octets()), reference);
    let round = move || {
        turns(
            || hand_over(&mut words, &mut frames, circuit, black_box(source), black_box(&frame), &mut x),
            || {
                let (source, frame) = (black_box(source), black_box(&frame[..]));
                black_box(reference.begin_frame(circuit, source)).ok();
                for chunk in frame.chunks(CHUNK) {
                    black_box(reference.add_chunk(circuit, chunk)).ok();
                }
                black_box(reference.end_frame(circuit, &mut y)).ok();
            },
        )
    };
    Shape { name: name.to_string(), round: Box::new(round) }
}

/// The same against the archive's own receive of that frame, which is the second of the pair.
pub fn in_chunks_or_whole(name: &str, both: Both, circuit: u8, source: Mac, frame: &[u8]) -> Shape {
    let Both { mut proved, .. } = both;
    let (frame, mut x, mut y, mut twin) = (frame.to_vec(), [0; 11], [0; 11], proved.clone());
    let a = handed(&mut proved, circuit, source, &frame, &mut x);
    assert_eq!((a, x), (twin.receive(circuit, source, &frame, &mut y), y), "{name}");
    assert!(a.is_ok(), "{name}");
    let (mut words, mut frames, mut whole) = (*proved.words(), Box::new(*proved.octets()), *twin.words());
    let round = move || {
        turns(
            || hand_over(&mut words, &mut frames, circuit, black_box(source), black_box(&frame), &mut x),
            || {
                let (source, frame) = (black_box(source), black_box(&frame[..]));
                // SAFETY: every pointer is of a live buffer, and goes with its length.
                black_box(unsafe {
                    isis_gr_raw_receive(whole.as_mut_ptr(), circuit, source.as_ptr(), frame.as_ptr(), frame.len(), y.as_mut_ptr(), y.len())
                });
            },
        )
    };
    Shape { name: name.to_string(), round: Box::new(round) }
}

fn tick_once(words: &mut Words, clock: u32) -> u64 {
    // SAFETY: the pointer is of a live gateway.
    unsafe { isis_gr_raw_tick(words.as_mut_ptr(), clock) }
}

/// A tick at the clock that is held: no record goes, and no timer ends.
pub fn tick(name: &str, both: Both) -> Shape {
    let Both { mut proved, mut reference } = both;
    assert_eq!(proved.tick(100), reference.tick(100), "{name}");
    let (mut words, Reference(mut reference)) = (*proved.words(), reference);
    let round = move || {
        turns(
            || {
                black_box(tick_once(&mut words, black_box(100)));
            },
            || {
                black_box(reference.tick(black_box(100))).ok();
            },
        )
    };
    Shape { name: name.to_string(), round: Box::new(round) }
}

/// A tick that removes every record. The records are put back between batches, outside the time.
pub fn expiring(name: &str, both: Both) -> Shape {
    const CLOCK: u32 = 200;
    let Both { mut proved, mut reference } = both.clone();
    assert_eq!(proved.tick(CLOCK), reference.tick(CLOCK), "{name}");
    let round = move || {
        let (mut a, mut b) = (f64::MAX, f64::MAX);
        for _ in 0..BATCH * BATCHES / 10 {
            let mut ours: [Words; RING] = std::array::from_fn(|_| *both.proved.words());
            a = a.min(nanoseconds(RING as u32, || {
                for one in black_box(&mut ours) {
                    black_box(tick_once(one, black_box(CLOCK)));
                }
            }));
            let mut theirs: [Gateway; RING] = std::array::from_fn(|_| both.reference.0.clone());
            b = b.min(nanoseconds(RING as u32, || {
                for one in black_box(&mut theirs) {
                    black_box(one.tick(black_box(CLOCK))).ok();
                }
            }));
        }
        (a, b)
    };
    Shape { name: name.to_string(), round: Box::new(round) }
}

/// Setup, of memory that holds a gateway. The archive's time has the packing of its settings, by the wrapper as C's header does it; the
/// reference's has the allocation and release of its circuits.
pub fn set_up(name: &str, settings: Settings) -> Shape {
    let given = proved::settings(&settings);
    let mut gateway = isis_gr::Gateway::new();
    gateway.set_up(&given).expect("in range");
    let round = move || {
        turns(
            || {
                black_box(gateway.set_up(black_box(&given))).ok();
            },
            || {
                black_box(Gateway::set_up(black_box(&settings))).ok();
            },
        )
    };
    Shape { name: name.to_string(), round: Box::new(round) }
}

/// The look-up of a level 1 record on a LAN circuit.
pub fn look_up(name: &str, both: Both, circuit: u8, router: u8) -> Shape {
    let Both { proved, reference } = both;
    let (system, mac) = ([0x19, 0x21, 0x68, 0, 0x20, router], [2, 0, 0, 0, 0, router]);
    assert_eq!(proved.look_up_lan(circuit, 1, system, mac), reference.look_up_lan(circuit, 1, system, mac), "{name}");
    let Reference(reference) = reference;
    let mut record = [0; 2];
    let round = move || {
        turns(
            || {
                let (system, mac) = (black_box(system), black_box(mac));
                // SAFETY: every pointer is of a live buffer of the size that the archive reads or writes.
                black_box(unsafe {
                    isis_gr_raw_look_up(proved.words().as_ptr(), circuit, 1, system.as_ptr(), mac.as_ptr(), record.as_mut_ptr())
                });
            },
            || {
                black_box(reference.look_up(circuit, 1, black_box(system), black_box(mac))).ok();
            },
        )
    };
    Shape { name: name.to_string(), round: Box::new(round) }
}
