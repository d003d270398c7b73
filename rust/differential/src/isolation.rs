//! Demand 3 tried on the running code: two lists of calls that are equal without a bad neighbour's frames (document 01, "The runs of demand 3"), and without
//! the begins, chunks and ends on its circuit (document 02, W-205).
use crate::calls::{call, is_piece, named, receive, settings, Call, Now};
use crate::frames::{mac, system, MACS, SYSTEMS};
use crate::radio::Radio;
use crate::random::Random;
use crate::side::{Answer, Outcome, Side};
use isis_gr::{Levels, Refusal};
use isis_gr_reference::{Kind, Mac, Mode, Settings};

struct Run<S> {
    side: S,
    /// the bad neighbour's circuit is a LAN, this run has not answered 9 there, and every frame there was given whole
    stands: bool,
    /// the frames there that come in chunks
    radio: Radio,
}

/// What two runs came to.
#[derive(Clone, Copy, Debug, Default)]
pub struct Ran {
    /// The bad neighbour's frames that were given whole.
    pub frames: u64,
    /// Begins, chunks and ends on its circuit.
    pub pieces: u64,
    /// Begins, chunks and ends on the others, which both runs share.
    pub shared: u64,
    /// Whether its LAN's promise stood to the end.
    pub stands: bool,
}

struct Bad {
    circuit: u8,
    source: Mac,
}

impl<S: Side> Run<S> {
    /// One call: what is compared of its answer, and the reply buffer.
    fn step(&mut self, bad: &Bad, call: &Call) -> Outcome {
        let Outcome { mut answer, reply } = call.on(&mut self.side);
        let there = named(call) == Some(bad.circuit);
        if there && (answer == Err(Refusal::NoRoom) || is_piece(call)) {
            self.stands = false;
        }
        match &mut answer {
            Ok(Answer::Received(got)) if there => got.csnps = Levels::default(),
            Ok(Answer::Ticked(t)) => t.lost = t.lost.into_iter().filter(|circuit| circuit.number() != bad.circuit).collect(),
            Ok(Answer::Record(found)) if there && matches!(call, Call::LookUpLan(.., source) if *source == bad.source) => *found = None,
            _ => {}
        }
        Outcome { answer, reply }
    }
}

fn is_its(bad: &Bad, call: &Call) -> bool {
    named(call) == Some(bad.circuit) && (is_piece(call) || matches!(*call, Call::Receive(_, source, ..) if source == bad.source))
}

fn same_frames<S: Side>(a: &Run<S>, b: &Run<S>, bad: &Bad, s: &Settings) {
    for n in (1..=s.circuits.len() as u8).filter(|n| *n != bad.circuit) {
        assert_eq!(a.side.unfinished(n), b.side.unfinished(n), "unfinished frame on circuit {n}");
    }
}

fn same_records<S: Side>(a: &Run<S>, b: &Run<S>, bad: &Bad, s: &Settings) {
    for n in 1..=s.circuits.len() as u8 {
        let own = n == bad.circuit;
        if own && !(a.stands && b.stands) {
            continue;
        }
        for level in 1..=2 {
            for from in 0..SYSTEMS {
                for source in (0..MACS).map(mac).filter(|source| !(own && *source == bad.source)) {
                    let x = a.side.look_up_lan(n, level, system(from), source);
                    assert_eq!(x, b.side.look_up_lan(n, level, system(from), source), "record on circuit {n}");
                }
            }
        }
    }
}

/// Two runs on one side, of `calls` shared calls from a seed. In half of them every frame on the bad neighbour's circuit is given whole.
pub fn run<S: Side + Clone>(seed: u64, calls: u64) -> Ran {
    let mut r = Random::new(seed ^ 0x5EED);
    let s = settings(&mut r, Mode::Running);
    let bad = Bad { circuit: 1 + r.below(s.circuits.len() as u64) as u8, source: mac(r.below(3) as u8) };
    let lan = s.circuits[usize::from(bad.circuit) - 1].kind == Kind::Lan;
    let in_chunks = if r.chance(50) { 40 } else { 0 };
    let (side, _) = S::new(&s).expect("in range");
    let mut a = Run { side: side.clone(), stands: lan, radio: Radio::default() };
    let mut b = Run { side, stands: lan, radio: Radio::default() };
    let mut now = Now::new(&mut r, s.clock);
    let mut ran = Ran::default();
    for i in 0..calls {
        for run in [&mut a, &mut b] {
            for _ in 0..r.below(3) {
                if r.chance(in_chunks) {
                    let piece = run.radio.call(&mut r, &s, bad.circuit);
                    run.step(&bad, &piece);
                    ran.pieces += 1;
                } else if let Call::Receive(n, _, frame, room, meant) = receive(&mut r, &s, bad.circuit) {
                    run.step(&bad, &Call::Receive(n, bad.source, frame, room, meant));
                    ran.frames += 1;
                }
            }
        }
        let next = call(&mut r, &s, &mut now);
        if is_its(&bad, &next) {
            continue;
        }
        ran.shared += u64::from(is_piece(&next));
        let (x, y) = (a.step(&bad, &next), b.step(&bad, &next));
        if named(&next) != Some(bad.circuit) || (a.stands && b.stands) {
            assert_eq!(x, y, "seed {seed}, call {i}: {next:02x?}");
        }
        same_frames(&a, &b, &bad, &s);
        if i % 16 == 0 {
            same_records(&a, &b, &bad, &s);
        }
    }
    same_records(&a, &b, &bad, &s);
    Ran { stands: a.stands && b.stands, ..ran }
}
