//! Any words and any octets mean some gateway with some unfinished frames (document 02, W-205): the archive reads them as `memory` does.
use isis_gr::Refusal;
use isis_gr_differential::calls::{self, Call};
use isis_gr_differential::memory::{Octets, Words};
use isis_gr_differential::proved::Proved;
use isis_gr_differential::random::Random;
use isis_gr_differential::side::Side;
use isis_gr_reference::{Mode, Settings, MAX_CIRCUITS};
use isis_gr_sys::{FRAME_OCTETS, GATEWAY_WORDS};

const OWN_WORDS: usize = GATEWAY_WORDS - 2 * MAX_CIRCUITS;

/// A number that is small, near a power of two, or anything.
fn number(r: &mut Random) -> u64 {
    match r.below(5) {
        0 => r.below(4),
        1 => r.below(2_000),
        2 => 1_501 * r.below(1_000) + r.below(3),
        3 => (1_u64 << r.below(64)).wrapping_sub(r.below(3)),
        _ => r.number(),
    }
}

/// A gateway that is set up, with a few of its own words changed in half of all cases, any words of unfinished frames, and octets that hold frames.
fn memory(r: &mut Random, s: &Settings) -> Proved {
    let (proved, _) = Proved::new(s).expect("in range");
    let mut words: Words = *proved.words();
    if r.chance(50) {
        for _ in 0..1 + r.below(40) {
            words[r.below(OWN_WORDS as u64) as usize] = number(r);
        }
    }
    words[OWN_WORDS..].fill_with(|| number(r));
    let mut octets: Octets = [r.octet(); FRAME_OCTETS];
    for (at, part) in octets.chunks_mut(FRAME_OCTETS / MAX_CIRCUITS).enumerate() {
        let n = at as u8 + 1;
        if let Call::Receive(_, _, frame, ..) = calls::receive(r, s, n) {
            part[..frame.len()].copy_from_slice(&frame);
            if r.chance(50) {
                words[OWN_WORDS + 2 * at] = frame.len() as u64 + 1;
            }
        }
    }
    Proved::of_memory(words, octets)
}

/// What each call of a frame in chunks does on a circuit: by whether it is there, and by the frame that the memory means.
fn check(r: &mut Random, before: &Proved, n: u8) -> Option<Result<(), Refusal>> {
    let there = before.link_metric(n).is_ok();
    let unfinished = before.unfinished(n);
    let (mut begun, mut longer, mut ended) = (before.clone(), before.clone(), before.clone());
    let chunk = vec![r.octet(); r.pick(&[0, 1, 700, 1_499, 1_500, 1_501])];
    let (mut reply, mut second) = ([0xEE; 12], [0xEE; 12]);
    let answers = (begun.begin_frame(n, [7; 6]), longer.add_chunk(n, &chunk), ended.end_frame(n, &mut reply));
    if !there {
        assert_eq!(answers, (Err(Refusal::NoCircuit), Err(Refusal::NoCircuit), Err(Refusal::NoCircuit)));
        return None;
    }
    assert_eq!((answers.0, begun.unfinished(n)), (Ok(()), Some(([7; 6], &[][..]))));
    let Some((source, octets)) = unfinished else {
        assert_eq!((answers.1, answers.2), (Err(Refusal::NotBegun), Err(Refusal::NotBegun)));
        return None;
    };
    let joined = [octets, &chunk].concat();
    if joined.len() > 1_500 {
        assert_eq!((answers.1, longer.unfinished(n)), (Err(Refusal::TooLong), unfinished));
    } else {
        assert_eq!((answers.1, longer.unfinished(n)), (Ok(()), Some((source, &joined[..]))));
    }
    let mut whole = before.clone();
    let received = whole.receive(n, source, octets, &mut second);
    assert_eq!((answers.2, reply, ended.unfinished(n)), (received, second, None));
    assert!(ended.words()[..OWN_WORDS] == whole.words()[..OWN_WORDS]);
    for other in (1..=MAX_CIRCUITS as u8).filter(|other| *other != n) {
        assert!([&begun, &longer, &ended].iter().all(|side| side.unfinished(other) == before.unfinished(other)));
    }
    Some(received.map(|_| ()))
}

#[test]
fn an_end_of_any_memory_is_receive_on_the_frame_that_it_means() {
    let (mut accepted, mut refused) = (0, 0);
    for seed in 1..=5_000 {
        let mut r = Random::new(seed ^ 0x0DD);
        let mode = r.pick(&[Mode::Running, Mode::Restarting, Mode::Starting]);
        let s = calls::settings(&mut r, mode);
        let before = memory(&mut r, &s);
        for n in 1..=MAX_CIRCUITS as u8 {
            match check(&mut r, &before, n) {
                Some(Ok(())) => accepted += 1,
                Some(Err(_)) => refused += 1,
                None => {}
            }
        }
    }
    assert!(accepted > 1_000 && refused > 1_000, "{accepted} accepted, {refused} refused");
}
