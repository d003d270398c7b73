//! Frames that are handed over in chunks (document 02, W-205).

mod common;
use common::*;
use isis_gr_reference::*;

/// Whether the circuit's frame, ended, does what receive does to a twin that has no such frame: answer, state and reply.
fn ends_as_receive(run: &mut Run, twin: &mut Run, circuit: u8, source: Mac, octets: &[u8]) -> Result<Received, u8> {
    let (ended, whole) = (run.end(circuit), twin.lend(circuit, source, octets));
    assert_eq!((ended, &run.gateway, run.reply), (whole, &twin.gateway, twin.reply));
    ended
}

/// Hands octets over in these chunks, and compares with receive.
fn hand_over(before: &Run, circuit: u8, source: Mac, chunks: &[&[u8]]) -> Result<Received, u8> {
    let (mut run, mut twin) = (before.clone(), before.clone());
    run.hand(circuit, source, chunks);
    ends_as_receive(&mut run, &mut twin, circuit, source, &chunks.concat())
}

/// Circuit 1 is point-to-point and circuit 2 a LAN, the peer UP on both.
fn peer_up() -> Run {
    let mut run = Run::running(&[p2p(), lan()]);
    run.accept(&Hello::p2p(INITIALIZING));
    run.receive(2, PEER_MAC, &Hello::lan_up(1)).expect("accepted");
    run
}

/// Frames for circuits 1 and 2 with a reply, without one, and refused 3 to 9.
fn samples() -> Vec<(u8, Vec<u8>)> {
    let mut past_end = Hello::p2p(UP).octets();
    past_end[21] = 200;
    let mut long = Hello::p2p(UP).octets();
    long[17] = 6;
    vec![
        (1, Hello::p2p(UP).restart(RR, 300).reverse(2, 5).octets()),
        (1, Hello::p2p(UP).restart(PR, 300).octets()),
        (1, Hello::p2p(DOWN).octets()),
        (1, [Hello::p2p(UP).octets(), vec![0xd3; 9]].concat()),
        (2, Hello::lan_up(1).restart(RR, 300).reverse(2, 5).octets()),
        (2, Hello::lan(2).from(THIRD).octets()),
        (2, Hello::p2p(UP).octets()),
        (1, long),
        (1, past_end),
        (1, Hello::p2p(UP).circuit_type(0).octets()),
        (1, Hello::p2p(UP).from(OWN).octets()),
        (1, Hello::bare().three_way(UP, THIRD, OWN_ID).octets()),
        (1, Hello::p2p(UP).from(THIRD).octets()),
    ]
}

#[test]
fn wherever_the_cuts_are_an_end_is_receive_on_the_joined_octets() {
    let before = peer_up();
    let mut numbers = Vec::new();
    for (circuit, octets) in samples() {
        let whole = hand_over(&before, circuit, PEER_MAC, &[&octets]);
        for at in 0..=octets.len() {
            let (first, second) = octets.split_at(at);
            assert_eq!(hand_over(&before, circuit, PEER_MAC, &[first, second]), whole);
            for middle in 0..=at {
                let (start, end) = first.split_at(middle);
                assert_eq!(hand_over(&before, circuit, PEER_MAC, &[start, end, second]), whole);
            }
        }
        for length in 1..=octets.len() {
            assert_eq!(hand_over(&before, circuit, PEER_MAC, &octets.chunks(length).collect::<Vec<_>>()), whole);
        }
        numbers.extend(whole.err());
    }
    assert_eq!(numbers, [3, 4, 5, 6, 7, 8, 9]);
}

#[test]
fn empty_chunks_add_nothing_wherever_they_stand() {
    let before = peer_up();
    for (circuit, octets) in samples() {
        let whole = before.clone().lend(circuit, PEER_MAC, &octets);
        for at in 0..=octets.len() {
            let (first, second) = octets.split_at(at);
            assert_eq!(hand_over(&before, circuit, PEER_MAC, &[&[], first, &[], &[], second, &[]]), whole);
        }
    }
}

#[test]
fn a_frame_of_no_octet_is_receive_on_none() {
    let mut run = peer_up();
    for chunks in [&[][..], &[&[][..]], &[&[], &[], &[]]] {
        assert_eq!(hand_over(&run, 1, PEER_MAC, chunks), Err(3));
        assert_eq!(hand_over(&run, 2, PEER_MAC, chunks), Err(3));
    }
    run.hand(1, PEER_MAC, &[]);
    assert_eq!(run.gateway.end_frame(1, &mut [0; 10]), Err(Refusal::ReplyRoom));
    assert_eq!(run.gateway.end_frame(1, &mut [0; 11]), Err(Refusal::NotBegun));
}

#[test]
fn beginning_again_drops_the_unfinished_frame() {
    let (mut run, mut twin) = (peer_up(), peer_up());
    let hello = Hello::p2p(UP).restart(RR, 0).octets();
    run.hand(1, PEER_MAC, &[&hello[..30], b"garbage"]);
    run.hand(1, THIRD_MAC, &[]);
    run.hand(1, PEER_MAC, &[&hello]);
    assert!(ends_as_receive(&mut run, &mut twin, 1, PEER_MAC, &hello).is_ok());
}

#[test]
fn the_mac_is_that_of_the_begin() {
    let (mut run, mut twin) = (Run::running(&[lan()]), Run::running(&[lan()]));
    let (first, second) = (Hello::lan_up(1).octets(), Hello::lan_up(1).from(THIRD).octets());
    run.hand(1, THIRD_MAC, &[&first[..9]]);
    run.hand(1, PEER_MAC, &[&first[..9]]); // it begins again, from another
    assert_eq!(run.lend(1, THIRD_MAC, &second), twin.lend(1, THIRD_MAC, &second));
    assert_eq!(run.gateway.add_chunk(1, &first[9..]), Ok(()));
    assert!(ends_as_receive(&mut run, &mut twin, 1, PEER_MAC, &first).is_ok());
    let stands = |system, mac| run.gateway.look_up(1, 1, system, mac).expect("circuit stands").is_some();
    assert_eq!([stands(PEER, PEER_MAC), stands(THIRD, THIRD_MAC), stands(PEER, THIRD_MAC)], [true, true, false]);
}

#[test]
fn an_end_drops_the_frame_though_receive_refuses_it() {
    let mut seen = Vec::new();
    for (circuit, octets) in samples() {
        let mut run = peer_up();
        run.hand(circuit, PEER_MAC, &[&octets]);
        seen.extend(run.end(circuit).err());
        for short in [0, 10, 11] {
            assert_eq!(run.gateway.end_frame(circuit, &mut vec![0; short]), Err(Refusal::NotBegun));
        }
        assert_eq!(run.gateway.add_chunk(circuit, &[]), Err(Refusal::NotBegun));
    }
    assert_eq!(seen, [3, 4, 5, 6, 7, 8, 9]);
    let mut run = peer_up();
    let hello = Hello::p2p(UP).restart(RR, 0).octets();
    run.hand(1, PEER_MAC, &[&hello]);
    let before = run.gateway.clone();
    let mut reply = [UNTOUCHED; 10];
    assert_eq!(run.gateway.end_frame(1, &mut reply), Err(Refusal::ReplyRoom));
    assert_eq!((reply, run.gateway.unfinished(1)), ([UNTOUCHED; 10], None));
    assert_eq!(but_for_frame(&run.gateway, 1), but_for_frame(&before, 1));
}

#[test]
fn refusals_1_and_13_drop_nothing() {
    let mut run = peer_up();
    let hello = Hello::p2p(UP).octets();
    run.hand(1, PEER_MAC, &[&hello[..20]]);
    let before = run.gateway.clone();
    for circuit in [0, 3, 8, 9, 255] {
        assert_eq!(run.gateway.begin_frame(circuit, PEER_MAC), Err(Refusal::NoCircuit));
        assert_eq!(run.gateway.add_chunk(circuit, &hello), Err(Refusal::NoCircuit));
        assert_eq!(run.gateway.end_frame(circuit, &mut [0; 11]), Err(Refusal::NoCircuit));
        assert_eq!(run.gateway.unfinished(circuit), None);
    }
    assert_eq!(run.gateway.add_chunk(2, &hello), Err(Refusal::NotBegun));
    assert_eq!(run.gateway.end_frame(2, &mut [0; 11]), Err(Refusal::NotBegun));
    assert_eq!(run.gateway, before);
    assert_eq!(run.gateway.add_chunk(1, &hello[20..]), Ok(()));
    assert!(run.end(1).is_ok());
}

#[test]
fn the_order_is_1_then_13_then_14_and_of_an_end_1_then_13_then_2() {
    let mut run = peer_up();
    let long = [0; 1_501];
    assert_eq!(run.gateway.add_chunk(3, &long), Err(Refusal::NoCircuit));
    assert_eq!(run.gateway.add_chunk(1, &long), Err(Refusal::NotBegun));
    assert_eq!(run.gateway.add_chunk(1, &[]), Err(Refusal::NotBegun));
    assert_eq!(run.gateway.end_frame(3, &mut []), Err(Refusal::NoCircuit));
    assert_eq!(run.gateway.end_frame(1, &mut []), Err(Refusal::NotBegun));
    run.hand(1, PEER_MAC, &[]);
    assert_eq!(run.gateway.add_chunk(1, &long), Err(Refusal::TooLong));
    assert_eq!(run.gateway.end_frame(1, &mut []), Err(Refusal::ReplyRoom), "ahead of 3");
}

#[test]
fn no_14_keeps_the_frame_as_it_was_and_a_smaller_chunk_may_still_fit() {
    let mut run = peer_up();
    let hello = Hello::p2p(UP).restart(RR, 0).octets();
    let (start, rest) = hello.split_at(20);
    run.hand(1, PEER_MAC, &[start]);
    let before = run.gateway.clone();
    for length in [1_481, 1_500, 1_501, 70_000] {
        assert_eq!(run.gateway.add_chunk(1, &vec![0; length]), Err(Refusal::TooLong));
        assert_eq!(run.gateway, before);
    }
    let (joined, mut twin) = ([start, rest, &vec![0xd3; 1_500 - hello.len()]].concat(), peer_up());
    assert_eq!(run.gateway.add_chunk(1, rest), Ok(()));
    assert_eq!(run.gateway.add_chunk(1, &joined[hello.len()..]), Ok(()), "exactly 1,500");
    assert_eq!(run.gateway.add_chunk(1, &[0]), Err(Refusal::TooLong));
    assert_eq!(run.gateway.add_chunk(1, &[]), Ok(()));
    assert!(ends_as_receive(&mut run, &mut twin, 1, PEER_MAC, &joined).is_ok());
}

/// A LAN hello padded by TLVs of type 8 to so many octets.
fn padded(length: usize) -> Vec<u8> {
    let mut hello = Hello::lan_up(1);
    for value in [255, 255, 255, 255, 255, length - 27 - 8 - 5 * 257 - 2] {
        hello = hello.tlv(8, &vec![0; value]);
    }
    let octets = hello.octets();
    assert_eq!(octets.len(), length);
    octets
}

#[test]
fn a_pdu_length_above_1492_is_refused_4_though_1500_octets_may_be_joined() {
    let before = peer_up();
    for (length, answer) in [(1_492, None), (1_493, Some(4)), (1_500, Some(4))] {
        let octets = padded(length);
        let filled = [&octets[..], &vec![0xd3; 1_500 - length]].concat();
        assert_eq!(hand_over(&before, 2, PEER_MAC, &octets.chunks(64).collect::<Vec<_>>()).err(), answer);
        assert_eq!(hand_over(&before, 2, PEER_MAC, &filled.chunks(500).collect::<Vec<_>>()).err(), answer);
    }
    let mut run = before;
    run.hand(2, PEER_MAC, &[]);
    assert_eq!(run.gateway.add_chunk(2, &padded(1_501)), Err(Refusal::TooLong));
    assert_eq!(run.lend(2, PEER_MAC, &padded(1_501)), Err(4), "whole, it is refused by its PDU Length");
}

/// A call: whether it is done.
type Made = fn(&mut Run) -> bool;

#[test]
fn a_whole_receive_a_tick_a_release_and_a_clear_beside_it_leave_it() {
    let (mut run, mut twin) = (peer_up(), peer_up());
    let hello = Hello::p2p(INITIALIZING).hold(60).octets();
    let (start, rest) = hello.split_at(13);
    run.hand(1, PEER_MAC, &[start]);
    let calls: [(bool, Made); 7] = [
        (true, |run| run.receive(1, PEER_MAC, &Hello::p2p(UP).restart(PR, 50)).is_ok()),
        (false, |run| run.receive(1, THIRD_MAC, &Hello::p2p(UP).from(THIRD)).is_ok()),
        (false, |run| run.gateway.receive(1, PEER_MAC, &[], &mut []).is_ok()),
        (true, |run| run.gateway.tick(9).is_ok()),
        (false, |run| run.gateway.tick(8).is_ok()),
        (true, |run| run.gateway.release(1).is_ok()),
        (true, |run| run.gateway.clear(1).is_ok()),
    ];
    for (done, call) in calls {
        assert_eq!((call(&mut run), call(&mut twin)), (done, done));
        assert_eq!(run.gateway.unfinished(1), Some((PEER_MAC, start)));
        assert_eq!(but_for_frame(&run.gateway, 1), but_for_frame(&twin.gateway, 1));
    }
    assert_eq!(run.gateway.add_chunk(1, rest), Ok(()));
    let answer = ends_as_receive(&mut run, &mut twin, 1, PEER_MAC, &hello).expect("accepted");
    assert_eq!((answer.change.before, answer.change.after), (None, Some(true)), "clear came in between");
    assert_eq!(run.record().expiry, 69, "by the clock at the end");
}

#[test]
fn notices_and_the_end_of_a_restart_leave_it_and_the_mode_is_that_of_the_end() {
    // A wrong circuit ID is excused while we restart, and refused 8 once that is over.
    let hello = Hello::bare().three_way(UP, OWN, 99).octets();
    for over in [false, true] {
        let (mut run, mut twin) = (restart(3, 60, 3, &[p2p()]), restart(3, 60, 3, &[p2p()]));
        run.hand(1, PEER_MAC, &[&hello[..25]]);
        for run in [&mut run, &mut twin] {
            assert_eq!(run.gateway.csnp_complete(1, 1), Ok(QUIET));
            run.accept(&p2p_with(UP, RA));
            assert_eq!(run.gateway.csnp_complete(1, 2), Ok(QUIET));
            assert_eq!(run.gateway.database_complete(1).map(|timers| matches!(timers, TimerOutcome::Ended { .. })), Ok(false));
            if over {
                assert_eq!(run.gateway.database_complete(2), Ok(ended(TWO, Overload::Quiet)));
            }
            run.gateway.clear(1).expect("a circuit");
        }
        assert_eq!(run.gateway.unfinished(1), Some((PEER_MAC, &hello[..25])));
        assert_eq!(run.gateway.add_chunk(1, &hello[25..]), Ok(()));
        let answer = ends_as_receive(&mut run, &mut twin, 1, PEER_MAC, &hello);
        assert_eq!(answer.err(), over.then_some(8));
    }
}

#[test]
fn an_end_may_begin_t1_of_a_start_and_end_the_start() {
    let (mut run, mut twin) = (start(&[p2p()]), start(&[p2p()]));
    let hello = p2p_with(INITIALIZING, 0).octets();
    run.hand(1, PEER_MAC, &[&hello[..1], &hello[1..]]);
    assert_eq!(run.gateway.waiting().0, 0, "a frame counts at its end alone");
    let answer = ends_as_receive(&mut run, &mut twin, 1, PEER_MAC, &hello).expect("accepted");
    assert_eq!(orders(answer), BEGINS);
    let ack = p2p_with(UP, RA).octets();
    run.hand(1, PEER_MAC, &[&ack]);
    for run in [&mut run, &mut twin] {
        for level in 1..=2 {
            run.gateway.csnp_complete(1, level).expect("starting");
            run.gateway.database_complete(level).expect("starting");
        }
    }
    let answer = ends_as_receive(&mut run, &mut twin, 1, PEER_MAC, &ack).expect("accepted");
    assert_eq!(answer.timers, ended(BOTH, Overload::Clear));
}

#[test]
fn each_circuit_has_its_own_unfinished_frame() {
    let circuits = [p2p(), lan(), p2p(), lan()];
    let (mut run, mut twin) = (Run::running(&circuits), Run::running(&circuits));
    let frames = [
        Hello::p2p(INITIALIZING).octets(),
        Hello::lan_up(1).octets(),
        Hello::p2p(DOWN).from(THIRD).restart(RR, 0).octets(),
        b"no hello".to_vec(),
    ];
    let macs = [PEER_MAC, THIRD_MAC, [7; 6], [8; 6]];
    for (circuit, mac) in (1..).zip(macs) {
        run.hand(circuit, mac, &[]);
    }
    for at in (0..60).step_by(7) {
        for (circuit, frame) in (1..).zip(&frames) {
            let chunk = &frame[at.min(frame.len())..(at + 7).min(frame.len())];
            assert_eq!(run.gateway.add_chunk(circuit, chunk), Ok(()));
        }
    }
    let mut accepted = Vec::new();
    for circuit in [3, 1, 4, 2] {
        let at = usize::from(circuit) - 1;
        let mut left: Vec<u8> = (1..=4).filter(|&other| run.gateway.unfinished(other).is_some()).collect();
        let (ended, whole) = (run.end(circuit), twin.lend(circuit, macs[at], &frames[at]));
        assert_eq!((ended, run.reply), (whole, twin.reply));
        accepted.push(ended.is_ok());
        left.retain(|&other| other != circuit);
        assert!(left.iter().all(|&other| {
            let at = usize::from(other) - 1;
            run.gateway.unfinished(other) == Some((macs[at], &frames[at]))
        }));
    }
    assert_eq!(run.gateway, twin.gateway);
    assert_eq!(accepted, [true, true, false, true]);
}

#[test]
fn setup_begins_no_frame() {
    for mode in [Mode::Running, Mode::Restarting, Mode::Starting] {
        let mut run = Run::new(&settings(mode, &[p2p(), lan()]));
        for circuit in [1, 2] {
            assert_eq!(run.gateway.unfinished(circuit), None);
            assert_eq!(run.gateway.add_chunk(circuit, &[]), Err(Refusal::NotBegun));
            assert_eq!(run.gateway.end_frame(circuit, &mut [0; 11]), Err(Refusal::NotBegun));
        }
    }
}

#[test]
fn a_question_about_another_call_leaves_it() {
    let mut run = peer_up();
    run.hand(1, PEER_MAC, &[b"half of"]);
    let asked = Asked { circuit: 1, level: 1, system: PEER, mac: PEER_MAC };
    let hello = Hello::p2p(DOWN).octets();
    let mut reply = [0; 11];
    let receive = Call::Receive { circuit: 1, source: PEER_MAC, frame: &hello, reply: &mut reply };
    for call in [receive, Call::Tick(27), Call::Clear(1), Call::Asks] {
        let (_, after) = run.gateway.why(Question::NotAdvertised, call, asked);
        assert_eq!(after.unfinished(1), Some((PEER_MAC, &b"half of"[..])));
    }
}

#[test]
fn chunks_cut_at_random_among_other_calls() {
    let circuits = [p2p(), lan(), lan()];
    for seed in 1..=200 {
        let mut dice = Dice::new(seed);
        let (mut run, mut twin) = (Run::running(&circuits), Run::running(&circuits));
        let mut clock = 0;
        for _ in 0..40 {
            let circuit = 1 + dice.below(3) as u8;
            let source = dice.pick(&[PEER_MAC, THIRD_MAC]);
            let hello = if circuit == 1 { Hello::p2p(dice.below(3) as u8) } else { Hello::lan_up(1 + dice.below(2) as u8) };
            let octets = hello.restart(dice.pick(&[0, RR, PR, SA]), 9).hold(20).octets();
            let mut rest = &octets[..];
            run.hand(circuit, source, &[]);
            while !rest.is_empty() {
                let (chunk, after) = rest.split_at(dice.below(1 + rest.len().min(20) as u64) as usize);
                assert_eq!(run.gateway.add_chunk(circuit, chunk), Ok(()));
                rest = after;
                clock += u32::from(dice.chance(9));
                let whole = Hello::lan_up(1).from(THIRD);
                let other = |run: &mut Run| (run.tick(clock).marks, run.receive(2, THIRD_MAC, &whole));
                assert_eq!(other(&mut run), other(&mut twin));
            }
            let _ = ends_as_receive(&mut run, &mut twin, circuit, source, &octets);
        }
    }
}
