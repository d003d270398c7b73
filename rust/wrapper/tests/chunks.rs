//! Frames that come in chunks (document 02, W-205). What is expected is what `receive` does with the octets joined, or derived from docs/RULES.md.
mod common;
use common::*;
use isis_gr::{Ack, Call, Circuit, CircuitSettings, Frames, Gateway, Key, Kind, Level, Levels, Mac, Mark, Mode, Phase, Question, Received};
use isis_gr::{Refusal, Settings, Timers, REPLY_OCTETS};

const OTHER_MAC: Mac = Mac([2, 0, 0, 0, 0, 9]);

/// A gateway in the mode Running, the neighbour UP on both circuits.
fn peer_up() -> Gateway {
    let mut g = gateway(Mode::Running);
    receive(&mut g, P2P, &p2p_hello(INITIALIZING, 0)).expect("accepted");
    receive(&mut g, LAN, &lan_hello(2, true)).expect("accepted");
    g
}

/// Begins a frame and adds its chunks, all of which are taken.
fn hand(g: &mut Gateway, frames: &mut Frames, on: Circuit, from: Mac, chunks: &[&[u8]]) {
    g.begin_frame(on, from).expect("a circuit");
    for chunk in chunks {
        g.add_chunk(frames, on, chunk).expect("it fits");
    }
}

/// What an end came to, with its reply buffer.
fn end(g: &mut Gateway, frames: &Frames, on: Circuit) -> (Result<Received, Refusal>, [u8; REPLY_OCTETS + 1]) {
    let mut reply = [0xEE; REPLY_OCTETS + 1];
    (g.end_frame(frames, on, &mut reply), reply)
}

/// Every record that the tests make, with the link's metric: what a frame that comes in chunks must leave as a whole one does.
fn state(g: &Gateway) -> impl PartialEq + std::fmt::Debug {
    let lan = [2, 3].map(|from| [PEER_MAC, OTHER_MAC].map(|mac| g.look_up_lan(LAN, Level::Two, router(from), mac)));
    let p2p = [2, 3].map(|from| g.look_up_p2p(P2P, router(from)));
    (lan, p2p, g.link_metric(P2P), g.waiting())
}

/// The chunks on a clone, against receive of them joined on another.
fn as_receive(g: &Gateway, on: Circuit, from: Mac, chunks: &[&[u8]]) -> Result<Received, Refusal> {
    let (mut cut, mut whole, mut frames) = (g.clone(), g.clone(), Frames::from_octets([0xA5; Frames::OCTETS]));
    hand(&mut cut, &mut frames, on, from, chunks);
    let ended = end(&mut cut, &frames, on);
    let mut reply = [0xEE; REPLY_OCTETS + 1];
    let received = whole.receive(on, from, &chunks.concat(), &mut reply);
    assert_eq!((ended, state(&cut)), ((received, reply), state(&whole)));
    assert_eq!(end(&mut cut, &frames, on).0, Err(Refusal::NotBegun), "the frame is gone");
    received
}

#[test]
fn wherever_the_cuts_are_a_frame_is_answered_as_when_it_comes_whole() {
    let g = peer_up();
    let samples = [
        (P2P, p2p_hello(UP, RR)),
        (P2P, p2p_hello(UP, PR)),
        (P2P, p2p_hello(DOWN, SA)),
        (LAN, frame(16, router(2), &[tlv(6, &OWN_MAC.0), tlv(211, &[RR])])),
        (LAN, lan_hello(3, false)),
        (LAN, b"no hello".to_vec()),
        (P2P, frame(17, router(1), &[tlv(240, &[UP])])),
        (P2P, frame(17, router(3), &[tlv(240, &[DOWN])])),
    ];
    let mut numbers = Vec::new();
    for (on, octets) in samples {
        let whole = as_receive(&g, on, PEER_MAC, &[&octets]);
        for at in 0..=octets.len() {
            let (first, second) = octets.split_at(at);
            assert_eq!(as_receive(&g, on, PEER_MAC, &[first, second]), whole);
            assert_eq!(as_receive(&g, on, PEER_MAC, &[&[], first, &[], &[], second, &[]]), whole);
        }
        assert_eq!(as_receive(&g, on, PEER_MAC, &octets.chunks(1).collect::<Vec<_>>()), whole);
        numbers.push(whole.err().map_or(0, Refusal::number));
    }
    assert_eq!(numbers, [0, 0, 0, 0, 0, 3, 7, 9]);
}

#[test]
fn a_reply_is_written_at_the_end() {
    let (mut g, mut frames) = (peer_up(), Frames::new());
    let request = p2p_hello(UP, RR);
    hand(&mut g, &mut frames, P2P, PEER_MAC, &[&request[..20], &[], &request[20..]]);
    let (answer, reply) = end(&mut g, &frames, P2P);
    assert_eq!(answer.expect("accepted").reply.map(|reply| (reply.ack, reply.remaining)), Some((Ack::Restart, 27)));
    assert_eq!(reply[..], [&[211, 9, RA, 0, 27][..], &router(2).0, &[0xEE]].concat());
}

#[test]
fn a_frame_of_no_octet_is_no_hello() {
    let g = peer_up();
    assert_eq!(as_receive(&g, P2P, PEER_MAC, &[]), Err(Refusal::NotHello));
    assert_eq!(as_receive(&g, LAN, PEER_MAC, &[&[], &[]]), Err(Refusal::NotHello));
}

#[test]
fn each_circuit_has_its_own_frame_and_the_mac_of_its_begin() {
    let (mut g, mut frames) = (gateway(Mode::Running), Frames::new());
    let (p2p, lan) = (p2p_hello(INITIALIZING, 0), lan_hello(3, true));
    g.begin_frame(P2P, PEER_MAC).expect("a circuit");
    g.begin_frame(LAN, OTHER_MAC).expect("a circuit");
    for at in (0..40).step_by(5) {
        for (on, octets) in [(P2P, &p2p), (LAN, &lan)] {
            g.add_chunk(&mut frames, on, &octets[at.min(octets.len())..(at + 5).min(octets.len())]).expect("it fits");
        }
    }
    assert!(end(&mut g, &frames, LAN).0.is_ok());
    assert!(end(&mut g, &frames, P2P).0.is_ok());
    assert!(g.look_up_p2p(P2P, router(2)).expect("a circuit").is_some());
    assert!(g.look_up_lan(LAN, Level::Two, router(3), OTHER_MAC).expect("a level").is_some());
    assert!(g.look_up_lan(LAN, Level::Two, router(3), PEER_MAC).expect("a level").is_none());
    assert_eq!(&frames.octets()[..p2p.len()], &p2p[..], "the octets stand after the end");
    assert_eq!(&frames.octets()[1_500..1_500 + lan.len()], &lan[..]);
}

#[test]
fn beginning_again_drops_what_was_joined() {
    let (mut g, mut frames) = (peer_up(), Frames::new());
    hand(&mut g, &mut frames, LAN, PEER_MAC, &[b"garbage"]);
    hand(&mut g, &mut frames, LAN, OTHER_MAC, &[&lan_hello(3, true)]);
    assert!(end(&mut g, &frames, LAN).0.is_ok());
    assert!(g.look_up_lan(LAN, Level::Two, router(3), OTHER_MAC).expect("a level").is_some());
}

#[test]
fn an_end_that_receive_refuses_drops_the_frame_and_leaves_all_else() {
    let (mut g, mut frames) = (peer_up(), Frames::new());
    let before = state(&g);
    hand(&mut g, &mut frames, P2P, PEER_MAC, &[&p2p_hello(DOWN, RR)]);
    hand(&mut g, &mut frames, LAN, PEER_MAC, &[b"half of"]);
    let mut short = [0xEE; REPLY_OCTETS - 1];
    assert_eq!(g.end_frame(&frames, P2P, &mut short), Err(Refusal::ReplyRoom));
    assert_eq!(short, [0xEE; REPLY_OCTETS - 1]);
    assert_eq!(end(&mut g, &frames, P2P), (Err(Refusal::NotBegun), [0xEE; REPLY_OCTETS + 1]));
    assert_eq!(end(&mut g, &frames, LAN).0, Err(Refusal::NotHello), "the other circuit's frame was there still");
    assert_eq!(g.add_chunk(&mut frames, LAN, &[]), Err(Refusal::NotBegun));
    assert_eq!(state(&g), before);
}

#[test]
fn a_chunk_that_is_too_long_leaves_the_frame_and_the_memory() {
    let (mut g, mut frames) = (peer_up(), Frames::new());
    let hello = lan_hello(3, true);
    hand(&mut g, &mut frames, LAN, PEER_MAC, &[&hello[..9]]);
    let (words, octets) = (*g.words(), *frames.octets());
    for length in [1_492, 1_500, 1_501, 70_000] {
        assert_eq!(g.add_chunk(&mut frames, LAN, &vec![7; length]), Err(Refusal::TooLong));
        assert!(*g.words() == words && *frames.octets() == octets);
    }
    g.add_chunk(&mut frames, LAN, &hello[9..]).expect("a smaller one fits");
    g.add_chunk(&mut frames, LAN, &vec![7; 1_500 - hello.len()]).expect("exactly 1,500");
    assert_eq!(g.add_chunk(&mut frames, LAN, &[7]), Err(Refusal::TooLong));
    g.add_chunk(&mut frames, LAN, &[]).expect("nothing fits always");
    assert!(end(&mut g, &frames, LAN).0.is_ok(), "octets behind the PDU may be lent too");
}

#[test]
fn the_last_circuits_frame_ends_with_the_memory() {
    let mut frames = Frames::new();
    let p2p = CircuitSettings::new(Kind::P2p, Levels::TWO, OWN_MAC);
    let eight = (0..8).fold(Settings::new(router(1), Mode::Running, 0), |all, _| all.circuit(p2p));
    let mut g = Gateway::new();
    g.set_up(&eight).expect("in range");
    for number in 1..=8 {
        hand(&mut g, &mut frames, circuit(number), PEER_MAC, &[&[number; 700], &[number; 800]]);
    }
    assert!(frames.octets().chunks(1_500).zip(1..).all(|(octets, number)| octets == [number; 1_500]));
    for number in 1..=8 {
        assert_eq!(g.add_chunk(&mut frames, circuit(number), &[0]), Err(Refusal::TooLong));
        assert_eq!(end(&mut g, &frames, circuit(number)).0, Err(Refusal::NotHello));
    }
}

#[test]
fn other_calls_beside_it_leave_it_and_the_clock_is_that_of_the_end() {
    let (mut g, mut frames) = (peer_up(), Frames::new());
    let hello = p2p_hello(INITIALIZING, 0);
    hand(&mut g, &mut frames, P2P, OTHER_MAC, &[&hello[..11]]);
    receive(&mut g, P2P, &p2p_hello(UP, PR)).expect("accepted");
    receive(&mut g, P2P, b"no hello").expect_err("refused");
    g.tick(110).expect("later");
    g.release(P2P).expect("a circuit");
    g.clear(P2P).expect("a circuit");
    g.csnp_complete(P2P, Level::One).expect_err("in the mode Running");
    let mut after = Gateway::new();
    let reply = &mut [0; REPLY_OCTETS];
    let call = Call::Receive { circuit: P2P, from: PEER_MAC, frame: &hello, reply };
    g.why(&mut after, Question::NotAdvertised, call, P2P, Key::P2p(router(2)));
    for mut g in [g, after] {
        g.clear(P2P).expect("a circuit");
        let mut frames = frames.clone();
        g.add_chunk(&mut frames, P2P, &hello[11..]).expect("it fits");
        assert!(end(&mut g, &frames, P2P).0.is_ok());
        let record = g.look_up_p2p(P2P, router(2)).expect("a circuit").expect("it came up");
        assert_eq!((record.phase, record.expiry), (Phase::Up(Mark::Clear), 137));
    }
}

#[test]
fn the_mode_is_that_of_the_end() {
    let (mut g, mut frames) = (gateway(Mode::Restarting), Frames::new());
    // another circuit's ID is excused while we restart
    let other = frame(17, router(2), &[tlv(240, &[&[UP, 0, 0, 0, 9][..], &router(1).0, &99u32.to_be_bytes()].concat())]);
    hand(&mut g, &mut frames, P2P, PEER_MAC, &[&other[..30], &other[30..]]);
    let mut restarts = g.clone();
    assert!(end(&mut restarts, &frames, P2P).0.is_ok());
    assert!(matches!(g.tick(160).expect("later").timers, Timers::Ended { .. }));
    assert_eq!(end(&mut g, &frames, P2P).0, Err(Refusal::WrongNeighbor));
}

#[test]
fn two_gateways_have_two_memories() {
    let (mut one, mut first) = (peer_up(), Frames::new());
    hand(&mut one, &mut first, LAN, PEER_MAC, &[&lan_hello(3, true)[..20]]);
    let (mut two, mut second) = (one.clone(), first.clone());
    one.add_chunk(&mut first, LAN, b"something else").expect("it fits");
    two.add_chunk(&mut second, LAN, &lan_hello(3, true)[20..]).expect("it fits");
    assert_eq!(end(&mut one, &first, LAN).0, Err(Refusal::BadLength));
    assert!(end(&mut two, &second, LAN).0.is_ok());
}
