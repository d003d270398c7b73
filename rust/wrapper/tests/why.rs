//! Why: each reason of each question, and the sentence that it prints (document 02, W-204). What is expected is derived from docs/RULES.md.
mod common;
use common::*;
use isis_gr::{Call, Circuit, Gateway, Key, Level, Line, Mac, Mode, Question, Reason, Refusal, SystemId, Why, REPLY_OCTETS};

const HEADER: &str = include_str!("../../../include/isis_gr.h");
/// A router of the LAN whose MAC is above ours, and one whose MAC is above that.
const SEVEN: Mac = Mac([2, 0, 0, 0, 0, 7]);
const EIGHT: Mac = Mac([2, 0, 0, 0, 0, 8]);

/// The neighbour's key on P2P, and its key on the LAN.
fn p2p_key() -> Key {
    Key::P2p(router(2))
}

fn lan_key() -> Key {
    Key::Lan { level: Level::Two, system: router(2), mac: PEER_MAC }
}

/// A call's answer is not looked at.
fn ignore<T>(_: T) {}

/// Asks of a call; the gateway stays as it was, and `after` is what the same call makes of a clone.
fn ask(g: &Gateway, question: Question, call: Call<'_>, circuit: Circuit, key: Key, made: impl FnOnce(&mut Gateway)) -> Why {
    let before = g.clone();
    let mut after = Gateway::from_words([0xA5A5_A5A5_A5A5_A5A5; Gateway::WORDS]);
    let why = g.why(&mut after, question, call, circuit, key);
    assert_eq!(why.question, question);
    assert!(g.words() == before.words(), "the gateway before the call changed");
    let mut called = before;
    made(&mut called);
    assert!(after.words() == called.words(), "`after` is not what the call leaves");
    why
}

/// Asks of a frame from a MAC, before it is received; then it is.
fn ask_frame(g: &mut Gateway, question: Question, (on, from): (Circuit, Mac), frame: &[u8], circuit: Circuit, key: Key) -> Why {
    let (mut reply, mut written) = ([0xEE; REPLY_OCTETS + 1], [0xEE; REPLY_OCTETS + 1]);
    let call = Call::Receive { circuit: on, from, frame, reply: &mut reply };
    let why = ask(g, question, call, circuit, key, |called| {
        let _ = called.receive(on, from, frame, &mut written);
    });
    assert_eq!(reply, written, "the reply is the one that receive writes");
    let _ = g.receive(on, from, frame, &mut [0; REPLY_OCTETS]);
    why
}

/// Why the neighbour is not advertised once this frame of its own came.
fn not_advertised(g: &mut Gateway, on: Circuit, frame: &[u8], key: Key) -> Why {
    ask_frame(g, Question::NotAdvertised, (on, PEER_MAC), frame, on, key)
}

/// Why this frame orders no CSNPs.
fn no_csnps(g: &mut Gateway, on: Circuit, from: Mac, frame: &[u8]) -> Why {
    ask_frame(g, Question::NoCsnps, (on, from), frame, circuit(8), Key::P2p(router(9)))
}

/// A level 2 LAN hello of a router that lists us: its priority, and the flags of a Restart TLV, or none.
fn lan_with(from: SystemId, priority: u8, flags: Option<u8>) -> Vec<u8> {
    let restart = flags.map_or(Vec::new(), |flags| tlv(211, &[flags]));
    let mut frame = frame(16, from, &[tlv(6, &OWN_MAC.0), restart]);
    frame[19] = priority;
    frame
}

fn reads(why: Why, reason: Reason, sentence: &str) {
    assert_eq!((why.reason, why.to_string().as_str()), (reason, sentence));
}

#[test]
fn not_advertised_init() {
    let mut g = gateway(Mode::Running);
    let sentence = "not advertised: INIT, the neighbour does not hear us yet";
    reads(not_advertised(&mut g, P2P, &p2p_hello(DOWN, 0), p2p_key()), Reason::Init, sentence);
    reads(not_advertised(&mut g, LAN, &lan_hello(2, false), lan_key()), Reason::Init, sentence);
    reads(not_advertised(&mut g, P2P, &p2p_hello(DOWN, SA), p2p_key()), Reason::Init, sentence); // Suppressed too, and INIT comes first
    reads(not_advertised(&mut g, P2P, b"no hello", p2p_key()), Reason::Init, sentence);
    // and before a refusal
}

#[test]
fn not_advertised_suppressed() {
    let mut g = gateway(Mode::Running);
    let sentence = "not advertised: suppressed until a hello with SA clear arrives";
    reads(not_advertised(&mut g, P2P, &p2p_hello(INITIALIZING, SA), p2p_key()), Reason::Suppressed, sentence);
    reads(not_advertised(&mut g, LAN, &lan_with(router(2), 64, Some(SA)), lan_key()), Reason::Suppressed, sentence);
    reads(not_advertised(&mut g, LAN, b"no hello", lan_key()), Reason::Suppressed, sentence);
}

#[test]
fn not_advertised_refused() {
    let mut g = gateway(Mode::Running);
    let sentence = "not advertised: the frame was refused 6 (a TLV breaks its rule, or the circuit type is 0), at octet 21";
    let refused = p2p_hello(3, 0); // a three-way state that is none
    reads(not_advertised(&mut g, P2P, &refused, p2p_key()), Reason::Refused(Refusal::BadTlv { position: 21 }), sentence);
    let whoever = Key::P2p(router(9));
    reads(not_advertised(&mut g, P2P, &refused, whoever), Reason::Refused(Refusal::BadTlv { position: 21 }), sentence); // whatever key its frame had
    let absent = not_advertised(&mut g, circuit(3), &p2p_hello(DOWN, 0), p2p_key());
    reads(
        absent,
        Reason::Refused(Refusal::NoCircuit),
        "not advertised: the frame was refused 1 (no circuit of that number, or a level not enabled there)",
    );
}

#[test]
fn not_advertised_no_record() {
    let mut g = gateway(Mode::Running);
    let sentence = "not advertised: there is no record";
    // accepted, and nothing is kept; refused on another circuit; no receive; a refused one that is no receive
    reads(not_advertised(&mut g, P2P, &p2p_hello(UP, 0), p2p_key()), Reason::NoRecord, sentence);
    reads(ask_frame(&mut g, Question::NotAdvertised, (LAN, PEER_MAC), b"no hello", P2P, p2p_key()), Reason::NoRecord, sentence);
    let tick = ask(&g, Question::NotAdvertised, Call::Tick { clock: 101 }, P2P, p2p_key(), |g| ignore(g.tick(101)));
    reads(tick, Reason::NoRecord, sentence);
    let release = Call::Release { circuit: circuit(3) };
    reads(ask(&g, Question::NotAdvertised, release, circuit(3), p2p_key(), |_| {}), Reason::NoRecord, sentence);
}

#[test]
fn not_advertised_is_not_so() {
    let mut g = gateway(Mode::Running);
    let sentence = "not so: it is advertised";
    reads(not_advertised(&mut g, P2P, &p2p_hello(INITIALIZING, 0), p2p_key()), Reason::NotSo, sentence);
    reads(not_advertised(&mut g, P2P, b"no hello", p2p_key()), Reason::NotSo, sentence); // whatever was refused
    let tick = ask(&g, Question::NotAdvertised, Call::Tick { clock: 126 }, P2P, p2p_key(), |g| ignore(g.tick(126)));
    reads(tick, Reason::NotSo, sentence);
}

#[test]
fn a_key_goes_by_the_kind_of_its_circuit() {
    let mut g = gateway(Mode::Running);
    not_advertised(&mut g, P2P, &p2p_hello(INITIALIZING, 0), p2p_key());
    not_advertised(&mut g, LAN, &lan_hello(2, true), lan_key());
    let reason = |circuit, key| g.why(&mut Gateway::new(), Question::NotAdvertised, Call::Waiting, circuit, key).reason;
    assert_eq!(
        reason(P2P, Key::Lan { level: Level::One, system: router(2), mac: SEVEN }),
        Reason::NotSo,
        "level and MAC count for nothing"
    );
    assert_eq!(reason(LAN, lan_key()), Reason::NotSo);
    assert_eq!(
        reason(LAN, Key::Lan { level: Level::One, system: router(2), mac: PEER_MAC }),
        Reason::NoRecord,
        "level 1 is not enabled there"
    );
    assert_eq!(reason(LAN, Key::Lan { level: Level::Two, system: router(2), mac: SEVEN }), Reason::NoRecord);
    assert_eq!(reason(LAN, p2p_key()), Reason::NoRecord);
    assert_eq!(reason(circuit(3), p2p_key()), Reason::NoRecord);
}

#[test]
fn vanished_expired() {
    let mut g = gateway(Mode::Running);
    receive(&mut g, LAN, &lan_hello(2, true)).expect("accepted"); // until 127
    let not_yet = ask(&g, Question::Vanished, Call::Tick { clock: 126 }, LAN, lan_key(), |g| ignore(g.tick(126)));
    reads(not_yet, Reason::NotSo, "not so: it did not go in this call");
    let gone = ask(&g, Question::Vanished, Call::Tick { clock: 127 }, LAN, lan_key(), |g| ignore(g.tick(127)));
    reads(gone, Reason::Expired, "vanished: its holding time ran out");
    let refused = ask(&g, Question::Vanished, Call::Tick { clock: 99 }, LAN, lan_key(), |_| {});
    assert_eq!(refused.reason, Reason::NotSo);
}

#[test]
fn vanished_released() {
    let mut g = gateway(Mode::Running);
    receive(&mut g, P2P, &p2p_hello(INITIALIZING, 0)).expect("accepted");
    let release = |g: &Gateway| ask(g, Question::Vanished, Call::Release { circuit: P2P }, P2P, p2p_key(), |g| ignore(g.release(P2P)));
    reads(release(&g), Reason::NotSo, "not so: it did not go in this call"); // it has no mark Planned
    receive(&mut g, P2P, &p2p_hello(UP, PR)).expect("accepted");
    reads(release(&g), Reason::Released, "vanished: released, while it planned a restart");
}

#[test]
fn vanished_cleared() {
    let mut g = gateway(Mode::Running);
    receive(&mut g, P2P, &p2p_hello(DOWN, 0)).expect("accepted");
    let clear = |g: &Gateway, circuit| ask(g, Question::Vanished, Call::Clear { circuit }, P2P, p2p_key(), |g| ignore(g.clear(circuit)));
    reads(clear(&g, P2P), Reason::Cleared, "vanished: cleared, as its link went down");
    assert_eq!(clear(&g, LAN).reason, Reason::NotSo, "it is another circuit's");
    g.clear(P2P).expect("a circuit");
    assert_eq!(clear(&g, P2P).reason, Reason::NotSo, "it did not stand before");
}

#[test]
fn a_frame_lets_no_record_vanish() {
    let mut g = gateway(Mode::Running);
    receive(&mut g, P2P, &p2p_hello(INITIALIZING, 0)).expect("accepted");
    for frame in [p2p_hello(DOWN, 0), p2p_hello(UP, RR), b"no hello".to_vec()] {
        let why = ask_frame(&mut g, Question::Vanished, (P2P, PEER_MAC), &frame, P2P, p2p_key());
        reads(why, Reason::NotSo, "not so: it did not go in this call");
    }
}

#[test]
fn no_csnps_refused() {
    let mut g = gateway(Mode::Running);
    let sentence = "no CSNPs ordered: the frame was refused 5 (a TLV passes the PDU Length), at octet 21";
    let mut frame = p2p_hello(DOWN, RR);
    frame[21] = 200;
    reads(no_csnps(&mut g, P2P, PEER_MAC, &frame), Reason::Refused(Refusal::TlvPastEnd { position: 21 }), sentence);
    assert_eq!(no_csnps(&mut g, circuit(3), PEER_MAC, &frame).reason, Reason::Refused(Refusal::NoCircuit));
}

#[test]
fn no_csnps_by_lines_2_to_5() {
    let mut g = gateway(Mode::Running);
    let ignored = frame(17, router(2), &[tlv(240, &[UP]), tlv(211, &[RA | SA, 0, 9, 0, 0, 0, 0, 0, 0])]);
    for (frame, line, sentence) in [
        (p2p_hello(DOWN, RR), Line::Two, "no CSNPs ordered: line 2 fits the frame (RR from a neighbour that was not UP)"),
        (p2p_hello(INITIALIZING, 0), Line::Five, "no CSNPs ordered: line 5 fits the frame (an ordinary hello)"),
        (p2p_hello(UP, PR), Line::Three, "no CSNPs ordered: line 3 fits the frame (PR announces a planned restart)"),
        (p2p_hello(UP, 0), Line::Four, "no CSNPs ordered: line 4 fits the frame (a planned restart is over)"),
        (ignored, Line::Five, "no CSNPs ordered: line 5 fits the frame (an ordinary hello)"), // its flags may not stand together
        (p2p_hello(DOWN, PR), Line::Five, "no CSNPs ordered: line 5 fits the frame (an ordinary hello)"), // UP before, and not after
    ] {
        reads(no_csnps(&mut g, P2P, PEER_MAC, &frame), Reason::Fits(line), sentence);
    }
}

#[test]
fn no_csnps_outranked() {
    let mut g = gateway(Mode::Running);
    let mut take = |from: u8, mac, priority, flags| {
        g.receive(LAN, mac, &lan_with(router(from), priority, flags), &mut [0; REPLY_OCTETS]).expect("a hello")
    };
    take(2, PEER_MAC, 3, Some(0));
    take(7, SEVEN, 100, Some(0));
    take(8, EIGHT, 99, Some(0));
    take(9, Mac([2, 0, 0, 0, 0, 9]), 120, None); // the greatest pair, but its last frame had no Restart TLV
    let request = lan_with(router(2), 3, Some(RR));
    reads(
        no_csnps(&mut g, LAN, PEER_MAC, &request),
        Reason::Outranked { system: router(7), priority: 100, mac: SEVEN },
        "no CSNPs ordered: 1921.6800.1007 has the greater pair (100, 02:00:00:00:00:07)",
    );
    // it restarts itself, and drops out
    receive_from(&mut g, SEVEN, &lan_with(router(7), 100, Some(RR)));
    reads(
        no_csnps(&mut g, LAN, PEER_MAC, &request),
        Reason::Outranked { system: router(8), priority: 99, mac: EIGHT },
        "no CSNPs ordered: 1921.6800.1008 has the greater pair (99, 02:00:00:00:00:08)",
    );
    // two System IDs of one MAC with one pair: the lower is named
    receive_from(&mut g, EIGHT, &lan_with(SystemId([0x19, 0x21, 0x67, 0xFF, 0xFF, 0xFF]), 99, Some(0)));
    reads(
        no_csnps(&mut g, LAN, PEER_MAC, &request),
        Reason::Outranked { system: SystemId([0x19, 0x21, 0x67, 0xFF, 0xFF, 0xFF]), priority: 99, mac: EIGHT },
        "no CSNPs ordered: 1921.67ff.ffff has the greater pair (99, 02:00:00:00:00:08)",
    );
}

fn receive_from(g: &mut Gateway, from: Mac, frame: &[u8]) {
    g.receive(LAN, from, frame, &mut [0; REPLY_OCTETS]).expect("accepted");
}

#[test]
fn no_csnps_is_not_so() {
    let mut g = gateway(Mode::Running);
    let sentence = "not so: CSNPs were ordered, or the call is no receive";
    receive(&mut g, P2P, &p2p_hello(INITIALIZING, 0)).expect("accepted");
    reads(no_csnps(&mut g, P2P, PEER_MAC, &p2p_hello(UP, RR)), Reason::NotSo, sentence);
    receive(&mut g, LAN, &lan_with(router(2), 3, Some(0))).expect("accepted");
    reads(no_csnps(&mut g, LAN, PEER_MAC, &lan_with(router(2), 127, Some(RR))), Reason::NotSo, sentence); // the sender never has the duty
    reads(ask(&g, Question::NoCsnps, Call::Tick { clock: 99 }, P2P, p2p_key(), |_| {}), Reason::NotSo, sentence);
}

#[test]
fn every_call_may_be_asked_about() {
    let mut g = gateway(Mode::Restarting);
    receive(&mut g, LAN, &lan_with(router(2), 3, Some(0))).expect("accepted");
    let question = Question::Vanished;
    let asked = |call, made: fn(&mut Gateway)| assert_eq!(ask(&g, question, call, LAN, lan_key(), made).reason, Reason::NotSo);
    asked(Call::CsnpComplete { circuit: LAN, level: Level::Two }, |g| ignore(g.csnp_complete(LAN, Level::Two)));
    asked(Call::DatabaseComplete { level: Level::One }, |g| ignore(g.database_complete(Level::One)));
    asked(Call::LookUp { circuit: LAN }, |_| {});
    asked(Call::LinkMetric { circuit: LAN }, |_| {});
    asked(Call::NextHelloFlags { circuit: LAN, level: Level::Two }, |_| {});
    asked(Call::Waiting, |_| {});
    asked(Call::Release { circuit: LAN }, |g| ignore(g.release(LAN)));
    let clear = ask(&g, question, Call::Clear { circuit: LAN }, LAN, lan_key(), |g| ignore(g.clear(LAN)));
    assert_eq!(clear.reason, Reason::Cleared);
    let tick = ask(&g, question, Call::Tick { clock: 200 }, LAN, lan_key(), |g| ignore(g.tick(200)));
    assert_eq!(tick.reason, Reason::Expired);
}

#[test]
fn memory_that_is_not_set_up_has_no_record() {
    let g = Gateway::new();
    let why = ask(&g, Question::NotAdvertised, Call::Waiting, P2P, p2p_key(), |_| {});
    assert_eq!(why.reason, Reason::NoRecord);
    let call = Call::Receive { circuit: P2P, from: PEER_MAC, frame: &p2p_hello(DOWN, 0), reply: &mut [0; REPLY_OCTETS] };
    assert_eq!(ask(&g, Question::NotAdvertised, call, P2P, p2p_key(), |_| {}).reason, Reason::Refused(Refusal::NoCircuit));
}

#[test]
fn the_texts_are_the_headers() {
    let (_, rest) = HEADER.split_once("texts[11] = {").expect("the header has the texts");
    let (inside, _) = rest.split_once("};").expect("they end");
    let texts: Vec<&str> = inside.lines().filter_map(|line| line.trim().strip_prefix('"')?.strip_suffix("\",")).collect();
    let outranked = Reason::Outranked { system: router(7), priority: 100, mac: SEVEN };
    let reasons = [
        Reason::NotSo,
        Reason::Init,
        Reason::Suppressed,
        Reason::NoRecord,
        Reason::Refused(Refusal::NoRoom),
        Reason::Expired,
        Reason::Released,
        Reason::Cleared,
        Reason::Fits(Line::Two),
        outranked,
    ];
    assert!(texts.iter().copied().eq(reasons.iter().map(|reason| reason.text()).chain(["no such question or call"])));
}
