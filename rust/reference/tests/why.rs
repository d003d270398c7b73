//! Why a neighbour is not advertised, why it vanished, why no CSNPs were ordered (document 02, W-204).

mod common;
use common::*;
use isis_gr_reference::*;

/// The peer's key on a circuit: on a LAN at level 1.
fn peer_on(circuit: u8) -> Asked {
    Asked { circuit, level: 1, system: PEER, mac: PEER_MAC }
}

/// The reason of any call, and the gateway after it: the one that is asked stays as it was.
fn ask(run: &Run, question: Question, call: Call<'_>, asked: Asked) -> (Reason, Gateway) {
    let before = run.gateway.clone();
    let told = run.gateway.why(question, call, asked);
    assert_eq!(run.gateway, before);
    told
}

/// The reason of a frame that comes on a circuit. What the question leaves is what the frame then does.
fn of_octets(run: &mut Run, question: Question, circuit: u8, source: Mac, octets: &[u8], asked: Asked) -> Reason {
    let mut reply = [UNTOUCHED; 14];
    let (reason, after) = ask(run, question, Call::Receive { circuit, source, frame: octets, reply: &mut reply }, asked);
    let _ = run.lend(circuit, source, octets);
    assert_eq!((&run.gateway, run.reply), (&after, reply));
    reason
}

fn of_frame(run: &mut Run, question: Question, circuit: u8, hello: &Hello, asked: Asked) -> Reason {
    of_octets(run, question, circuit, PEER_MAC, &hello.octets(), asked)
}

/// Why the peer is not advertised, of a frame of its own on circuit 1.
fn not_advertised(run: &mut Run, hello: &Hello) -> Reason {
    of_frame(run, Question::NotAdvertised, 1, hello, peer_on(1))
}

/// Why a frame of the peer on circuit 1 orders no CSNPs.
fn no_csnps(run: &mut Run, hello: &Hello) -> Reason {
    of_frame(run, Question::NoCsnps, 1, hello, peer_on(1))
}

/// The reason of a tick.
fn of_tick(run: &Run, question: Question, clock: u32, asked: Asked) -> Reason {
    ask(run, question, Call::Tick(clock), asked).0
}

/// A frame that is refused 3.
fn no_hello() -> Hello {
    Hello::lan(9)
}

#[test]
fn not_so_exactly_where_the_record_is_advertised_after_the_call() {
    let mut run = Run::running(&[p2p()]);
    assert_eq!(not_advertised(&mut run, &Hello::p2p(INITIALIZING)), Reason::NotSo);
    assert_eq!(of_tick(&run, Question::NotAdvertised, 26, peer_on(1)), Reason::NotSo);
    assert_eq!(of_tick(&run, Question::NotAdvertised, 27, peer_on(1)), Reason::NoRecord, "it went in the call");
    assert_eq!(not_advertised(&mut run, &Hello::p2p(DOWN)), Reason::Init, "it was advertised before the call");
}

#[test]
fn advertised_is_not_so_whatever_was_refused() {
    let mut run = p2p_up(0, 27);
    assert_eq!(not_advertised(&mut run, &no_hello()), Reason::NotSo);
    assert_eq!(of_tick(&p2p_up(9, 27), Question::NotAdvertised, 8, peer_on(1)), Reason::NotSo, "refused 10");
}

#[test]
fn init_comes_before_suppressed_and_both_before_a_refusal() {
    let mut run = Run::running(&[lan()]);
    assert_eq!(not_advertised(&mut run, &Hello::lan(1)), Reason::Init);
    assert_eq!(not_advertised(&mut run, &Hello::lan(1).restart(SA, 0)), Reason::Init, "INIT and Suppressed");
    assert_eq!(not_advertised(&mut run, &no_hello()), Reason::Init);
    assert_eq!(not_advertised(&mut run, &Hello::lan_up(1).restart(SA, 0)), Reason::Suppressed);
    assert_eq!(not_advertised(&mut run, &no_hello()), Reason::Suppressed);
    assert_eq!(not_advertised(&mut run, &Hello::lan_up(1).restart(RR | SA, 0)), Reason::Suppressed, "marked Restart too");
    assert_eq!(not_advertised(&mut run, &Hello::lan_up(1)), Reason::NotSo, "no Restart TLV");
}

#[test]
fn a_receive_refused_on_the_asked_circuit_is_named_whatever_key_its_frame_had() {
    let mut run = Run::running(&[p2p(), lan()]);
    let third = Asked { system: THIRD, mac: THIRD_MAC, ..peer_on(1) };
    assert_eq!(not_advertised(&mut run, &no_hello()), Reason::Refused(Refusal::NotAHello));
    assert_eq!(of_frame(&mut run, Question::NotAdvertised, 1, &Hello::p2p(3), third), Reason::Refused(Refusal::TlvRule { position: 21 }));
    run.accept(&Hello::p2p(DOWN));
    let other = Hello::p2p(DOWN).from(THIRD);
    assert_eq!(of_octets(&mut run, Question::NotAdvertised, 1, THIRD_MAC, &other.octets(), third), Reason::Refused(Refusal::RoomFull));
    let (short, _) = ask(
        &run,
        Question::NotAdvertised,
        Call::Receive { circuit: 1, source: PEER_MAC, frame: &other.octets(), reply: &mut [0; 10] },
        third,
    );
    assert_eq!(short, Reason::Refused(Refusal::ReplyRoom));
}

#[test]
fn a_receive_refused_on_another_circuit_leaves_no_record() {
    let mut run = Run::running(&[p2p(), lan()]);
    assert_eq!(of_frame(&mut run, Question::NotAdvertised, 2, &no_hello(), peer_on(1)), Reason::NoRecord);
    assert_eq!(of_frame(&mut run, Question::NotAdvertised, 9, &no_hello(), peer_on(1)), Reason::NoRecord);
    assert_eq!(of_frame(&mut run, Question::NotAdvertised, 2, &no_hello(), peer_on(9)), Reason::NoRecord);
}

#[test]
fn no_record_where_no_receive_was_refused_there() {
    let mut run = Run::running(&[p2p()]);
    assert_eq!(not_advertised(&mut run, &Hello::p2p(UP)), Reason::NoRecord, "accepted, and nothing is kept");
    let release = ask(&run, Question::NotAdvertised, Call::Release(9), peer_on(9)).0;
    assert_eq!(release, Reason::NoRecord, "refused 1, and no receive");
}

#[test]
fn a_circuit_that_is_not_there_has_no_record() {
    let mut run = p2p_up(0, 27);
    for circuit in [0, 2, 9, 255] {
        assert_eq!(of_tick(&run, Question::NotAdvertised, 1, peer_on(circuit)), Reason::NoRecord);
        assert_eq!(of_tick(&run, Question::Vanished, 99, peer_on(circuit)), Reason::NotSo);
        let refused = of_frame(&mut run, Question::NotAdvertised, circuit, &Hello::p2p(UP), peer_on(circuit));
        assert_eq!(refused, Reason::Refused(Refusal::NoCircuit));
    }
}

#[test]
fn a_level_that_is_not_enabled_on_a_lan_has_no_record() {
    let mut run = Run::running(&[CircuitSettings { levels: ONE, ..lan() }]);
    run.accept(&Hello::lan_up(1));
    for level in [0, 2, 3, 255] {
        let asked = Asked { level, ..peer_on(1) };
        assert_eq!(of_tick(&run, Question::NotAdvertised, 1, asked), Reason::NoRecord);
        assert_eq!(of_tick(&run, Question::Vanished, 99, asked), Reason::NotSo);
        assert_eq!(of_frame(&mut run, Question::NotAdvertised, 1, &no_hello(), asked), Reason::Refused(Refusal::NotAHello));
    }
}

#[test]
fn on_p2p_level_and_mac_of_the_key_count_for_nothing() {
    let run = p2p_up(0, 27);
    for level in [0, 1, 2, 255] {
        let asked = Asked { level, mac: THIRD_MAC, ..peer_on(1) };
        assert_eq!(of_tick(&run, Question::NotAdvertised, 1, asked), Reason::NotSo);
        assert_eq!(of_tick(&run, Question::Vanished, 27, asked), Reason::Expired);
    }
    assert_eq!(of_tick(&run, Question::Vanished, 27, Asked { system: THIRD, ..peer_on(1) }), Reason::NotSo);
}

#[test]
fn vanished_by_the_tick_that_reaches_its_expiry() {
    let mut run = Run::running(&[lan()]);
    run.accept(&Hello::lan(1).hold(27));
    assert_eq!(of_tick(&run, Question::Vanished, 26, peer_on(1)), Reason::NotSo);
    assert_eq!(of_tick(&run, Question::Vanished, 27, peer_on(1)), Reason::Expired);
    assert_eq!(of_tick(&run, Question::Vanished, 27, Asked { level: 2, ..peer_on(1) }), Reason::NotSo);
    run.tick(27);
    assert_eq!(of_tick(&run, Question::Vanished, 28, peer_on(1)), Reason::NotSo, "it did not stand before");
}

#[test]
fn vanished_by_the_release_of_a_planned_record() {
    let mut run = Run::running(&[p2p(), lan()]);
    let release = |run: &Run, circuit| ask(run, Question::Vanished, Call::Release(circuit), peer_on(1)).0;
    run.accept(&Hello::p2p(INITIALIZING));
    assert_eq!(release(&run, 1), Reason::NotSo);
    run.accept(&Hello::p2p(UP).restart(PR, 99));
    assert_eq!([1, 2, 9].map(|circuit| release(&run, circuit)), [Reason::Released, Reason::NotSo, Reason::NotSo]);
}

#[test]
fn vanished_by_clear_of_its_circuit() {
    let mut run = Run::running(&[p2p(), lan()]);
    run.accept(&Hello::p2p(DOWN));
    let clear = |circuit| ask(&run, Question::Vanished, Call::Clear(circuit), peer_on(1)).0;
    assert_eq!([1, 2, 9].map(clear), [Reason::Cleared, Reason::NotSo, Reason::NotSo]);
}

#[test]
fn no_other_call_lets_a_record_vanish() {
    let mut run = restart(60, 60, 3, &[p2p()]);
    run.accept(&Hello::p2p(INITIALIZING));
    for (call, differs) in [(Call::CsnpComplete(1, 1), true), (Call::DatabaseComplete(2), true), (Call::Asks, false)] {
        let (reason, after) = ask(&run, Question::Vanished, call, peer_on(1));
        assert_eq!((reason, after != run.gateway), (Reason::NotSo, differs), "the notices are made");
    }
    for hello in [Hello::p2p(DOWN), Hello::p2p(UP).restart(RR, 0), no_hello()] {
        assert_eq!(of_frame(&mut run, Question::Vanished, 1, &hello, peer_on(1)), Reason::NotSo);
    }
}

#[test]
fn csnps_are_not_so_where_they_are_ordered_or_the_call_is_no_receive() {
    let mut run = p2p_up(0, 27);
    assert_eq!(no_csnps(&mut run, &Hello::p2p(UP).restart(RR, 0)), Reason::NotSo);
    let mut lans = Run::running(&[lan()]);
    lans.accept(&Hello::lan_up(1));
    assert_eq!(no_csnps(&mut lans, &Hello::lan(1).priority(127).restart(RR, 0)), Reason::NotSo, "the sender never has the duty");
    for call in
        [Call::Tick(99), Call::Tick(0), Call::Release(9), Call::Clear(1), Call::CsnpComplete(1, 1), Call::DatabaseComplete(1), Call::Asks]
    {
        assert_eq!(ask(&run, Question::NoCsnps, call, peer_on(1)).0, Reason::NotSo);
    }
}

#[test]
fn no_csnps_by_the_refusal_of_the_frame() {
    let mut run = Run::running(&[p2p()]);
    assert_eq!(no_csnps(&mut run, &no_hello()), Reason::Refused(Refusal::NotAHello));
    assert_eq!(no_csnps(&mut run, &Hello::p2p(UP).from(OWN)), Reason::Refused(Refusal::NotForUs));
    assert_eq!(of_frame(&mut run, Question::NoCsnps, 2, &no_hello(), peer_on(1)), Reason::Refused(Refusal::NoCircuit));
}

#[test]
fn no_csnps_by_line_2_of_a_record_that_was_not_up() {
    let mut run = Run::running(&[p2p(), lan()]);
    assert_eq!(no_csnps(&mut run, &Hello::p2p(UP).restart(RR, 0)), Reason::Line(2), "no record, and none is kept");
    assert_eq!(no_csnps(&mut run, &Hello::p2p(DOWN).restart(RR, 0)), Reason::Line(2), "no record");
    assert_eq!(no_csnps(&mut run, &Hello::p2p(UP).restart(RR | SA, 0)), Reason::Line(2), "INIT before, UP after");
    assert_eq!(of_frame(&mut run, Question::NoCsnps, 2, &Hello::lan_up(1).restart(RR, 0), peer_on(2)), Reason::Line(2));
}

#[test]
fn no_csnps_by_line_3_of_pr_with_a_record_up_before_and_after() {
    let mut run = p2p_up(0, 27);
    assert_eq!(no_csnps(&mut run, &Hello::p2p(UP).restart(PR, 99)), Reason::Line(3));
    assert_eq!(no_csnps(&mut run, &Hello::p2p(UP).restart(PR, 99)), Reason::Line(3), "again");
}

#[test]
fn no_csnps_by_line_4_of_a_planned_record() {
    for hello in [Hello::p2p(UP).restart(0, 0), Hello::p2p(UP), Hello::p2p(UP).restart(RA | SA, 9), Hello::p2p(DOWN).restart(PR, 99)] {
        let mut run = p2p_up(0, 27);
        run.accept(&Hello::p2p(UP).restart(PR, 99));
        assert_eq!(no_csnps(&mut run, &hello), Reason::Line(4), "all clear; no TLV; ignored; PR and not UP after");
        assert_eq!(no_csnps(&mut run, &Hello::p2p(INITIALIZING)), Reason::Line(5), "once");
    }
}

#[test]
fn no_csnps_by_line_5_of_all_others() {
    let mut run = Run::running(&[p2p()]);
    assert_eq!(no_csnps(&mut run, &Hello::p2p(UP)), Reason::Line(5), "nothing is kept");
    assert_eq!(no_csnps(&mut run, &Hello::p2p(DOWN).restart(PR, 99)), Reason::Line(5), "PR of a record that is not UP");
    assert_eq!(no_csnps(&mut run, &Hello::p2p(UP).restart(SA, 0)), Reason::Line(5));
    assert_eq!(no_csnps(&mut run, &Hello::p2p(UP).restart(RA | SA, 9)), Reason::Line(5), "ignored");
    run.accept(&Hello::p2p(UP).restart(RR, 0));
    assert_eq!(no_csnps(&mut run, &Hello::p2p(UP).restart(RA, 9)), Reason::Line(5), "marked Restart before");
}

#[test]
fn the_question_about_csnps_goes_by_the_call_alone() {
    let mut run = p2p_up(0, 27);
    for (circuit, system) in [(1, THIRD), (2, PEER), (9, THIRD)] {
        let asked = Asked { circuit, level: 0, system, mac: THIRD_MAC };
        assert_eq!(of_frame(&mut run, Question::NoCsnps, 1, &Hello::p2p(UP), asked), Reason::Line(5));
        assert_eq!(of_frame(&mut run, Question::NoCsnps, 2, &Hello::p2p(UP), asked), Reason::Refused(Refusal::NoCircuit));
    }
}

/// A LAN where the peer is UP at level 1, with these hellos of others, each from its own System ID and MAC; and why the peer's RR orders no CSNPs.
fn duty(others: &[(u8, Hello)]) -> Reason {
    let mut run = Run::running(&[lan()]);
    run.accept(&Hello::lan_up(1).priority(127).restart(0, 0));
    for (n, hello) in others {
        run.receive(1, mac_of(*n), &hello.clone().from(system_of(*n))).unwrap();
    }
    no_csnps(&mut run, &Hello::lan(1).priority(127).restart(RR, 0))
}

fn system_of(n: u8) -> SystemId {
    [0x19, 0x21, 0x68, 0x00, 0x10, n]
}

fn mac_of(n: u8) -> Mac {
    [2, 0, 0, 0, 0, n]
}

fn outranked(n: u8, priority: u8) -> Reason {
    Reason::Outranked { system: system_of(n), priority, mac: mac_of(n) }
}

/// A hello at level 1 that lists us, with all flags clear.
fn clear(priority: u8) -> Hello {
    Hello::lan_up(1).priority(priority).restart(0, 0)
}

#[test]
fn the_greatest_pair_of_priority_and_mac_is_named() {
    assert_eq!(duty(&[(5, clear(65)), (6, clear(66)), (7, clear(65))]), outranked(6, 66), "by priority");
    assert_eq!(duty(&[(5, clear(64)), (7, clear(64)), (6, clear(64))]), outranked(7, 64), "by MAC");
    assert_eq!(duty(&[(9, clear(65)), (5, clear(66)), (9, clear(3))]), outranked(5, 66), "of the last frame");
    assert_eq!(duty(&[(9, clear(63))]), Reason::NotSo, "the duty is ours");
}

#[test]
fn only_routers_that_have_the_duty_are_compared() {
    let second = (5, clear(65));
    for (why, greater) in [
        ("INIT", Hello::lan(1).priority(99).restart(0, 0)),
        ("no Restart TLV", Hello::lan_up(1).priority(99)),
        ("other level", Hello::lan_up(2).priority(99).restart(0, 0)),
    ] {
        assert_eq!(duty(&[(9, greater), second.clone()]), outranked(5, 65), "{why}");
    }
    let restarts = Hello::lan_up(1).priority(99).restart(RR, 0);
    assert_eq!(duty(&[(9, clear(99)), (9, restarts), second.clone()]), outranked(5, 65), "marked Restart");
    let plans = Hello::lan_up(1).priority(99).restart(PR, 99);
    assert_eq!(duty(&[(9, clear(99)), (9, plans), second]), outranked(9, 99), "Planned has it");
}

#[test]
fn of_several_system_ids_with_one_pair_the_lowest_is_named() {
    for order in [[3, 4, 5], [5, 4, 3], [4, 3, 5]] {
        let mut run = Run::running(&[lan()]);
        run.accept(&Hello::lan_up(1));
        for n in order {
            run.receive(1, THIRD_MAC, &clear(65).from(system_of(n))).unwrap();
        }
        assert_eq!(no_csnps(&mut run, &Hello::lan(1).restart(RR, 0)), outranked(3, 65), "in whatever order they came");
    }
}
