//! What receive says of the frame's record, and what clear leaves.
mod common;
use common::*;
use isis_gr::{Change, Gateway, Kind, Level, Levels, Mac, Mark, Mode, Phase, ReverseMetric, Standing, REPLY_OCTETS};
use isis_gr::{CircuitSettings, Settings};

/// How the record stood before the frame, how it stands after it, and whether it is advertised.
type Told = (Standing, Standing, bool);

fn p2p(gateway: &mut Gateway, state: u8, flags: u8) -> Told {
    let Change { level, system, before, after, advertised } = receive(gateway, P2P, &p2p_hello(state, flags)).expect("accepted").change;
    assert_eq!((level, system), (None, router(2)), "the key: of P2P the System ID alone");
    let found = gateway.look_up_p2p(P2P, router(2)).expect("a circuit");
    assert_eq!(after, found.map_or(Standing::None, |r| if r.phase == Phase::Init { Standing::Init } else { Standing::Up }));
    assert_eq!(advertised, found.is_some_and(|r| r.advertised), "as look-up has it");
    (before, after, advertised)
}

#[test]
fn none_to_init_to_up_and_back() {
    let mut g = gateway(Mode::Running);
    assert_eq!(p2p(&mut g, DOWN, 0), (Standing::None, Standing::Init, false));
    assert_eq!(p2p(&mut g, DOWN, 0), (Standing::Init, Standing::Init, false));
    assert_eq!(p2p(&mut g, INITIALIZING, 0), (Standing::Init, Standing::Up, true));
    assert_eq!(p2p(&mut g, UP, 0), (Standing::Up, Standing::Up, true));
    assert_eq!(p2p(&mut g, DOWN, 0), (Standing::Up, Standing::Init, false));
}

#[test]
fn a_restart_request_keeps_the_record_up() {
    let mut g = gateway(Mode::Running);
    p2p(&mut g, INITIALIZING, 0);
    assert_eq!(p2p(&mut g, DOWN, RR), (Standing::Up, Standing::Up, true));
}

#[test]
fn a_frame_may_leave_no_record() {
    let mut g = gateway(Mode::Running);
    assert_eq!(p2p(&mut g, UP, 0), (Standing::None, Standing::None, false));
}

#[test]
fn a_suppressed_record_is_up_and_not_advertised() {
    let mut g = gateway(Mode::Running);
    assert_eq!(p2p(&mut g, INITIALIZING, SA), (Standing::None, Standing::Up, false));
    assert!(g.look_up_p2p(P2P, router(2)).expect("a circuit").expect("a record").suppressed);
    assert_eq!(p2p(&mut g, UP, 0), (Standing::Up, Standing::Up, true), "SA clear ends it");
}

#[test]
fn a_neighbour_that_went_back_to_old_software_is_advertised_again() {
    let mut g = gateway(Mode::Running);
    p2p(&mut g, INITIALIZING, RR | SA);
    assert_eq!(p2p(&mut g, UP, RR | SA), (Standing::Up, Standing::Up, false));
    let old = frame(17, router(2), &[tlv(240, &[UP])]);
    assert!(receive(&mut g, P2P, &old).expect("accepted").change.advertised, "no Restart TLV: all flags clear");
    let record = g.look_up_p2p(P2P, router(2)).expect("a circuit").expect("a record");
    assert_eq!((record.phase, record.suppressed, record.tlv), (Phase::Up(Mark::Clear), false, false));
}

#[test]
fn on_a_lan_the_key_has_the_level() {
    let mut g = gateway(Mode::Running);
    for (lists_us, before, after) in
        [(false, Standing::None, Standing::Init), (true, Standing::Init, Standing::Up), (false, Standing::Up, Standing::Init)]
    {
        let change = receive(&mut g, LAN, &lan_hello(2, lists_us)).expect("accepted").change;
        assert_eq!(change, Change { level: Some(Level::Two), system: router(2), before, after, advertised: after == Standing::Up });
    }
}

#[test]
fn on_a_lan_of_level_1_the_key_says_so() {
    let mut g = Gateway::new();
    let lan = CircuitSettings::new(Kind::Lan, Levels::BOTH, OWN_MAC);
    g.set_up(&Settings::new(router(1), Mode::Running, 0).circuit(lan)).expect("in range");
    let change = receive(&mut g, circuit(1), &frame(15, router(2), &[])).expect("accepted").change;
    assert_eq!((change.level, change.after), (Some(Level::One), Standing::Init));
}

#[test]
fn clear_removes_all_records_of_its_circuit_and_no_other() {
    let mut g = gateway(Mode::Running);
    p2p(&mut g, INITIALIZING, 0);
    for from in 2..5 {
        receive(&mut g, LAN, &lan_hello(from, true)).expect("accepted");
    }
    g.clear(LAN).expect("a circuit");
    for from in 2..5 {
        assert_eq!(g.look_up_lan(LAN, Level::Two, router(from), PEER_MAC), Ok(None));
    }
    assert!(g.look_up_p2p(P2P, router(2)).expect("a circuit").is_some());
    g.clear(P2P).expect("a circuit");
    assert_eq!(g.look_up_p2p(P2P, router(2)), Ok(None));
    assert!(g.tick(1000).expect("later").lost.is_empty(), "nothing is left to lose");
}

#[test]
fn clear_makes_room_for_another_neighbour() {
    let mut g = gateway(Mode::Running);
    p2p(&mut g, INITIALIZING, 0);
    let other = frame(17, router(3), &[tlv(240, &[DOWN])]);
    assert!(receive(&mut g, P2P, &other).is_err());
    g.clear(P2P).expect("a circuit");
    assert_eq!(receive(&mut g, P2P, &other).expect("room").change.after, Standing::Init);
}

#[test]
fn clear_touches_no_timer() {
    let mut g = gateway(Mode::Restarting);
    let before = g.waiting();
    g.clear(P2P).expect("a circuit");
    assert_eq!(g.waiting(), before);
    assert_eq!(before.count, 2);
}

#[test]
fn release_removes_planned_records_alone() {
    let mut g = gateway(Mode::Running);
    p2p(&mut g, INITIALIZING, 0);
    g.release(P2P).expect("a circuit");
    let record = g.look_up_p2p(P2P, router(2)).expect("a circuit").expect("it stays");
    assert_eq!(record.phase, Phase::Up(Mark::Clear));
    p2p(&mut g, UP, PR);
    let record = g.look_up_p2p(P2P, router(2)).expect("a circuit").expect("it is planned");
    assert_eq!((record.phase, record.expiry), (Phase::Up(Mark::Planned), 400));
    g.release(P2P).expect("a circuit");
    assert_eq!(g.look_up_p2p(P2P, router(2)), Ok(None));
}

#[test]
fn look_up_p2p_asks_for_the_system_id_alone() {
    let mut g = gateway(Mode::Running);
    p2p(&mut g, INITIALIZING, 0);
    let record = g.look_up_p2p(P2P, router(2)).expect("a circuit");
    assert!(record.is_some());
    assert_eq!(g.look_up_p2p(P2P, router(3)), Ok(None));
    for (level, mac) in [(Level::One, PEER_MAC), (Level::Two, Mac([9; 6]))] {
        assert_eq!(g.look_up_lan(P2P, level, router(2), mac), Ok(record), "on P2P level and MAC count for nothing");
    }
}

#[test]
fn look_up_p2p_is_refused_on_a_lan() {
    let mut g = gateway(Mode::Running);
    receive(&mut g, LAN, &lan_hello(2, true)).expect("accepted");
    assert_eq!(g.look_up_p2p(LAN, router(2)).map_err(|why| why.number()), Err(1));
}

#[test]
fn look_up_lan_asks_for_level_system_id_and_mac() {
    let mut g = gateway(Mode::Running);
    receive(&mut g, LAN, &lan_hello(2, true)).expect("accepted");
    assert!(g.look_up_lan(LAN, Level::Two, router(2), PEER_MAC).expect("a circuit").is_some());
    assert_eq!(g.look_up_lan(LAN, Level::Two, router(3), PEER_MAC), Ok(None));
    assert_eq!(g.look_up_lan(LAN, Level::Two, router(2), OWN_MAC), Ok(None));
    assert_eq!(g.look_up_lan(LAN, Level::One, router(2), PEER_MAC).map_err(|why| why.number()), Err(1), "level 1 is not enabled there");
}

#[test]
fn a_record_has_the_data_of_its_last_frame() {
    let mut g = gateway(Mode::Running);
    let metric = tlv(16, &[3, 0, 1, 2, 0]);
    receive(&mut g, P2P, &frame(17, router(2), &[tlv(240, &[INITIALIZING]), metric])).expect("accepted");
    let record = g.look_up_p2p(P2P, router(2)).expect("a circuit").expect("a record");
    assert_eq!(record.reverse, Some(ReverseMetric { offset: 258, whole_lan: true, unreachable: true }));
    assert_eq!((record.tlv, record.priority, record.expiry), (false, 0, 127));
    assert_eq!(g.link_metric(P2P), Ok(268));

    g.receive(LAN, PEER_MAC, &lan_hello(2, true), &mut [0; REPLY_OCTETS]).expect("accepted");
    let record = g.look_up_lan(LAN, Level::Two, router(2), PEER_MAC).expect("a circuit").expect("a record");
    assert_eq!((record.tlv, record.priority, record.reverse), (false, 64, None));
}
