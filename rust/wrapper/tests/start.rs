//! A router that starts (RFC 8706, 3.3.2), from set-up to its end.
mod common;
use common::ends::{link, End};
use common::*;
use isis_gr::{Ack, Flags, Freed, Gateway, Hellos, Level, Levels, Mark, Mode, Overload, Phase, Received, Timers, REPLY_OCTETS};

const BOTH: Flags = Flags::RR.and(Flags::SA);

/// The start goes on, and orders no SPF.
const fn goes_on(overload: Overload) -> Timers {
    Timers::GoOn { spf: Levels { one: false, two: false }, overload }
}

fn flags(g: &Gateway) -> [Flags; 2] {
    [(P2P, Level::One), (LAN, Level::Two)].map(|(circuit, level)| g.next_hello_flags(circuit, level).expect("a level of the circuit"))
}

/// A frame on a circuit, and what it orders for hellos and the timers.
fn orders(g: &mut Gateway, circuit: isis_gr::Circuit, frame: &[u8]) -> (Option<Flags>, Timers) {
    let Received { hello, timers, .. } = receive(g, circuit, frame).expect("accepted");
    (hello, timers)
}

/// RA that names us, in a level 2 LAN hello of a router that lists us.
fn lan_ack(from: u8) -> Vec<u8> {
    let ack = [&[RA, 0, 20][..], &router(1).0].concat();
    frame(16, router(from), &[tlv(6, &OWN_MAC.0), tlv(211, &ack)])
}

#[test]
fn setup_orders_no_hello_and_the_next_one_has_sa() {
    let mut g = Gateway::new();
    assert_eq!(g.set_up(&settings(Mode::Starting)), Ok(Hellos::default()));
    assert_eq!(flags(&g), [Flags::SA; 2]);
    assert_eq!((g.waiting().count, g.waiting().lowest), (0, None));
    let quiet = g.tick(150).expect("later");
    assert_eq!((quiet.hellos, quiet.timers), (Hellos::default(), goes_on(Overload::Keep)), "no T1 has begun");
}

#[test]
fn the_first_record_that_becomes_up_orders_a_hello_and_each_orders_overload() {
    let mut g = gateway(Mode::Starting);
    assert_eq!(orders(&mut g, P2P, &p2p_hello(DOWN, 0)), (None, goes_on(Overload::Keep)));
    assert_eq!(orders(&mut g, P2P, &p2p_hello(INITIALIZING, 0)), (Some(Flags::SA), goes_on(Overload::Set)));
    assert_eq!(orders(&mut g, P2P, &p2p_hello(UP, 0)), (None, goes_on(Overload::Keep)), "it was UP");
    assert_eq!(orders(&mut g, LAN, &lan_hello(2, true)), (Some(Flags::SA), goes_on(Overload::Set)), "a circuit of its own");
    assert_eq!(orders(&mut g, LAN, &lan_hello(3, true)), (None, goes_on(Overload::Set)), "a second record");
    assert_eq!((g.waiting().count, g.waiting().lowest), (2, Some(P2P)));
}

#[test]
fn ticks_order_rr_and_sa_where_t1_expired() {
    let mut g = gateway(Mode::Starting);
    receive(&mut g, LAN, &lan_hello(2, true)).expect("accepted");
    assert_eq!(g.tick(102).expect("later").hellos, Hellos::default(), "T1 is 3 s");
    assert_eq!(flags(&g), [Flags::SA; 2]);
    for clock in [103, 106] {
        let hellos = g.tick(clock).expect("later").hellos;
        assert_eq!(hellos, Hellos { orders: [(LAN, Level::Two)].into_iter().collect(), flags: BOTH });
        assert!(hellos.has(LAN, Level::Two) && !hellos.has(P2P, Level::One));
        assert_eq!(flags(&g), [Flags::SA, BOTH]);
    }
    assert_eq!(g.tick(109).expect("later").hellos, Hellos::default(), "the third of three tries");
    assert_eq!(flags(&g), [Flags::SA; 2]);
}

#[test]
fn a_frame_without_the_tlv_stops_t1_and_only_a_restart_reinitialises() {
    let whole = [&[UP, 0, 0, 0, 9][..], &router(1).0, &OWN_ID.to_be_bytes()].concat();
    for (mode, freed) in [(Mode::Restarting, Freed::Reinitialise), (Mode::Starting, Freed::Stopped)] {
        let mut g = gateway(mode);
        receive(&mut g, P2P, &p2p_hello(INITIALIZING, 0)).expect("accepted");
        assert_eq!(g.waiting().lowest, Some(P2P));
        assert_eq!(receive(&mut g, P2P, &frame(17, router(2), &[tlv(240, &whole)])).expect("accepted").freed, freed, "{mode:?}");
        assert_ne!(g.waiting().lowest, Some(P2P));
    }
    // the very frame that begins T1 stops it
    let mut g = gateway(Mode::Starting);
    let got = receive(&mut g, P2P, &frame(17, router(2), &[tlv(240, &[INITIALIZING])])).expect("accepted");
    assert_eq!((got.hello, got.freed, got.timers), (Some(Flags::SA), Freed::Stopped, goes_on(Overload::Set)));
    assert_eq!(g.waiting().count, 0);
}

#[test]
fn one_frame_may_set_and_clear_overload() {
    let mut g = gateway(Mode::Starting);
    assert_eq!(g.csnp_complete(LAN, Level::Two), Ok(goes_on(Overload::Keep)), "a set before T1 began counts");
    receive(&mut g, LAN, &lan_hello(2, true)).expect("accepted");
    let first = Timers::GoOn { spf: Levels::ONE, overload: Overload::Keep };
    assert_eq!(g.database_complete(Level::One), Ok(first), "the T1 that runs is of level 2");
    assert_eq!(g.database_complete(Level::Two), Ok(goes_on(Overload::Keep)), "T1 runs");
    let end = Timers::Ended { spf: Levels::TWO, overload: Overload::Both };
    assert_eq!(orders(&mut g, LAN, &lan_ack(3)), (None, end));
    assert_eq!(flags(&g), [Flags::default(); 2]);
    assert_eq!(g.database_complete(Level::One).map_err(|why| why.number()), Err(11), "the mode is Running");
}

#[test]
fn the_end_clears_overload_whether_or_not_it_was_set() {
    let mut g = gateway(Mode::Starting);
    assert_eq!(g.tick(160).expect("later").timers, Timers::Ended { spf: Levels::BOTH, overload: Overload::Clear }, "T2 is 60 s");
    let mut g = gateway(Mode::Starting);
    let first = Timers::GoOn { spf: Levels::ONE, overload: Overload::Keep };
    assert_eq!(g.database_complete(Level::One), Ok(first), "no T1 runs");
    assert_eq!(g.database_complete(Level::Two), Ok(Timers::Ended { spf: Levels::TWO, overload: Overload::Clear }));
    assert_eq!(flags(&g), [Flags::default(); 2]);
}

#[test]
fn a_neighbour_that_starts_is_suppressed_until_its_end() {
    let mut helper = End::new(1, Mode::Running, 100);
    let mut old = End::new(2, Mode::Running, 100);
    let mut reply = [0; REPLY_OCTETS];
    // both come up
    helper.gateway.receive(link(), old.mac, &old.hello(INITIALIZING, &old.own_tlv()), &mut reply).expect("a hello");
    old.gateway.receive(link(), helper.mac, &helper.hello(UP, &helper.own_tlv()), &mut reply).expect("a hello");
    assert!(helper.record_of(&old).is_some_and(|record| record.advertised));

    // one starts anew: its hello, with SA, makes the old adjacency reinitialise
    let mut new = End::new(2, Mode::Starting, 110);
    helper.gateway.tick(110).expect("later");
    assert_eq!(new.own_tlv(), [211, 1, SA]);
    let answer = helper.gateway.receive(link(), new.mac, &new.hello(DOWN, &new.own_tlv()), &mut reply).expect("SA");
    assert_eq!((answer.reply, helper.phase_of(&new)), (None, Some(Phase::Init)));

    // the adjacency comes up: a hello with SA, and overload
    let up = new.gateway.receive(link(), helper.mac, &helper.hello(INITIALIZING, &helper.own_tlv()), &mut reply).expect("a hello");
    assert_eq!((up.hello, up.timers), (Some(Flags::SA), goes_on(Overload::Set)));
    assert_eq!(new.gateway.waiting().lowest, Some(link()));
    let first = [211, 1, up.hello.expect("ordered").octet()];
    helper.gateway.receive(link(), new.mac, &new.hello(UP, &first), &mut reply).expect("SA");
    let suppressed = helper.record_of(&new).expect("a record");
    assert_eq!((suppressed.phase, suppressed.advertised), (Phase::Up(Mark::Clear), false));

    // T1 expires: RR and SA, and the acknowledgement of both
    let tick = new.gateway.tick(113).expect("later");
    assert!(tick.hellos.has(link(), Level::One) && tick.hellos.flags == BOTH);
    assert_eq!(new.own_tlv(), [211, 1, RR + SA]);
    helper.gateway.tick(113).expect("later");
    let request = new.hello(UP, &[211, 1, tick.hellos.flags.octet()]);
    let answer = helper.gateway.receive(link(), new.mac, &request, &mut reply).expect("RR and SA");
    assert_eq!(answer.reply.map(|r| (r.ack, r.remaining)), Some((Ack::Restart, 30)));
    assert_eq!(answer.csnps, Levels::ONE);
    new.gateway.receive(link(), helper.mac, &helper.hello(UP, &reply), &mut [0; REPLY_OCTETS]).expect("RA");
    new.gateway.csnp_complete(link(), Level::One).expect("starting");
    assert_eq!((new.gateway.waiting().count, new.own_tlv()), (0, [211, 1, SA]));

    // the end: overload goes, and the next hello, without SA, is what the helper advertises by
    let end = new.gateway.database_complete(Level::One).expect("starting");
    assert_eq!(end, Timers::Ended { spf: Levels::ONE, overload: Overload::Clear });
    helper.gateway.receive(link(), new.mac, &new.hello(UP, &new.own_tlv()), &mut reply).expect("a hello");
    let record = helper.record_of(&new).expect("a record");
    assert_eq!((record.phase, record.advertised), (Phase::Up(Mark::Clear), true));
}
