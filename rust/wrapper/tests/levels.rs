//! T1 by level (RFC 8706, 3.3.3): a LAN has one for each of its levels, a P2P circuit one for all of its own. T1 is 3 s, T2 60 s.
mod common;
use common::*;
use isis_gr::{
    Circuit, CircuitSettings, Flags, Gateway, HelloOrders, Hellos, Kind, Level, Levels, Mode, Overload, Refusal, Settings, Timers,
};
use Level::{One, Two};

const BOTH: Flags = Flags::RR.and(Flags::SA);
/// The LAN of both levels.
const FIRST: Circuit = circuit(1);

/// Circuits of these kinds and levels.
fn of(mode: Mode, circuits: &[(Kind, Levels)]) -> (Gateway, Hellos) {
    let circuits = circuits.iter().map(|&(kind, levels)| CircuitSettings::new(kind, levels, OWN_MAC).extended_circuit_id(OWN_ID));
    let mut gateway = Gateway::new();
    let hellos = gateway.set_up(&circuits.fold(Settings::new(router(1), mode, 100), Settings::circuit)).expect("in range");
    (gateway, hellos)
}

fn orders(hellos: &[(u8, Level)]) -> HelloOrders {
    hellos.iter().map(|&(number, level)| (circuit(number), level)).collect()
}

fn waiting(g: &Gateway) -> (u32, Option<u8>) {
    (g.waiting().count, g.waiting().lowest.map(Circuit::number))
}

/// A LAN hello of the neighbour at a level that lists us, with a Restart TLV that names us.
fn lan(level: Level, flags: u8) -> Vec<u8> {
    let restart = [&[flags, 0, 20][..], &router(1).0].concat();
    frame(14 + level.number(), router(2), &[tlv(6, &OWN_MAC.0), tlv(211, &restart)])
}

fn flags(g: &Gateway) -> [Flags; 2] {
    [One, Two].map(|level| g.next_hello_flags(FIRST, level).expect("a level of the circuit"))
}

const fn goes_on(spf: Levels, overload: Overload) -> Timers {
    Timers::GoOn { spf, overload }
}

const NONE: Levels = Levels { one: false, two: false };

#[test]
fn setup_orders_a_hello_for_each_t1() {
    let circuits = [
        (Kind::Lan, Levels::BOTH),
        (Kind::Lan, Levels::ONE),
        (Kind::Lan, Levels::TWO),
        (Kind::P2p, Levels::BOTH),
        (Kind::P2p, Levels::ONE),
        (Kind::P2p, Levels::TWO),
        (Kind::Lan, Levels::BOTH),
    ];
    let all = orders(&[(1, One), (1, Two), (2, One), (3, Two), (4, One), (5, One), (6, One), (7, One), (7, Two)]);
    let (mut g, hellos) = of(Mode::Restarting, &circuits);
    assert_eq!(hellos, Hellos { orders: all, flags: Flags::RR });
    assert_eq!(waiting(&g), (9, Some(1)));
    assert_eq!(g.tick(103).expect("later").hellos, hellos);
    let (g, hellos) = of(Mode::Restarting, &[(Kind::Lan, Levels::BOTH); 8]);
    assert_eq!((hellos.orders.len(), waiting(&g)), (16, (16, Some(1))));
}

#[test]
fn a_t1_stops_by_its_own_levels_acknowledgement_and_set() {
    for (own, other) in [(One, Two), (Two, One)] {
        let (mut g, _) = of(Mode::Restarting, &[(Kind::Lan, Levels::BOTH)]);
        receive(&mut g, FIRST, &lan(own, RA)).expect("accepted");
        g.csnp_complete(FIRST, other).expect("restarting");
        assert_eq!((waiting(&g), flags(&g)), ((2, Some(1)), [Flags::RR; 2]), "what came is of different levels");
        g.csnp_complete(FIRST, own).expect("restarting");
        assert_eq!(waiting(&g), (1, Some(1)));
        assert_eq!(g.next_hello_flags(FIRST, own), Ok(Flags::default()));
        assert_eq!(g.next_hello_flags(FIRST, other), Ok(Flags::RR));
        let hellos = g.tick(103).expect("later").hellos;
        assert_eq!(hellos, Hellos { orders: orders(&[(1, other)]), flags: Flags::RR });
        receive(&mut g, FIRST, &lan(other, RA)).expect("accepted");
        assert_eq!(waiting(&g), (0, None));
    }
}

#[test]
fn t2_waits_for_the_t1s_of_its_level() {
    let (mut g, _) = of(Mode::Restarting, &[(Kind::Lan, Levels::TWO), (Kind::P2p, Levels::TWO), (Kind::Lan, Levels::ONE)]);
    receive(&mut g, circuit(3), &lan(One, RA)).expect("accepted");
    assert_eq!(g.database_complete(One), Ok(goes_on(NONE, Overload::Keep)), "T1 of circuit 3 runs");
    assert_eq!(g.csnp_complete(circuit(3), One), Ok(goes_on(Levels::ONE, Overload::Keep)), "those of level 2 run on");
    assert_eq!(waiting(&g), (2, Some(1)));
    receive(&mut g, FIRST, &lan(Two, RA)).expect("accepted");
    g.csnp_complete(FIRST, Two).expect("restarting");
    assert_eq!(waiting(&g), (1, Some(2)));
    assert_eq!(g.database_complete(Two), Ok(goes_on(NONE, Overload::Keep)), "T1 of the P2P circuit runs");
    let plain = frame(17, router(2), &[tlv(240, &[INITIALIZING])]);
    let end = receive(&mut g, circuit(2), &plain).expect("accepted").timers;
    assert_eq!(end, Timers::Ended { spf: Levels::TWO, overload: Overload::Keep });
}

#[test]
fn in_a_start_each_level_begins_with_its_own_first_record() {
    let (mut g, hellos) = of(Mode::Starting, &[(Kind::Lan, Levels::BOTH)]);
    assert_eq!((hellos, flags(&g)), (Hellos::default(), [Flags::SA; 2]));
    let got = receive(&mut g, FIRST, &lan(Two, 0)).expect("accepted");
    assert_eq!((got.hello, got.change.level), (Some(Flags::SA), Some(Two)));
    assert_eq!(g.tick(102).expect("later").hellos, Hellos::default());
    let got = receive(&mut g, FIRST, &lan(One, 0)).expect("accepted");
    assert_eq!((got.hello, got.change.level), (Some(Flags::SA), Some(One)));
    assert_eq!(waiting(&g), (2, Some(1)));
    for (clock, level, expected) in [(103, Two, [Flags::SA, BOTH]), (105, One, [BOTH, BOTH])] {
        let hellos = g.tick(clock).expect("later").hellos;
        assert_eq!(hellos, Hellos { orders: orders(&[(1, level)]), flags: BOTH });
        assert_eq!(flags(&g), expected);
    }
}

#[test]
fn the_flags_call_takes_a_level_that_is_enabled() {
    for mode in [Mode::Running, Mode::Restarting, Mode::Starting] {
        for kind in [Kind::Lan, Kind::P2p] {
            let (one, two) = (of(mode, &[(kind, Levels::ONE)]).0, of(mode, &[(kind, Levels::TWO)]).0);
            assert_eq!(one.next_hello_flags(FIRST, Two), Err(Refusal::NoCircuit));
            assert_eq!(two.next_hello_flags(FIRST, One), Err(Refusal::NoCircuit));
            assert_eq!(one.next_hello_flags(FIRST, One), two.next_hello_flags(FIRST, Two));
        }
        let (both, _) = of(mode, &[(Kind::P2p, Levels::BOTH)]);
        let [a, b] = flags(&both);
        assert_eq!(a, b, "one hello");
    }
}
