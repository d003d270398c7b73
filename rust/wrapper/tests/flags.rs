//! The flags of the next hello, and the sets of levels, circuits and hellos.
mod common;
use common::*;
use isis_gr::{Circuits, Flags, HelloOrders, Hellos, Level, Levels, Mode, Overload, Timers};

#[test]
fn rr_is_set_while_t1_runs_and_no_other_flag_is() {
    let mut g = gateway(Mode::Restarting);
    for (circuit, level) in [(P2P, Level::One), (P2P, Level::Two), (LAN, Level::Two)] {
        let flags = g.next_hello_flags(circuit, level).expect("a level of the circuit");
        assert_eq!((flags, flags.octet()), (Flags::RR, 1));
        assert!(flags.has(Flags::RR) && !flags.is_empty());
    }
    // an acknowledgement that names us, and the CSNP sets of both levels, stop T1 of the one circuit
    let ack = [&[RA, 0, 20][..], &router(1).0].concat();
    receive(&mut g, P2P, &frame(17, router(2), &[tlv(240, &[UP]), tlv(211, &ack)])).expect("accepted");
    for level in Levels::BOTH {
        assert_eq!(g.next_hello_flags(P2P, level), Ok(Flags::RR));
        g.csnp_complete(P2P, level).expect("restarting");
    }
    assert_eq!(g.next_hello_flags(P2P, Level::One), Ok(Flags::default()));
    assert_eq!(g.next_hello_flags(LAN, Level::Two), Ok(Flags::RR));
    assert_eq!((g.waiting().count, g.waiting().lowest), (1, Some(LAN)));
}

#[test]
fn no_flag_is_set_in_the_mode_running() {
    let flags = gateway(Mode::Running).next_hello_flags(P2P, Level::Two).expect("a level of the circuit");
    assert!(flags.is_empty() && !flags.has(Flags::RR));
    assert_eq!((flags.octet(), format!("{flags:?}")), (0, "{}".to_owned()));
    assert_eq!(format!("{:?}", Flags::RR), "{\"RR\"}");
}

#[test]
fn flags_are_sets_of_rr_and_sa() {
    let both = Flags::RR.and(Flags::SA);
    assert_eq!([Flags::default(), Flags::RR, Flags::SA, both].map(Flags::octet), [0, 1, 4, 5]);
    assert!(both.has(Flags::RR) && both.has(Flags::SA) && both.has(both) && !Flags::SA.has(both) && !Flags::RR.has(Flags::SA));
    assert_eq!([format!("{:?}", Flags::SA), format!("{both:?}")], ["{\"SA\"}", "{\"RR\", \"SA\"}"]);
}

#[test]
fn setup_and_tick_order_hellos_by_circuit_and_level() {
    let mut g = gateway(Mode::Running);
    let hellos = g.set_up(&settings(Mode::Restarting)).expect("in range");
    assert!(hellos.orders.into_iter().eq([(P2P, Level::One), (LAN, Level::Two)]), "one on P2P, and the LAN has level 2 alone");
    assert!(hellos.has(P2P, Level::One) && hellos.has(LAN, Level::Two) && !hellos.is_empty() && hellos.orders.len() == 2);
    assert!(!hellos.has(P2P, Level::Two) && !hellos.has(LAN, Level::One) && !hellos.has(circuit(3), Level::One));
    assert_eq!(format!("{hellos:?}"), "Hellos { orders: {(1, 1), (2, 2)}, flags: {\"RR\"} }");
    assert_eq!(g.tick(102).expect("later").hellos, Hellos::default(), "T1 is 3 s");
    assert!(Hellos::default().is_empty());
    assert_eq!(g.tick(103).expect("later").hellos, hellos);
}

#[test]
fn a_restart_that_times_out_tells_its_orders() {
    let mut g = gateway(Mode::Restarting);
    let quiet = g.tick(101).expect("later").timers;
    assert_eq!(quiet, Timers::GoOn { spf: Levels::default(), overload: Overload::Keep });
    let end = g.tick(160).expect("later").timers;
    assert_eq!(end, Timers::Ended { spf: Levels::BOTH, overload: Overload::Keep });
    assert_eq!((end.spf(), end.overload()), (Levels::BOTH, Overload::Keep));
    let idle = g.tick(161).expect("later").timers;
    assert_eq!((idle, idle.spf(), idle.overload()), (Timers::Idle, Levels::default(), Overload::Keep));
}

#[test]
fn sets_iterate_over_what_they_contain() {
    for set in [Levels::default(), Levels::ONE, Levels::TWO, Levels::BOTH] {
        assert_eq!(set.iter().collect::<Levels>(), set);
        assert!([Level::One, Level::Two].into_iter().filter(|level| set.contains(*level)).eq(set));
        assert_eq!(set.is_empty(), set.iter().next().is_none());
    }
    assert!(Levels::BOTH.iter().map(Level::number).eq([1, 2]));
    for mask in 0..=u8::MAX {
        let set: Circuits = (1..=8).filter(|n| mask >> (n - 1) & 1 == 1).map(circuit).collect();
        assert_eq!(set.iter().collect::<Circuits>(), set);
        assert!((1..=8).map(circuit).filter(|circuit| set.contains(*circuit)).eq(set));
        assert_eq!(set.is_empty(), mask == 0);
    }
    let all = || (1..=8).map(circuit).flat_map(|circuit| [(circuit, Level::One), (circuit, Level::Two)]);
    for mask in 0..=u16::MAX {
        let set: HelloOrders = all().enumerate().filter(|(at, _)| mask >> at & 1 == 1).map(|(_, hello)| hello).collect();
        assert_eq!(set.iter().collect::<HelloOrders>(), set);
        assert!(all().filter(|(circuit, level)| set.has(*circuit, *level)).eq(set));
        assert_eq!((set.len(), set.is_empty()), (mask.count_ones() as usize, mask == 0));
    }
}
