//! The hellos, T1 and T2 of a starting router (document 02, W-201; RFC 8706, 3.3.2 and 3.4).

mod common;
use common::*;
use isis_gr_reference::*;

#[test]
fn setup_orders_no_hello_runs_no_t1_and_the_next_hello_has_sa() {
    let run = start(&[p2p(), lan()]);
    assert_eq!(run.hellos, NO_HELLO);
    assert_eq!(run.gateway.waiting(), (0, None));
    for circuit in [1, 2] {
        assert_eq!([run.flags(circuit, 1), run.flags(circuit, 2)], [SA; 2]);
    }
}

#[test]
fn t2_runs_for_each_enabled_level_from_setup() {
    for levels in [ONE, TWO, BOTH] {
        let mut run = start(&[CircuitSettings { levels, ..p2p() }]);
        assert_eq!(run.tick(106).timers, QUIET);
        assert_eq!(run.tick(107).timers, ended(levels, Overload::Clear));
    }
}

#[test]
fn every_hello_carries_sa_until_all_t2_are_done() {
    let mut run = start(&[p2p(), lan()]);
    let flags = |run: &Run| [1, 2].map(|circuit| run.flags(circuit, 1));
    run.accept(&p2p_with(INITIALIZING, 0));
    assert_eq!(flags(&run), [SA, SA]);
    run.tick(17);
    assert_eq!(flags(&run), [RR | SA, SA]);
    run.accept(&Hello::p2p(UP));
    assert_eq!(flags(&run), [SA, SA], "T1 stopped");
    assert_eq!(run.gateway.database_complete(1), Ok(goes(ONE, Overload::Quiet)));
    assert_eq!(flags(&run), [SA, SA], "T2 of level 2 runs");
    assert_eq!(run.gateway.database_complete(2), Ok(ended(TWO, Overload::Clear)));
    assert_eq!(flags(&run), [0, 0]);
}

#[test]
fn the_first_up_record_begins_t1_with_a_hello_of_sa() {
    let cases: [(CircuitSettings, u8, Option<Hello>, Hello); 5] = [
        (p2p(), 1, None, p2p_with(INITIALIZING, 0)),
        (p2p(), 2, Some(p2p_with(DOWN, 0)), p2p_with(INITIALIZING, 0)),
        (p2p(), 1, Some(p2p_with(DOWN, 0)), p2p_with(UP, 0)),
        (lan(), 1, None, lan_with(1, 0)),
        (lan(), 2, Some(Hello::lan(2)), lan_with(2, 0)),
    ];
    for (circuit, level, init, up) in cases {
        let mut run = start(&[circuit]);
        if let Some(init) = init {
            assert_eq!(orders(run.accept(&init)), NOTHING);
            assert_eq!(run.gateway.waiting(), (0, None));
        }
        assert_eq!(orders(run.accept(&up)), BEGINS);
        assert_eq!((run.gateway.waiting(), run.flags(1, level)), ((1, Some(1)), SA));
        assert_eq!(orders(run.accept(&up)), NOTHING);
    }
}

#[test]
fn t1_runs_from_the_first_up_frame_and_its_expiries_send_rr_and_sa() {
    let mut run = start(&[p2p()]);
    assert_eq!(run.tick(20).hellos, NO_HELLO, "T1 has not begun");
    run.accept(&p2p_with(INITIALIZING, 0));
    assert_eq!(run.tick(29).hellos, NO_HELLO);
    assert_eq!(run.tick(30).hellos, hellos(&[(1, SINGLE)], RR | SA));
    assert_eq!(run.flags(1, 1), RR | SA);
    assert_eq!(run.tick(39).hellos, NO_HELLO);
    assert_eq!(run.tick(40).hellos, hellos(&[(1, SINGLE)], RR | SA));
    let third = run.tick(50);
    assert_eq!((third.hellos, third.timers), (NO_HELLO, QUIET), "the last expiry stops it");
    assert_eq!((run.gateway.waiting(), run.flags(1, 1)), ((0, None), SA));
}

#[test]
fn one_try_never_sends_rr() {
    let mut run = Run::new(&Settings { t1: 10, tries: 1, ..settings(Mode::Starting, &[p2p()]) });
    assert_eq!(orders(run.accept(&p2p_with(INITIALIZING, 0))), BEGINS);
    assert_eq!((run.tick(9).hellos, run.flags(1, 1)), (NO_HELLO, SA));
    assert_eq!((run.tick(10).hellos, run.flags(1, 1)), (NO_HELLO, SA));
    assert_eq!(run.gateway.waiting(), (0, None));
}

#[test]
fn each_circuit_begins_its_own_t1() {
    let mut run = start(&[p2p(), lan(), p2p()]);
    assert_eq!(run.receive(3, PEER_MAC, &p2p_with(INITIALIZING, 0)).map(orders), Ok(BEGINS));
    assert_eq!(run.gateway.waiting(), (1, Some(3)));
    run.tick(10);
    assert_eq!(run.receive(2, PEER_MAC, &lan_with(1, 0)).map(orders), Ok(BEGINS));
    assert_eq!(run.gateway.waiting(), (2, Some(2)));
    assert_eq!(run.tick(17).hellos, hellos(&[(3, SINGLE)], RR | SA));
    assert_eq!([2, 3].map(|circuit| run.flags(circuit, 1)), [SA, RR | SA]);
    assert_eq!(run.tick(20).hellos, hellos(&[(2, 1)], RR | SA));
    assert_eq!(run.tick(30).hellos, hellos(&[(2, 1), (3, SINGLE)], RR | SA));
}

#[test]
fn t1_does_not_begin_again_after_it_stopped() {
    let mut run = start(&[p2p()]);
    run.accept(&p2p_with(INITIALIZING, 0));
    assert_eq!(run.accept(&Hello::p2p(UP)).freed, Freed::Stopped);
    assert_eq!(orders(run.accept(&p2p_with(DOWN, 0))), NOTHING);
    assert_eq!(orders(run.accept(&p2p_with(UP, 0))), RISES);
    run.gateway.clear(1).unwrap();
    assert_eq!(orders(run.accept(&p2p_with(INITIALIZING, 0).from(THIRD))), RISES);
    assert_eq!(run.gateway.waiting(), (0, None));
}

#[test]
fn t1_runs_on_as_it_was_though_the_record_falls_and_comes_again() {
    let mut run = start(&[CircuitSettings { levels: ONE, ..p2p() }]);
    run.accept(&p2p_with(INITIALIZING, RA).hold(12));
    assert_eq!(run.tick(17).hellos, hellos(&[(1, SINGLE)], RR | SA));
    let lost = run.tick(19);
    assert_eq!((lost.marks, run.peer(), run.gateway.waiting()), (circuits(&[1]), None, (1, Some(1))));
    assert_eq!(orders(run.accept(&p2p_with(INITIALIZING, 0))), RISES);
    assert_eq!(run.flags(1, 1), RR | SA, "it has expired once");
    assert_eq!(run.clone().tick(27).hellos, hellos(&[(1, SINGLE)], RR | SA), "its deadline stays");
    run.gateway.csnp_complete(1, 1).unwrap();
    assert_eq!(run.gateway.waiting(), (0, None), "its acknowledgement stays");
}

#[test]
fn a_second_record_does_not_begin_t1() {
    let mut run = start(&[lan()]);
    assert_eq!(orders(run.accept(&lan_with(2, 0))), BEGINS);
    run.tick(12);
    assert_eq!(run.receive(1, THIRD_MAC, &lan_with(2, 0).from(THIRD)).map(orders), Ok(RISES));
    assert_eq!(run.gateway.waiting(), (1, Some(1)));
    assert_eq!(run.tick(17).hellos, hellos(&[(1, 2)], RR | SA));
    assert_eq!(run.tick(22).hellos, NO_HELLO);
}

#[test]
fn a_refused_frame_begins_nothing() {
    let mut run = start(&[p2p()]);
    assert_eq!(run.refuse(&Hello::bare().three_way(INITIALIZING, THIRD, OWN_ID)), 8);
    assert_eq!(run.refuse(&p2p_with(INITIALIZING, 0).from(OWN)), 7);
    assert_eq!(orders(run.accept(&p2p_with(INITIALIZING, 0))), BEGINS);
}

#[test]
fn an_acknowledgement_before_the_first_up_frame_does_not_count() {
    for (circuit, early, up) in [
        (p2p(), p2p_with(DOWN, RA), p2p_with(UP, 0)),
        (p2p(), p2p_with(UP, RA), p2p_with(INITIALIZING, 0)),
        (lan(), Hello::lan(1).restart(RA, 20), lan_with(1, 0)),
    ] {
        let mut run = start(&[CircuitSettings { levels: ONE, ..circuit }]);
        assert_eq!(orders(run.accept(&early)), NOTHING);
        assert_eq!(orders(run.accept(&up)), BEGINS);
        assert_eq!(run.gateway.csnp_complete(1, 1), Ok(QUIET));
        assert_eq!(run.gateway.waiting(), (1, Some(1)));
        assert_eq!(orders(run.accept(&early)), NOTHING);
        assert_eq!(run.gateway.waiting(), (0, None), "now it counts, and of whatever state the record is");
    }
}

#[test]
fn an_acknowledgement_in_the_first_up_frame_counts() {
    let cases = [(p2p(), p2p_with(INITIALIZING, RA), [2, 1]), (lan(), lan_with(1, RA), [2, 1]), (lan(), lan_with(2, RA), [1, 2])];
    for (circuit, up, [other, last]) in cases {
        let mut run = start(&[circuit]);
        assert_eq!(orders(run.accept(&up)), BEGINS);
        run.gateway.csnp_complete(1, other).unwrap();
        assert_eq!(run.gateway.waiting(), (1, Some(1)));
        run.gateway.csnp_complete(1, last).unwrap();
        assert_eq!(run.gateway.waiting(), (0, None));
    }
}

#[test]
fn csnp_notices_count_before_t1_begins() {
    for (circuit, up) in [(p2p(), p2p_with(INITIALIZING, RA)), (lan(), lan_with(2, RA))] {
        let mut run = start(&[circuit]);
        assert_eq!(run.gateway.csnp_complete(1, 1), Ok(QUIET));
        let mut half = run.clone();
        assert_eq!(run.gateway.csnp_complete(1, 2), Ok(QUIET));
        let answer = run.accept(&up);
        assert_eq!((orders(answer), answer.freed), (BEGINS, Freed::Kept), "its hello stays ordered");
        assert_eq!(run.gateway.waiting(), (0, None), "T1 began and stopped");
        half.accept(&up);
        assert_eq!(half.gateway.waiting(), (1, Some(1)), "level 2 lacks its set");
    }
}

#[test]
fn an_acknowledgement_on_a_lan_must_name_us() {
    let mut run = start(&[CircuitSettings { levels: ONE, ..lan() }]);
    run.gateway.csnp_complete(1, 1).unwrap();
    let hello = Hello::lan_up(1).restart_of(RA, 20, THIRD);
    assert_eq!(orders(run.accept(&hello)), BEGINS);
    run.accept(&hello);
    assert_eq!(run.gateway.waiting(), (1, Some(1)));
    run.accept(&lan_with(1, RA));
    assert_eq!(run.gateway.waiting(), (0, None));
}

#[test]
fn ignored_flags_begin_t1_but_neither_acknowledge_nor_free_it() {
    let mut run = start(&[CircuitSettings { levels: ONE, ..p2p() }]);
    run.gateway.csnp_complete(1, 1).unwrap();
    let answer = run.accept(&p2p_with(INITIALIZING, RA | SA));
    assert_eq!((orders(answer), answer.freed), (BEGINS, Freed::Kept));
    assert_eq!(run.gateway.waiting(), (1, Some(1)));
}

#[test]
fn a_p2p_frame_without_the_tlv_before_the_first_up_frame_does_not_count() {
    let mut run = start(&[p2p()]);
    for state in [UP, DOWN] {
        let answer = run.accept(&Hello::p2p(state));
        assert_eq!((orders(answer), answer.freed), (NOTHING, Freed::Kept));
    }
    assert_eq!(orders(run.accept(&p2p_with(UP, 0))), BEGINS);
    assert_eq!(run.gateway.waiting(), (1, Some(1)));
}

#[test]
fn a_first_up_frame_without_the_tlv_begins_t1_and_stops_it_on_p2p() {
    for state in [INITIALIZING, UP] {
        let mut run = start(&[p2p()]);
        run.accept(&p2p_with(DOWN, 0));
        let answer = run.accept(&Hello::p2p(state));
        assert_eq!((orders(answer), answer.freed), (BEGINS, Freed::Stopped));
        assert_eq!((run.gateway.waiting(), run.flags(1, 1)), ((0, None), SA));
        assert_eq!(run.accept(&Hello::p2p(state)).freed, Freed::Kept, "no T1 ran");
    }
}

#[test]
fn a_p2p_frame_without_the_tlv_never_reinitialises() {
    for hello in [Hello::p2p(UP), Hello::p2p(INITIALIZING), Hello::p2p(DOWN), Hello::bare().tlv(240, &[UP])] {
        let mut run = start(&[p2p()]);
        run.accept(&p2p_with(INITIALIZING, 0));
        assert_eq!(run.accept(&hello).freed, Freed::Stopped);
        assert_eq!(run.gateway.waiting(), (0, None));
    }
}

#[test]
fn a_lan_frame_without_the_tlv_is_unremarkable() {
    let mut run = start(&[lan()]);
    let answer = run.accept(&Hello::lan_up(1));
    assert_eq!((orders(answer), answer.freed), (BEGINS, Freed::Kept));
    assert_eq!(run.accept(&Hello::lan_up(1)).freed, Freed::Kept);
    assert_eq!(run.gateway.waiting(), (1, Some(1)));
}

#[test]
fn a_t1_that_has_not_begun_does_not_hold_t2() {
    let mut run = start(&[p2p(), lan()]);
    assert_eq!(run.gateway.database_complete(2), Ok(goes(TWO, Overload::Quiet)));
    assert_eq!(run.gateway.database_complete(2), Ok(QUIET), "twice changes nothing");
    run.accept(&p2p_with(INITIALIZING, 0));
    assert_eq!(run.gateway.database_complete(1), Ok(QUIET), "one that runs does");
    // Circuit 2 never comes UP.
    assert_eq!(run.accept(&Hello::p2p(UP)).timers, ended(ONE, Overload::Clear));
    assert_eq!(run.gateway.waiting(), (0, None));
}

#[test]
fn t2_waits_for_every_t1_of_its_level_that_runs() {
    let mut run = start(&[p2p(), CircuitSettings { levels: ONE, ..lan() }]);
    run.receive(2, PEER_MAC, &lan_with(1, RA)).unwrap();
    run.accept(&p2p_with(INITIALIZING, 0));
    assert_eq!([1, 2].map(|level| run.gateway.database_complete(level)), [Ok(QUIET); 2]);
    let answer = run.accept(&Hello::p2p(UP));
    assert_eq!((orders(answer), answer.freed), ((None, goes(TWO, Overload::Quiet)), Freed::Stopped));
    assert_eq!(run.gateway.csnp_complete(2, 1), Ok(ended(ONE, Overload::Clear)));
}

#[test]
fn t2_is_cancelled_in_the_tick_of_the_last_t1_expiry() {
    let mut run = start(&[p2p()]);
    run.accept(&p2p_with(INITIALIZING, 0));
    assert_eq!([1, 2].map(|level| run.gateway.database_complete(level)), [Ok(QUIET); 2]);
    assert_eq!([17, 27].map(|clock| run.tick(clock).timers), [QUIET; 2]);
    assert_eq!(run.tick(37).timers, ended(BOTH, Overload::Clear));
}

#[test]
fn the_hello_order_stays_with_its_flags_in_the_tick_that_ends_the_mode() {
    let mut run = start(&[p2p()]);
    run.tick(97);
    run.accept(&p2p_with(INITIALIZING, 0));
    let last = run.tick(107);
    assert_eq!((last.hellos, last.timers), (hellos(&[(1, SINGLE)], RR | SA), ended(BOTH, Overload::Clear)));
    assert_eq!((run.gateway.waiting(), run.flags(1, 1)), ((0, None), 0));
}
