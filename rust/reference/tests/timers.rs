//! The timers (document 01, "Timers while Restarting"; RFC 8706, 3.3.1 and 3.4).

mod common;
use common::*;
use isis_gr_reference::*;

const ACK: fn() -> Hello = || Hello::p2p(UP).restart(RA, 1_000).hold(2_000);

#[test]
fn setup_orders_hellos_and_starts_t1_on_every_circuit() {
    let run = Run::restarting(&[p2p(), lan(), p2p()]);
    assert_eq!(run.hellos, hellos(&[(1, SINGLE), (2, 1), (2, 2), (3, SINGLE)], RR));
    assert_eq!(run.gateway.waiting(), (4, Some(1)), "a LAN has one for each level");
    for circuit in 1..=3 {
        assert_eq!([run.flags(circuit, 1), run.flags(circuit, 2)], [RR; 2]);
    }
}

#[test]
fn running_mode_has_no_timer() {
    let mut run = Run::running(&[p2p()]);
    assert_eq!(run.hellos, NO_HELLO);
    assert_eq!(run.gateway.waiting(), (0, None));
    assert_eq!(run.flags(1, 1), 0);
    assert_eq!(run.tick(100_000).timers, TimerOutcome::Idle);
    assert_eq!(run.accept(&ACK()).timers, TimerOutcome::Idle);
}

#[test]
fn t1_orders_hellos_and_stops_at_the_last_expiry_without_one() {
    let mut run = restart(3, 1_000, 3, &[p2p()]);
    assert_eq!(run.tick(2).hellos, NO_HELLO);
    assert_eq!(run.tick(3).hellos, hellos(&[(1, SINGLE)], RR));
    assert_eq!(run.tick(3).hellos, NO_HELLO);
    assert_eq!(run.tick(6).hellos, hellos(&[(1, SINGLE)], RR));
    assert_eq!(run.gateway.waiting(), (1, Some(1)));
    let last = run.tick(9);
    assert_eq!((last.hellos, last.timers), (NO_HELLO, QUIET));
    assert_eq!((run.gateway.waiting(), run.flags(1, 1)), ((0, None), 0));
}

#[test]
fn one_tick_is_at_most_one_expiry_and_t1_runs_from_its_clock() {
    let mut run = restart(3, 1_000, 3, &[p2p()]);
    assert_eq!(run.tick(100).hellos, hellos(&[(1, SINGLE)], RR));
    assert_eq!(run.tick(102).hellos, NO_HELLO);
    assert_eq!(run.tick(103).hellos, hellos(&[(1, SINGLE)], RR));
}

#[test]
fn one_try_stops_at_the_first_expiry() {
    let mut run = restart(3, 1_000, 1, &[p2p(), lan()]);
    assert_eq!(run.tick(3).hellos, NO_HELLO);
    assert_eq!(run.gateway.waiting(), (0, None));
}

#[test]
fn t1_stops_on_acknowledgement_and_all_csnp_sets_in_any_order() {
    for order in [[0, 1, 2], [0, 2, 1], [1, 0, 2], [1, 2, 0], [2, 0, 1], [2, 1, 0]] {
        for twice in [false, true] {
            let mut run = Run::restarting(&[p2p()]);
            for (done, event) in order.into_iter().enumerate() {
                assert_eq!(run.gateway.waiting(), (1, Some(1)), "after {done} of {order:?}");
                for _ in 0..=usize::from(twice) {
                    match event {
                        0 => assert_eq!(run.accept(&ACK()).timers, QUIET),
                        level => assert_eq!(run.gateway.csnp_complete(1, level), Ok(QUIET)),
                    }
                }
            }
            assert_eq!(run.gateway.waiting(), (0, None));
        }
    }
}

#[test]
fn t1_waits_only_for_the_circuits_own_levels() {
    let mut run = Run::restarting(&[CircuitSettings { levels: TWO, ..p2p() }, p2p()]);
    run.accept(&ACK());
    run.gateway.csnp_complete(1, 2).unwrap();
    assert_eq!(run.gateway.waiting(), (1, Some(2)));
    assert_eq!((run.flags(1, 2), run.flags(2, 1)), (0, RR));
}

#[test]
fn acknowledgement_on_a_lan_must_name_us() {
    let mut run = Run::restarting(&[CircuitSettings { levels: ONE, ..lan() }]);
    run.gateway.csnp_complete(1, 1).unwrap();
    run.accept(&Hello::lan_up(1).restart_of(RA, 20, THIRD));
    assert_eq!(run.gateway.waiting(), (1, Some(1)));
    assert_eq!(run.clone().tick(20).timers, QUIET);
    run.accept(&Hello::lan(1).restart_of(RA, 20, OWN));
    assert_eq!(run.gateway.waiting(), (0, None));
}

#[test]
fn acknowledgement_on_p2p_counts_whoever_it_names() {
    let mut run = Run::restarting(&[CircuitSettings { levels: ONE, ..p2p() }]);
    run.gateway.csnp_complete(1, 1).unwrap();
    run.accept(&Hello::p2p(DOWN).restart_of(RA, 20, THIRD));
    assert_eq!(run.gateway.waiting(), (0, None));
}

#[test]
fn ignored_flags_are_no_acknowledgement_and_do_not_free_t1() {
    let mut run = Run::restarting(&[CircuitSettings { levels: ONE, ..p2p() }]);
    run.gateway.csnp_complete(1, 1).unwrap();
    let answer = run.accept(&Hello::p2p(UP).restart(RA | SA, 20));
    assert_eq!((answer.freed, run.gateway.waiting()), (Freed::Kept, (1, Some(1))));
    assert_eq!(run.tick(20).timers, QUIET);
}

#[test]
fn p2p_frame_without_the_tlv_stops_t1_at_once() {
    let cases = [
        (Hello::p2p(UP), Freed::Reinitialise),
        (Hello::p2p(INITIALIZING), Freed::Stopped),
        (Hello::p2p(DOWN), Freed::Stopped),
        (Hello::bare().three_way(UP, OWN, OWN_ID + 1), Freed::Stopped),
        (Hello::bare().tlv(240, &[UP]), Freed::Stopped),
        (Hello::bare().tlv(240, &[&[UP, 0, 0, 0, 0][..], &OWN].concat()), Freed::Stopped),
    ];
    for (hello, freed) in cases {
        let mut run = Run::restarting(&[p2p()]);
        assert_eq!(run.accept(&hello).freed, freed);
        assert_eq!(run.gateway.waiting(), (0, None));
        assert_eq!(run.accept(&hello.clone().from(PEER)).freed, Freed::Kept, "no T1 ran");
    }
}

#[test]
fn lan_frame_without_the_tlv_is_unremarkable() {
    let mut run = Run::restarting(&[lan()]);
    for level in [1, 2] {
        assert_eq!(run.accept(&Hello::lan_up(level)).freed, Freed::Kept);
        assert_eq!(run.gateway.waiting(), (2, Some(1)));
    }
}

#[test]
fn a_refused_frame_stops_nothing() {
    let mut run = Run::restarting(&[p2p()]);
    assert_eq!(run.refuse(&Hello::bare().three_way(UP, THIRD, OWN_ID)), 8);
    assert_eq!(run.gateway.waiting(), (1, Some(1)));
}

#[test]
fn t3_is_lowered_where_our_mac_is_listed_and_where_ids_are_absent_or_excused() {
    let set = goes(Levels::NONE, Overload::Set);
    let mut run = Run::restarting(&[lan()]);
    run.accept(&Hello::lan(1).restart(RA, 20));
    assert_eq!(run.clone().tick(20).timers, QUIET);
    run.accept(&Hello::lan_up(1).restart(RA, 20));
    assert_eq!(run.tick(20).timers, set);
    for hello in [Hello::bare().tlv(240, &[UP]), Hello::bare().three_way(UP, OWN, OWN_ID + 1)] {
        let mut run = Run::restarting(&[p2p()]);
        run.accept(&hello.restart(RA, 20));
        assert_eq!(run.clone().tick(19).timers, QUIET);
        assert_eq!(run.tick(20).timers, set);
    }
}

#[test]
fn t2_expires_at_its_deadline_and_ends_the_mode() {
    let mut run = Run::restarting(&[p2p()]);
    assert_eq!(run.tick(59).timers, QUIET);
    let last = run.tick(60);
    assert_eq!((last.timers, last.hellos), (ended(BOTH, Overload::Quiet), hellos(&[(1, SINGLE)], RR)));
    assert_eq!(run.gateway.waiting(), (0, None));
    assert_eq!(run.flags(1, 1), 0);
    assert_eq!(run.tick(60).timers, TimerOutcome::Idle);
    assert_eq!(run.gateway.database_complete(1), Err(Refusal::NotRestarting));
}

#[test]
fn t2_runs_only_for_enabled_levels() {
    let mut run = Run::restarting(&[CircuitSettings { levels: TWO, ..p2p() }]);
    assert_eq!(run.tick(60).timers, ended(TWO, Overload::Quiet));
}

#[test]
fn t2_is_cancelled_at_once_by_the_notice_when_no_t1_runs() {
    let mut run = Run::restarting(&[p2p()]);
    run.accept(&Hello::p2p(DOWN));
    assert_eq!(run.gateway.database_complete(2), Ok(goes(TWO, Overload::Quiet)));
    assert_eq!(run.gateway.database_complete(2), Ok(QUIET), "twice changes nothing");
    assert_eq!(run.gateway.database_complete(1), Ok(ended(ONE, Overload::Quiet)));
}

#[test]
fn t2_is_cancelled_at_once_by_the_frame_that_stops_the_last_t1() {
    let mut run = Run::restarting(&[p2p(), p2p()]);
    assert_eq!(run.gateway.database_complete(1), Ok(QUIET));
    assert_eq!(run.gateway.database_complete(2), Ok(QUIET));
    assert_eq!(run.accept(&Hello::p2p(DOWN)).timers, QUIET, "the other circuit's T1 runs");
    let answer = run.receive(2, PEER_MAC, &Hello::p2p(UP)).unwrap();
    assert_eq!((answer.timers, answer.freed), (ended(BOTH, Overload::Quiet), Freed::Reinitialise));
}

#[test]
fn t2_is_cancelled_at_once_by_the_csnp_notice_that_stops_the_last_t1() {
    let mut run = Run::restarting(&[p2p()]);
    run.accept(&ACK());
    run.gateway.database_complete(1).unwrap();
    assert_eq!(run.gateway.csnp_complete(1, 1), Ok(QUIET));
    assert_eq!(run.gateway.csnp_complete(1, 2), Ok(goes(ONE, Overload::Quiet)));
    assert_eq!(run.tick(60).timers, ended(TWO, Overload::Quiet));
}

#[test]
fn t2_is_cancelled_in_the_tick_of_the_last_t1_expiry() {
    let mut run = restart(3, 60, 1, &[p2p()]);
    run.gateway.database_complete(1).unwrap();
    run.gateway.database_complete(2).unwrap();
    assert_eq!(run.tick(3).timers, ended(BOTH, Overload::Quiet));
}

#[test]
fn t1_of_a_circuit_without_the_level_does_not_hold_its_t2() {
    let mut run = Run::restarting(&[CircuitSettings { levels: ONE, ..p2p() }, CircuitSettings { levels: TWO, ..p2p() }]);
    assert_eq!(run.gateway.database_complete(1), Ok(QUIET));
    assert_eq!(run.accept(&Hello::p2p(DOWN)).timers, goes(ONE, Overload::Quiet));
    assert_eq!(run.gateway.waiting(), (1, Some(2)));
}

#[test]
fn t3_orders_overload_once_and_stops_all_t1_while_t2_goes_on() {
    let mut run = restart(7, 60, 9, &[p2p(), lan()]);
    run.accept(&Hello::p2p(UP).restart(RA, 20));
    assert_eq!(run.tick(19).timers, QUIET);
    assert_eq!(run.gateway.waiting(), (3, Some(1)));
    assert_eq!(run.tick(20).timers, goes(Levels::NONE, Overload::Set));
    assert_eq!(run.gateway.waiting(), (0, None));
    assert_eq!(run.tick(21).timers, QUIET);
    assert_eq!(run.accept(&Hello::p2p(UP).restart(RA, 1)).timers, QUIET, "no T3 to lower");
    assert_eq!(run.tick(59).timers, QUIET);
    assert_eq!(run.tick(60).timers, ended(BOTH, Overload::Clear));
}

#[test]
fn overload_is_cleared_by_the_notice_that_ends_the_mode() {
    let mut run = Run::restarting(&[p2p()]);
    run.accept(&Hello::p2p(UP).restart(RA, 20));
    run.tick(20);
    assert_eq!(run.gateway.database_complete(1), Ok(goes(ONE, Overload::Quiet)));
    assert_eq!(run.gateway.database_complete(2), Ok(ended(TWO, Overload::Clear)));
}

#[test]
fn overload_set_and_clear_come_in_one_tick_when_the_databases_were_complete() {
    let mut run = Run::restarting(&[p2p()]);
    run.accept(&Hello::p2p(UP).restart(RA, 20));
    run.gateway.database_complete(1).unwrap();
    let mut one_left = run.clone();
    run.gateway.database_complete(2).unwrap();
    assert_eq!(run.tick(20).timers, ended(BOTH, Overload::Both));
    assert_eq!(one_left.tick(20).timers, goes(ONE, Overload::Set));
}

#[test]
fn t3_does_not_expire_in_the_tick_in_which_t2_does() {
    let mut run = Run::restarting(&[p2p()]);
    run.accept(&Hello::p2p(UP).restart(RA, 20));
    assert_eq!(run.tick(60).timers, ended(BOTH, Overload::Quiet));
    let mut run = Run::restarting(&[p2p()]);
    run.accept(&Hello::p2p(UP).restart(RA, 60));
    assert_eq!(run.tick(60).timers, ended(BOTH, Overload::Quiet));
}

#[test]
fn t2_is_cancelled_before_t3_is_looked_at() {
    let mut run = restart(20, 60, 1, &[p2p()]);
    run.accept(&Hello::p2p(UP).restart(RA, 20));
    run.gateway.database_complete(1).unwrap();
    let mut one_left = run.clone();
    run.gateway.database_complete(2).unwrap();
    assert_eq!(run.tick(20).timers, ended(BOTH, Overload::Quiet));
    assert_eq!(one_left.tick(20).timers, goes(ONE, Overload::Set));
}

#[test]
fn t3_at_setup_is_65535_seconds_off() {
    let mut run = restart(u16::MAX, u16::MAX, 1, &[p2p()]);
    assert_eq!(run.clone().tick(65_534).timers, QUIET);
    assert_eq!(run.tick(65_535).timers, ended(BOTH, Overload::Quiet), "T2 expires first");
}

#[test]
fn deadlines_never_wrap() {
    let late = Settings { clock: u32::MAX, ..settings(Mode::Restarting, &[p2p()]) };
    let mut run = Run::new(&late);
    assert_eq!(run.tick(u32::MAX).timers, QUIET);
    run.accept(&Hello::p2p(UP).restart(RA, 0));
    assert_eq!(run.tick(u32::MAX).timers, goes(Levels::NONE, Overload::Set));
}

#[test]
fn hello_order_stays_though_t3_stops_t1_in_the_same_tick() {
    let mut run = restart(20, 60, 9, &[p2p()]);
    run.accept(&Hello::p2p(UP).restart(RA, 20));
    let answer = run.tick(20);
    assert_eq!((answer.hellos, answer.timers), (hellos(&[(1, SINGLE)], RR), goes(Levels::NONE, Overload::Set)));
    assert_eq!(run.flags(1, 1), 0);
}

#[test]
fn records_are_removed_in_the_tick_that_ends_the_mode() {
    let mut run = Run::restarting(&[p2p()]);
    run.accept(&Hello::p2p(UP).restart(0, 0));
    let answer = run.tick(60);
    assert_eq!((answer.marks, answer.timers), (circuits(&[1]), ended(BOTH, Overload::Quiet)));
    // Running again, a record is not made by three-way state Up.
    run.accept(&Hello::p2p(UP));
    assert_eq!(run.peer(), None);
}

#[test]
fn the_frame_that_ends_the_mode_still_steps_as_restarting() {
    let mut run = Run::restarting(&[p2p()]);
    run.gateway.database_complete(1).unwrap();
    run.gateway.database_complete(2).unwrap();
    assert_eq!(run.accept(&Hello::p2p(UP)).timers, ended(BOTH, Overload::Quiet));
    assert!(run.record().up);
}

#[test]
fn waiting_counts_running_t1s_and_names_the_lowest() {
    let mut run = Run::restarting(&[p2p(); 8]);
    for circuit in [1, 3, 2, 8] {
        run.receive(circuit, PEER_MAC, &Hello::p2p(DOWN)).unwrap();
    }
    assert_eq!(run.gateway.waiting(), (4, Some(4)));
}
