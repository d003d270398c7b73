//! T1 for each level of a LAN, and one for all levels of a point-to-point circuit (document 02, W-202; RFC 8706, 3.3.3).

mod common;
use common::*;
use isis_gr_reference::*;

/// An acknowledgement on a LAN at this level, which shows us Up and leaves T3 beyond all T2.
fn ack(level: u8) -> Hello {
    Hello::lan_up(level).restart(RA, 1_000).hold(2_000)
}

fn only(levels: Levels, circuit: CircuitSettings) -> CircuitSettings {
    CircuitSettings { levels, ..circuit }
}

/// The work that a level of the LAN that is circuit 1 waits for.
#[derive(Clone, Copy, Debug)]
enum Work {
    Ack,
    Csnp,
    Database,
}

fn done(run: &mut Run, work: Work, level: u8) -> TimerOutcome {
    match work {
        Work::Ack => run.accept(&ack(level)).timers,
        Work::Csnp => run.gateway.csnp_complete(1, level).unwrap(),
        Work::Database => run.gateway.database_complete(level).unwrap(),
    }
}

const ORDERS: [[Work; 3]; 6] = {
    use Work::*;
    [
        [Ack, Csnp, Database],
        [Ack, Database, Csnp],
        [Csnp, Ack, Database],
        [Csnp, Database, Ack],
        [Database, Ack, Csnp],
        [Database, Csnp, Ack],
    ]
};

#[test]
fn with_a_level_1_neighbour_only_level_1_ends_by_its_work_and_level_2_by_its_t2() {
    let mut run = restart(10, 60, 3, &[lan()]);
    assert_eq!(run.hellos, hellos(&[(1, 1), (1, 2)], RR));
    assert_eq!(run.gateway.waiting(), (2, Some(1)));
    assert_eq!(run.accept(&ack(1)).timers, QUIET);
    assert_eq!(run.gateway.waiting(), (2, Some(1)), "the CSNP set is not complete");
    assert_eq!(run.gateway.csnp_complete(1, 1), Ok(QUIET));
    assert_eq!((run.gateway.waiting(), run.flags(1, 1), run.flags(1, 2)), ((1, Some(1)), 0, RR));
    assert_eq!(run.gateway.database_complete(1), Ok(goes(ONE, Overload::Quiet)));
    for clock in [10, 20] {
        let again = run.tick(clock);
        assert_eq!((again.hellos, again.timers), (hellos(&[(1, 2)], RR), QUIET));
    }
    let last = run.tick(30);
    assert_eq!((last.hellos, last.timers), (NO_HELLO, QUIET), "the tries of level 2 are used up");
    assert_eq!((run.gateway.waiting(), run.flags(1, 1), run.flags(1, 2)), ((0, None), 0, 0));
    assert_eq!(run.tick(59).timers, QUIET);
    assert_eq!(run.tick(60).timers, ended(TWO, Overload::Quiet));
}

#[test]
fn the_end_stops_the_t1_of_the_level_that_still_waits() {
    let mut run = restart(50, 60, 3, &[lan()]);
    for work in ORDERS[0] {
        done(&mut run, work, 1);
    }
    assert_eq!(run.tick(50).hellos, hellos(&[(1, 2)], RR));
    assert_eq!((run.gateway.waiting(), run.flags(1, 2)), ((1, Some(1)), RR));
    assert_eq!(run.tick(60).timers, ended(TWO, Overload::Quiet));
    assert_eq!((run.gateway.waiting(), run.flags(1, 1), run.flags(1, 2)), ((0, None), 0, 0));
}

#[test]
fn each_level_of_a_lan_ends_by_its_own_work_in_any_order() {
    for order in ORDERS {
        for (level, spf, other, rest) in [(1, ONE, 2, TWO), (2, TWO, 1, ONE)] {
            let mut run = Run::restarting(&[lan()]);
            assert_eq!(done(&mut run, order[0], level), QUIET);
            assert_eq!(done(&mut run, order[1], level), QUIET);
            assert_eq!(done(&mut run, order[2], level), goes(spf, Overload::Quiet), "{order:?}");
            assert_eq!((run.gateway.waiting(), run.flags(1, level), run.flags(1, other)), ((1, Some(1)), 0, RR));
            assert_eq!(done(&mut run, order[0], other), QUIET);
            assert_eq!(done(&mut run, order[1], other), QUIET);
            assert_eq!(done(&mut run, order[2], other), ended(rest, Overload::Quiet));
        }
    }
}

#[test]
fn a_lan_t1_stops_neither_by_the_other_levels_acknowledgement_nor_by_its_csnp_set() {
    use Work::{Ack, Csnp};
    for (own, other) in [(1, 2), (2, 1)] {
        for works in [[(Ack, other), (Csnp, own)], [(Csnp, other), (Ack, own)]] {
            let mut run = Run::restarting(&[lan()]);
            for (work, level) in works.into_iter().chain(works) {
                assert_eq!(done(&mut run, work, level), QUIET);
                assert_eq!((run.gateway.waiting(), run.flags(1, 1), run.flags(1, 2)), ((2, Some(1)), RR, RR));
            }
        }
        let mut run = Run::restarting(&[lan()]);
        done(&mut run, Csnp, own);
        run.accept(&Hello::lan_up(own).restart_of(RA, 1_000, THIRD));
        assert_eq!(run.gateway.waiting(), (2, Some(1)), "it names another");
        done(&mut run, Ack, own);
        assert_eq!((run.gateway.waiting(), run.flags(1, own), run.flags(1, other)), ((1, Some(1)), 0, RR));
    }
}

#[test]
fn an_acknowledgement_lowers_t3_at_either_level_and_t3_stops_all_t1s() {
    for level in [1, 2] {
        let mut run = restart(7, 60, 9, &[lan(), p2p(), lan()]);
        run.accept(&Hello::lan_up(level).restart(RA, 20));
        assert_eq!(run.clone().tick(19).timers, QUIET);
        let expiry = run.tick(20);
        let all = hellos(&[(1, 1), (1, 2), (2, SINGLE), (3, 1), (3, 2)], RR);
        assert_eq!((expiry.hellos, expiry.timers), (all, goes(Levels::NONE, Overload::Set)), "T1 comes before T3");
        assert_eq!(run.gateway.waiting(), (0, None));
        for circuit in [1, 2, 3] {
            assert_eq!([run.flags(circuit, 1), run.flags(circuit, 2)], [0; 2]);
        }
        assert_eq!(run.tick(27).hellos, NO_HELLO);
        assert_eq!(run.gateway.database_complete(1), Ok(goes(ONE, Overload::Quiet)));
        assert_eq!(run.gateway.database_complete(2), Ok(ended(TWO, Overload::Clear)));
    }
}

#[test]
fn t3_is_lowered_at_a_level_whose_t1_and_t2_are_done() {
    let mut run = Run::restarting(&[lan()]);
    for work in ORDERS[0] {
        done(&mut run, work, 2);
    }
    run.accept(&Hello::lan_up(2).restart(RA, 20));
    assert_eq!(run.clone().tick(19).timers, QUIET);
    assert_eq!(run.tick(20).timers, goes(Levels::NONE, Overload::Set), "T2 of level 1 runs");
}

#[test]
fn t3_cancels_the_t2_of_a_level_whose_database_was_complete() {
    for (level, spf) in [(1, ONE), (2, TWO)] {
        let mut run = Run::restarting(&[lan(), p2p()]);
        assert_eq!(run.gateway.database_complete(level), Ok(QUIET));
        run.accept(&Hello::lan_up(1).restart(RA, 20));
        assert_eq!(run.tick(20).timers, goes(spf, Overload::Set));
    }
}

#[test]
fn the_count_is_of_t1s_and_the_lowest_is_a_circuit() {
    let mut run = Run::restarting(&[lan(), lan(), p2p()]);
    assert_eq!(run.gateway.waiting(), (5, Some(1)), "point-to-point counts once");
    for (circuit, level, left) in [(1, 1, (4, Some(1))), (1, 2, (3, Some(2))), (2, 2, (2, Some(2))), (2, 1, (1, Some(3)))] {
        run.receive(circuit, PEER_MAC, &ack(level)).unwrap();
        run.gateway.csnp_complete(circuit, level).unwrap();
        assert_eq!((run.gateway.waiting(), run.flags(circuit, level)), (left, 0));
    }
    run.receive(3, PEER_MAC, &Hello::p2p(DOWN)).unwrap();
    assert_eq!(run.gateway.waiting(), (0, None));
}

#[test]
fn eight_lans_have_sixteen_t1s() {
    let mut run = Run::restarting(&[lan(); 8]);
    assert_eq!(run.hellos, Hellos { orders: [[true; 2]; 8], flags: RR });
    for circuit in 1..=8 {
        for level in [1, 2] {
            let left = 16 - 2 * (u32::from(circuit) - 1) - (u32::from(level) - 1);
            assert_eq!(run.gateway.waiting(), (left, Some(circuit)));
            run.receive(circuit, PEER_MAC, &ack(level)).unwrap();
            run.gateway.csnp_complete(circuit, level).unwrap();
        }
    }
    assert_eq!(run.gateway.waiting(), (0, None));
}

#[test]
fn a_lan_has_no_t1_at_a_level_that_is_not_enabled() {
    for (levels, level) in [(ONE, 1), (TWO, 2)] {
        let mut run = restart(10, 60, 3, &[p2p(), only(levels, lan())]);
        assert_eq!(run.hellos, hellos(&[(1, SINGLE), (2, usize::from(level))], RR));
        assert_eq!(run.gateway.waiting(), (2, Some(1)));
        assert_eq!(run.tick(10).hellos, hellos(&[(1, SINGLE), (2, usize::from(level))], RR));
        run.receive(2, PEER_MAC, &ack(level)).unwrap();
        run.gateway.csnp_complete(2, level).unwrap();
        assert_eq!((run.gateway.waiting(), run.flags(2, level)), ((1, Some(1)), 0));
    }
}

#[test]
fn the_one_hello_of_p2p_stands_in_the_first_place_whatever_its_levels() {
    for levels in [ONE, TWO, BOTH] {
        let mut run = restart(10, 60, 3, &[only(levels, p2p())]);
        assert_eq!((run.hellos, run.gateway.waiting()), (hellos(&[(1, SINGLE)], RR), (1, Some(1))));
        assert_eq!(run.tick(10).hellos, hellos(&[(1, SINGLE)], RR));
    }
}

#[test]
fn the_t1_of_p2p_with_level_2_holds_t2_of_level_2_and_not_of_level_1() {
    let mut run = Run::restarting(&[only(ONE, lan()), only(TWO, p2p())]);
    assert_eq!([1, 2].map(|level| run.gateway.database_complete(level)), [Ok(QUIET); 2]);
    done(&mut run, Work::Csnp, 1);
    assert_eq!(done(&mut run, Work::Ack, 1), goes(ONE, Overload::Quiet));
    assert_eq!((run.gateway.waiting(), run.flags(2, 2)), ((1, Some(2)), RR));
    assert_eq!(run.receive(2, PEER_MAC, &Hello::p2p(DOWN)).unwrap().timers, ended(TWO, Overload::Quiet));
}

#[test]
fn the_t1_of_p2p_with_both_levels_holds_both_t2_until_all_its_csnp_sets_are_complete() {
    let mut run = Run::restarting(&[p2p(), lan()]);
    assert_eq!([1, 2].map(|level| run.gateway.database_complete(level)), [Ok(QUIET); 2]);
    for level in [1, 2] {
        run.receive(2, PEER_MAC, &ack(level)).unwrap();
        assert_eq!(run.gateway.csnp_complete(2, level), Ok(QUIET));
    }
    run.accept(&Hello::p2p(UP).restart(RA, 1_000));
    assert_eq!(run.gateway.csnp_complete(1, 2), Ok(QUIET));
    assert_eq!((run.gateway.waiting(), run.flags(1, 1), run.flags(1, 2)), ((1, Some(1)), RR, RR));
    assert_eq!(run.gateway.csnp_complete(1, 1), Ok(ended(BOTH, Overload::Quiet)));
}

#[test]
fn a_lan_t1_holds_only_its_own_levels_t2() {
    for (own, other, spf) in [(1, 2, TWO), (2, 1, ONE)] {
        let mut run = Run::restarting(&[lan(), only(if own == 1 { ONE } else { TWO }, lan())]);
        assert_eq!(run.gateway.database_complete(own), Ok(QUIET));
        done(&mut run, Work::Ack, other);
        done(&mut run, Work::Csnp, other);
        assert_eq!(run.gateway.database_complete(other), Ok(goes(spf, Overload::Quiet)));
        done(&mut run, Work::Ack, own);
        assert_eq!(done(&mut run, Work::Csnp, own), QUIET, "circuit 2 has that level too");
        assert_eq!(run.gateway.waiting(), (1, Some(2)));
    }
}

#[test]
fn a_late_tick_is_one_expiry_of_each_level_and_both_run_from_its_clock() {
    let mut run = restart(3, 1_000, 3, &[lan()]);
    let both = hellos(&[(1, 1), (1, 2)], RR);
    for (clock, ordered) in [(100, both), (100, NO_HELLO), (102, NO_HELLO), (103, both), (105, NO_HELLO)] {
        assert_eq!((run.tick(clock).hellos, run.gateway.waiting()), (ordered, (2, Some(1))));
    }
    assert_eq!((run.tick(106).hellos, run.gateway.waiting()), (NO_HELLO, (0, None)));
}

#[test]
fn one_try_stops_each_lan_t1_at_its_first_expiry() {
    let mut run = restart(3, 1_000, 1, &[lan()]);
    assert_eq!((run.tick(2).hellos, run.gateway.waiting()), (NO_HELLO, (2, Some(1))));
    assert_eq!((run.tick(3).hellos, run.gateway.waiting()), (NO_HELLO, (0, None)));
}

#[test]
fn the_flags_call_refuses_a_circuit_or_level_that_is_not_there_in_every_mode() {
    let circuits = [only(ONE, lan()), only(TWO, p2p()), lan(), p2p()];
    for (mode, flags) in [(Mode::Running, 0), (Mode::Restarting, RR), (Mode::Starting, SA)] {
        let run = Run::new(&settings(mode, &circuits));
        for level in 0..=255 {
            let asked = |circuit| run.gateway.next_hello_flags(circuit, level);
            let answer = |enabled| if enabled { Ok(flags) } else { Err(Refusal::NoCircuit) };
            assert_eq!([0, 5, 9, 255].map(asked), [answer(false); 4]);
            let both = level == 1 || level == 2;
            assert_eq!([1, 2, 3, 4].map(asked), [level == 1, level == 2, both, both].map(answer), "{mode:?}, level {level}");
        }
    }
}
