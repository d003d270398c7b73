//! T1 for each level of a LAN while we start (document 02, W-201 and W-202; RFC 8706, 3.3.2 and 3.3.3).

mod common;
use common::*;
use isis_gr_reference::*;

/// The flags of the next hellos at level 1 and at level 2 of circuit 1.
fn flags(run: &Run) -> [u8; 2] {
    [run.flags(1, 1), run.flags(1, 2)]
}

const ASKS: u8 = RR | SA;

#[test]
fn each_level_of_a_lan_begins_with_its_own_first_up_record_and_has_its_own_tries() {
    let mut run = start(&[lan()]);
    let first = run.accept(&lan_with(2, 0));
    assert_eq!((orders(first), first.change.level), (BEGINS, 2));
    assert_eq!((run.gateway.waiting(), flags(&run)), ((1, Some(1)), [SA, SA]));
    assert_eq!(run.tick(12).hellos, NO_HELLO);
    let second = run.accept(&lan_with(1, 0));
    assert_eq!((orders(second), second.change.level), (BEGINS, 1));
    assert_eq!((run.gateway.waiting(), flags(&run)), ((2, Some(1)), [SA, SA]));
    for (clock, level, next) in [(17, 2, [SA, ASKS]), (22, 1, [ASKS, ASKS]), (27, 2, [ASKS, ASKS]), (32, 1, [ASKS, ASKS])] {
        assert_eq!(run.tick(clock - 1).hellos, NO_HELLO);
        assert_eq!((run.tick(clock).hellos, flags(&run)), (hellos(&[(1, level)], ASKS), next));
    }
    assert_eq!((run.tick(37).hellos, run.gateway.waiting(), flags(&run)), (NO_HELLO, (1, Some(1)), [ASKS, SA]));
    assert_eq!((run.tick(42).hellos, run.gateway.waiting(), flags(&run)), (NO_HELLO, (0, None), [SA, SA]));
}

#[test]
fn t1_of_a_lan_level_begins_once() {
    let mut run = start(&[lan()]);
    for level in [1, 2] {
        assert_eq!(orders(run.accept(&lan_with(level, 0))), BEGINS);
    }
    for level in [2, 1] {
        assert_eq!(orders(run.accept(&Hello::lan(level))), NOTHING);
        assert_eq!(orders(run.accept(&lan_with(level, 0))), RISES, "while it runs");
        assert_eq!(run.receive(1, THIRD_MAC, &lan_with(level, 0).from(THIRD)).map(orders), Ok(RISES));
    }
    assert_eq!(run.tick(17).hellos, hellos(&[(1, 1), (1, 2)], ASKS), "both are due");
    run.accept(&lan_with(1, RA));
    run.gateway.csnp_complete(1, 1).unwrap();
    assert_eq!(run.gateway.waiting(), (1, Some(1)));
    run.gateway.clear(1).unwrap();
    assert_eq!(orders(run.accept(&lan_with(1, 0))), RISES, "after it stopped");
    assert_eq!((run.gateway.waiting(), flags(&run)), ((1, Some(1)), [SA, ASKS]));
    assert_eq!(run.tick(27).hellos, hellos(&[(1, 2)], ASKS));
}

#[test]
fn an_acknowledgement_counts_from_its_own_levels_first_up_frame_on() {
    for (own, other, noticed_first) in [(1, 2, true), (1, 2, false), (2, 1, true), (2, 1, false)] {
        let mut run = start(&[lan()]);
        assert_eq!(orders(run.accept(&lan_with(other, 0))), BEGINS);
        assert_eq!(orders(run.accept(&Hello::lan(own).restart(RA, 20))), NOTHING, "too early");
        if noticed_first {
            assert_eq!(run.gateway.csnp_complete(1, own), Ok(QUIET));
        }
        assert_eq!(orders(run.accept(&lan_with(own, 0))), BEGINS);
        if !noticed_first {
            assert_eq!(run.gateway.csnp_complete(1, own), Ok(QUIET));
        }
        assert_eq!(run.gateway.waiting(), (2, Some(1)));
        run.accept(&lan_with(other, RA));
        assert_eq!(run.gateway.waiting(), (2, Some(1)), "of the other level, whose CSNP set is not complete");
        run.accept(&Hello::lan(own).restart(RA, 20));
        assert_eq!(run.gateway.waiting(), (1, Some(1)));
        run.gateway.csnp_complete(1, other).unwrap();
        assert_eq!(run.gateway.waiting(), (0, None));
    }
}

#[test]
fn a_first_up_frame_begins_t1_of_its_level_and_stops_it_where_the_csnp_set_was_complete() {
    for (level, begun) in [(1, 2), (2, 1)] {
        let mut run = start(&[lan()]);
        run.accept(&lan_with(begun, 0));
        run.gateway.csnp_complete(1, level).unwrap();
        assert_eq!(orders(run.accept(&lan_with(level, RA))), BEGINS, "its hello stays ordered");
        assert_eq!(run.gateway.waiting(), (1, Some(1)));
        assert_eq!(run.tick(17).hellos, hellos(&[(1, usize::from(begun))], ASKS));
    }
}

#[test]
fn the_database_notice_of_a_level_cancels_its_t2_while_the_other_levels_t1_runs() {
    for (busy, free, spf, last) in [(1, 2, TWO, ONE), (2, 1, ONE, TWO)] {
        let mut run = start(&[lan()]);
        run.accept(&lan_with(busy, RA));
        assert_eq!(run.gateway.database_complete(busy), Ok(QUIET));
        assert_eq!(run.gateway.database_complete(free), Ok(goes(spf, Overload::Quiet)));
        assert_eq!(flags(&run), [SA, SA], "until all T2 are done");
        assert_eq!(orders(run.accept(&lan_with(free, 0))), BEGINS, "its T2 is done, the start is not");
        assert_eq!(run.gateway.waiting(), (2, Some(1)));
        assert_eq!(run.gateway.csnp_complete(1, busy), Ok(ended(last, Overload::Clear)));
        assert_eq!((run.gateway.waiting(), flags(&run)), ((0, None), [0, 0]), "the end stops all T1s");
    }
}

#[test]
fn each_level_ends_in_the_tick_of_its_own_t1s_last_expiry() {
    let mut run = start(&[lan()]);
    run.accept(&lan_with(1, 0));
    run.tick(12);
    run.accept(&lan_with(2, 0));
    assert_eq!([1, 2].map(|level| run.gateway.database_complete(level)), [Ok(QUIET); 2]);
    assert_eq!([17, 22, 27, 32].map(|clock| run.tick(clock).timers), [QUIET; 4]);
    assert_eq!(run.tick(37).timers, goes(ONE, Overload::Quiet));
    assert_eq!(run.tick(42).timers, ended(TWO, Overload::Clear));
}

#[test]
fn t1_of_a_lan_level_leaves_that_of_other_circuits_alone() {
    let mut run = start(&[lan(), p2p(), lan()]);
    assert_eq!(run.receive(3, PEER_MAC, &lan_with(2, 0)).map(orders), Ok(BEGINS));
    assert_eq!(run.gateway.waiting(), (1, Some(3)));
    assert_eq!(run.receive(1, PEER_MAC, &lan_with(2, 0)).map(orders), Ok(BEGINS));
    assert_eq!(run.gateway.waiting(), (2, Some(1)));
    assert_eq!(run.receive(2, PEER_MAC, &p2p_with(INITIALIZING, 0)).map(orders), Ok(BEGINS));
    assert_eq!(run.gateway.waiting(), (3, Some(1)));
    assert_eq!(run.tick(17).hellos, hellos(&[(1, 2), (2, SINGLE), (3, 2)], ASKS));
    assert_eq!([1, 2, 3].map(|circuit| [run.flags(circuit, 1), run.flags(circuit, 2)]), [[SA, ASKS], [ASKS, ASKS], [SA, ASKS]]);
}

#[test]
fn p2p_begins_one_t1_for_all_its_levels() {
    for levels in [TWO, BOTH] {
        let mut run = start(&[CircuitSettings { levels, ..p2p() }]);
        let first = run.accept(&p2p_with(INITIALIZING, RA));
        assert_eq!((orders(first), first.change.level, run.gateway.waiting()), (BEGINS, 0, (1, Some(1))));
        assert_eq!((run.tick(17).hellos, run.flags(1, 2)), (hellos(&[(1, SINGLE)], ASKS), ASKS));
        run.gateway.csnp_complete(1, 2).unwrap();
        assert_eq!(run.gateway.waiting().0, u32::from(levels == BOTH), "a set for each level");
        assert_eq!(run.flags(1, 2), if levels == BOTH { ASKS } else { SA });
    }
}

#[test]
fn p2p_with_level_2_holds_t2_of_level_2_and_not_of_level_1() {
    let mut run = start(&[CircuitSettings { levels: TWO, ..p2p() }, lan()]);
    run.accept(&p2p_with(INITIALIZING, 0));
    assert_eq!(run.gateway.database_complete(2), Ok(QUIET));
    assert_eq!(run.gateway.database_complete(1), Ok(goes(ONE, Overload::Quiet)));
    assert_eq!(run.accept(&Hello::p2p(UP)).timers, ended(TWO, Overload::Clear));
}

#[test]
fn one_try_never_sends_rr_at_either_level() {
    let mut run = Run::new(&Settings { t1: 10, tries: 1, ..settings(Mode::Starting, &[lan()]) });
    run.accept(&lan_with(1, 0));
    run.tick(5);
    run.accept(&lan_with(2, 0));
    for (clock, left) in [(9, (2, Some(1))), (10, (1, Some(1))), (14, (1, Some(1))), (15, (0, None))] {
        assert_eq!((run.tick(clock).hellos, run.gateway.waiting(), flags(&run)), (NO_HELLO, left, [SA, SA]));
    }
}
