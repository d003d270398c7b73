//! Errors that look right (document 01, the section of that name).

mod common;
use common::*;
use isis_gr_reference::*;

#[test]
fn a_neighbour_that_restarts_for_ever_is_not_kept_for_ever() {
    let mut run = p2p_up(0, 27);
    let request = Hello::p2p(DOWN).restart(RR, 0).hold(27);
    run.accept(&request);
    for clock in 1..27 {
        assert!(!run.tick(clock).marks[0]);
        assert_eq!(run.accept(&request).reply.unwrap().remaining, 27 - clock as u16);
    }
    assert!(run.tick(27).marks[0]);
    assert_eq!(run.peer(), None);
}

#[test]
fn t3_is_the_smallest_time_that_showed_us_up_and_not_the_latest() {
    for (hellos, end) in [
        (vec![(UP, 40), (UP, 50)], 40),
        (vec![(UP, 50), (UP, 40)], 40),
        (vec![(UP, 50), (INITIALIZING, 10)], 50),
        (vec![(DOWN, 10), (UP, 50)], 50),
    ] {
        let mut run = Run::restarting(&[p2p()]);
        for (state, remaining) in hellos {
            run.accept(&Hello::p2p(state).restart(RA, remaining));
        }
        assert_eq!(run.clone().tick(end - 1).timers, QUIET);
        let set = TimerOutcome::Goes { spf: Levels::NONE, overload: Overload::Set };
        assert_eq!(run.tick(end).timers, set);
    }
}

#[test]
fn the_csnp_sender_is_not_the_dis() {
    // The third router is DIS by its priority; in Restart mode it drops out of the comparison, and comes back after it.
    let mut run = Run::running(&[lan()]);
    let dis = Hello::lan_up(1).from(THIRD).priority(127);
    run.accept(&Hello::lan_up(1));
    run.receive(1, THIRD_MAC, &dis.clone().restart(0, 0)).unwrap();
    assert_eq!(run.accept(&Hello::lan(1).restart(RR, 0)).csnps, None);
    run.receive(1, THIRD_MAC, &dis.clone().restart(RR, 0)).unwrap();
    assert_eq!(run.accept(&Hello::lan(1).restart(RR, 0)).csnps, Some(ONE));
    run.receive(1, THIRD_MAC, &dis.restart(0, 0)).unwrap();
    assert_eq!(run.accept(&Hello::lan(1).restart(RR, 0)).csnps, None);
}
