//! The records, overload orders, refusals and end of a starting router (document 02, W-201; RFC 8706, 3.3.2 and 3.4.1.2).

mod common;
use common::*;
use isis_gr_reference::*;

#[test]
fn each_record_that_becomes_up_orders_overload_and_no_other_frame_does() {
    let mut run = start(&[p2p(), lan()]);
    let p2p = [(INITIALIZING, RR, SET), (DOWN, RR, QUIET), (DOWN, 0, QUIET), (DOWN, 0, QUIET), (UP, 0, SET), (UP, PR, QUIET)];
    for (state, flags, overload) in p2p {
        assert_eq!(run.accept(&p2p_with(state, flags)).timers, overload);
    }
    for mac in [PEER_MAC, THIRD_MAC] {
        for level in [1, 2] {
            let mut timers = |hello: &Hello| run.receive(2, mac, hello).unwrap().timers;
            assert_eq!(timers(&lan_with(level, 0)), SET);
            assert_eq!(timers(&lan_with(level, 0)), QUIET);
            assert_eq!(timers(&Hello::lan(level)), QUIET);
            assert_eq!(timers(&lan_with(level, RR)), SET);
        }
    }
}

#[test]
fn a_record_that_becomes_up_in_the_frame_that_ends_the_mode_orders_both() {
    let mut run = start(&[p2p()]);
    run.accept(&p2p_with(INITIALIZING, 0));
    run.accept(&p2p_with(DOWN, 0));
    run.gateway.database_complete(1).unwrap();
    let mut one_left = run.clone();
    run.gateway.database_complete(2).unwrap();
    assert_eq!(orders(run.accept(&Hello::p2p(UP))), (None, ended(BOTH, Overload::Both)));
    assert_eq!(orders(one_left.accept(&Hello::p2p(UP))), (None, goes(ONE, Overload::Set)));

    let mut run = start(&[CircuitSettings { levels: TWO, ..lan() }]);
    run.accept(&lan_with(2, 0));
    run.gateway.csnp_complete(1, 2).unwrap();
    run.gateway.database_complete(2).unwrap();
    let answer = run.receive(1, THIRD_MAC, &lan_with(2, RA).from(THIRD)).unwrap();
    assert_eq!(orders(answer), (None, ended(TWO, Overload::Both)));
}

#[test]
fn there_is_no_t3() {
    let mut run = Run::new(&Settings { t1: u16::MAX, t2: u16::MAX, ..settings(Mode::Starting, &[p2p()]) });
    run.accept(&p2p_with(INITIALIZING, 0));
    assert_eq!(run.accept(&Hello::p2p(UP).restart(RA, 1)).timers, QUIET);
    assert_eq!([1, 2, 65_534].map(|clock| run.tick(clock).timers), [QUIET; 3]);
    assert_eq!(run.gateway.waiting(), (1, Some(1)));
    assert_eq!(run.tick(65_535).timers, ended(BOTH, Overload::Clear));
}

#[test]
fn the_step_is_that_of_running() {
    let mut run = start(&[p2p()]);
    let answer = run.accept(&p2p_with(UP, RR));
    assert_eq!((run.peer(), orders(answer)), (None, NOTHING));
    assert_eq!(answer.reply, Some(Reply { kind: ReplyKind::Ra, remaining: 0 }));
    for (state, up) in [(DOWN, false), (UP, true), (DOWN, false), (INITIALIZING, true), (UP, true)] {
        run.accept(&p2p_with(state, 0));
        assert_eq!(run.record().up, up);
    }
}

#[test]
fn refusal_8_is_that_of_running() {
    let mut run = start(&[p2p()]);
    let wrong = |state, flags| Hello::bare().three_way(state, OWN, OWN_ID + 1).restart(flags, 20);
    assert_eq!(run.refuse(&wrong(UP, 0)), 8);
    run.accept(&p2p_with(DOWN, 0));
    assert_eq!((run.refuse(&wrong(UP, 0)), run.refuse(&wrong(DOWN, RR))), (8, 8));
    run.accept(&p2p_with(UP, 0));
    assert_eq!(run.refuse(&wrong(UP, 0)), 8);
    run.accept(&wrong(DOWN, RR));
    assert!(run.record().up);
}

#[test]
fn refusal_11_is_given_only_after_the_start() {
    let mut run = start(&[CircuitSettings { levels: ONE, ..p2p() }]);
    assert_eq!(run.gateway.database_complete(2), Err(Refusal::NoCircuit));
    assert_eq!(run.gateway.csnp_complete(1, 1), Ok(QUIET));
    assert_eq!(run.gateway.database_complete(1), Ok(ended(ONE, Overload::Clear)));
    assert_eq!(run.gateway.csnp_complete(1, 1), Err(Refusal::NotRestarting));
    assert_eq!(run.gateway.database_complete(1), Err(Refusal::NotRestarting));
}

#[test]
fn a_reply_is_ra_or_pa_alone_and_the_csnp_duty_stands() {
    let mut run = start(&[p2p(), lan()]);
    run.accept(&p2p_with(INITIALIZING, 0).hold(50));
    let answer = run.accept(&p2p_with(DOWN, RR | SA).hold(50));
    assert_eq!((answer.reply, answer.csnps), (Some(Reply { kind: ReplyKind::Ra, remaining: 50 }), Some(BOTH)));
    assert_eq!(run.reply[..5], [211, 9, RA, 0, 50]);
    run.receive(2, PEER_MAC, &lan_with(1, 0)).unwrap();
    assert_eq!(run.receive(2, PEER_MAC, &lan_with(1, RR)).unwrap().csnps, Some(ONE));
    let answer = run.receive(2, PEER_MAC, &lan_with(1, PR)).unwrap();
    assert_eq!((answer.reply.unwrap().kind, run.reply[2]), (ReplyKind::Pa, PA));
}

#[test]
fn the_mode_at_the_end_is_running() {
    let circuits = [p2p(), lan()];
    let mut run = start(&circuits);
    run.gateway.database_complete(1).unwrap();
    run.gateway.database_complete(2).unwrap();
    let running = Run::new(&Settings { clock: 7, ..settings(Mode::Running, &circuits) });
    assert_eq!(run.gateway, running.gateway);
    assert_eq!(orders(run.accept(&p2p_with(INITIALIZING, 0))), (None, TimerOutcome::Idle));
    let later = run.tick(1_000);
    assert_eq!((later.hellos, later.timers), (NO_HELLO, TimerOutcome::Idle));
}

#[test]
fn no_other_mode_orders_a_hello_or_overload_at_an_up_record() {
    assert_eq!(orders(Run::running(&[p2p()]).accept(&p2p_with(INITIALIZING, 0))), (None, TimerOutcome::Idle));
    assert_eq!(orders(Run::restarting(&[p2p()]).accept(&p2p_with(INITIALIZING, 0))), NOTHING);
    assert_eq!(orders(Run::restarting(&[lan()]).accept(&lan_with(1, 0))), NOTHING);
}

#[test]
fn deadlines_never_wrap() {
    let mut run = Run::new(&Settings { clock: u32::MAX, t1: 1, tries: 1, ..settings(Mode::Starting, &[p2p()]) });
    run.accept(&p2p_with(INITIALIZING, 0));
    assert_eq!(run.tick(u32::MAX).timers, QUIET);
    assert_eq!(run.gateway.waiting(), (1, Some(1)));
}
