//! The state step, the marks and the holding time (document 01, "The state step", "Marks and holding time").

mod common;
use common::*;
use isis_gr_reference::*;

#[test]
fn p2p_step_while_running() {
    for (before, state, after) in [
        (None, DOWN, Some(false)),
        (None, INITIALIZING, Some(true)),
        (None, UP, None),
        (Some(false), DOWN, Some(false)),
        (Some(false), INITIALIZING, Some(true)),
        (Some(false), UP, Some(true)),
        (Some(true), DOWN, Some(false)),
        (Some(true), INITIALIZING, Some(true)),
        (Some(true), UP, Some(true)),
    ] {
        let mut run = Run::running(&[p2p()]);
        if let Some(up) = before {
            run.accept(&Hello::p2p(if up { INITIALIZING } else { DOWN }));
        }
        run.accept(&Hello::p2p(state));
        assert_eq!(run.peer().map(|record| record.up), after, "{before:?}, state {state}");
    }
}

#[test]
fn p2p_step_while_restarting_takes_no_record_as_init() {
    for (state, up) in [(DOWN, false), (INITIALIZING, true), (UP, true)] {
        let mut run = Run::restarting(&[p2p()]);
        run.accept(&Hello::p2p(state));
        assert_eq!(run.record().up, up);
    }
}

#[test]
fn rr_keeps_an_up_record_up_whatever_the_frame_says() {
    let mut run = p2p_up(0, 27);
    run.accept(&Hello::p2p(DOWN).restart(RR, 0));
    assert!(run.record().up);
    run.accept(&Hello::p2p(DOWN).restart(0, 0));
    assert!(!run.record().up);
}

#[test]
fn rr_keeps_an_up_record_up_on_a_lan_that_no_longer_lists_us() {
    let mut run = Run::running(&[lan()]);
    run.accept(&Hello::lan_up(1));
    run.accept(&Hello::lan(1).restart(RR, 0));
    assert!(run.record().up);
    run.accept(&Hello::lan(1));
    assert!(!run.record().up);
}

#[test]
fn lan_is_up_if_any_neighbours_tlv_lists_us() {
    let mut run = Run::running(&[lan()]);
    run.accept(&Hello::lan(1).tlv(6, &THIRD_MAC));
    assert!(!run.record().up);
    let both = [THIRD_MAC, OWN_MAC].concat();
    run.accept(&Hello::lan(1).tlv(6, &THIRD_MAC).tlv(6, &[]).tlv(6, &both));
    assert!(run.record().up);
    // Our MAC's octets across two sixes are not our MAC.
    let shifted = [&[9, 9, 9][..], &OWN_MAC, &[9, 9, 9]].concat();
    run.accept(&Hello::lan(1).tlv(6, &shifted));
    assert!(!run.record().up);
}

#[test]
fn lan_records_are_known_by_level_system_and_mac() {
    let mut run = Run::running(&[lan()]);
    run.accept(&Hello::lan(1).priority(1));
    run.accept(&Hello::lan(2).priority(2));
    run.accept(&Hello::lan(1).priority(3).from(THIRD));
    run.receive(1, THIRD_MAC, &Hello::lan(1).priority(0x84)).unwrap();
    let priority = |level, system, mac| run.gateway.look_up(1, level, system, mac).unwrap().map(|r| r.priority);
    assert_eq!(priority(1, PEER, PEER_MAC), Some(1));
    assert_eq!(priority(2, PEER, PEER_MAC), Some(2));
    assert_eq!(priority(1, THIRD, PEER_MAC), Some(3));
    assert_eq!(priority(1, PEER, THIRD_MAC), Some(4), "low seven bits");
    assert_eq!(priority(2, THIRD, PEER_MAC), None);
}

#[test]
fn p2p_record_is_known_by_system_alone_and_has_priority_0() {
    let mut run = Run::running(&[p2p()]);
    run.accept(&Hello::p2p(DOWN));
    run.receive(1, THIRD_MAC, &Hello::p2p(UP)).unwrap();
    let record = run.gateway.look_up(1, 77, PEER, [0; 6]).unwrap().unwrap();
    assert_eq!((record.up, record.priority), (true, 0));
    assert_eq!(run.gateway.look_up(1, 1, THIRD, PEER_MAC), Ok(None));
}

#[test]
fn rr_with_three_way_up_and_no_record_replies_0_and_keeps_nothing() {
    let mut run = Run::running(&[p2p()]);
    let answer = run.accept(&Hello::p2p(UP).restart(RR, 0));
    assert_eq!(answer.reply, Some(Reply { kind: ReplyKind::Ra, remaining: 0 }));
    assert_eq!(answer.csnps, None);
    assert_eq!(run.reply[5..11], PEER);
    assert_eq!(run.peer(), None);
    assert_eq!(run.accept(&Hello::p2p(UP)).reply, None);
}

/// A circuit of each kind, and on it a hello that leaves the record UP and one that leaves it INIT; both lack the Restart TLV.
fn kinds() -> [(CircuitSettings, Hello, Hello); 2] {
    [(p2p(), Hello::p2p(INITIALIZING), Hello::p2p(DOWN)), (lan(), Hello::lan_up(1), Hello::lan(1))]
}

/// Document 02, W-203; the configured time is 30.
#[test]
fn a_frame_without_the_tlv_is_read_as_one_with_all_flags_clear() {
    for (circuit, up, init) in kinds() {
        for (flags, mark, expiry) in
            [(SA, Mark::Clear, 150), (RR, Mark::Restart, 150), (RR | SA, Mark::Restart, 150), (PR, Mark::Planned, 140)]
        {
            for (last, stays_up) in [(&up, true), (&init, false)] {
                let mut run = Run::running(std::slice::from_ref(&circuit));
                run.tick(100);
                run.accept(&up);
                run.accept(&up.clone().restart(flags, 300));
                assert_eq!((run.record().mark, run.record().suppressed, run.record().tlv), (mark, flags & SA != 0, true));
                run.tick(110);
                let mut clear = run.clone();
                let answer = run.accept(&last.clone().hold(40));
                let record = run.record();
                assert_eq!((record.mark, record.suppressed, record.tlv), (Mark::Clear, false, false));
                assert_eq!((record.up, record.advertised(), record.expiry), (stays_up, stays_up, expiry), "flags {flags}");
                assert_eq!(answer, clear.accept(&last.clone().hold(40).restart(0, 0)));
                assert_eq!(Record { tlv: true, ..record }, clear.record());
            }
        }
    }
}

#[test]
fn a_frame_without_the_tlv_ends_suppressed_of_an_init_record_too() {
    for (circuit, up, init) in kinds() {
        for (last, stays_up) in [(&up, true), (&init, false)] {
            let mut run = Run::running(std::slice::from_ref(&circuit));
            run.accept(&init.clone().restart(SA, 0));
            assert_eq!((run.record().up, run.record().suppressed), (false, true));
            run.accept(last);
            assert_eq!((run.record().up, run.record().suppressed, run.record().expiry), (stays_up, false, 27));
        }
    }
}

#[test]
fn line_1_takes_configured_time_after_planned_and_holding_at_first() {
    let mut run = p2p_up(0, 27);
    run.accept(&Hello::p2p(UP).restart(PR, 300));
    run.accept(&Hello::p2p(UP).restart(RR, 0).hold(99));
    assert_eq!((run.record().expiry, run.record().mark), (30, Mark::Restart));
    // Cleared by RR reset, the next RR is a first one again.
    run.accept(&Hello::p2p(UP).restart(0, 0).hold(99));
    assert_eq!((run.record().expiry, run.record().mark), (99, Mark::Clear));
    run.accept(&Hello::p2p(UP).restart(RR, 0).hold(50));
    assert_eq!((run.record().expiry, run.record().mark), (50, Mark::Restart));
}

#[test]
fn line_1_ignores_pr_beside_rr() {
    let mut run = p2p_up(0, 27);
    let answer = run.accept(&Hello::p2p(UP).restart(RR | PR, 300).hold(27));
    assert_eq!((run.record().expiry, run.record().mark), (27, Mark::Restart));
    assert_eq!(answer.reply, Some(Reply { kind: ReplyKind::Ra, remaining: 27 }));
    assert_eq!(answer.csnps, Some(BOTH));
}

#[test]
fn line_2_marks_nothing_though_the_record_becomes_up() {
    let mut run = Run::running(&[p2p()]);
    let answer = run.accept(&Hello::p2p(INITIALIZING).restart(RR, 0));
    assert_eq!((run.record().up, run.record().mark), (true, Mark::Clear));
    assert_eq!((answer.reply.unwrap().kind, answer.csnps), (ReplyKind::Ra, None));
}

#[test]
fn line_3_clears_restart_and_wants_up_before_and_after() {
    let mut run = p2p_up(0, 27);
    run.accept(&Hello::p2p(UP).restart(RR, 0));
    run.accept(&Hello::p2p(UP).restart(PR, 300));
    assert_eq!((run.record().mark, run.record().expiry), (Mark::Planned, 300));

    // UP before, not after, and Planned: line 4.
    let answer = run.accept(&Hello::p2p(DOWN).restart(PR, 600).hold(77));
    let record = run.record();
    assert_eq!((answer.reply, record.up, record.mark, record.expiry), (None, false, Mark::Clear, 30));

    // UP after, not before: line 5.
    let answer = run.accept(&Hello::p2p(UP).restart(PR, 600).hold(77));
    let record = run.record();
    assert_eq!((answer.reply, record.up, record.mark, record.expiry), (None, true, Mark::Clear, 77));
}

#[test]
fn line_4_ends_planned_with_the_configured_time() {
    let mut run = p2p_up(0, 27);
    run.accept(&Hello::p2p(UP).restart(PR, 300));
    run.accept(&Hello::p2p(UP).restart(0, 0).hold(99));
    assert_eq!((run.record().mark, run.record().expiry), (Mark::Clear, 30));
}

#[test]
fn sa_marks_and_unmarks_suppressed_in_either_state() {
    let mut run = Run::running(&[p2p()]);
    for state in [DOWN, INITIALIZING] {
        run.accept(&Hello::p2p(state).restart(SA, 0));
        assert!(run.record().suppressed && !run.record().advertised());
        run.accept(&Hello::p2p(state).restart(RA | PA, 0));
        assert!(run.record().suppressed, "the TLV is ignored");
        run.accept(&Hello::p2p(state).restart(0, 0));
        assert_eq!((run.record().suppressed, run.record().advertised()), (false, state == INITIALIZING));
    }
}

#[test]
fn reserved_flag_bits_mean_nothing() {
    let mut run = p2p_up(0, 27);
    let answer = run.accept(&Hello::p2p(UP).restart(0xe0 | RR, 0));
    assert_eq!(answer.reply.unwrap().kind, ReplyKind::Ra);
    assert_eq!(run.reply[2], RA);
}

#[test]
fn flags_that_may_not_stand_together_are_ignored() {
    for flags in 0..32_u8 {
        let counted = if flags & RR != 0 { flags & !PR } else { flags };
        let ignored = counted.count_ones() > 1 && counted != RR | SA;
        let mut run = p2p_up(0, 27);
        run.accept(&Hello::p2p(UP).restart(SA, 0));
        let answer = run.accept(&Hello::p2p(UP).restart(flags, 300).hold(50));
        let record = run.record();
        assert!(record.tlv);
        if ignored {
            assert_eq!((answer.reply, answer.csnps), (None, None), "flags {flags}");
            assert_eq!((record.mark, record.suppressed, record.expiry), (Mark::Clear, true, 50), "flags {flags}");
        } else {
            let kind = match flags {
                _ if flags & RR != 0 => Some(ReplyKind::Ra),
                PR => Some(ReplyKind::Pa),
                _ => None,
            };
            assert_eq!(answer.reply.map(|reply| reply.kind), kind, "flags {flags}");
            assert_eq!(record.suppressed, flags & SA != 0, "flags {flags}");
        }
    }
}

#[test]
fn ignored_flags_end_restart_and_planned_but_not_suppressed() {
    for (circuit, up, init) in kinds() {
        for (flags, expiry) in [(PR, 30), (RR, 50), (RR | SA, 50)] {
            for (last, stays_up) in [(&up, true), (&init, false)] {
                let mut run = Run::running(std::slice::from_ref(&circuit));
                run.accept(&up);
                run.accept(&up.clone().restart(flags, 300));
                run.accept(&last.clone().restart(RR | RA, 300).hold(50));
                let record = run.record();
                assert_eq!((record.up, record.mark, record.expiry), (stays_up, Mark::Clear, expiry), "flags {flags}");
                assert_eq!((record.suppressed, record.tlv), (flags & SA != 0, true), "flags {flags}");
            }
        }
    }
}

#[test]
fn rr_in_ignored_flags_excuses_nothing() {
    let mut run = p2p_up(0, 27);
    assert_eq!(run.refuse(&Hello::bare().three_way(UP, THIRD, OWN_ID).restart(RR | RA, 0)), 8);
    run.accept(&Hello::p2p(DOWN).restart(RR | RA, 0));
    assert!(!run.record().up);
}

#[test]
fn reply_time_is_expiry_less_clock_and_never_below_0() {
    let mut run = p2p_up(4_000_000_000, 27);
    let answer = run.accept(&Hello::p2p(UP).restart(RR, 0).hold(0));
    assert_eq!(answer.reply, Some(Reply { kind: ReplyKind::Ra, remaining: 0 }));
    let mut run = p2p_up(u32::MAX, u16::MAX);
    let answer = run.accept(&Hello::p2p(UP).restart(RR, 0).hold(u16::MAX));
    assert_eq!(answer.reply, Some(Reply { kind: ReplyKind::Ra, remaining: u16::MAX }));
    assert_eq!(run.record().expiry, u64::from(u32::MAX) + 65_535);
}

#[test]
fn tick_removes_records_at_their_expiry_and_marks_their_circuit() {
    let mut run = Run::running(&[p2p(), lan(), p2p()]);
    run.accept(&Hello::p2p(DOWN).hold(10));
    run.receive(2, PEER_MAC, &Hello::lan(1).hold(11)).unwrap();
    run.receive(2, PEER_MAC, &Hello::lan(2).hold(12)).unwrap();
    assert_eq!(run.tick(9).marks, [false; 8]);
    let mut marks = [false; 8];
    marks[0] = true;
    assert_eq!(run.tick(10).marks, marks);
    assert_eq!(run.peer(), None);
    assert_eq!(run.tick(10).marks, [false; 8]);
    assert!(run.tick(12).marks[1]);
    assert_eq!(run.gateway.look_up(2, 2, PEER, PEER_MAC), Ok(None));
}

#[test]
fn holding_time_0_ends_at_a_tick_with_an_equal_clock() {
    let mut run = p2p_up(7, 0);
    assert_eq!(run.record().expiry, 7);
    assert!(run.tick(7).marks[0]);
}

#[test]
fn release_removes_planned_records_of_that_circuit_only() {
    let mut run = Run::running(&[p2p(), lan(), p2p()]);
    for circuit in [1, 3] {
        run.receive(circuit, PEER_MAC, &Hello::p2p(INITIALIZING)).unwrap();
        run.receive(circuit, PEER_MAC, &Hello::p2p(UP).restart(PR, 300)).unwrap();
    }
    assert_eq!(run.gateway.release(2), Ok(()));
    assert_eq!(run.gateway.release(1), Ok(()));
    assert_eq!(run.peer(), None);
    assert!(run.gateway.look_up(3, 1, PEER, PEER_MAC).unwrap().is_some());
    run.accept(&Hello::p2p(INITIALIZING).restart(0, 0));
    assert_eq!(run.gateway.release(1), Ok(()));
    assert!(run.peer().is_some());
}
