//! The sample runs C1 to C13 (document 01, "Sample runs").

mod common;
use common::*;
use isis_gr_reference::*;

const C1: [u8; 11] = [0xd3, 0x09, 0x02, 0x00, 0x1b, 0x19, 0x21, 0x68, 0x00, 0x10, 0x02];
const C4: [u8; 11] = [0xd3, 0x09, 0x10, 0x01, 0x2c, 0x19, 0x21, 0x68, 0x00, 0x10, 0x02];

/// Plays C1 to C6 in a row up to the given one, and checks each.
fn play(last: usize) {
    let mut run = p2p_up(100, 10);
    assert_eq!(run.record().expiry, 110);

    let request = Hello::p2p(DOWN).restart(RR, 0).hold(27);
    let answer = run.accept(&request);
    assert_eq!((run.record().up, run.record().expiry, answer.csnps), (true, 127, Some(BOTH)));
    assert_eq!(run.reply[..11], C1);
    if last == 1 {
        return;
    }

    run.tick(105);
    run.accept(&request);
    assert_eq!((run.record().expiry, &run.reply[3..5]), (127, &[0x00, 0x16][..]));
    if last == 2 {
        return;
    }

    run.tick(106);
    let answer = run.accept(&Hello::p2p(UP).restart(0, 0).hold(27));
    assert_eq!((run.record().expiry, answer.reply), (133, None));
    if last == 3 {
        return;
    }

    run.tick(110);
    run.accept(&Hello::p2p(UP).restart(PR, 300));
    assert_eq!(run.record().expiry, 410);
    assert_eq!(run.reply[..11], C4);
    if last == 4 {
        return;
    }

    run.tick(120);
    run.accept(&Hello::p2p(UP).restart(PR, 600));
    assert_eq!((run.record().expiry, &run.reply[3..5]), (410, &[0x01, 0x22][..]));
    if last == 5 {
        return;
    }

    run.tick(130);
    let answer = run.accept(&request);
    assert_eq!(run.record().expiry, 160);
    assert_eq!(answer.reply, Some(Reply { kind: ReplyKind::Ra, remaining: 0x1e }));
}

#[test]
fn c1_first_rr_refreshes_and_replies_ra() {
    play(1);
}

#[test]
fn c2_second_rr_keeps_expiry() {
    play(2);
}

#[test]
fn c3_no_flags_refreshes_without_reply() {
    play(3);
}

#[test]
fn c4_pr_takes_remaining_time_and_replies_pa() {
    play(4);
}

#[test]
fn c5_second_pr_keeps_expiry() {
    play(5);
}

#[test]
fn c6_rr_after_pr_takes_configured_time() {
    play(6);
}

#[test]
fn c7_rr_without_record_gives_init_and_ra_but_no_csnps() {
    let mut run = Run::new(&Settings { clock: 100, ..settings(Mode::Running, &[p2p()]) });
    let answer = run.accept(&Hello::p2p(DOWN).restart(RR, 0).hold(27));
    assert_eq!((run.record().up, run.record().expiry), (false, 127));
    assert_eq!(answer.reply, Some(Reply { kind: ReplyKind::Ra, remaining: 27 }));
    assert_eq!(answer.csnps, None);
}

#[test]
fn c8_length_rules_of_the_restart_tlv() {
    for value in [&[][..], &[RA], &[PR, 0], &[0; 10]] {
        assert_eq!(Run::running(&[p2p()]).refuse(&Hello::p2p(DOWN).tlv(211, value)), 6);
    }
    Run::running(&[p2p()]).accept(&Hello::p2p(DOWN).tlv(211, &[PR, 0, 1]));
}

/// T3 ends at `end`: overload is ordered there, and not one second before.
fn t3_ends_at(run: &Run, end: u32) {
    let overload = |clock| match run.clone().tick(clock).timers {
        TimerOutcome::Goes { overload, .. } => overload,
        other => panic!("{other:?}"),
    };
    assert_eq!(overload(end - 1), Overload::Quiet);
    assert_eq!(overload(end), Overload::Set);
}

#[test]
fn c9_t3_is_lowered_only_by_a_smaller_time_that_shows_us_up() {
    let mut run = Run::restarting(&[p2p()]);
    run.tick(5);
    run.accept(&Hello::p2p(UP).restart(RA, 40));
    t3_ends_at(&run, 45);
    run.tick(10);
    run.accept(&Hello::p2p(UP).restart(RA, 50));
    t3_ends_at(&run, 45);
    run.tick(12);
    run.accept(&Hello::p2p(INITIALIZING).restart(RA, 20));
    t3_ends_at(&run, 45);
}

#[test]
fn c10_link_metric_is_held_to_its_limit() {
    for (configured, offset, flags, sum) in [(10, 5, 0, 15), (16_777_210, 10, 0, 16_777_214), (16_777_210, 10, 2, 16_777_215)] {
        let mut run = Run::running(&[CircuitSettings { metric: configured, ..p2p() }]);
        run.accept(&Hello::p2p(INITIALIZING).reverse(flags, offset));
        assert_eq!(run.gateway.link_metric(1), Ok(sum));
    }
}

#[test]
fn c11_two_reverse_metrics_leave_the_configured_metric() {
    let mut run = Run::running(&[p2p()]);
    run.accept(&Hello::p2p(INITIALIZING).reverse(0, 5).reverse(0, 5));
    assert_eq!(run.gateway.link_metric(1), Ok(10));
}

#[test]
fn c12_seventeenth_lan_key_waits_for_room() {
    let mut run = Run::running(&[lan()]);
    for n in 0..16 {
        let hello = Hello::lan(1 + n % 2).hold(if n == 7 { 5 } else { 50 });
        assert!(run.receive(1, [2, 0, 0, 0, 1, n], &hello).is_ok());
    }
    assert_eq!(run.receive(1, THIRD_MAC, &Hello::lan(1)), Err(9));
    assert!(run.receive(1, [2, 0, 0, 0, 1, 3], &Hello::lan(2)).is_ok());
    assert!(run.tick(5).marks[0]);
    assert!(run.receive(1, THIRD_MAC, &Hello::lan(1)).is_ok());
    assert_eq!(run.receive(1, [2, 0, 0, 0, 1, 7], &Hello::lan(2)), Err(9));
}

#[test]
fn c13_pdu_length_and_the_end_of_the_frame() {
    let whole = Hello::p2p(DOWN).octets();
    let mut run = Run::running(&[p2p()]);
    assert!(run.lend(1, PEER_MAC, &whole).is_ok());
    let mut longer = whole.clone();
    longer[18] += 1;
    assert_eq!(run.lend(1, PEER_MAC, &longer), Err(4));
    assert_eq!(run.refuse(&Hello::p2p(DOWN).octets_at_end(&[1])), 5);
}
