//! Who sends CSNPs to a router that restarts (document 01, "Marks and holding time"; RFC 8706, 3.2.1, item c).

mod common;
use common::*;
use isis_gr_reference::*;

/// A LAN where the peer is UP at level 1 and a third router said `third`, and the orders that the peer's RR then gives.
fn orders(third: &[Hello]) -> Option<Levels> {
    let mut run = Run::running(&[lan()]);
    run.accept(&Hello::lan_up(1).priority(127).restart(0, 0));
    for hello in third {
        run.receive(1, THIRD_MAC, &hello.clone().from(THIRD)).unwrap();
    }
    let answer = run.accept(&Hello::lan(1).priority(127).restart(RR, 0));
    assert_eq!(answer.reply.unwrap().kind, ReplyKind::Ra);
    answer.csnps
}

#[test]
fn alone_we_have_the_duty_for_the_frames_level() {
    assert_eq!(orders(&[]), Some(ONE));
}

#[test]
fn greater_priority_takes_the_duty() {
    assert_eq!(orders(&[Hello::lan_up(1).priority(65).restart(0, 0)]), None);
    assert_eq!(orders(&[Hello::lan_up(1).priority(63).restart(0, 0)]), Some(ONE));
}

#[test]
fn greater_mac_breaks_a_tie_and_an_equal_pair_does_not() {
    assert_eq!(orders(&[Hello::lan_up(1).priority(64).restart(0, 0)]), None);
    let mut run = Run::running(&[lan()]);
    run.accept(&Hello::lan_up(1));
    run.receive(1, OWN_MAC, &Hello::lan_up(1).from(THIRD).restart(0, 0)).unwrap();
    assert_eq!(run.accept(&Hello::lan(1).restart(RR, 0)).csnps, Some(ONE));
}

#[test]
fn only_routers_up_at_that_level_with_the_tlv_count() {
    assert_eq!(orders(&[Hello::lan(1).priority(99).restart(0, 0)]), Some(ONE), "INIT");
    assert_eq!(orders(&[Hello::lan_up(2).priority(99).restart(0, 0)]), Some(ONE), "other level");
    assert_eq!(orders(&[Hello::lan_up(1).priority(99)]), Some(ONE), "no TLV");
    let lost = [Hello::lan_up(1).priority(99).restart(0, 0), Hello::lan_up(1).priority(99)];
    assert_eq!(orders(&lost), Some(ONE), "no TLV in the last frame");
}

#[test]
fn suppressed_planned_and_ignored_flags_still_count() {
    assert_eq!(orders(&[Hello::lan_up(1).priority(99).restart(SA, 0)]), None);
    assert_eq!(orders(&[Hello::lan_up(1).priority(99), Hello::lan_up(1).priority(99).restart(PR, 99)]), None);
    assert_eq!(orders(&[Hello::lan_up(1).priority(99).restart(RA | SA, 0)]), None);
}

#[test]
fn the_sender_never_outranks_us_and_each_rr_gives_the_order() {
    let mut run = Run::running(&[lan()]);
    run.accept(&Hello::lan_up(2).priority(127));
    for _ in 0..3 {
        assert_eq!(run.accept(&Hello::lan(2).priority(127).restart(RR, 0)).csnps, Some(TWO));
    }
}

#[test]
fn p2p_orders_all_levels_of_the_circuit() {
    for levels in [ONE, TWO, BOTH] {
        let mut run = Run::running(&[CircuitSettings { levels, ..p2p() }]);
        run.accept(&Hello::p2p(INITIALIZING));
        assert_eq!(run.accept(&Hello::p2p(UP).restart(RR, 0)).csnps, Some(levels));
    }
}

#[test]
fn the_duty_stands_while_we_restart_ourselves() {
    let mut run = Run::restarting(&[lan()]);
    run.accept(&Hello::lan_up(1));
    assert_eq!(run.accept(&Hello::lan_up(1).restart(RR, 0)).csnps, Some(ONE));
}
