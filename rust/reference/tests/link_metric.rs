//! The link metric and the reverse metric TLV (document 01, "Link metric"; RFC 8500, 2 and 3.1).

mod common;
use common::*;
use isis_gr_reference::*;

fn metric_after(hello: &Hello) -> u32 {
    let mut run = Run::running(&[p2p()]);
    run.accept(&Hello::p2p(INITIALIZING).reverse(0, 1));
    assert_eq!(run.gateway.link_metric(1), Ok(11));
    run.accept(hello);
    run.gateway.link_metric(1).unwrap()
}

#[test]
fn u_raises_the_limit_and_does_not_set_the_metric() {
    assert_eq!(metric_after(&Hello::p2p(UP).reverse(2, 91)), 101);
    assert_eq!(metric_after(&Hello::p2p(UP).reverse(2, 16_777_215)), 16_777_215);
    assert_eq!(metric_after(&Hello::p2p(UP).reverse(0, 16_777_215)), 16_777_214);
    assert_eq!(metric_after(&Hello::p2p(UP).reverse(0, 16_777_204)), 16_777_214);
    assert_eq!(metric_after(&Hello::p2p(UP).reverse(0, 16_777_203)), 16_777_213);
}

#[test]
fn w_and_reserved_bits_are_ignored() {
    assert_eq!(metric_after(&Hello::p2p(UP).reverse(0xfd, 5)), 15);
    let mut run = Run::running(&[p2p()]);
    run.accept(&Hello::p2p(INITIALIZING).reverse(0xff, 5));
    assert_eq!(run.record().reverse, Some(Reverse { offset: 5, whole: true, unreachable: true }));
}

#[test]
fn a_frame_without_exactly_one_clears_what_was_kept() {
    assert_eq!(metric_after(&Hello::p2p(UP)), 10);
    assert_eq!(metric_after(&Hello::p2p(UP).reverse(0, 5).tlv(16, &[])), 10);
    assert_eq!(metric_after(&Hello::p2p(UP).reverse(0, 5).reverse(0, 5).reverse(0, 5)), 10);
}

#[test]
fn only_an_up_record_gives_its_offset() {
    assert_eq!(metric_after(&Hello::p2p(DOWN).reverse(0, 5)), 10);
}

#[test]
fn marked_and_suppressed_records_give_their_offset() {
    for flags in [RR, PR, SA, RR | SA] {
        assert_eq!(metric_after(&Hello::p2p(UP).reverse(0, 5).restart(flags, 99)), 15);
    }
}

#[test]
fn on_a_lan_it_is_kept_and_not_used() {
    let mut run = Run::running(&[lan()]);
    run.accept(&Hello::lan_up(1).reverse(3, 5));
    assert!(run.record().reverse.is_some());
    assert_eq!(run.gateway.link_metric(1), Ok(10));
}

/// A reverse metric of 5 with these sub-TLV octets.
fn with_inner(inner: &[u8]) -> Hello {
    let value = [&[0, 0, 0, 5, inner.len() as u8], inner].concat();
    Hello::p2p(UP).tlv(16, &value)
}

#[test]
fn two_traffic_engineering_metrics_ignore_the_whole_tlv() {
    assert_eq!(metric_after(&with_inner(&[18, 3, 0, 0, 9])), 15);
    assert_eq!(metric_after(&with_inner(&[18, 3, 0, 0, 9, 18, 3, 0, 0, 9])), 10);
    assert_eq!(metric_after(&with_inner(&[18, 0, 7, 1, 18, 18, 0])), 10);
    assert_eq!(metric_after(&with_inner(&[7, 2, 18, 0, 18, 0])), 15, "18 inside another sub-TLV");
}

#[test]
fn a_sub_tlv_past_the_end_ends_the_walk_and_breaks_no_rule() {
    assert_eq!(metric_after(&with_inner(&[18, 0, 18, 1])), 15);
    assert_eq!(metric_after(&with_inner(&[18, 0, 18])), 15);
    assert_eq!(metric_after(&with_inner(&[9, 200, 18, 0, 18, 0])), 15);
    assert_eq!(metric_after(&with_inner(&[18, 0, 18, 0, 18, 99])), 10);
}
