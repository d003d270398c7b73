//! The refusals and their order (document 01, "Refusals by number"); 13 and 14 are in `chunks.rs`.

mod common;
use common::*;
use isis_gr_reference::*;

fn change(octets: &[u8], at: usize, to: u8) -> Vec<u8> {
    let mut changed = octets.to_vec();
    changed[at] = to;
    changed
}

#[test]
fn numbers_are_those_of_the_table() {
    use Refusal::*;
    let all = [
        NoCircuit,
        ReplyRoom,
        NotAHello,
        HeaderLength,
        TlvPastEnd { position: 21 },
        TlvRule { position: 9 },
        NotForUs,
        OtherNeighbour,
        RoomFull,
        ClockBack,
        NotRestarting,
        Setting,
        NotBegun,
        TooLong,
    ];
    assert!(all.iter().map(|refusal| refusal.number()).eq(1..=14));
}

#[test]
fn no_1_circuit_or_level_not_there() {
    let mut run = Run::restarting(&[CircuitSettings { levels: ONE, ..lan() }, CircuitSettings { levels: ONE, ..p2p() }]);
    let gateway = &mut run.gateway;
    for circuit in [0, 3, 8, 9, 255] {
        assert_eq!(gateway.receive(circuit, PEER_MAC, &[], &mut [0; 11]), Err(Refusal::NoCircuit));
        assert_eq!(gateway.begin_frame(circuit, PEER_MAC), Err(Refusal::NoCircuit));
        assert_eq!(gateway.add_chunk(circuit, &[]), Err(Refusal::NoCircuit));
        assert_eq!(gateway.end_frame(circuit, &mut [0; 11]), Err(Refusal::NoCircuit));
        assert_eq!(gateway.release(circuit), Err(Refusal::NoCircuit));
        assert_eq!(gateway.csnp_complete(circuit, 1), Err(Refusal::NoCircuit));
        assert_eq!(gateway.look_up(circuit, 1, PEER, PEER_MAC), Err(Refusal::NoCircuit));
        assert_eq!(gateway.link_metric(circuit), Err(Refusal::NoCircuit));
        assert_eq!(gateway.next_hello_flags(circuit, 1), Err(Refusal::NoCircuit));
    }
    for level in [0, 2, 3, 255] {
        assert_eq!(gateway.csnp_complete(1, level), Err(Refusal::NoCircuit));
        assert_eq!(gateway.database_complete(level), Err(Refusal::NoCircuit));
        assert_eq!(gateway.look_up(1, level, PEER, PEER_MAC), Err(Refusal::NoCircuit));
        assert_eq!(gateway.look_up(2, level, PEER, PEER_MAC), Ok(None));
        assert_eq!([1, 2].map(|circuit| gateway.next_hello_flags(circuit, level)), [Err(Refusal::NoCircuit); 2]);
    }
}

#[test]
fn no_2_reply_buffer_under_11_octets_though_no_reply_is_due() {
    let mut run = Run::running(&[p2p()]);
    let octets = Hello::p2p(DOWN).octets();
    assert_eq!(run.gateway.receive(1, PEER_MAC, &octets, &mut [0; 10]), Err(Refusal::ReplyRoom));
    assert_eq!(run.peer(), None);
    assert!(run.gateway.receive(1, PEER_MAC, &octets, &mut [0; 11]).is_ok());
}

#[test]
fn no_3_not_a_hello_for_the_circuit() {
    let octets = Hello::p2p(DOWN).octets();
    let mut run = Run::running(&[p2p(), lan()]);
    for length in 0..8 {
        assert_eq!(run.lend(1, PEER_MAC, &octets[..length]), Err(3));
    }
    for (at, to) in [(0, 0x82), (2, 0), (2, 2), (3, 1), (3, 7), (3, 255), (4, 15), (4, 16), (4, 18), (4, 0), (5, 0)] {
        assert_eq!(run.lend(1, PEER_MAC, &change(&octets, at, to)), Err(3), "octet {} is {to}", at + 1);
    }
    assert_eq!(run.lend(2, PEER_MAC, &octets), Err(3));
    // The ID length may be spelled out, and the type's top three bits, octets 7 and 8 are not looked at.
    for (at, to) in [(3, 6), (4, 0xf1), (6, 9), (7, 9)] {
        assert!(run.lend(1, PEER_MAC, &change(&octets, at, to)).is_ok());
    }
}

#[test]
fn no_4_header_length_and_pdu_length() {
    let octets = Hello::p2p(DOWN).octets();
    let mut run = Run::running(&[p2p(), lan()]);
    for length in 8..20 {
        assert_eq!(run.lend(1, PEER_MAC, &octets[..length]), Err(4));
    }
    assert_eq!(run.lend(2, PEER_MAC, &Hello::lan(1).octets()[..26]), Err(4));
    for header in [0, 19, 21, 27] {
        assert_eq!(run.lend(1, PEER_MAC, &change(&octets, 1, header)), Err(4));
    }
    assert_eq!(run.lend(1, PEER_MAC, &change(&octets, 18, 19)), Err(4));
    assert_eq!(run.lend(1, PEER_MAC, &change(&octets, 18, octets.len() as u8 + 1)), Err(4));
}

#[test]
fn no_4_bounds_the_pdu_length_at_1492_and_not_the_lent_octets() {
    let padded = |length: usize| {
        let mut hello = Hello::p2p(DOWN);
        while hello.octets().len() + 2 <= length {
            let rest = length - hello.octets().len() - 2;
            // One octet cannot be filled by a TLV.
            let size = if rest == 256 { 254 } else { rest.min(255) };
            hello = hello.tlv(8, &vec![0; size]);
        }
        let octets = hello.octets();
        assert_eq!(octets.len(), length);
        octets
    };
    let mut run = Run::running(&[p2p()]);
    assert!(run.lend(1, PEER_MAC, &padded(1_492)).is_ok());
    assert_eq!(run.lend(1, PEER_MAC, &padded(1_493)), Err(4));
    let mut lent = padded(1_492);
    lent.resize(9_000, 1);
    assert!(run.lend(1, PEER_MAC, &lent).is_ok());
}

#[test]
fn no_5_tlv_past_the_pdu_length_though_octets_are_lent_there() {
    let mut run = Run::running(&[p2p()]);
    assert_eq!(run.refuse(&Hello::p2p(DOWN).octets_at_end(&[1])), 5);
    assert_eq!(run.refuse(&Hello::p2p(DOWN).octets_at_end(&[1, 1])), 5);
    let mut lent = Hello::p2p(DOWN).octets_at_end(&[1, 3, 0, 0]).octets();
    lent.extend([0; 40]);
    assert_eq!(run.lend(1, PEER_MAC, &lent), Err(5));
    run.accept(&Hello::p2p(DOWN).octets_at_end(&[1, 0]));
}

#[test]
fn no_6_circuit_type_without_level() {
    let mut run = Run::running(&[p2p(), lan()]);
    for (circuit, hello) in [(1, Hello::p2p(DOWN)), (2, Hello::lan(1))] {
        for circuit_type in [0, 4, 252] {
            assert_eq!(run.receive(circuit, PEER_MAC, &hello.clone().circuit_type(circuit_type)), Err(6));
        }
        // It is compared with nothing else, not with the frame's level either.
        for circuit_type in [1, 2, 3, 254] {
            assert!(run.receive(circuit, PEER_MAC, &hello.clone().circuit_type(circuit_type)).is_ok());
        }
    }
}

#[test]
fn no_6_restart_tlv_twice() {
    let mut run = Run::running(&[p2p(), lan()]);
    assert_eq!(run.refuse(&Hello::p2p(DOWN).restart(0, 0).restart(0, 0)), 6);
    assert_eq!(run.receive(2, PEER_MAC, &Hello::lan(1).restart(0, 0).restart(0, 0)), Err(6));
}

#[test]
fn no_6_restart_lengths_go_by_the_flags_as_they_came() {
    let mut run = Run::running(&[p2p()]);
    for flags in 0..=255_u8 {
        let needed = if flags & (RA | PA) != 0 {
            9
        } else if flags & PR != 0 {
            3
        } else {
            1
        };
        for length in 0..=12 {
            let mut value = vec![0; length];
            if let Some(first) = value.first_mut() {
                *first = flags;
            }
            let answer = run.receive(1, PEER_MAC, &Hello::p2p(DOWN).tlv(211, &value));
            assert_eq!(answer.is_ok(), (needed..=9).contains(&length), "flags {flags}, length {length}");
            assert!(answer.is_ok() || answer == Err(6));
        }
    }
}

#[test]
fn no_6_three_way_exactly_once_with_known_length_and_state() {
    let mut run = Run::restarting(&[p2p()]);
    assert_eq!(run.refuse(&Hello::bare()), 6);
    assert_eq!(run.refuse(&Hello::p2p(DOWN).three_way(DOWN, OWN, OWN_ID)), 6);
    for length in 0..=17 {
        let mut value = [DOWN, 0, 0, 0, 0].to_vec();
        value.extend(OWN);
        value.extend(OWN_ID.to_be_bytes());
        value.resize(length, 0);
        let answer = run.receive(1, PEER_MAC, &Hello::bare().tlv(240, &value));
        assert_eq!(answer.err(), if [1, 5, 11, 15].contains(&length) { None } else { Some(6) });
    }
    for state in 3..=255 {
        assert_eq!(run.refuse(&Hello::p2p(state)), 6);
    }
}

#[test]
fn no_6_neighbours_in_whole_sixes_on_a_lan() {
    let mut run = Run::running(&[lan()]);
    for length in 0..=18 {
        let answer = run.receive(1, PEER_MAC, &Hello::lan(1).tlv(6, &vec![0; length]));
        assert_eq!(answer.err(), if length % 6 == 0 { None } else { Some(6) });
    }
    assert_eq!(run.refuse(&Hello::lan_up(1).tlv(6, &[0; 5])), 6);
}

#[test]
fn no_6_reverse_metric_checked_on_both_kinds_if_there_is_one() {
    for (circuit, hello) in [(p2p(), Hello::p2p(DOWN)), (lan(), Hello::lan(1))] {
        let mut run = Run::running(&[circuit]);
        for bad in [&[][..], &[0, 0, 0, 5], &[0, 0, 0, 5, 1], &[0, 0, 0, 5, 0, 0], &[0, 0, 0, 5, 2, 0]] {
            assert_eq!(run.refuse(&hello.clone().tlv(16, bad)), 6);
            run.accept(&hello.clone().tlv(16, bad).tlv(16, bad));
            run.accept(&hello.clone().tlv(16, bad).reverse(0, 1));
        }
        run.accept(&hello.clone().tlv(16, &[0, 0, 0, 5, 1, 7]));
    }
}

#[test]
fn tlvs_of_the_other_kind_have_no_rule() {
    let mut run = Run::running(&[p2p(), lan()]);
    run.accept(&Hello::p2p(DOWN).tlv(6, &[0; 5]));
    assert!(run.receive(2, PEER_MAC, &Hello::lan(1).tlv(240, &[9, 9]).tlv(240, &[])).is_ok());
}

#[test]
fn no_7_own_system_id_or_lan_level_not_enabled() {
    let mut run = Run::running(&[CircuitSettings { levels: ONE, ..lan() }, p2p()]);
    assert_eq!(run.refuse(&Hello::lan(2)), 7);
    assert_eq!(run.refuse(&Hello::lan(1).from(OWN)), 7);
    assert_eq!(run.receive(2, PEER_MAC, &Hello::p2p(DOWN).from(OWN)), Err(7));
    run.accept(&Hello::lan(1));
}

#[test]
fn no_8_wrong_neighbour_while_running() {
    let mut run = Run::running(&[p2p()]);
    assert_eq!(run.refuse(&Hello::bare().three_way(DOWN, THIRD, OWN_ID)), 8);
    assert_eq!(run.refuse(&Hello::bare().three_way(DOWN, OWN, OWN_ID + 1)), 8);
    // RR excuses it on a record that is UP only.
    assert_eq!(run.refuse(&Hello::bare().three_way(DOWN, OWN, OWN_ID + 1).restart(RR, 0)), 8);
    run.accept(&Hello::p2p(DOWN));
    assert_eq!(run.refuse(&Hello::bare().three_way(DOWN, THIRD, OWN_ID).restart(RR, 0)), 8);
    run.accept(&Hello::p2p(INITIALIZING));
    assert_eq!(run.refuse(&Hello::bare().three_way(UP, THIRD, OWN_ID)), 8);
    run.accept(&Hello::bare().three_way(DOWN, THIRD, 7).restart(RR, 0));
    assert!(run.record().up);
    // A System ID of length 11 is looked at too, and absent fields are no fault.
    let named = [&[UP, 0, 0, 0, 0][..], &THIRD].concat();
    assert_eq!(run.refuse(&Hello::bare().tlv(240, &named)), 8);
    run.accept(&Hello::bare().tlv(240, &[UP]));
    run.accept(&Hello::bare().tlv(240, &[UP, 0, 0, 0, 0]));
}

#[test]
fn no_8_while_restarting_excuses_only_the_circuit_id_of_a_record_not_up() {
    let mut run = Run::restarting(&[p2p()]);
    assert_eq!(run.refuse(&Hello::bare().three_way(UP, THIRD, OWN_ID)), 8);
    assert_eq!(run.refuse(&Hello::bare().three_way(UP, THIRD, OWN_ID + 1)), 8);
    run.accept(&Hello::bare().three_way(UP, OWN, OWN_ID + 1).restart(0, 0));
    assert!(!run.record().up);
    run.accept(&Hello::bare().three_way(UP, OWN, OWN_ID + 1).restart(0, 0));
    assert!(!run.record().up);
    run.accept(&Hello::p2p(UP).restart(0, 0));
    assert!(run.record().up);
    assert_eq!(run.refuse(&Hello::bare().three_way(UP, OWN, OWN_ID + 1).restart(0, 0)), 8);
}

#[test]
fn no_9_room_full_though_the_step_would_keep_nothing() {
    let mut run = Run::running(&[p2p()]);
    run.accept(&Hello::p2p(DOWN));
    assert_eq!(run.refuse(&Hello::p2p(DOWN).from(THIRD)), 9);
    assert_eq!(run.refuse(&Hello::p2p(UP).from(THIRD)), 9);
    run.tick(27);
    run.accept(&Hello::p2p(DOWN).from(THIRD));
}

#[test]
fn no_10_clock_lower_but_not_equal() {
    let mut run = Run::running(&[p2p()]);
    run.tick(5);
    let before = run.gateway.clone();
    assert_eq!(run.gateway.tick(4), Err(Refusal::ClockBack));
    assert_eq!(run.gateway, before);
    run.tick(5);
    run.tick(u32::MAX);
    assert_eq!(run.gateway.tick(0), Err(Refusal::ClockBack));
}

#[test]
fn no_11_notices_while_running() {
    let mut run = Run::running(&[p2p()]);
    assert_eq!(run.gateway.csnp_complete(1, 1), Err(Refusal::NotRestarting));
    assert_eq!(run.gateway.database_complete(2), Err(Refusal::NotRestarting));
}

#[test]
fn no_12_each_setting_at_its_bounds() {
    let refused = |settings: Settings| assert_eq!(Gateway::set_up(&settings), Err(Refusal::Setting));
    let accepted = |settings: Settings| assert!(Gateway::set_up(&settings).is_ok());
    for mode in [Mode::Running, Mode::Restarting, Mode::Starting] {
        let good = settings(mode, &[p2p()]);
        accepted(good.clone());
        refused(Settings { t1: 0, ..good.clone() });
        refused(Settings { t2: 0, ..good.clone() });
        refused(Settings { tries: 0, ..good.clone() });
        accepted(Settings { t1: u16::MAX, t2: u16::MAX, tries: u8::MAX, clock: u32::MAX, ..good.clone() });
        for count in 0..=10 {
            let circuits = settings(mode, &vec![lan(); count]);
            assert_eq!(Gateway::set_up(&circuits).is_ok(), (1..=8).contains(&count));
        }
        for circuit in [p2p(), lan()] {
            let one = |circuit| settings(mode, &[p2p(), circuit]);
            refused(one(CircuitSettings { levels: Levels::NONE, ..circuit }));
            refused(one(CircuitSettings { priority: 128, ..circuit }));
            accepted(one(CircuitSettings { priority: 127, ..circuit }));
            refused(one(CircuitSettings { hold: 0, ..circuit }));
            accepted(one(CircuitSettings { hold: u16::MAX, ..circuit }));
            refused(one(CircuitSettings { metric: 16_777_215, ..circuit }));
            accepted(one(CircuitSettings { metric: 16_777_214, ..circuit }));
        }
    }
}

#[test]
fn order_1_before_2_before_3() {
    let mut run = Run::running(&[p2p()]);
    assert_eq!(run.gateway.receive(2, PEER_MAC, &[], &mut []), Err(Refusal::NoCircuit));
    assert_eq!(run.gateway.receive(1, PEER_MAC, &[], &mut [0; 10]), Err(Refusal::ReplyRoom));
}

#[test]
fn order_3_before_4() {
    let mut octets = change(&Hello::p2p(DOWN).octets(), 4, 15);
    octets[1] = 99;
    assert_eq!(Run::running(&[p2p()]).lend(1, PEER_MAC, &octets), Err(3));
}

#[test]
fn order_4_before_5_before_6() {
    let mut run = Run::running(&[p2p()]);
    let broken = Hello::bare().circuit_type(0).restart(0, 0).tlv(211, &[]).octets_at_end(&[1, 9]);
    assert_eq!(run.refuse(&broken), 5);
    assert_eq!(run.lend(1, PEER_MAC, &change(&broken.octets(), 1, 19)), Err(4));
}

#[test]
fn order_6_before_7_before_8() {
    let mut run = Run::running(&[p2p()]);
    let own = Hello::bare().three_way(DOWN, THIRD, 0).from(OWN);
    assert_eq!(run.refuse(&own), 7);
    assert_eq!(run.refuse(&own.tlv(211, &[])), 6);
}

#[test]
fn order_8_before_9() {
    let mut run = Run::running(&[p2p()]);
    run.accept(&Hello::p2p(DOWN));
    assert_eq!(run.refuse(&Hello::bare().three_way(DOWN, THIRD, 0).from(THIRD)), 8);
}

#[test]
fn order_1_before_11() {
    let mut run = Run::running(&[CircuitSettings { levels: ONE, ..p2p() }]);
    assert_eq!(run.gateway.csnp_complete(1, 2), Err(Refusal::NoCircuit));
    assert_eq!(run.gateway.csnp_complete(2, 1), Err(Refusal::NoCircuit));
    assert_eq!(run.gateway.database_complete(2), Err(Refusal::NoCircuit));
    assert_eq!(run.gateway.database_complete(0), Err(Refusal::NoCircuit));
}
