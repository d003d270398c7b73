//! The refusals: the one table against the C header's, and each number from the call that gives it.
mod common;
use common::*;
use isis_gr::{Frames, Gateway, Level, Mac, Mode, Refusal, REPLY_OCTETS};

const HEADER: &str = include_str!("../../../include/isis_gr.h");

/// The texts of `isis_gr_text`, by number from 0.
fn header_texts() -> Vec<&'static str> {
    let (_, rest) = HEADER.split_once("texts[15] = {").expect("the header has the texts");
    let (inside, _) = rest.split_once("};").expect("they end");
    inside.lines().filter_map(|line| line.trim().strip_prefix('"')?.strip_suffix("\",")).collect()
}

/// A name as C has it: NO_CIRCUIT of NoCircuit.
fn in_c(name: &str) -> String {
    let words = name.char_indices().map(|(at, c)| if at > 0 && c.is_uppercase() { format!("_{c}") } else { c.to_string() });
    words.collect::<String>().to_uppercase()
}

/// All of them, by number, with a position of 37 where they have one.
fn all() -> Vec<Refusal> {
    (1..).map_while(|number| Refusal::of_number(number, 37)).collect()
}

#[test]
fn the_table_is_the_headers() {
    let texts = header_texts();
    assert_eq!((texts.len(), texts[0]), (all().len() + 1, "done"));
    for (number, refusal) in (1..).zip(all()) {
        assert_eq!(refusal.number(), number);
        assert_eq!(refusal.text(), texts[number as usize]);
        let line = format!("#define ISIS_GR_REFUSED_{} {number}u", in_c(refusal.name()));
        assert!(HEADER.lines().any(|found| found.starts_with(&line)), "{line}");
        let (debug, display) = match refusal.position() {
            Some(position) => (format!(" {{ position: {position} }}"), format!(", at octet {position}")),
            None => Default::default(),
        };
        assert_eq!(format!("{refusal:?}"), refusal.name().to_owned() + &debug);
        assert_eq!(refusal.to_string(), format!("{number} ({}){display}", refusal.text()));
    }
}

#[test]
fn refusals_5_and_6_alone_bring_a_position() {
    for refusal in all() {
        assert_eq!(refusal.position(), [5, 6].contains(&refusal.number()).then_some(37));
        assert_eq!(Refusal::of_number(refusal.number(), 38) == Some(refusal), refusal.position().is_none());
    }
}

#[test]
fn a_number_finds_its_refusal_and_no_other_number_does() {
    assert!(all().iter().map(|refusal| refusal.number()).eq(1..=14));
    for number in [0, 15, 255, 256, u32::MAX] {
        assert_eq!(Refusal::of_number(number, 37), None);
    }
}

/// The number and the text of what a call was refused with; the gateway is as it was.
fn refused<T: std::fmt::Debug>(gateway: &mut Gateway, call: impl FnOnce(&mut Gateway) -> Result<T, Refusal>) -> (u32, &'static str) {
    let before = gateway.clone();
    let why = call(gateway).expect_err("refused");
    assert_eq!(gateway.words(), before.words(), "{why}");
    (why.number(), why.text())
}

#[test]
fn no_1_of_every_call_that_names_a_circuit_or_a_level() {
    let told = (1, "no circuit of that number, or a level not enabled there");
    let mut g = gateway(Mode::Restarting);
    for absent in [circuit(3), circuit(8)] {
        assert_eq!(refused(&mut g, |g| receive(g, absent, &[])), told);
        assert_eq!(refused(&mut g, |g| g.begin_frame(absent, PEER_MAC)), told);
        assert_eq!(refused(&mut g, |g| g.add_chunk(&mut Frames::new(), absent, &[0; 1_501])), told);
        assert_eq!(refused(&mut g, |g| g.end_frame(&Frames::new(), absent, &mut [])), told);
        assert_eq!(refused(&mut g, |g| g.release(absent)), told);
        assert_eq!(refused(&mut g, |g| g.clear(absent)), told);
        assert_eq!(refused(&mut g, |g| g.csnp_complete(absent, Level::One)), told);
        assert_eq!(refused(&mut g, |g| g.look_up_p2p(absent, router(2))), told);
        assert_eq!(refused(&mut g, |g| g.look_up_lan(absent, Level::Two, router(2), PEER_MAC)), told);
        assert_eq!(refused(&mut g, |g| g.link_metric(absent)), told);
        assert_eq!(refused(&mut g, |g| g.next_hello_flags(absent, Level::One)), told);
    }
    assert_eq!(refused(&mut g, |g| g.csnp_complete(LAN, Level::One)), told);
    assert_eq!(refused(&mut g, |g| g.next_hello_flags(LAN, Level::One)), told);
    assert_eq!(refused(&mut Gateway::new(), |g| g.database_complete(Level::One)), told);
}

#[test]
fn no_2_for_want_of_eleven_octets() {
    let mut g = gateway(Mode::Running);
    let short = |g: &mut Gateway| g.receive(P2P, PEER_MAC, &p2p_hello(DOWN, 0), &mut [0; REPLY_OCTETS - 1]);
    assert_eq!(refused(&mut g, short), (2, "reply buffer under 11 octets"));
}

#[test]
fn no_3_to_8_by_the_frame() {
    let mut g = gateway(Mode::Running);
    let plain = p2p_hello(DOWN, 0);
    let edited = |at: usize, octet: u8| {
        let mut frame = plain.clone();
        frame[at] = octet;
        frame
    };
    let whole = [&[UP, 0, 0, 0, 9][..], &router(1).0, &99u32.to_be_bytes()].concat();
    for (frame, number, text) in [
        (b"no hello".to_vec(), 3, "not a hello that fits the circuit"),
        (lan_hello(2, true), 3, "not a hello that fits the circuit"),
        (edited(18, plain[18] + 1), 4, "header length or PDU Length wrong"),
        (edited(21, 200), 5, "a TLV passes the PDU Length"),
        (edited(8, 0), 6, "a TLV breaks its rule, or the circuit type is 0"),
        (p2p_hello(3, 0), 6, "a TLV breaks its rule, or the circuit type is 0"),
        (frame(17, router(1), &[tlv(240, &[DOWN])]), 7, "level not enabled, or our own System ID"),
        (frame(17, router(2), &[tlv(240, &whole)]), 8, "the three-way TLV names another system or circuit"),
    ] {
        assert_eq!(refused(&mut g, |g| receive(g, P2P, &frame)), (number, text));
    }
    let level_1 = frame(15, router(2), &[]);
    assert_eq!(refused(&mut g, |g| receive(g, LAN, &level_1)), (7, "level not enabled, or our own System ID"));
}

#[test]
fn no_9_where_the_room_is_full() {
    let mut g = gateway(Mode::Running);
    receive(&mut g, P2P, &p2p_hello(DOWN, 0)).expect("one record");
    let other = frame(17, router(3), &[tlv(240, &[DOWN])]);
    assert_eq!(refused(&mut g, |g| receive(g, P2P, &other)), (9, "the circuit's room is full"));
    for number in 2..18 {
        receive(&mut g, LAN, &lan_hello(number, true)).expect("16 records");
    }
    let one_more = |g: &mut Gateway| g.receive(LAN, Mac([2, 0, 0, 0, 0, 3]), &lan_hello(2, true), &mut [0; REPLY_OCTETS]);
    assert_eq!(refused(&mut g, one_more), (9, "the circuit's room is full"));
}

#[test]
fn no_10_and_11_by_clock_and_mode() {
    let mut g = gateway(Mode::Running);
    assert_eq!(refused(&mut g, |g| g.tick(99)), (10, "clock lower than before"));
    assert!(g.tick(100).is_ok(), "an equal clock is a tick");
    let told = (11, "a notice outside the modes Restarting and Starting");
    assert_eq!(refused(&mut g, |g| g.csnp_complete(P2P, Level::One)), told);
    assert_eq!(refused(&mut g, |g| g.database_complete(Level::Two)), told);
}

#[test]
fn no_12_is_the_number_of_a_setting_out_of_range() {
    let mut g = gateway(Mode::Running);
    let bad = settings(Mode::Running).t2(0);
    assert_eq!(refused(&mut g, |g| g.set_up(&bad).map_err(Refusal::from)), (12, "a setting out of range"));
}

#[test]
fn no_13_where_no_frame_is_begun_and_no_14_above_1500_octets() {
    let (mut g, mut frames) = (gateway(Mode::Running), Frames::new());
    let told = (13, "no frame is begun on that circuit");
    assert_eq!(refused(&mut g, |g| g.add_chunk(&mut frames, P2P, &[0; 1_501])), told, "ahead of 14");
    assert_eq!(refused(&mut g, |g| g.end_frame(&frames, P2P, &mut [])), told, "ahead of 2");
    g.begin_frame(P2P, PEER_MAC).expect("a circuit");
    assert_eq!(refused(&mut g, |g| g.add_chunk(&mut frames, P2P, &[0; 1_501])), (14, "more than 1,500 octets joined"));
    assert_eq!(refused(&mut g, |g| g.add_chunk(&mut frames, LAN, &[])), told, "the frame is another circuit's");
    assert_eq!(g.add_chunk(&mut frames, P2P, &[0; 1_500]), Ok(()));
}
