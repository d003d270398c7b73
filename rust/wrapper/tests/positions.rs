//! Where refusals 5 and 6 stand (document 02, W-206), and what is said of it in words.
mod common;
use common::*;
use isis_gr::{Gateway, Mode, Refusal, REPLY_OCTETS};

/// The number, the position and the words of what a frame is refused with.
fn told(g: &mut Gateway, circuit: isis_gr::Circuit, frame: &[u8]) -> (u32, u16, String) {
    let refusal = receive(g, circuit, frame).expect_err("refused");
    (refusal.number(), refusal.position().expect("a position"), refusal.in_frame(frame).to_string())
}

/// A P2P hello with these TLVs: the first at octet 21.
fn p2p(tlvs: &[Vec<u8>]) -> Vec<u8> {
    frame(17, router(2), tlvs)
}

/// A LAN hello of level 2 with these TLVs: the first at octet 28.
fn lan(tlvs: &[Vec<u8>]) -> Vec<u8> {
    frame(16, router(2), tlvs)
}

fn up() -> Vec<u8> {
    tlv(240, &[UP])
}

#[test]
fn each_rule_in_words() {
    let mut g = gateway(Mode::Running);
    let ours = tlv(6, &OWN_MAC.0); // eight octets
    let mut edited = p2p(&[up()]);
    edited[8] = 0xFC;
    let cut = |mut frame: Vec<u8>, length: u8| {
        frame[18] = length;
        frame
    };
    for (circuit, frame, number, position, words) in [
        (P2P, p2p(&[up(), tlv(211, &[])]), 6, 24, "TLV 211 at octet 24: length 0, 1 to 9"),
        (P2P, p2p(&[up(), tlv(211, &[0; 10])]), 6, 24, "TLV 211 at octet 24: length 10, 1 to 9"),
        (P2P, p2p(&[up(), tlv(211, &[PR, 0])]), 6, 24, "TLV 211 at octet 24: length 2, at least 3 with PR"),
        (P2P, p2p(&[up(), tlv(211, &[RA; 8])]), 6, 24, "TLV 211 at octet 24: length 8, 9 with RA"),
        (P2P, p2p(&[up(), tlv(211, &[16; 3])]), 6, 24, "TLV 211 at octet 24: length 3, 9 with PA"),
        (P2P, p2p(&[tlv(211, &[RR]), up(), tlv(211, &[RR])]), 6, 27, "TLV 211 at octet 27: the second, at most one"),
        (P2P, p2p(&[tlv(240, &[UP, 0])]), 6, 21, "TLV 240 at octet 21: length 2, one of 1, 5, 11 and 15"),
        (P2P, p2p(&[tlv(240, &[])]), 6, 21, "TLV 240 at octet 21: length 0, one of 1, 5, 11 and 15"),
        (P2P, p2p(&[tlv(240, &[3])]), 6, 21, "TLV 240 at octet 21: state 3, one of 0, 1 and 2"),
        (P2P, p2p(&[up(), up()]), 6, 24, "TLV 240 at octet 24: the second, exactly one"),
        (P2P, p2p(&[tlv(8, &[])]), 6, 23, "no TLV 240 up to octet 22, the last of the PDU: exactly one"),
        (P2P, p2p(&[]), 6, 21, "no TLV 240 up to octet 20, the last of the PDU: exactly one"),
        (P2P, edited, 6, 9, "circuit type at octet 9: 252, its low two bits are 0"),
        (LAN, lan(&[ours.clone(), tlv(6, &[2; 5])]), 6, 36, "TLV 6 at octet 36: length 5, a multiple of 6"),
        (LAN, lan(&[ours.clone(), tlv(16, &[0; 4])]), 6, 36, "TLV 16 at octet 36: length 4, at least 5"),
        (
            LAN,
            lan(&[tlv(16, &[0, 0, 0, 5, 1, 9, 9]), ours.clone()]),
            6,
            28,
            "TLV 16 at octet 28: length 7 and sub-TLV length 1, 2 octets of sub-TLVs",
        ),
        (
            LAN,
            cut(lan(&[ours.clone(), tlv(211, &[RR])]), 37),
            5,
            36,
            "TLV 211 at octet 36: length 1, 0 octets left up to the PDU Length, 37",
        ),
        (LAN, cut(lan(&[ours, tlv(211, &[RR])]), 36), 5, 36, "TLV 211 at octet 36: no length octet up to the PDU Length, 36"),
    ] {
        assert_eq!(told(&mut g, circuit, &frame), (number, position, words.to_owned()));
    }
}

#[test]
fn the_first_by_its_place_whatever_its_rule() {
    let mut g = gateway(Mode::Running);
    let (restart, reverse, list) = (tlv(211, &[]), tlv(16, &[]), tlv(6, &[2]));
    for tlvs in [[&restart, &reverse, &list], [&reverse, &list, &restart], [&list, &restart, &reverse]] {
        let (number, position, words) = told(&mut g, LAN, &lan(&tlvs.map(Vec::clone)));
        assert_eq!((number, position), (6, 28));
        assert!(words.starts_with(&format!("TLV {} at octet 28: ", tlvs[0][0])), "{words}");
    }
    // two of type 16 are fine, and one is none behind them; 5 comes before 6, and the circuit type before any TLV
    assert_eq!(told(&mut g, LAN, &lan(&[reverse.clone(), reverse.clone(), list.clone()])).1, 32);
    assert_eq!(told(&mut g, LAN, &lan(&[list.clone(), vec![8, 1]])).0, 5);
    let mut no_level = lan(&[list]);
    no_level[8] = 4;
    assert_eq!(told(&mut g, LAN, &no_level).1, 9);
}

#[test]
fn the_octets_lent_past_the_pdu_play_no_part() {
    let mut g = gateway(Mode::Running);
    let mut missing = p2p(&[tlv(8, &[])]);
    missing.extend(up());
    assert_eq!(told(&mut g, P2P, &missing), (6, 23, "no TLV 240 up to octet 22, the last of the PDU: exactly one".to_owned()));
}

#[test]
fn a_refusal_without_a_position_prints_as_it_is() {
    for refusal in (1..).map_while(|number| Refusal::of_number(number, 0)) {
        assert_eq!(refusal.in_frame(b"no hello").to_string(), refusal.to_string());
    }
}

/// Every refused frame of the test data has words that name its TLV, and any frame at any position has some.
#[test]
fn every_frame_has_words_and_no_frame_panics() {
    let files = ["header", "tlv211", "tlv240", "tlv6", "tlv16", "replies", "frr", "own"];
    let data = files.map(|name| {
        let path = format!("{}/../../crates/vectors/data/{name}.txt", env!("CARGO_MANIFEST_DIR"));
        std::fs::read_to_string(path).expect("the data is there")
    });
    let mut counts = [0; 7];
    for line in data.iter().flat_map(|text| text.lines()).filter(|line| !line.starts_with('#')) {
        let [name, kind, hex] = line.split(' ').collect::<Vec<_>>().try_into().expect("three words");
        let frame: Vec<u8> = (0..hex.len()).step_by(2).map(|at| u8::from_str_radix(&hex[at..at + 2], 16).expect("hex")).collect();
        let mut g = gateway(Mode::Running);
        let answer = g.receive(if kind == "LAN" { LAN } else { P2P }, PEER_MAC, &frame, &mut [0; REPLY_OCTETS]);
        if let Err(refusal @ (Refusal::TlvPastEnd { position } | Refusal::BadTlv { position })) = answer {
            counts[refusal.number() as usize] += 1;
            let words = refusal.in_frame(&frame).to_string();
            let tlv = || format!("TLV {} at octet {position}: ", frame[usize::from(position) - 1]);
            let named = match position {
                9 => words.starts_with("circuit type at octet 9: "),
                _ if words.starts_with("no TLV 240") => kind == "P2P",
                _ => words.starts_with(&tlv()),
            };
            assert!(named, "{name}: {words}");
        }
        for position in [0, 1, 8, 9, 20, 21, 28, frame.len() as u16, frame.len() as u16 + 1, u16::MAX] {
            for refusal in [Refusal::TlvPastEnd { position }, Refusal::BadTlv { position }] {
                assert!(!refusal.in_frame(&frame).to_string().is_empty());
                assert!(!refusal.in_frame(&frame[..frame.len().min(usize::from(position))]).to_string().is_empty());
            }
        }
    }
    assert_eq!(counts, [0, 0, 0, 0, 0, 29, 700], "refused 5, and 6");
}
