//! Where refusals 5 and 6 stand (document 02, W-206). Octets count from 1: the TLVs of a point-to-point hello start at 21, those of a LAN hello at 28.

mod common;
use common::*;
use isis_gr_reference::*;

fn refusal(circuit: CircuitSettings, octets: &[u8]) -> Refusal {
    Run::running(&[circuit]).gateway.receive(1, PEER_MAC, octets, &mut [0; 11]).expect_err("refused")
}

/// The position that a LAN hello with these TLVs is refused 6 with.
fn on_lan(tlvs: &[(u8, &[u8])]) -> Option<u16> {
    let hello = tlvs.iter().fold(Hello::lan(1), |hello, (kind, value)| hello.tlv(*kind, value));
    let refusal = refusal(lan(), &hello.octets());
    assert_eq!(refusal.number(), 6);
    refusal.position()
}

/// Good TLVs of 8 and 3 octets.
const NEIGHBOUR: (u8, &[u8]) = (6, &[2, 0, 0, 0, 0, 3]);
const PROTOCOLS: (u8, &[u8]) = (129, &[0xCC]);

/// One bad TLV of each rule that a LAN hello has.
const BAD: [(u8, &[u8]); 8] = [
    (211, &[]),
    (211, &[0; 10]),
    (211, &[PR, 0]),
    (211, &[RA, 0, 0]),
    (211, &[PA, 0, 0, 0, 0, 0, 0, 0]),
    (16, &[0, 0, 0, 5]),
    (16, &[0, 0, 0, 5, 1]),
    (6, &[2, 0, 0, 0, 0]),
];

#[test]
fn each_rule_at_the_first_a_middle_and_the_last_place() {
    for bad in BAD {
        assert_eq!(on_lan(&[bad, NEIGHBOUR, PROTOCOLS]), Some(28), "{bad:?}");
        assert_eq!(on_lan(&[NEIGHBOUR, bad, PROTOCOLS]), Some(36), "{bad:?}");
        assert_eq!(on_lan(&[NEIGHBOUR, PROTOCOLS, bad]), Some(39), "{bad:?}");
    }
}

#[test]
fn two_broken_rules_in_both_orders() {
    for one in BAD {
        for two in BAD {
            // a second type 16 makes both fine
            if (one.0, two.0) != (16, 16) {
                assert_eq!(on_lan(&[NEIGHBOUR, one, two]), Some(36), "{one:?} {two:?}");
            }
        }
    }
}

#[test]
fn of_a_tlv_that_came_twice_the_second() {
    let restart: (u8, &[u8]) = (211, &[RR]);
    assert_eq!(on_lan(&[restart, NEIGHBOUR, restart]), Some(39));
    assert_eq!(on_lan(&[restart, restart, (16, &[])]), Some(31));
    assert_eq!(on_lan(&[restart, (16, &[]), restart]), Some(31), "a bad TLV between the two");
    assert_eq!(on_lan(&[(16, &[]), (16, &[]), NEIGHBOUR, (211, &[])]), Some(40), "two of type 16 are none");
    let twice = Hello::bare().tlv(240, &[UP]).tlv(240, &[UP]).octets();
    assert_eq!(refusal(p2p(), &twice), Refusal::TlvRule { position: 24 });
}

#[test]
fn the_circuit_type_ahead_of_any_tlv_and_the_missing_one_behind_all() {
    let mut octets = Hello::lan(1).tlv(211, &[]).octets();
    octets[8] = 0xFC;
    assert_eq!(refusal(lan(), &octets), Refusal::TlvRule { position: 9 });
    let mut missing = Hello::bare().restart(0, 0).octets();
    let behind = missing.len() as u16 + 1;
    assert_eq!(refusal(p2p(), &missing), Refusal::TlvRule { position: behind });
    missing.extend([240, 1, UP]);
    assert_eq!(refusal(p2p(), &missing), Refusal::TlvRule { position: behind }, "lent past the PDU Length");
    assert_eq!(refusal(p2p(), &Hello::bare().tlv(211, &[]).octets()), Refusal::TlvRule { position: 21 });
}

#[test]
fn no_5_at_the_tlv_that_passes_the_end_before_any_rule() {
    let mut octets = Hello::lan(1).tlv(211, &[]).tlv(6, &[2; 6]).octets();
    octets[18] -= 1; // the list is one octet short
    assert_eq!(refusal(lan(), &octets), Refusal::TlvPastEnd { position: 30 });
    octets[18] -= 6; // its type octet alone
    assert_eq!(refusal(lan(), &octets), Refusal::TlvPastEnd { position: 30 });
}

/// Every frame of crates/vectors/data is refused as tools/expected_vectors says, with the same position, or accepted.
#[test]
fn every_frame_as_the_script_derives_it() {
    const FILES: [&str; 8] = ["header", "tlv211", "tlv240", "tlv6", "tlv16", "replies", "frr", "own"];
    let read = |place: &str| std::fs::read_to_string(format!("{}/../../crates/vectors/{place}", env!("CARGO_MANIFEST_DIR"))).expect(place);
    let data = FILES.map(|name| read(&format!("data/{name}.txt")));
    let frames = data.iter().flat_map(|text| text.lines()).filter(|line| !line.starts_with('#'));
    let expected = read("stdout");
    let (mut count, mut placed) = (0, 0);
    for (line, told) in frames.zip(expected.lines()) {
        let [name, kind, hex] = line.split(' ').collect::<Vec<_>>().try_into().expect("three words");
        let octets: Vec<u8> = (0..hex.len()).step_by(2).map(|at| u8::from_str_radix(&hex[at..at + 2], 16).expect("hex")).collect();
        let circuit = if kind == "LAN" { lan() } else { p2p() };
        let answer = Run::running(&[circuit]).gateway.receive(1, PEER_MAC, &octets, &mut [0; 11]);
        let words = match answer {
            Err(refusal) if refusal.number() <= 6 => {
                let at = refusal.position().map_or(String::new(), |position| format!(" at {position}"));
                placed += u32::from(refusal.position().is_some());
                format!("{name} refused {}{at}", refusal.number())
            }
            _ => {
                assert!(!told.contains(" refused "), "{told}");
                told.to_owned()
            }
        };
        assert_eq!(words, told);
        count += 1;
    }
    assert_eq!((count, placed), (expected.lines().count(), 729));
}
