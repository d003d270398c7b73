//! The frames that are measured, and the settings of the gateways that take them.
use isis_gr_reference::{CircuitSettings, Kind, Levels, Mac, Mode, Settings};

/// Our own MAC on every circuit.
pub const OWN: Mac = [2, 0xAA, 0xBB, 0xCC, 0xDD, 0x77];

/// The sender's MAC.
pub const SOURCE: Mac = [2, 0, 0, 0, 0, 2];

/// A three-way TLV that names us and our circuit: state Up, with every field.
pub const WHOLE: [u8; 15] = [0, 0, 0, 0, 9, 0x19, 0x21, 0x68, 0, 0x10, 1, 0, 0, 0, 7];

fn circuit(kind: Kind) -> CircuitSettings {
    CircuitSettings { kind, levels: Levels { one: true, two: true }, mac: OWN, priority: 64, hold: 30, metric: 10, id: 7 }
}

/// Circuits of these kinds, in the mode Running.
pub fn with(kinds: &[Kind]) -> Settings {
    let circuits = kinds.iter().map(|&kind| circuit(kind)).collect();
    Settings { system: [0x19, 0x21, 0x68, 0, 0x10, 1], t1: 3, t2: 60, tries: 3, clock: 100, mode: Mode::Running, circuits }
}

/// Circuit 1 is P2P, circuits 2 to 8 are LANs.
pub fn settings() -> Settings {
    let mut kinds = [Kind::Lan; 8];
    kinds[0] = Kind::PointToPoint;
    with(&kinds)
}

fn finish(mut frame: Vec<u8>) -> Vec<u8> {
    let length = (frame.len() as u16).to_be_bytes();
    frame[17..19].copy_from_slice(&length);
    frame
}

/// A P2P hello: three-way TLV with this value, Restart TLV with this one.
pub fn p2p(three_way: &[u8], restart: &[u8]) -> Vec<u8> {
    let mut f = vec![0x83, 20, 1, 0, 17, 1, 0, 0, 3, 0x19, 0x21, 0x68, 0, 0x10, 2, 0, 27, 0, 0, 1];
    f.extend(tlv(240, three_way));
    if !restart.is_empty() {
        f.extend(tlv(211, restart));
    }
    finish(f)
}

/// A level 1 LAN hello of a router, with more TLVs.
pub fn lan(router: u8, tlvs: &[u8]) -> Vec<u8> {
    let mut f = vec![0x83, 27, 1, 0, 15, 1, 0, 0, 3, 0x19, 0x21, 0x68, 0, 0x20, router, 0, 30, 0, 0, 64, 0, 0, 0, 0, 0, 0, 1];
    f.extend(tlvs);
    finish(f)
}

/// A TLV.
pub fn tlv(kind: u8, value: &[u8]) -> Vec<u8> {
    [&[kind, value.len() as u8], value].concat()
}

/// The type 6 TLVs of these neighbours, so many in each.
pub fn lists(macs: &[Mac], each: usize) -> Vec<u8> {
    macs.chunks(each).flat_map(|part| tlv(6, &part.concat())).collect()
}

/// A LAN hello of 1,491 octets, full of neighbours that `like` makes of a number; `last` comes last.
pub fn full(like: impl Fn(u16) -> Mac, last: Option<Mac>) -> Vec<u8> {
    let mut macs: Vec<Mac> = (0..242).map(like).collect();
    if let Some(mac) = last {
        macs[241] = mac;
    }
    lan(1, &lists(&macs, 42))
}

/// A LAN hello of 1,492 octets: 241 neighbours that share nothing with us, and a TLV of padding.
pub fn full_to_the_last() -> Vec<u8> {
    let macs: Vec<Mac> = (0..241).map(far).collect();
    lan(1, &[lists(&macs, 42), tlv(8, &[0; 5])].concat())
}

/// A neighbour that shares nothing with us, by its number.
pub fn far(n: u16) -> Mac {
    [4, 1, (n >> 8) as u8, n as u8, n as u8 ^ 0x55, (n % 101) as u8]
}

/// One that shares our last octet.
pub fn last_octet(n: u16) -> Mac {
    [4, 1, (n >> 8) as u8, n as u8, n as u8, OWN[5]]
}

/// One that shares our last four octets.
pub fn last_four(n: u16) -> Mac {
    [4, n as u8 ^ 0x11, OWN[2], OWN[3], OWN[4], OWN[5]]
}

/// One that shares our first two octets.
pub fn first_two(n: u16) -> Mac {
    let [_, _, a, b, c, d] = far(n);
    [OWN[0], OWN[1], a, b, c, d]
}

/// A type 6 TLV with our own MAC.
pub fn listed() -> Vec<u8> {
    tlv(6, &OWN)
}

/// So many TLVs of type 8 (padding) and length 0.
pub fn empty(count: usize) -> Vec<u8> {
    [8, 0].repeat(count)
}
