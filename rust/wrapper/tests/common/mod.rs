//! Hellos and gateways of the tests. Circuit 1 is P2P, circuit 2 is a LAN with level 2 alone; we are System ID 1921.6800.1001.
#![allow(dead_code)]
pub mod ends;
use isis_gr::{Circuit, CircuitSettings, Gateway, Kind, Levels, Mac, Mode, Received, Refusal, Settings, SystemId, REPLY_OCTETS};

pub const OWN_MAC: Mac = Mac([2, 0, 0, 0, 0, 1]);
pub const PEER_MAC: Mac = Mac([2, 0, 0, 0, 0, 2]);
pub const OWN_ID: u32 = 7;
pub const P2P: Circuit = circuit(1);
pub const LAN: Circuit = circuit(2);
/// Three-way states.
pub const UP: u8 = 0;
pub const INITIALIZING: u8 = 1;
pub const DOWN: u8 = 2;
/// Flags of a Restart TLV.
pub const RR: u8 = 1;
pub const RA: u8 = 2;
pub const SA: u8 = 4;
pub const PR: u8 = 8;

pub const fn circuit(number: u8) -> Circuit {
    match Circuit::new(number) {
        Some(circuit) => circuit,
        None => panic!("1 to 8"),
    }
}

/// The System ID of a router; 1 is our own, 2 the neighbour's.
pub fn router(number: u8) -> SystemId {
    SystemId([0x19, 0x21, 0x68, 0, 0x10, number])
}

pub fn settings(mode: Mode) -> Settings {
    let p2p = CircuitSettings::new(Kind::P2p, Levels::BOTH, OWN_MAC).extended_circuit_id(OWN_ID);
    let lan = CircuitSettings::new(Kind::Lan, Levels::TWO, OWN_MAC);
    Settings::new(router(1), mode, 100).circuit(p2p).circuit(lan)
}

pub fn gateway(mode: Mode) -> Gateway {
    let mut gateway = Gateway::new();
    gateway.set_up(&settings(mode)).expect("in range");
    gateway
}

/// A TLV.
pub fn tlv(kind: u8, value: &[u8]) -> Vec<u8> {
    [&[kind, value.len() as u8], value].concat()
}

/// A frame of a PDU type from a router with Holding Time 27: the header filled up to its length, and TLVs.
pub fn frame(pdu_type: u8, from: SystemId, tlvs: &[Vec<u8>]) -> Vec<u8> {
    let header = if pdu_type == 17 { 20 } else { 27 };
    let mut f = vec![0x83, header, 1, 0, pdu_type, 1, 0, 0, 3];
    f.extend(from.0);
    f.extend([0, 27, 0, 0]);
    f.resize(usize::from(header), 64);
    f.extend(tlvs.concat());
    let length = (f.len() as u16).to_be_bytes();
    f[17..19].copy_from_slice(&length);
    f
}

/// The neighbour's P2P hello: three-way state, and the flags of a Restart TLV with Remaining Time 300.
pub fn p2p_hello(state: u8, flags: u8) -> Vec<u8> {
    frame(17, router(2), &[tlv(240, &[state]), tlv(211, &[flags, 1, 44])])
}

/// A level 2 LAN hello of a router that lists us, or does not.
pub fn lan_hello(from: u8, lists_us: bool) -> Vec<u8> {
    frame(16, router(from), &[tlv(6, if lists_us { &OWN_MAC.0 } else { &[] })])
}

/// Takes the neighbour's frame with a reply buffer that is thrown away.
pub fn receive(gateway: &mut Gateway, circuit: Circuit, frame: &[u8]) -> Result<Received, Refusal> {
    gateway.receive(circuit, PEER_MAC, frame, &mut [0; REPLY_OCTETS])
}
