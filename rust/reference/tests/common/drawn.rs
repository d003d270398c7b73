//! Settings and frames drawn by dice: garbage and nearly valid ones.

use super::*;

pub const SYSTEMS: [SystemId; 5] = [OWN, PEER, THIRD, [1; 6], [2; 6]];
pub const MACS: [Mac; 5] = [OWN_MAC, PEER_MAC, THIRD_MAC, [1; 6], [0xff; 6]];

pub fn some_settings(dice: &mut Dice) -> Settings {
    let count = 1 + dice.below(8);
    let circuits = (0..count)
        .map(|_| CircuitSettings {
            kind: dice.pick(&[Kind::PointToPoint, Kind::Lan]),
            levels: dice.pick(&[ONE, TWO, BOTH, BOTH]),
            mac: OWN_MAC,
            priority: dice.pick(&[0, 64, 127]),
            hold: dice.pick(&[1, 30, u16::MAX]),
            metric: dice.pick(&[0, 10, 16_777_214]),
            id: OWN_ID,
        })
        .collect();
    Settings {
        system: OWN,
        t1: dice.pick(&[1, 3, 60]),
        t2: dice.pick(&[10, 60, u16::MAX]),
        tries: dice.pick(&[1, 3, 255]),
        clock: dice.pick(&[0, 100, u32::MAX - 500]),
        mode: dice.pick(&[Mode::Running, Mode::Restarting, Mode::Starting]),
        circuits,
    }
}

fn some_octets(dice: &mut Dice, length: u64) -> Vec<u8> {
    (0..length).map(|_| dice.roll() as u8).collect()
}

fn some_tlv(dice: &mut Dice, hello: Hello) -> Hello {
    let time = dice.pick(&[0, 5, 40, 300, u16::MAX]);
    match dice.below(8) {
        0 | 1 => {
            let flags = dice.pick(&[0, RR, RR, RA, RA, SA, PR, PR, PA, RR | SA, RR | PR, RA | SA, 0xe0]);
            let system = dice.pick(&SYSTEMS);
            hello.restart_of(flags, time, system)
        }
        2 => hello.restart(dice.roll() as u8, time),
        3 => hello.reverse(dice.roll() as u8, dice.below(1 << 24) as u32),
        4 => {
            let list: Vec<u8> = (0..dice.below(4)).flat_map(|_| dice.pick(&MACS)).collect();
            hello.tlv(6, &list)
        }
        5 => {
            let kind = dice.pick(&[1, 6, 8, 16, 18, 129, 211, 240]);
            let length = dice.below(20);
            let value = some_octets(dice, length);
            hello.tlv(kind, &value)
        }
        _ => hello.tlv(129, &[0xcc]),
    }
}

/// A hello, most often a good one.
fn some_hello(dice: &mut Dice, kind: Kind) -> Vec<u8> {
    let mut hello = match kind {
        Kind::Lan => Hello::lan(1 + dice.below(2) as u8),
        Kind::PointToPoint => Hello::bare(),
    };
    hello = hello.from(dice.pick(&[PEER, PEER, PEER, THIRD, [1; 6], OWN]));
    hello = hello.hold(dice.pick(&[0, 5, 27, 300, u16::MAX])).priority(dice.roll() as u8);
    match kind {
        Kind::Lan if dice.chance(2) => hello = hello.tlv(6, &OWN_MAC),
        Kind::Lan => {}
        Kind::PointToPoint => {
            let state = dice.below(3) as u8;
            let neighbour = dice.pick(&[OWN, OWN, OWN, THIRD]);
            let circuit = dice.pick(&[OWN_ID, OWN_ID, OWN_ID, 7]);
            hello = match dice.below(6) {
                0 => hello.tlv(240, &[state]),
                1 => hello.tlv(240, &[state, 1, 2, 3, 4]),
                _ => hello.three_way(state, neighbour, circuit),
            };
        }
    }
    for _ in 0..dice.below(3) {
        hello = some_tlv(dice, hello);
    }
    hello.octets()
}

/// Octets to lend: a hello, a hello with some octets changed, cut or added, or garbage.
pub fn some_frame(dice: &mut Dice, kind: Kind) -> Vec<u8> {
    if dice.chance(12) {
        let length = dice.below(1_600);
        return some_octets(dice, length);
    }
    let other = match kind {
        Kind::Lan => Kind::PointToPoint,
        Kind::PointToPoint => Kind::Lan,
    };
    let kind = if dice.chance(20) { other } else { kind };
    let mut octets = some_hello(dice, kind);
    match dice.below(8) {
        0 => {
            let at = dice.below(octets.len() as u64) as usize;
            octets[at] = dice.roll() as u8;
        }
        1 => {
            let at = dice.below(octets.len() as u64) as usize;
            octets[at] ^= 1 << dice.below(8);
        }
        2 => octets.truncate(dice.below(octets.len() as u64) as usize),
        3 => {
            let length = dice.below(9);
            let more = some_octets(dice, length);
            octets.extend(more);
        }
        _ => {}
    }
    octets
}

/// Cuts a frame at random places, last chunk first; some chunks are empty.
pub fn some_cuts(dice: &mut Dice, frame: &[u8]) -> Vec<Vec<u8>> {
    let mut places: Vec<usize> = (0..dice.below(6)).map(|_| dice.below(1 + frame.len() as u64) as usize).collect();
    places.extend([0, frame.len()]);
    places.sort_unstable();
    places.windows(2).map(|pair| frame[pair[0]..pair[1]].to_vec()).rev().collect()
}
