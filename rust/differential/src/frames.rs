//! Random hello frames: valid, nearly valid and garbage, with values that bring deep states about.
use crate::random::Random;
use isis_gr_reference::{CircuitSettings, Kind, Mac, SystemId};

/// The System IDs that frames come from; the gateway's own is one of a few that must be refused.
pub const SYSTEMS: u8 = 6;

/// The source MACs that frames come from.
pub const MACS: u8 = 22;

/// Our own System ID in all random settings.
pub const OWN: SystemId = [0x19, 0x21, 0x68, 0, 0x10, 1];

/// A System ID of a number; 0 is our own.
pub fn system(n: u8) -> SystemId {
    [0x19, 0x21, 0x68, 0, 0x10, 1 + n]
}

/// A source MAC of a number. Some have a greater pair than ours, some a lower one.
pub fn mac(n: u8) -> Mac {
    [2, 0, n % 3, 0, 0, n]
}

/// What was meant by a frame: what a count of branches needs to know.
#[derive(Clone, Copy, Debug, PartialEq, Eq, Default)]
pub struct Meant {
    /// The System ID's number.
    pub system: u8,
    /// The level, 0 of P2P.
    pub level: u8,
    /// Its Holding Time.
    pub hold: u16,
    /// The flags of its one Restart TLV, if it has one that is well formed.
    pub flags: Option<u8>,
    /// That TLV has RA alone, and on a LAN it names us.
    pub acknowledges: bool,
    /// Its Remaining Time.
    pub remaining: u16,
    /// It shows us Up: the three-way state, or our MAC listed.
    pub shows_up: bool,
    /// Its three-way TLV names another system.
    pub wrong_system: bool,
    /// Its three-way TLV names another circuit of ours.
    pub wrong_circuit: bool,
    /// It was damaged afterwards, or made of garbage.
    pub damaged: bool,
}

/// The flags of the TLV, its Remaining Time, and whether it names us, where it is well formed.
fn restart(r: &mut Random, out: &mut Vec<u8>) -> Option<(u8, u16, bool)> {
    let flags = match r.below(100) {
        0..=14 => return None,
        15..=29 => 0,
        30..=49 => 1,
        50..=64 => 8,
        65..=79 => 2,
        80..=84 => 4,
        85..=89 => 5,
        90..=92 => 9,
        93..=94 => 16,
        _ => r.octet(),
    };
    let least: u8 = if flags & 18 != 0 {
        9
    } else if flags & 8 != 0 {
        3
    } else {
        1
    };
    let len = if r.chance(3) { r.below(12) as u8 } else { (least + r.below(10) as u8).min(9) };
    let time = r.pick(&[0u16, 1, 5, 20, 300, 65535]);
    let named = if r.chance(80) { OWN } else { system(2) };
    let value = [&[flags][..], &time.to_be_bytes(), &named, &[0; 3]].concat();
    out.extend([211, len]);
    out.extend(&value[..usize::from(len)]);
    Some((flags, time, named == OWN)).filter(|_| len >= least && len <= 9)
}

/// Whether its length is one short, so that the octets behind it are read as another TLV.
fn reverse(r: &mut Random, out: &mut Vec<u8>) -> bool {
    let offset = r.pick(&[0u32, 5, 10, 63, 16_777_214, 16_777_215]).to_be_bytes();
    let subs: &[u8] = match r.below(6) {
        0 => &[18, 1, 7],
        1 => &[18, 0, 18, 0],
        2 => &[99, 200],
        _ => &[],
    };
    let len = 5 + subs.len() as u8;
    let short = r.chance(3);
    out.extend([16, len - u8::from(short), r.pick(&[0, 1, 2, 3, 255])]);
    out.extend(&offset[1..]);
    out.push(if r.chance(3) { 1 } else { subs.len() as u8 });
    out.extend(subs);
    short
}

/// Whether it shows us Up, names another system, and another circuit.
fn three_way(r: &mut Random, circuit: &CircuitSettings, out: &mut Vec<u8>) -> (bool, bool, bool) {
    let state = if r.chance(2) { 3 } else { r.below(3) as u8 };
    let len = if r.chance(2) { r.below(17) as u8 } else { r.pick(&[1u8, 5, 11, 15]) };
    let named = if r.chance(80) { OWN } else { system(3) };
    let id = if r.chance(75) { circuit.id } else { 99 };
    let value = [&[state][..], &[0, 0, 0, 9], &named, &id.to_be_bytes(), &[0, 0]].concat();
    out.extend([240, len]);
    out.extend(&value[..usize::from(len)]);
    (state == 0, len >= 11 && named != OWN, len == 15 && id != circuit.id)
}

/// Whether our MAC is listed.
fn neighbours(r: &mut Random, own: Mac, out: &mut Vec<u8>) -> bool {
    let count = r.below(6);
    let at = r.below(count + 1);
    let listed = r.chance(75);
    let len = (6 * (count + u64::from(listed))) as u8;
    let told = if r.chance(2) { len.saturating_sub(1) } else { len };
    out.extend([6, told]);
    let first = out.len();
    for i in 0..=count {
        if listed && i == at {
            out.extend(own);
        }
        if i < count {
            out.extend([own[0], own[1], own[2], own[3], own[4], r.octet()]);
        }
    }
    out.truncate(first + usize::from(told));
    out[first..].chunks(6).any(|mac| mac == own)
}

/// Puts the TLVs that start at these places into another order, every second time.
fn reorder(r: &mut Random, out: &mut Vec<u8>, starts: &[usize]) {
    if starts.is_empty() || r.chance(50) {
        return;
    }
    let ends = starts[1..].iter().copied().chain([out.len()]);
    let mut parts: Vec<Vec<u8>> = starts.iter().zip(ends).map(|(start, end)| out[*start..end].to_vec()).collect();
    let by = r.below(parts.len() as u64) as usize;
    parts.rotate_left(by);
    if r.chance(50) {
        parts.reverse();
    }
    out.truncate(starts[0]);
    out.extend(parts.concat());
}

/// A frame for a circuit; usually of its kind, sometimes of the other.
pub fn frame(r: &mut Random, circuit: &CircuitSettings) -> (Vec<u8>, Meant) {
    if r.chance(2) {
        let garbage = (0..r.below(80)).map(|_| r.octet()).collect();
        return (garbage, Meant { damaged: true, ..Meant::default() });
    }
    let p2p = (circuit.kind == Kind::PointToPoint) != r.chance(2);
    let level = if p2p { 0 } else { 1 + r.below(2) as u8 };
    let from = if r.chance(3) { 0 } else { 1 + r.below(u64::from(if p2p { 2 } else { SYSTEMS - 1 })) as u8 };
    let header = if p2p { 20 } else { 27 };
    let hold = r.pick(&[0u16, 1, 3, 5, 27, 30, 65535]);
    let mut out = vec![0x83, header, 1, r.pick(&[0u8, 6]), if p2p { 17 } else { 14 + level }, 1, r.octet(), r.octet()];
    out.push(if r.chance(2) { 4 } else { 1 + r.below(3) as u8 });
    out.extend(system(from));
    out.extend(hold.to_be_bytes());
    out.extend([0, 0]);
    out.push(r.pick(&[0u8, 63, 64, 65, 127, 200]));
    out.resize(usize::from(header), 7);
    let mut restarts = None;
    let mut once = 0;
    let (mut shows_up, mut wrong_system, mut wrong_circuit) = (false, false, false);
    let (mut starts, mut damaged) = (Vec::new(), false);
    for _ in 0..r.below(2) {
        starts.push(out.len());
        out.extend([r.pick(&[1u8, 129, 132, 229]), 2, 0, 0]);
    }
    if p2p {
        if !r.chance(2) {
            starts.push(out.len());
            (shows_up, wrong_system, wrong_circuit) = three_way(r, circuit, &mut out);
        }
        if r.chance(2) {
            starts.push(out.len());
            three_way(r, circuit, &mut out);
            damaged = true;
        }
    } else {
        for _ in 0..r.below(3) {
            starts.push(out.len());
            shows_up |= neighbours(r, circuit.mac, &mut out);
        }
    }
    for _ in 0..if r.chance(3) { 2 } else { 1 } {
        let before = out.len();
        starts.push(before);
        let found = restart(r, &mut out);
        if out.len() != before {
            restarts = found;
            once += 1;
        }
    }
    let mut short = false;
    for _ in 0..r.pick(&[0, 0, 0, 1, 1, 2]) {
        starts.push(out.len());
        short |= reverse(r, &mut out);
    }
    reorder(r, &mut out, &starts);
    let length = out.len() as u16;
    let told = match r.below(100) {
        0 => length + 1,
        1 => length - 1,
        2 => 1493,
        _ => length,
    };
    out[17..19].copy_from_slice(&told.to_be_bytes());
    damaged |= told != length || once > 1 || short;
    for _ in 0..r.below(4) {
        if r.chance(10) {
            out.push(r.octet());
        }
    }
    if r.chance(4) {
        let at = r.below(out.len() as u64) as usize;
        out[at] = r.octet();
        damaged = true;
    }
    let flags = restarts.map(|(flags, ..)| flags);
    let remaining = restarts.map_or(0, |(_, time, _)| time);
    let acknowledges = restarts.is_some_and(|(flags, _, names_us)| flags & 0x1F == 2 && (p2p || names_us));
    (out, Meant { system: from, level, hold, flags, acknowledges, remaining, shows_up, wrong_system, wrong_circuit, damaged })
}
