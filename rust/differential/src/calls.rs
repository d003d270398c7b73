//! Random settings and random calls.
use crate::frames::{frame, mac, system, Meant, MACS, OWN, SYSTEMS};
use crate::radio::Radio;
use crate::random::Random;
use isis_gr::Question;
use isis_gr_reference::{Asked, CircuitSettings, Kind, Levels, Mac, Mode, Settings, SystemId};

/// A call of documents 01 and 02, setup and why apart.
#[derive(Clone, Debug, PartialEq, Eq)]
pub enum Call {
    /// Receive: circuit, source MAC, frame, octets of the reply buffer; and what was meant.
    Receive(u8, Mac, Vec<u8>, usize, Meant),
    /// Begin a frame that comes in chunks: circuit, source MAC.
    Begin(u8, Mac),
    /// A chunk: circuit, octets.
    Chunk(u8, Vec<u8>),
    /// End it: circuit, octets of the reply buffer; and the frame that was meant, with what was meant by it.
    End(u8, usize, Vec<u8>, Meant),
    /// Tick.
    Tick(u32),
    /// Release.
    Release(u8),
    /// Clear.
    Clear(u8),
    /// CSNP set complete.
    Csnp(u8, u8),
    /// Database complete.
    Database(u8),
    /// Look up on a P2P circuit.
    LookUpP2p(u8, SystemId),
    /// Look up on a LAN circuit.
    LookUpLan(u8, u8, SystemId, Mac),
    /// Link metric.
    Metric(u8),
    /// Flags of the next hello: circuit, level.
    Flags(u8, u8),
    /// T1s that still run.
    Waiting,
}

/// What the next call is drawn from.
#[derive(Clone, Debug)]
pub struct Now {
    /// The clock.
    pub clock: u32,
    /// The frames that come in chunks, and how many in 100 of the calls that bring frames are theirs.
    radio: Radio,
    in_chunks: u64,
}

impl Now {
    /// At this clock, and no frame has begun. In a quarter of all runs most frames come in chunks.
    pub fn new(r: &mut Random, clock: u32) -> Now {
        Now { clock, radio: Radio::default(), in_chunks: if r.chance(25) { 80 } else { 15 } }
    }
}

/// A circuit; a LAN has mostly both levels, so that its T1s are two.
fn circuit(r: &mut Random) -> CircuitSettings {
    let kind = if r.chance(50) { Kind::Lan } else { Kind::PointToPoint };
    let both = Levels { one: true, two: true };
    let any = r.pick(&[Levels { one: true, two: false }, Levels { one: false, two: true }, both]);
    CircuitSettings {
        kind,
        levels: if kind == Kind::Lan && r.chance(50) { both } else { any },
        mac: [2, 0, 1, 0, 0, 9],
        priority: r.pick(&[0, 63, 64, 127]),
        hold: r.pick(&[1, 4, 30, 65535]),
        metric: r.pick(&[0, 10, 16_777_210, 16_777_214]),
        id: 7,
    }
}

/// The mode of a run.
pub fn mode(r: &mut Random) -> Mode {
    match r.below(100) {
        0..=44 => Mode::Running,
        45..=74 => Mode::Restarting,
        _ => Mode::Starting,
    }
}

/// Settings in range, mostly with short timers and few circuits.
pub fn settings(r: &mut Random, mode: Mode) -> Settings {
    let count = if r.chance(5) { 8 } else { 1 + r.below(4) };
    Settings {
        system: OWN,
        t1: r.pick(&[1, 2, 3, 60]),
        t2: r.pick(&[2, 5, 8, 60, 600]),
        tries: r.pick(&[1, 2, 3, 255]),
        clock: r.pick(&[0, 100, 4_294_900_000]),
        mode,
        circuits: (0..count).map(|_| circuit(r)).collect(),
    }
}

/// The settings with one of them out of range.
pub fn spoilt(r: &mut Random, mut s: Settings) -> Settings {
    let at = r.below(s.circuits.len() as u64) as usize;
    match r.below(8) {
        0 => s.t1 = 0,
        1 => s.t2 = 0,
        2 => s.tries = 0,
        3 => s.circuits[at].priority = 128,
        4 => s.circuits[at].hold = 0,
        5 => s.circuits[at].metric = 16_777_215,
        6 => s.circuits[at].levels = Levels::NONE,
        _ => s.circuits.clear(),
    }
    s
}

fn number(r: &mut Random, s: &Settings) -> u8 {
    if r.chance(3) {
        r.pick(&[0, 9, 255, s.circuits.len() as u8 + 1])
    } else {
        1 + r.below(s.circuits.len() as u64) as u8
    }
}

fn level(r: &mut Random) -> u8 {
    if r.chance(5) {
        r.pick(&[0, 3, 255])
    } else {
        1 + r.below(2) as u8
    }
}

/// A MAC that several routers share, all with the greatest pair (priority, MAC) that there is.
const SHARED: u8 = 20;

/// A receive on a circuit. Most of a router's frames come from a MAC of its own, so that on a LAN too its records see many frames.
pub fn receive(r: &mut Random, s: &Settings, number: u8) -> Call {
    let at = usize::from(number.wrapping_sub(1)) % s.circuits.len();
    let (mut frame, meant) = frame(r, &s.circuits[at]);
    let from = match r.below(100) {
        0..=71 => meant.system,
        72..=79 => SHARED,
        _ => r.below(u64::from(MACS)) as u8,
    };
    if let (SHARED, 1..=2, Some(priority)) = (from, meant.level, frame.get_mut(19)) {
        *priority = 127;
    }
    let room = if r.chance(3) { r.below(11) as usize } else { r.pick(&[11, 12, 20]) };
    Call::Receive(number, mac(from), frame, room, meant)
}

/// A call, by a name.
pub fn name(call: &Call) -> &'static str {
    match call {
        Call::Receive(..) => "receive",
        Call::Begin(..) => "begin",
        Call::Chunk(..) => "chunk",
        Call::End(..) => "end",
        Call::Tick(_) => "tick",
        Call::Release(_) => "release",
        Call::Clear(_) => "clear",
        Call::Csnp(..) => "csnp",
        Call::Database(_) => "database",
        Call::LookUpP2p(..) => "P2P look up",
        Call::LookUpLan(..) => "LAN look up",
        Call::Metric(_) => "metric",
        Call::Flags(..) => "flags",
        Call::Waiting => "waiting",
    }
}

/// The circuit that a call names, if it names one.
pub fn named(call: &Call) -> Option<u8> {
    match *call {
        Call::Receive(n, ..) | Call::Release(n) | Call::Clear(n) | Call::Csnp(n, _) | Call::Metric(n) | Call::Flags(n, _) => Some(n),
        Call::LookUpP2p(n, _) | Call::LookUpLan(n, ..) | Call::Begin(n, _) | Call::Chunk(n, _) | Call::End(n, ..) => Some(n),
        Call::Tick(_) | Call::Database(_) | Call::Waiting => None,
    }
}

/// Whether a call hands a frame over in chunks: a begin, a chunk or an end.
pub fn is_piece(call: &Call) -> bool {
    matches!(call, Call::Begin(..) | Call::Chunk(..) | Call::End(..))
}

/// Any call. The clock moves by small steps, sometimes back.
pub fn call(r: &mut Random, s: &Settings, now: &mut Now) -> Call {
    let n = number(r, s);
    match r.below(100) {
        0..=66 if r.chance(now.in_chunks) => now.radio.call(r, s, n),
        0..=66 => receive(r, s, n),
        67..=78 => {
            let step = r.pick(&[0, 0, 1, 1, 1, 2, 4, 30]);
            if r.chance(3) {
                return Call::Tick(now.clock.saturating_sub(1 + r.below(3) as u32));
            }
            now.clock = now.clock.saturating_add(step);
            Call::Tick(now.clock)
        }
        79 => Call::Release(n),
        80 => Call::Clear(n),
        81..=85 => Call::Csnp(n, level(r)),
        86..=88 => Call::Database(level(r)),
        89 => Call::LookUpP2p(n, system(r.below(u64::from(SYSTEMS)) as u8)),
        90..=92 => Call::LookUpLan(n, level(r), system(r.below(u64::from(SYSTEMS)) as u8), mac(r.below(u64::from(MACS)) as u8)),
        93..=94 => Call::Metric(n),
        95..=97 => Call::Flags(n, level(r)),
        _ => Call::Waiting,
    }
}

/// A key, of those that frames have and of a few others.
fn key(r: &mut Random, circuit: u8) -> Asked {
    let from = r.below(u64::from(SYSTEMS)) as u8;
    let (level, mac) = match r.below(100) {
        0..=9 => (0, [0; 6]),
        10..=69 => (level(r), mac(from)),
        70..=79 => (level(r), mac(SHARED)),
        _ => (level(r), mac(r.below(u64::from(MACS)) as u8)),
    };
    Asked { circuit, level, system: system(from), mac }
}

/// A question about a call, with a circuit and a key: often the call's own, or one whose record stands.
pub fn question(r: &mut Random, call: &Call, stands: impl Fn(Asked) -> bool) -> (Question, Asked) {
    let all = [Question::NotAdvertised, Question::Vanished, Question::NoCsnps];
    let question = match call {
        Call::Receive(..) if r.chance(80) => r.pick(&[Question::NotAdvertised, Question::NoCsnps]),
        Call::Tick(_) | Call::Release(_) | Call::Clear(_) if r.chance(60) => Question::Vanished,
        _ => r.pick(&all),
    };
    let circuit = named(call).filter(|_| r.chance(80)).unwrap_or_else(|| r.below(10) as u8);
    match *call {
        Call::Receive(_, mac, _, _, meant) if r.chance(60) => {
            (question, Asked { circuit, level: meant.level, system: system(meant.system), mac })
        }
        _ => {
            let tries = r.pick(&[1, 8]);
            let drawn: Vec<Asked> = (0..tries).map(|_| key(r, circuit)).collect();
            (question, drawn.iter().copied().find(|asked| stands(*asked)).unwrap_or(drawn[0]))
        }
    }
}
