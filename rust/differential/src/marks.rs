//! The line of document 01 that an accepted frame takes, by its flags and the record before and after; and what a frame without the Restart TLV leaves,
//! or one whose TLV is ignored (document 02, W-203).
use crate::coverage::Coverage;
use crate::frames::Meant;
use isis_gr::{Mark, Phase, Record};

/// How the Restart TLV of a frame is read.
#[derive(Clone, Copy, Debug, PartialEq, Eq)]
enum Reading {
    /// The flags that count.
    Flags(u8),
    /// The frame has no such TLV.
    Absent,
    /// Its flags may not stand together.
    Ignored,
}

impl Reading {
    fn of(flags: Option<u8>) -> Reading {
        let Some(octet) = flags else { return Reading::Absent };
        let counted = if octet & 1 == 1 { octet & 0x1F & !8 } else { octet & 0x1F };
        if counted.count_ones() < 2 || counted == 5 {
            Reading::Flags(counted)
        } else {
            Reading::Ignored
        }
    }

    /// Behind the name of line 4 or 5.
    fn tail(self) -> &'static str {
        match self {
            Reading::Flags(_) => "",
            Reading::Absent => ", no TLV",
            Reading::Ignored => ", TLV ignored",
        }
    }
}

const READINGS: [Reading; 3] = [Reading::Flags(0), Reading::Absent, Reading::Ignored];

/// An accepted frame: on a LAN or not, the clock, the circuit's configured time, and the record before and after.
pub struct Took {
    /// The circuit is a LAN.
    pub lan: bool,
    /// The clock.
    pub clock: u64,
    /// The circuit's configured holding time.
    pub configured: u16,
    /// The record before.
    pub stood: Option<Record>,
    /// The record after.
    pub after: Option<Record>,
}

fn place(lan: bool, up: bool) -> String {
    format!("{} after, {}", if up { "UP" } else { "INIT" }, if lan { "LAN" } else { "P2P" })
}

/// The branches of this module.
pub fn branches() -> Vec<String> {
    let mut all: Vec<String> = [
        "line 1, from UP",
        "line 1, from Restart",
        "line 1, from Planned",
        "line 2, from no record",
        "line 2, from INIT",
        "line 3, from UP",
        "line 3, from Restart",
        "line 3, from Planned",
    ]
    .map(str::to_owned)
    .to_vec();
    for tail in READINGS.map(Reading::tail) {
        all.push(format!("line 4{tail}"));
        all.extend(["no record", "INIT", "UP", "Restart"].map(|from| format!("line 5, from {from}{tail}")));
    }
    for (lan, up) in [(false, false), (false, true), (true, false), (true, true)] {
        let place = place(lan, up);
        all.extend(["Suppressed", "Restart", "Planned"].map(|mark| format!("no TLV ends {mark}, {place}")));
        all.extend(["Restart", "Planned"].map(|mark| format!("an ignored TLV ends {mark}, {place}")));
        all.push(format!("an ignored TLV leaves Suppressed, {place}"));
    }
    all
}

/// Whether there is a record and it is UP.
pub fn is_up(record: Option<Record>) -> bool {
    record.is_some_and(|r| r.phase != Phase::Init)
}

fn mark_name(stood: Option<Record>) -> &'static str {
    match stood.map(|r| r.phase) {
        None => "no record",
        Some(Phase::Init) => "INIT",
        Some(Phase::Up(Mark::Clear)) => "UP",
        Some(Phase::Up(Mark::Restart)) => "Restart",
        Some(Phase::Up(Mark::Planned)) => "Planned",
        Some(other) => panic!("{other:?} has no name"),
    }
}

/// The first line that fits a frame, by the record of its key before and after.
pub fn line(meant: Meant, stood: Option<Record>, after: Option<Record>) -> u8 {
    let flags = if let Reading::Flags(f) = Reading::of(meant.flags) { f } else { 0 };
    match flags {
        f if f & 1 == 1 && is_up(stood) => 1,
        f if f & 1 == 1 => 2,
        f if f & 8 == 8 && is_up(stood) && is_up(after) => 3,
        _ if mark_name(stood) == "Planned" => 4,
        _ => 5,
    }
}

/// Counts the line that a frame took, and holds the record to what document 02 says of a frame whose flags do not count.
pub fn count(c: &mut Coverage, meant: Meant, took: &Took) {
    let reading = Reading::of(meant.flags);
    let (from, tail) = (mark_name(took.stood), reading.tail());
    c.hit(&match line(meant, took.stood, took.after) {
        4 => format!("line 4{tail}"),
        5 => format!("line 5, from {from}{tail}"),
        n => format!("line {n}, from {from}"),
    });
    if let (Reading::Absent | Reading::Ignored, Some(after)) = (reading, took.after) {
        let suppressed = took.stood.is_some_and(|record| record.suppressed);
        let seconds = if from == "Planned" { took.configured } else { meant.hold };
        assert!(matches!(after.phase, Phase::Init | Phase::Up(Mark::Clear)), "marks: {after:?}");
        assert_eq!(after.expiry, took.clock + u64::from(seconds), "expiry, from {from}");
        assert_eq!(after.tlv, reading == Reading::Ignored, "had the TLV");
        assert_eq!(after.suppressed, suppressed && reading == Reading::Ignored, "Suppressed");
        let place = place(took.lan, is_up(took.after));
        let who = if reading == Reading::Ignored { "an ignored TLV" } else { "no TLV" };
        c.hit_if(suppressed && reading == Reading::Absent, &format!("no TLV ends Suppressed, {place}"));
        c.hit_if(suppressed && reading == Reading::Ignored, &format!("an ignored TLV leaves Suppressed, {place}"));
        if matches!(from, "Restart" | "Planned") {
            c.hit(&format!("{who} ends {from}, {place}"));
        }
    }
}
