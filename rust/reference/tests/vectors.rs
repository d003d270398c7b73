//! Hellos that other software made: `data/README.md` and `crates/vectors/data/README.md` say how.

mod common;
use common::*;
use isis_gr_reference::*;

/// A line of a file: time in whole seconds, source MAC, kind, octets, case name.
struct Line<'a> {
    time: u32,
    source: Mac,
    kind: Kind,
    octets: Vec<u8>,
    name: &'a str,
}

fn hex(text: &str) -> Vec<u8> {
    (0..text.len()).step_by(2).map(|at| u8::from_str_radix(&text[at..at + 2], 16).unwrap()).collect()
}

fn lines(text: &str) -> impl Iterator<Item = Line<'_>> {
    text.lines().filter(|line| !line.starts_with('#')).map(|line| {
        let mut words = line.split_whitespace();
        let time: f64 = words.next().unwrap().parse().unwrap();
        let mac = hex(&words.next().unwrap().replace(':', ""));
        let kind = if words.next() == Some("LAN") { Kind::Lan } else { Kind::PointToPoint };
        let octets = hex(words.next().unwrap());
        Line { time: time as u32, source: mac.try_into().unwrap(), kind, octets, name: words.next().unwrap_or("") }
    })
}

/// The lines of a file of crafted frames: name, kind, octets. All come from one source MAC.
fn crafted(text: &str) -> impl Iterator<Item = Line<'_>> {
    text.lines().filter(|line| !line.starts_with('#')).map(|line| {
        let mut words = line.split_whitespace();
        let name = words.next().unwrap();
        let kind = if words.next() == Some("LAN") { Kind::Lan } else { Kind::PointToPoint };
        Line { time: 0, source: [2, 0, 0, 0, 0, 2], kind, octets: hex(words.next().unwrap()), name }
    })
}

/// The number after `key` in a case name.
fn number(name: &str, key: &str) -> Option<usize> {
    let (_, rest) = name.split_once(key)?;
    let end = rest.find(|c: char| !c.is_ascii_digit()).unwrap_or(rest.len());
    rest[..end].parse().ok()
}

/// The refusal that the case name asks for, by document 01.
fn refusal_of(name: &str, kind: Kind) -> Option<u8> {
    let (_, case) = name.split_once('-').unwrap();
    let length = number(case, "len");
    let p2p = kind == Kind::PointToPoint;
    let (bad, refusal) = match case.split('-').next().unwrap() {
        "octet1" | "octet3" | "octet6" => (true, 3),
        "octet4" => (number(case, "octet4-") != Some(6), 3),
        "octet2" => (true, 4),
        "circuittype" => (number(case, "circuittype-").unwrap() & 3 == 0, 6),
        "pdulen" if case == "pdulen-header-only" => (p2p, 6),
        "pdulen" | "pdulen+1" => (true, 4),
        "padded" => (number(case, "padded-").unwrap() > 1_492, 4),
        "lone" | "value" => (true, 5),
        "211" if case == "211-two" => (true, 6),
        "211" => {
            let flags = case.split_once("flags").map_or(RA, |(_, flags)| u8::from_str_radix(flags, 16).unwrap());
            let least = if flags & (RA | PA) != 0 {
                9
            } else if flags & PR != 0 {
                3
            } else {
                1
            };
            (!(least..=9).contains(&length.unwrap()), 6)
        }
        "240" if !p2p => (false, 6),
        "240" => {
            let state = number(case, "state").unwrap_or(99);
            (![1, 5, 11, 15].contains(&length.unwrap_or(99)) || state > 2, 6)
        }
        "16" => {
            let length = length.unwrap_or(5);
            let inner = number(case, "sublen").unwrap_or(length.wrapping_sub(5));
            (length < 5 || inner != length - 5, 6)
        }
        "6" => (!p2p && length.is_some_and(|length| length % 6 != 0), 6),
        _ => (false, 0),
    };
    bad.then_some(refusal)
}

const CRAFTED: [&str; 5] = [
    include_str!("../../../crates/vectors/data/header.txt"),
    include_str!("../../../crates/vectors/data/tlv6.txt"),
    include_str!("../../../crates/vectors/data/tlv16.txt"),
    include_str!("../../../crates/vectors/data/tlv211.txt"),
    include_str!("../../../crates/vectors/data/tlv240.txt"),
];

fn circuit(kind: Kind) -> CircuitSettings {
    CircuitSettings { kind, ..p2p() }
}

#[test]
fn crafted_frames_are_refused_as_their_names_say() {
    let mut counts = [0; 7];
    for line in CRAFTED.into_iter().flat_map(crafted) {
        let mut run = Run::running(&[circuit(line.kind)]);
        let refusal = run.lend(1, line.source, &line.octets).err();
        assert_eq!(refusal, refusal_of(line.name, line.kind), "{}", line.name);
        counts[usize::from(refusal.unwrap_or(0))] += 1;
    }
    assert_eq!(counts, [644, 0, 0, 33, 24, 6, 536], "accepted, then by number");
}

#[test]
fn crafted_frames_in_chunks_are_answered_as_when_whole() {
    let mut counts = [0; 2];
    for line in CRAFTED.into_iter().flat_map(crafted) {
        assert!(line.octets.len() <= 1_500, "{}", line.name);
        for length in [1, 5, 64] {
            let mut runs = [(); 2].map(|()| Run::running(&[circuit(line.kind)]));
            let [run, whole] = &mut runs;
            run.hand(1, line.source, &line.octets.chunks(length).collect::<Vec<_>>());
            let answers = [run.end(1), whole.lend(1, line.source, &line.octets)];
            assert_eq!((answers[0], &run.gateway, run.reply), (answers[1], &whole.gateway, whole.reply), "{}", line.name);
            counts[usize::from(answers[0].is_err())] += 1;
        }
    }
    assert_eq!(counts, [3 * 644, 3 * 599]);
}

#[test]
fn crafted_fields_are_read_as_meant() {
    let mut checked = 0;
    for line in CRAFTED.into_iter().flat_map(crafted) {
        // While restarting every accepted point-to-point frame leaves a record.
        let mut run = Run::restarting(&[circuit(line.kind)]);
        if run.lend(1, line.source, &line.octets).is_err() {
            continue;
        }
        let level = if line.name.starts_with("lan2") { 2 } else { 1 };
        let record = run.gateway.look_up(1, level, PEER, line.source).unwrap().unwrap();
        assert_eq!(record.expiry, number(line.name, "holding-").unwrap_or(27) as u64, "{}", line.name);
        assert_eq!(record.tlv, line.name.contains("-211-"), "{}", line.name);
        if let Some(priority) = number(line.name, "priority-") {
            assert_eq!(usize::from(record.priority), priority % 128);
        }
        if let Some(offset) = number(line.name, "metric") {
            let (_, flags) = line.name.split_once("flags").unwrap();
            let flags = u8::from_str_radix(&flags[..2], 16).unwrap();
            let reverse = Reverse { offset: offset as u32, whole: flags & 1 != 0, unreachable: flags & 2 != 0 };
            assert_eq!(record.reverse, Some(reverse));
        }
        if let Some(state) = number(line.name, "state") {
            assert_eq!(record.up, state != 2, "{}", line.name);
        }
        if let Some(time) = number(line.name, "RA-time") {
            let overload = |clock| run.gateway.clone().tick(clock).unwrap().timers;
            let set = TimerOutcome::Goes { spf: Levels::NONE, overload: Overload::Set };
            assert_eq!(overload(time.min(59) as u32) == set, time < 60, "T2 expires at 60");
        }
        checked += 1;
    }
    assert_eq!(checked, 644);
}

#[test]
fn replies_of_the_samples_are_read_by_the_neighbour_as_acknowledgements() {
    let neighbour = Settings { system: PEER, ..settings(Mode::Restarting, &[CircuitSettings { id: 0x0102_0304, ..p2p() }]) };
    for line in crafted(include_str!("../../../crates/vectors/data/replies.txt")) {
        let mut run = Run::new(&neighbour);
        run.gateway.csnp_complete(1, 1).unwrap();
        run.gateway.csnp_complete(1, 2).unwrap();
        run.lend(1, line.source, &line.octets).unwrap();
        let planned = line.name.ends_with("C4") || line.name.ends_with("C5");
        assert_eq!(run.gateway.waiting().0, u32::from(planned), "PA is no acknowledgement: {}", line.name);
    }
}

/// Sits in r1's place, lends the others' hellos and asks `agrees` at each hello that r1 itself sent, but for the second in
/// which a record ends: our clock is in whole seconds, so it ends at most one second before FRR's.
fn replay(text: &str, circuit: CircuitSettings, agrees: impl Fn(&Gateway, &[u8]) -> bool) {
    let mut run = Run::running(&[CircuitSettings { id: 0, ..circuit }]);
    let (mut own, mut others) = (0, 0);
    let mut lost = None;
    for line in lines(text) {
        if run.tick(line.time).marks[0] {
            lost = Some(line.time);
        }
        if line.source == OWN_MAC {
            own += 1;
            assert!(lost == Some(line.time) || agrees(&run.gateway, &line.octets), "at {} s", line.time);
        } else {
            others += 1;
            let answer = run.lend(1, line.source, &line.octets).unwrap();
            assert_eq!((answer.reply, answer.csnps), (None, None));
        }
    }
    assert!(own > 5 && others > 5 && lost.is_some());
}

#[test]
fn p2p_state_follows_that_of_frr() {
    for text in [include_str!("data/p2p-l12-restart.txt"), include_str!("data/p2p-l12-nopad.txt")] {
        replay(text, p2p(), |gateway, octets| {
            let at = octets.windows(2).position(|pair| pair == [240, 5] || pair == [240, 15]).unwrap();
            let shown = match octets[at + 2] {
                UP => Some(true),
                INITIALIZING => Some(false),
                _ => None,
            };
            gateway.look_up(1, 0, PEER, PEER_MAC).unwrap().map(|record| record.up) == shown
        });
    }
}

#[test]
fn lan_records_follow_the_neighbours_that_frr_lists() {
    for text in [include_str!("data/lan-l12-restart.txt"), include_str!("data/lan-l12-nopad.txt")] {
        replay(text, lan(), |gateway, octets| {
            let level = octets[4] - 14;
            [(PEER, PEER_MAC), (THIRD, THIRD_MAC)].into_iter().all(|(system, mac)| {
                let listed = octets[27..].windows(6).any(|six| six == mac);
                gateway.look_up(1, level, system, mac).unwrap().is_some() == listed
            })
        });
    }
}
