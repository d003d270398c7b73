//! The archive's calls against the reference's, shape by shape. Each round is a process of its own, so that code and data lie elsewhere in memory, and
//! has the two in turns, so that a ratio is of one round. Prints the table of medians, and writes it and its picture where the two arguments say: into a
//! page, between its marks, and to a file of its own.
mod measure;
mod report;
mod shapes;

use isis_gr_reference::{Kind, Levels, Mode, Settings};
use measure::{expiring, in_chunks, in_chunks_or_whole, look_up, receive, set_up, tick, Both, Pair, Shape};
use report::Line;
use shapes::{empty, far, first_two, full, full_to_the_last, lan, last_four, last_octet, listed, lists, p2p, settings, tlv, with};
use shapes::{OWN, SOURCE, WHOLE};
use std::io::{Error, Result};
use std::process::Command;

const ROUNDS: usize = 5;
/// The word that makes a process one round.
const ROUND: &str = "round";

fn up() -> Both {
    Both::new().fed(1, SOURCE, &p2p(&[1], &[]))
}

fn long_lists() -> Vec<Shape> {
    let on = |name: &str, frame: Vec<u8>| receive(name, Both::new(), 2, SOURCE, &frame, 11);
    let one_in = |n: u16, one: fn(u16) -> [u8; 6], others: fn(u16) -> [u8; 6]| move |i| if i % n == 0 { one(i) } else { others(i) };
    vec![
        on("1,492 octets of neighbours, we are absent", full(far, None)),
        on("1,492 octets of neighbours, we are last", full(far, Some(OWN))),
        on("1,492 octets, all share our last octet", full(last_octet, None)),
        on("1,492 octets, all share our last four octets", full(last_four, None)),
        on("1,492 octets, all share our first two octets", full(first_two, None)),
        on("1,492 octets, each fourth shares our last four", full(one_in(4, last_four, far), None)),
        on("1,492 octets, in turns our last four, our first two", full(one_in(2, last_four, first_two), None)),
        on("1,492 octets, one in five our last four, the others our first two", full(one_in(5, last_four, first_two), None)),
    ]
}

fn long_walks() -> Vec<Shape> {
    let on = |name: &str, tlvs: Vec<u8>| receive(name, Both::new(), 2, SOURCE, &lan(1, &tlvs), 11);
    let six: Vec<_> = (0..5).map(far).chain([OWN]).collect();
    let late = [empty(690), tlv(16, &[0, 0, 0, 5, 0]), tlv(211, &[0]), listed()].concat();
    vec![
        on("six type 6 TLVs of one neighbour each, we are last", lists(&six, 1)),
        on("700 empty TLVs", empty(700)),
        on("690 empty TLVs, then types 16, 211 and 6", late),
    ]
}

fn short_frames() -> Vec<Shape> {
    let request = [listed(), tlv(211, &[1])].concat();
    let on_p2p = |name: &str, three: &[u8], restart: &[u8]| receive(name, up(), 1, SOURCE, &p2p(three, restart), 11);
    let on_lan =
        |name: &str, router: u8, tlvs: &[u8]| receive(name, Both::new().filled(2, 16), 2, [2, 0, 0, 0, 0, router], &lan(router, tlvs), 11);
    vec![
        on_p2p("shortest P2P frame, record UP", &[0], &[]),
        receive("shortest LAN frame, no other record", Both::new(), 2, SOURCE, &lan(1, &[]), 11),
        on_lan("LAN frame that lists us, first of 16 records", 1, &listed()),
        on_lan("LAN frame that lists us, last of 16 records", 16, &listed()),
        on_p2p("P2P, three-way whole, Restart TLV with flags 0", &WHOLE, &[0, 0, 0]),
        on_p2p("P2P, RR, reply RA", &[0], &[1, 0, 0]),
        on_p2p("P2P, PR, reply PA", &[0], &[8, 1, 44]),
        on_lan("LAN, RR, reply RA and duty over 16 records", 16, &request),
    ]
}

/// A frame of 1,492 octets: 23 chunks of 64 octets, and one of 20.
fn chunks() -> Vec<Shape> {
    let (frame, name) = (full_to_the_last(), "begin, 24 chunks of 64 octets, end");
    vec![
        in_chunks(name, Both::new(), 2, SOURCE, &frame),
        in_chunks_or_whole(&format!("{name}, against the archive's receive"), Both::new(), 2, SOURCE, &frame),
    ]
}

fn refusals() -> Vec<Shape> {
    let plain = p2p(&[0], &[]);
    let edited = |at: usize, octet: u8| {
        let mut frame = plain.clone();
        frame[at] = octet;
        frame
    };
    let mut other = WHOLE;
    other[10] = 9;
    let on = |name: &str, frame: &[u8]| receive(name, up(), 1, SOURCE, frame, 11);
    vec![
        receive("no circuit", up(), 9, SOURCE, &plain, 11),
        receive("reply buffer of 10", up(), 1, SOURCE, &plain, 10),
        on("not a hello", &lan(1, &[])),
        on("PDU Length past the octets", &edited(18, plain[18] + 1)),
        on("TLV past the end", &edited(21, 9)),
        on("TLV 240 with state 3", &p2p(&[3], &[])),
        on("our own System ID", &edited(14, 1)),
        on("another's Neighbor System ID", &p2p(&other, &[])),
        receive("a 17th router", Both::new().filled(2, 16), 2, [2, 0, 0, 0, 0, 17], &lan(17, &listed()), 11),
    ]
}

fn ticks() -> Vec<Shape> {
    let eight = |kind: Kind| Both::of(&with(&[kind; 8]));
    let of_lans = || (1..=8).fold(eight(Kind::Lan), |both, circuit| both.filled(circuit, 16));
    let of_p2ps = (1..=8).fold(eight(Kind::PointToPoint), |both, circuit| both.fed(circuit, SOURCE, &p2p(&[1], &[])));
    let restarting = |of: Settings| Both::of(&Settings { mode: Mode::Restarting, ..of });
    // a T1 a circuit: one P2P circuit and seven LANs, all of level 1 alone; a LAN with both levels has two
    let mut of_level_1 = settings();
    of_level_1.circuits.iter_mut().for_each(|own| own.levels = Levels { one: true, two: false });
    vec![
        tick("tick, no record", Both::new()),
        tick("tick, 16 records", Both::new().filled(2, 16)),
        tick("tick, 128 records", of_lans()),
        tick("tick, eight P2P circuits, 8 records", of_p2ps),
        tick("tick, one LAN, 3 records", Both::of(&with(&[Kind::Lan])).filled(1, 3)),
        tick("tick, Restarting, eight T1s run", restarting(of_level_1)),
        tick("tick, Restarting, sixteen T1s run", restarting(with(&[Kind::Lan; 8]))),
        expiring("tick that removes 16 records", Both::new().filled(2, 16)),
        expiring("tick that removes 128 records", of_lans()),
    ]
}

fn others() -> Vec<Shape> {
    vec![set_up("set up, eight circuits", settings()), look_up("look up, last of 16 records", Both::new().filled(2, 16), 2, 16)]
}

fn shapes() -> Vec<Shape> {
    [long_lists(), long_walks(), short_frames(), chunks(), refusals(), ticks(), others()].into_iter().flatten().collect()
}

/// A round: a line a shape, its name and the nanoseconds of both.
fn round() {
    for mut shape in shapes() {
        let (ours, theirs) = (shape.round)();
        println!("{}\t{ours}\t{theirs}", shape.name);
    }
}

/// What a round printed.
fn parse(text: &str) -> Option<Vec<(String, Pair)>> {
    let line = |line: &str| {
        let mut fields = line.split('\t');
        Some((fields.next()?.to_string(), (fields.next()?.parse().ok()?, fields.next()?.parse().ok()?)))
    };
    text.lines().map(line).collect()
}

fn main() -> Result<()> {
    let words: Vec<String> = std::env::args().skip(1).collect();
    if words == [ROUND] {
        round();
        return Ok(());
    }
    let mut lines: Vec<Line> = Vec::new();
    for _ in 0..ROUNDS {
        let out = Command::new(std::env::current_exe()?).arg(ROUND).output()?;
        let text = String::from_utf8_lossy(&out.stdout);
        let found = parse(&text).filter(|_| out.status.success());
        let found = found.ok_or_else(|| Error::other(String::from_utf8_lossy(&out.stderr)))?;
        report::add(&mut lines, found);
    }
    let table = report::table(&lines);
    print!("{table}");
    if let [page, picture] = &words[..] {
        report::put(page.as_ref(), &table)?;
        std::fs::write(picture, report::picture(&lines))?;
    }
    Ok(())
}
