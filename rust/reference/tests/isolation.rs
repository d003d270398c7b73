//! A bad neighbour changes nothing for the others (document 01, "The runs of demand 3"; document 02, W-205).

mod common;
use common::*;
use isis_gr_reference::*;

const BAD_MAC: Mac = [0xba; 6];
const BAD: SystemId = [0xba; 6];

/// A call of a list. The bad neighbour's are left out of the second run.
#[derive(Clone, Debug)]
enum Call {
    Receive { circuit: u8, source: Mac, octets: Vec<u8> },
    Begin(u8, Mac),
    Chunk(u8, Vec<u8>),
    End(u8),
    Tick(u32),
    Release(u8),
    Csnp(u8, u8),
    Database(u8),
    LinkMetric(u8),
    Flags(u8, u8),
    Waiting,
}

/// An answer without its types, for comparison.
fn answer(gateway: &mut Gateway, call: &Call, bad: u8) -> (String, Vec<u8>) {
    let mut reply = vec![UNTOUCHED; 12];
    let text = match call {
        Call::Receive { circuit, source, octets } => {
            let answer = gateway.receive(*circuit, *source, octets, &mut reply);
            // On the bad neighbour's circuit line 1's orders may differ.
            let csnps = |received: Received| Received { csnps: received.csnps.filter(|_| *circuit != bad), ..received };
            format!("{:?}", answer.map(csnps))
        }
        Call::Begin(circuit, source) => format!("{:?}", gateway.begin_frame(*circuit, *source)),
        Call::Chunk(circuit, octets) => format!("{:?}", gateway.add_chunk(*circuit, octets)),
        Call::End(circuit) => format!("{:?}", gateway.end_frame(*circuit, &mut reply)),
        Call::Tick(clock) => {
            let unmarked = |mut ticked: Ticked| {
                ticked.marks[usize::from(bad) - 1] = false;
                ticked
            };
            format!("{:?}", gateway.tick(*clock).map(unmarked))
        }
        Call::Release(circuit) => format!("{:?}", gateway.release(*circuit)),
        Call::Csnp(circuit, level) => format!("{:?}", gateway.csnp_complete(*circuit, *level)),
        Call::Database(level) => format!("{:?}", gateway.database_complete(*level)),
        Call::LinkMetric(circuit) => format!("{:?}", gateway.link_metric(*circuit)),
        Call::Flags(circuit, level) => format!("{:?}", gateway.next_hello_flags(*circuit, *level)),
        Call::Waiting => format!("{:?}", gateway.waiting()),
    };
    (text, reply)
}

fn names(call: &Call, bad: u8) -> bool {
    match call {
        Call::Receive { circuit, .. }
        | Call::Begin(circuit, _)
        | Call::Chunk(circuit, _)
        | Call::End(circuit)
        | Call::Release(circuit)
        | Call::Csnp(circuit, _)
        | Call::LinkMetric(circuit)
        | Call::Flags(circuit, _) => *circuit == bad,
        Call::Tick(_) | Call::Database(_) | Call::Waiting => false,
    }
}

/// A call that hands a frame over in chunks.
fn in_chunks(call: &Call) -> bool {
    matches!(call, Call::Begin(..) | Call::Chunk(..) | Call::End(_))
}

/// A call that one run may have and the other not: a frame of the bad neighbour, or a begin, chunk or end on its circuit.
fn may_differ(call: &Call, bad: u8) -> bool {
    names(call, bad) && (in_chunks(call) || matches!(call, Call::Receive { source, .. } if *source == BAD_MAC))
}

/// Runs the list with and without the calls that may differ, and compares what documents 01 and 02 compare: all of it, but on the
/// bad neighbour's own circuit only if that is a LAN, until a run answers 9 there, and while each frame there comes whole. Answers
/// whether that stood to the end.
fn compare(settings: &Settings, calls: &[Call], bad: u8) -> bool {
    let (mut with, _) = Gateway::set_up(settings).unwrap();
    let (mut without, _) = Gateway::set_up(settings).unwrap();
    let mut promised = settings.circuits[usize::from(bad) - 1].kind == Kind::Lan;
    for call in calls {
        let first = answer(&mut with, call, bad);
        let full = |text: &str| matches!(call, Call::Receive { circuit, .. } if *circuit == bad) && text.contains("RoomFull");
        promised &= !(full(&first.0) || names(call, bad) && in_chunks(call));
        if !may_differ(call, bad) {
            let second = answer(&mut without, call, bad);
            promised &= !full(&second.0);
            if promised || !names(call, bad) {
                assert_eq!(first, second, "{call:?}");
            }
        }
        for (circuit, own) in (1..).zip(&settings.circuits) {
            assert!(circuit == bad || with.unfinished(circuit) == without.unfinished(circuit));
            if circuit == bad && !promised {
                continue;
            }
            for level in 1..=2 {
                for (system, mac) in [(PEER, PEER_MAC), (THIRD, THIRD_MAC), (BAD, PEER_MAC), (PEER, THIRD_MAC)] {
                    assert_eq!(
                        with.look_up(circuit, level, system, mac),
                        without.look_up(circuit, level, system, mac),
                        "circuit {circuit} {:?} after {call:?}",
                        own.kind
                    );
                }
            }
        }
    }
    promised
}

fn receive(circuit: u8, source: Mac, hello: &Hello) -> Call {
    Call::Receive { circuit, source, octets: hello.octets() }
}

/// A frame in three chunks, the second empty.
fn hand(circuit: u8, source: Mac, hello: &Hello) -> [Call; 5] {
    let octets = hello.octets();
    let (first, second) = octets.split_at(octets.len() / 2);
    let chunk = |octets: &[u8]| Call::Chunk(circuit, octets.to_vec());
    [Call::Begin(circuit, source), chunk(first), chunk(&[]), chunk(second), Call::End(circuit)]
}

#[test]
fn a_bad_p2p_neighbour_leaves_other_circuits_alone() {
    let running = settings(Mode::Running, &[p2p(), p2p(), lan()]);
    let mut calls = Vec::new();
    for clock in 1..60 {
        calls.push(receive(1, BAD_MAC, &Hello::p2p(INITIALIZING).from(BAD).restart(RR, 0).reverse(2, 999)));
        calls.push(receive(2, PEER_MAC, &Hello::p2p(INITIALIZING).restart(if clock % 7 == 0 { RR } else { 0 }, 0)));
        calls.push(receive(1, BAD_MAC, &Hello::p2p(UP).from(BAD).restart(PR, 1)));
        calls.push(receive(3, THIRD_MAC, &Hello::lan_up(1).from(THIRD).restart(RR, 0)));
        calls.push(Call::LinkMetric(2));
        calls.push(Call::Release(3));
        calls.push(Call::Tick(clock));
    }
    compare(&running, &calls, 1);
}

#[test]
fn a_bad_neighbour_that_uses_chunks_leaves_other_circuits_alone() {
    let running = settings(Mode::Running, &[p2p(), p2p(), lan()]);
    for bad in [1, 3] {
        let mut calls = Vec::new();
        for clock in 1..60 {
            let frame = if bad == 1 { Hello::p2p(UP) } else { Hello::lan_up(1) };
            let flags = if clock % 7 == 0 { RR } else { PR };
            let mut lists = [
                hand(bad, BAD_MAC, &frame.from(BAD).restart(flags, 9)),
                hand(2, PEER_MAC, &Hello::p2p(INITIALIZING).restart(flags, 0)),
                hand(4 - bad, THIRD_MAC, &if bad == 1 { Hello::lan_up(1) } else { Hello::p2p(DOWN) }.from(THIRD).restart(RR, 0)),
            ]
            .map(|list| list.into_iter());
            // In turns; the bad neighbour leaves every third frame unfinished.
            for turn in 0..5 {
                calls.extend(lists.iter_mut().enumerate().filter_map(|(at, list)| {
                    let call = list.next()?;
                    (at > 0 || turn < 4 || clock % 3 > 0).then_some(call)
                }));
                calls.push(Call::Chunk(bad, vec![0; 400]));
            }
            calls.push(Call::Tick(clock));
        }
        assert!(!compare(&running, &calls, bad));
    }
}

#[test]
fn a_bad_lan_neighbour_leaves_other_records_of_its_lan_alone() {
    let running = settings(Mode::Running, &[lan(), p2p()]);
    let mut calls = Vec::new();
    for clock in 1..60 {
        let flags = [RR, PR, SA, 0, RA][clock as usize % 5];
        calls.push(receive(1, BAD_MAC, &Hello::lan_up(1).from(PEER).priority(127).restart(flags, 9)));
        calls.push(receive(1, PEER_MAC, &Hello::lan_up(1).restart(if clock % 3 == 0 { RR } else { PR }, 50)));
        calls.push(receive(1, BAD_MAC, &Hello::lan(2).from(THIRD).hold(1)));
        calls.push(receive(2, PEER_MAC, &Hello::p2p(INITIALIZING)));
        calls.extend(hand(2, PEER_MAC, &Hello::p2p(UP).restart(flags, 9)));
        calls.push(Call::Release(1));
        calls.push(Call::Tick(clock));
    }
    assert!(compare(&running, &calls, 1), "every frame there is given whole");
}

#[test]
fn a_bad_lan_neighbour_that_fills_the_room_leaves_other_circuits_alone() {
    let running = settings(Mode::Running, &[lan(), lan()]);
    let mut calls = vec![receive(1, PEER_MAC, &Hello::lan_up(1))];
    for n in 0..20 {
        calls.push(receive(1, BAD_MAC, &Hello::lan_up(1).from([n; 6]).hold(9)));
        calls.push(receive(1, THIRD_MAC, &Hello::lan_up(1).from(THIRD)));
        calls.push(receive(2, THIRD_MAC, &Hello::lan_up(1).from(THIRD)));
        calls.push(Call::Tick(u32::from(n)));
    }
    compare(&running, &calls, 1);
}

/// A frame for a circuit, here and there with a wrong octet.
fn some_frame(dice: &mut Dice, circuit: u8) -> Vec<u8> {
    let level = 1 + dice.below(2) as u8;
    let hello = if circuit % 2 == 1 {
        Hello::p2p(dice.below(3) as u8)
    } else if dice.chance(2) {
        Hello::lan_up(level)
    } else {
        Hello::lan(level)
    };
    let system = dice.pick(&[PEER, THIRD, BAD]);
    let hold = dice.pick(&[0, 3, 9, 300]);
    let mut hello = hello.from(system).hold(hold).priority(dice.roll() as u8);
    if !dice.chance(4) {
        hello = hello.restart(dice.pick(&[0, RR, RR, PR, SA, RR | SA, RA, PA, RA | SA]), hold);
    }
    let mut octets = hello.octets();
    if dice.chance(10) {
        let at = dice.below(octets.len() as u64) as usize;
        octets[at] = dice.roll() as u8;
    }
    octets
}

/// The next call of a frame that comes in chunks, `to_come` being the rest of it, last first. Another one may begin too early, and
/// a chunk may be too much.
fn some_piece(dice: &mut Dice, circuit: u8, to_come: &mut Vec<Call>) -> Call {
    if dice.chance(15) {
        return Call::Chunk(circuit, vec![0x83; dice.below(1_502) as usize]);
    }
    if to_come.is_empty() || dice.chance(20) {
        let octets = some_frame(dice, circuit);
        let mut chunks = Vec::new();
        let mut rest = &octets[..];
        while !rest.is_empty() {
            let (chunk, after) = rest.split_at(dice.below(1 + rest.len() as u64) as usize);
            chunks.push(Call::Chunk(circuit, chunk.to_vec()));
            rest = after;
        }
        *to_come = vec![Call::End(circuit)];
        to_come.extend(chunks.into_iter().rev());
        to_come.push(Call::Begin(circuit, dice.pick(&[PEER_MAC, THIRD_MAC, BAD_MAC])));
    }
    to_come.pop().expect("a begin at least")
}

#[test]
fn random_lists_with_a_bad_neighbour() {
    let mut stood = 0;
    for seed in 1..=150 {
        let mut dice = Dice::new(seed);
        let bad = 1 + dice.below(2) as u8;
        // Every frame on its circuit is given whole.
        let whole = dice.chance(2);
        let running = settings(Mode::Running, &[p2p(), lan(), p2p(), lan()]);
        let mut clock = 0;
        let mut to_come: [Vec<Call>; 4] = Default::default();
        let calls: Vec<Call> = (0..600)
            .map(|_| {
                let circuit = 1 + dice.below(4) as u8;
                let level = 1 + dice.below(2) as u8;
                match dice.below(24) {
                    0 | 1 => {
                        clock += dice.below(4) as u32;
                        Call::Tick(if dice.chance(9) { clock / 2 } else { clock })
                    }
                    2 => Call::Release(circuit),
                    3 => Call::Csnp(circuit, level),
                    4 => Call::Database(level),
                    5 => Call::LinkMetric(circuit),
                    6 => Call::Flags(circuit, level),
                    7 => Call::Waiting,
                    8..=15 if !(whole && circuit == bad) => some_piece(&mut dice, circuit, &mut to_come[usize::from(circuit) - 1]),
                    n => {
                        let (circuit, source) = match n % 3 {
                            0 => (bad, BAD_MAC),
                            1 => (circuit, PEER_MAC),
                            _ => (circuit, THIRD_MAC),
                        };
                        Call::Receive { circuit, source, octets: some_frame(&mut dice, circuit) }
                    }
                }
            })
            .collect();
        stood += u32::from(compare(&running, &calls, bad));
    }
    assert!((20..75).contains(&stood), "runs on whose LAN it stood to the end: {stood}");
}
