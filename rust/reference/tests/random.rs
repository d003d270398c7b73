//! Seeded pseudo-random calls: garbage and nearly valid frames. Nothing panics, refusals change nothing, and what must hold
//! of every gateway holds.

mod common;
use common::drawn::*;
use common::*;
use isis_gr_reference::*;

/// Whether the gateway starts: all its hellos, so those of circuit 1, have SA.
fn starts(gateway: &Gateway) -> bool {
    (1..=2).any(|level| gateway.next_hello_flags(1, level).is_ok_and(|flags| flags & SA != 0))
}

/// The flags of the hellos of a circuit, each once: on a LAN those of its levels, on point-to-point the one. All other levels
/// are refused.
fn flags_of(gateway: &Gateway, circuit: u8, own: &CircuitSettings) -> Vec<u8> {
    let asked = [0, 1, 2, 3].map(|level| gateway.next_hello_flags(circuit, level));
    let enabled = [false, own.levels.one, own.levels.two, false];
    assert!(asked.iter().zip(enabled).all(|(flags, enabled)| enabled == (*flags != Err(Refusal::NoCircuit))));
    let mut flags: Vec<u8> = asked.into_iter().flatten().collect();
    if own.kind == Kind::PointToPoint {
        flags.dedup();
        assert_eq!(flags.len(), 1);
    }
    flags
}

/// What must hold of every gateway, whatever calls were made.
fn check(gateway: &Gateway, settings: &Settings, clock: u32) {
    // The circuits that ask, once for each hello.
    let mut asking = Vec::new();
    let starts = starts(gateway);
    assert!(!starts || settings.mode == Mode::Starting);
    for (circuit, own) in (1..).zip(&settings.circuits) {
        for flags in flags_of(gateway, circuit, own) {
            assert_eq!(flags & !RR, if starts { SA } else { 0 });
            if flags & RR != 0 {
                asking.push(circuit);
            }
        }
        let metric = gateway.link_metric(circuit).unwrap();
        assert!((own.metric..=16_777_215).contains(&metric));
        assert!(own.kind == Kind::PointToPoint || metric == own.metric);
        let mut standing = 0;
        for system in SYSTEMS {
            let keys = match own.kind {
                Kind::Lan => (1..=2).flat_map(|level| MACS.map(|mac| (level, mac))).collect(),
                Kind::PointToPoint => vec![(0, OWN_MAC)],
            };
            for (level, mac) in keys {
                let Ok(Some(record)) = gateway.look_up(circuit, level, system, mac) else { continue };
                standing += 1;
                assert_ne!(system, OWN);
                assert!(record.up || record.mark == Mark::Clear);
                assert_eq!(record.advertised(), record.up && !record.suppressed);
                assert!(record.priority <= 127);
                assert!(record.expiry >= u64::from(clock) && record.expiry <= u64::from(clock) + 65_535);
            }
        }
        assert!(standing <= if own.kind == Kind::Lan { 16 } else { 1 });
    }
    let (count, lowest) = gateway.waiting();
    if starts {
        // T1 runs to its first expiry without RR.
        assert!(count >= asking.len() as u32 && lowest.is_some() == (count > 0));
        assert!(asking.iter().all(|&circuit| lowest <= Some(circuit)));
    } else {
        assert_eq!((count, lowest), (asking.len() as u32, asking.first().copied()));
    }
}

/// The unfinished frames by circuit, as document 02 has them: the MAC of the begin, and the octets joined.
type Joined = [Option<(Mac, Vec<u8>)>; 8];

/// The chunks of a circuit's frame that are to come, last first.
type ToCome = [Vec<Vec<u8>>; 8];

/// A begin, a chunk or an end on a circuit, compared with the frames that are begun; answers why it was refused.
fn take_piece(dice: &mut Dice, gateway: &mut Gateway, kind: Kind, named: u8, joined: &mut Joined, to_come: &mut ToCome) -> Option<Refusal> {
    let before = gateway.clone();
    let at = usize::from(named).wrapping_sub(1);
    let there = gateway.link_metric(named).is_ok();
    let none = there && joined[at].is_none();
    if dice.chance(if none { 2 } else { 15 }) {
        let source = dice.pick(&MACS);
        let answer = gateway.begin_frame(named, source);
        assert_eq!(answer, if there { Ok(()) } else { Err(Refusal::NoCircuit) });
        if there {
            joined[at] = Some((source, Vec::new()));
            let mut frame = some_frame(dice, kind);
            if dice.chance(8) {
                frame.resize(1_500, 0xd3);
            }
            to_come[at] = some_cuts(dice, &frame);
        }
        return answer.err();
    }
    let chunk = if there && !dice.chance(12) { to_come[at].pop() } else { Some(vec![0xd3; dice.below(1_600) as usize]) };
    if let Some(chunk) = chunk {
        let answer = gateway.add_chunk(named, &chunk);
        let due = match joined.get_mut(at).filter(|_| there) {
            None => Err(Refusal::NoCircuit),
            Some(None) => Err(Refusal::NotBegun),
            Some(Some((_, octets))) if octets.len() + chunk.len() > 1_500 => Err(Refusal::TooLong),
            Some(Some((_, octets))) => {
                octets.extend(chunk);
                Ok(())
            }
        };
        assert_eq!(answer, due);
        return answer.err();
    }
    let room = if dice.chance(20) { dice.below(11) } else { 11 + dice.below(4) } as usize;
    let (mut reply, mut second) = (vec![UNTOUCHED; room], vec![UNTOUCHED; room]);
    let answer = gateway.end_frame(named, &mut reply);
    match joined[at].take() {
        None => assert_eq!(answer, Err(Refusal::NotBegun)),
        Some((source, octets)) => {
            let mut twin = before;
            assert_eq!(answer, twin.receive(named, source, &octets, &mut second));
            assert_eq!((but_for_frame(gateway, named), &reply), (but_for_frame(&twin, named), &second));
        }
    }
    answer.err()
}

#[test]
fn random_calls_never_panic_and_refusals_change_nothing() {
    let mut seen = [0_u32; 15];
    for seed in 1..=120 {
        let mut dice = Dice::new(seed);
        let settings = some_settings(&mut dice);
        let (mut gateway, _) = Gateway::set_up(&settings).unwrap();
        let mut clock = settings.clock;
        let (mut joined, mut to_come) = (Joined::default(), ToCome::default());
        for _ in 0..600 {
            let before = gateway.clone();
            let circuit = dice.below(settings.circuits.len() as u64) as u8 + 1;
            let named = if dice.chance(40) { dice.roll() as u8 } else { circuit };
            let level = if dice.chance(40) { dice.roll() as u8 } else { 1 + dice.below(2) as u8 };
            let kind = settings.circuits[usize::from(circuit) - 1].kind;
            let mut dropped = None;
            let refused = match dice.below(24) {
                0 => {
                    let to = if dice.chance(6) { clock.wrapping_sub(3) } else { clock.saturating_add(dice.pick(&[0, 1, 4])) };
                    let answer = gateway.tick(to);
                    if answer.is_ok() {
                        clock = to;
                    }
                    answer.err()
                }
                1 => gateway.release(named).err(),
                2 => gateway.csnp_complete(named, level).err(),
                3 => gateway.database_complete(level).err(),
                4 => gateway.clear(named).err(),
                5..=9 => {
                    let refused = take_piece(&mut dice, &mut gateway, kind, named, &mut joined, &mut to_come);
                    dropped = refused.filter(|refusal| (2..=9).contains(&refusal.number())).map(|_| named);
                    refused
                }
                _ => {
                    let frame = some_frame(&mut dice, kind);
                    let source = dice.pick(&MACS);
                    let room = if dice.chance(40) { dice.below(11) } else { 11 + dice.below(4) } as usize;
                    let mut reply = vec![UNTOUCHED; room];
                    let answer = gateway.receive(named, source, &frame, &mut reply);
                    let written = matches!(answer, Ok(Received { reply: Some(_), .. }));
                    let from = if written { 11 } else { 0 };
                    assert!(reply[from..].iter().all(|&octet| octet == UNTOUCHED));
                    // A question that is asked before makes the same of a copy.
                    let mut lent = vec![UNTOUCHED; room];
                    let call = Call::Receive { circuit: named, source, frame: &frame, reply: &mut lent };
                    let asked = Asked { circuit: named, level, system: dice.pick(&SYSTEMS), mac: source };
                    let (_, after) = before.why(dice.pick(&[Question::NotAdvertised, Question::Vanished, Question::NoCsnps]), call, asked);
                    assert_eq!((&after, &lent), (&gateway, &reply));
                    // Octets past the PDU Length are never read.
                    let mut longer = frame.clone();
                    longer.extend([0xd3; 30]);
                    let mut twin = before.clone();
                    let mut second = vec![UNTOUCHED; room];
                    if answer.is_ok() {
                        assert_eq!(twin.receive(named, source, &longer, &mut second), answer);
                        assert_eq!((&twin, &second), (&gateway, &reply));
                    }
                    answer.err()
                }
            };
            match refused {
                Some(refusal) => {
                    match dropped {
                        Some(circuit) => assert_eq!(but_for_frame(&gateway, circuit), but_for_frame(&before, circuit)),
                        None => assert_eq!(gateway, before),
                    }
                    seen[usize::from(refusal.number())] += 1;
                }
                None => seen[0] += 1,
            }
            for (circuit, frame) in (1..).zip(&joined) {
                assert_eq!(gateway.unfinished(circuit), frame.as_ref().map(|(source, octets)| (*source, &octets[..])));
            }
            check(&gateway, &settings, clock);
        }
    }
    assert!((0..).zip(seen).all(|(number, count)| number == 12 || count > 0), "accepted and refusals, but for setup's: {seen:?}");
    assert!(seen[0] > 15_000, "{seen:?}");
}

/// What every call of a start orders about the overload bit; `starts` is the mode before the call, `rises` tells that a
/// record became UP in it.
fn check_overload(timers: TimerOutcome, starts: bool, rises: bool) {
    let due = match timers {
        TimerOutcome::Idle => return assert!(!starts),
        TimerOutcome::Goes { overload, .. } => (overload, if rises { Overload::Set } else { Overload::Quiet }),
        TimerOutcome::Ended { overload, .. } => (overload, if rises { Overload::Both } else { Overload::Clear }),
    };
    assert!(starts && due.0 == due.1, "{due:?}");
}

/// The T1s of a circuit that have begun: point-to-point's one, and on a LAN those of levels 1 and 2.
type Begun = [bool; 3];

/// Takes one frame in a start and in its twin; answers whether it ordered a hello.
fn take_frame(dice: &mut Dice, pair: [&mut Gateway; 2], circuit: u8, kind: Kind, begun: &mut Begun) -> bool {
    let [gateway, twin] = pair;
    let starts = starts(gateway);
    let (frame, source) = (some_frame(dice, kind), dice.pick(&MACS));
    let mut replies = [[UNTOUCHED; 12]; 2];
    let answer = gateway.receive(circuit, source, &frame, &mut replies[0]);
    let other = twin.receive(circuit, source, &frame, &mut replies[1]);
    assert_eq!(replies[0], replies[1]);
    let (Ok(answer), Ok(other)) = (answer, other) else {
        assert_eq!(answer, other, "both are refused");
        return false;
    };
    assert_eq!((answer.reply, answer.csnps, answer.change), (other.reply, other.csnps, other.change));
    let rises = answer.change.before != Some(true) && answer.change.after == Some(true);
    check_overload(answer.timers, starts, rises);
    assert_ne!(answer.freed, Freed::Reinitialise);
    let begun = &mut begun[usize::from(answer.change.level)];
    assert_eq!(answer.hello, (starts && rises && !*begun).then_some(SA));
    *begun |= answer.hello.is_some();
    answer.hello.is_some()
}

#[test]
fn a_start_treats_its_records_as_its_running_twin_does() {
    let (mut begins, mut asks, mut ends) = (0, 0, 0);
    for seed in 1..=150 {
        let mut dice = Dice::new(seed);
        let starting = Settings { mode: Mode::Starting, ..some_settings(&mut dice) };
        let (mut gateway, hellos) = Gateway::set_up(&starting).unwrap();
        assert_eq!(hellos, NO_HELLO);
        let (mut twin, _) = Gateway::set_up(&Settings { mode: Mode::Running, ..starting.clone() }).unwrap();
        let (mut clock, mut begun): (u32, [Begun; 8]) = (starting.clock, Default::default());
        for _ in 0..200 {
            let at = dice.below(starting.circuits.len() as u64) as usize;
            let (circuit, level) = (at as u8 + 1, 1 + dice.below(2) as u8);
            let starts = starts(&gateway);
            let notice = match dice.below(12) {
                0 | 1 => {
                    clock = clock.saturating_add(dice.pick(&[0, 1, 4]));
                    let (ticked, other) = (gateway.tick(clock).unwrap(), twin.tick(clock).unwrap());
                    assert_eq!(ticked.marks, other.marks);
                    let asked = ticked.hellos.orders;
                    assert!(asked.iter().zip(&begun).all(|(asked, begun)| {
                        let [lower, upper] = *asked;
                        (!lower || begun[0] || begun[1]) && (!upper || begun[2])
                    }));
                    let any = asked != NO_HELLO.orders;
                    assert_eq!(ticked.hellos.flags, if any { RR | SA } else { 0 });
                    asks += u32::from(any);
                    Ok(ticked.timers)
                }
                2 => gateway.csnp_complete(circuit, level),
                3 if dice.chance(4) => gateway.database_complete(level),
                _ => {
                    let kind = starting.circuits[at].kind;
                    begins += u32::from(take_frame(&mut dice, [&mut gateway, &mut twin], circuit, kind, &mut begun[at]));
                    continue;
                }
            };
            match notice {
                Ok(timers) => {
                    check_overload(timers, starts, false);
                    ends += u32::from(matches!(timers, TimerOutcome::Ended { .. }));
                }
                Err(refusal) => assert!(refusal == Refusal::NoCircuit || !starts && refusal == Refusal::NotRestarting),
            }
        }
    }
    assert!(begins > 100 && asks > 100 && ends > 50, "{begins} {asks} {ends}");
}

#[test]
fn every_frame_of_one_changed_octet_is_answered() {
    let hello = Hello::p2p(UP).restart(RR, 300).reverse(2, 5).octets();
    let listed = Hello::lan_up(2).restart(PR, 300).reverse(2, 5).octets();
    for (circuit, octets) in [(1, hello), (2, listed)] {
        for mode in [Mode::Running, Mode::Restarting, Mode::Starting] {
            let mut run = Run::new(&settings(mode, &[p2p(), lan()]));
            for at in 0..octets.len() {
                for value in 0..=255 {
                    let mut changed = octets.clone();
                    changed[at] = value;
                    let _ = run.lend(circuit, PEER_MAC, &changed);
                }
            }
        }
    }
}

#[test]
fn every_cut_of_a_frame_is_refused_3_4_or_as_the_whole() {
    let octets = Hello::p2p(UP).restart(RR, 300).octets();
    for length in 0..octets.len() {
        let refused = Run::running(&[p2p()]).lend(1, PEER_MAC, &octets[..length]);
        assert_eq!(refused, Err(if length < 8 { 3 } else { 4 }));
    }
}
