//! Levels do not wait for each other (document 02, W-202): seeded pseudo-random calls to a gateway with both levels, and to two
//! twins with one level each. Only the end of the mode is common to the levels.

mod common;
use common::*;
use isis_gr_reference::*;

/// A gateway with the circuits of one level.
struct Twin {
    gateway: Gateway,
    hellos: Hellos,
    /// For each circuit of the whole gateway, the number that it has here, if it has the level.
    numbers: Vec<Option<u8>>,
    level: u8,
    goes: bool,
}

fn has(levels: Levels, level: u8) -> bool {
    if level == 1 {
        levels.one
    } else {
        levels.two
    }
}

impl Twin {
    fn new(whole: &Settings, level: u8) -> Twin {
        let levels = if level == 1 { ONE } else { TWO };
        let own = whole.circuits.iter().filter(|circuit| has(circuit.levels, level));
        let circuits: Vec<CircuitSettings> = own.map(|&circuit| CircuitSettings { levels, ..circuit }).collect();
        let mut next = 0;
        let mut number = |circuit: &CircuitSettings| {
            has(circuit.levels, level).then(|| {
                next += 1;
                next
            })
        };
        let numbers = whole.circuits.iter().map(&mut number).collect();
        let (gateway, hellos) = Gateway::set_up(&Settings { circuits, ..whole.clone() }).unwrap();
        Twin { gateway, hellos, numbers, level, goes: true }
    }

    /// Compares what both order of this level, and notes the end of the twin's mode.
    fn compare(&mut self, whole: TimerOutcome, own: TimerOutcome) {
        if self.goes {
            assert_eq!(has(spf(whole), self.level), has(spf(own), self.level));
            self.goes = !matches!(own, TimerOutcome::Ended { .. });
        }
    }

    /// Compares the hellos of this level, and those of the point-to-point circuits that have it.
    fn compare_hellos(&self, settings: &Settings, whole: Hellos, own: Hellos) {
        for (at, circuit) in settings.circuits.iter().enumerate() {
            let Some(number) = self.numbers[at] else { continue };
            let place = if circuit.kind == Kind::Lan { usize::from(self.level) - 1 } else { 0 };
            assert_eq!(whole.orders[at][place], own.orders[usize::from(number) - 1][place]);
        }
    }

    /// Compares the flags of the next hellos.
    fn compare_flags(&self, whole: &Gateway) {
        for (circuit, number) in (1..).zip(&self.numbers) {
            let Some(number) = *number else { continue };
            assert_eq!(whole.next_hello_flags(circuit, self.level), self.gateway.next_hello_flags(number, self.level));
        }
    }

    /// The circuit of the whole gateway that has the lowest running T1 here.
    fn lowest(&self) -> Option<u8> {
        let (_, lowest) = self.gateway.waiting();
        lowest.and_then(|lowest| (1..).zip(&self.numbers).find(|(_, number)| **number == Some(lowest)).map(|(circuit, _)| circuit))
    }
}

fn spf(outcome: TimerOutcome) -> Levels {
    match outcome {
        TimerOutcome::Idle => Levels::NONE,
        TimerOutcome::Goes { spf, .. } | TimerOutcome::Ended { spf, .. } => spf,
    }
}

/// LANs of any levels and point-to-point circuits of one.
fn some_settings(dice: &mut Dice) -> Settings {
    let mut circuits = vec![lan()];
    for _ in 0..dice.below(4) {
        let circuit = match dice.pick(&[Kind::Lan, Kind::PointToPoint]) {
            Kind::Lan => CircuitSettings { levels: dice.pick(&[ONE, TWO, BOTH, BOTH]), ..lan() },
            Kind::PointToPoint => CircuitSettings { levels: dice.pick(&[ONE, TWO]), ..p2p() },
        };
        circuits.insert(dice.below(circuits.len() as u64 + 1) as usize, circuit);
    }
    let mode = dice.pick(&[Mode::Restarting, Mode::Starting]);
    Settings { t1: dice.pick(&[1, 3, 8]), t2: 60, tries: dice.pick(&[1, 3, 9]), ..settings(mode, &circuits) }
}

/// A hello of few keys; its Remaining Time leaves T3 beyond T2.
fn some_hello(dice: &mut Dice, kind: Kind, level: u8) -> Hello {
    let hello = match kind {
        Kind::Lan if dice.chance(3) => Hello::lan(level),
        Kind::Lan => Hello::lan_up(level).from(dice.pick(&[PEER, THIRD])),
        Kind::PointToPoint => Hello::p2p(dice.below(3) as u8),
    };
    let hello = hello.hold(dice.pick(&[5, 300]));
    if dice.chance(8) {
        return hello;
    }
    let neighbour = dice.pick(&[OWN, OWN, OWN, THIRD]);
    hello.restart_of(dice.pick(&[0, RA, RA, RR, SA, PR]), u16::MAX, neighbour)
}

/// A gateway of both levels with its twins.
struct Family {
    settings: Settings,
    whole: Gateway,
    twins: [Twin; 2],
    clock: u32,
    /// How many frames and ticks ordered hellos.
    begins: u32,
    asks: u32,
}

impl Family {
    fn new(dice: &mut Dice) -> Family {
        let settings = some_settings(dice);
        let (whole, hellos) = Gateway::set_up(&settings).unwrap();
        let twins = [Twin::new(&settings, 1), Twin::new(&settings, 2)];
        for twin in &twins {
            twin.compare_hellos(&settings, hellos, twin.hellos);
        }
        Family { settings, whole, twins, clock: 0, begins: 0, asks: 0 }
    }

    fn tick(&mut self, seconds: u32) -> TimerOutcome {
        self.clock += seconds;
        let ticked = self.whole.tick(self.clock).unwrap();
        self.asks += u32::from(ticked.hellos.flags != 0);
        for twin in &mut self.twins {
            let own = twin.gateway.tick(self.clock).unwrap();
            if twin.goes {
                twin.compare_hellos(&self.settings, ticked.hellos, own.hellos);
            }
            twin.compare(ticked.timers, own.timers);
        }
        ticked.timers
    }

    /// A call about a level that goes to its twin too: a frame or notice on the circuit at this place, which has the level, or
    /// a database notice.
    fn call(&mut self, dice: &mut Dice, at: usize, level: u8) -> TimerOutcome {
        let twin = &mut self.twins[usize::from(level) - 1];
        let (circuit, number) = (at as u8 + 1, twin.numbers[at].unwrap());
        let (answer, own) = match dice.below(28) {
            0 => (self.whole.database_complete(level), twin.gateway.database_complete(level)),
            1..=3 => (self.whole.csnp_complete(circuit, level), twin.gateway.csnp_complete(number, level)),
            _ => {
                let octets = some_hello(dice, self.settings.circuits[at].kind, level).octets();
                let answer = self.whole.receive(circuit, PEER_MAC, &octets, &mut [0; 11]).unwrap();
                let own = twin.gateway.receive(number, PEER_MAC, &octets, &mut [0; 11]).unwrap();
                assert!(!twin.goes || (answer.hello, answer.freed) == (own.hello, own.freed));
                self.begins += u32::from(answer.hello.is_some());
                (Ok(answer.timers), Ok(own.timers))
            }
        };
        // A twin that ended refuses notices.
        twin.compare(answer.unwrap(), own.unwrap_or(TimerOutcome::Idle));
        answer.unwrap()
    }

    fn goes(&self) -> bool {
        self.twins.iter().any(|twin| twin.goes)
    }

    /// What must hold after each call.
    fn check(&self) {
        for twin in self.twins.iter().filter(|twin| twin.goes) {
            twin.compare_flags(&self.whole);
        }
        let (count, lowest) = self.whole.waiting();
        let sum = self.twins.iter().map(|twin| twin.gateway.waiting().0).sum();
        if self.twins.iter().all(|twin| twin.goes) || !self.goes() {
            assert_eq!((count, lowest), (sum, self.twins.iter().filter_map(Twin::lowest).min()));
        } else {
            // A level whose T2 is done may still begin a T1 of a start.
            assert!(count == sum || self.settings.mode == Mode::Starting && count > sum);
        }
    }
}

#[test]
fn a_gateway_of_both_levels_works_as_two_of_one_level_until_their_ends() {
    let (mut begins, mut asks, mut alone) = (0, 0, 0);
    for seed in 1..=400 {
        let mut dice = Dice::new(seed);
        let mut family = Family::new(&mut dice);
        while family.goes() {
            let at = dice.below(family.settings.circuits.len() as u64) as usize;
            let level = 1 + dice.below(2) as u8;
            let outcome = if dice.chance(3) {
                family.tick(dice.below(4) as u32)
            } else if has(family.settings.circuits[at].levels, level) {
                family.call(&mut dice, at, level)
            } else {
                continue;
            };
            assert_eq!(matches!(outcome, TimerOutcome::Goes { .. }), family.goes(), "it ends with the last of the two");
            family.check();
            alone += u32::from(family.twins[0].goes != family.twins[1].goes);
        }
        begins += family.begins;
        asks += family.asks;
    }
    assert!(begins > 300 && asks > 1_000 && alone > 1_000, "{begins} {asks} {alone}");
}
