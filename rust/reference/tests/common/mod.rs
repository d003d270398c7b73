//! Hello builder and harness of the tests.

#![allow(dead_code)]

pub mod drawn;

use isis_gr_reference::*;

pub const OWN: SystemId = [0x19, 0x21, 0x68, 0x00, 0x10, 0x01];
pub const PEER: SystemId = [0x19, 0x21, 0x68, 0x00, 0x10, 0x02];
pub const THIRD: SystemId = [0x19, 0x21, 0x68, 0x00, 0x10, 0x03];
pub const OWN_MAC: Mac = [2, 0, 0, 0, 0, 1];
pub const PEER_MAC: Mac = [2, 0, 0, 0, 0, 2];
pub const THIRD_MAC: Mac = [2, 0, 0, 0, 0, 3];
pub const OWN_ID: u32 = 0x0a0b_0c0d;

pub const RR: u8 = 1;
pub const RA: u8 = 2;
pub const SA: u8 = 4;
pub const PR: u8 = 8;
pub const PA: u8 = 16;

pub const UP: u8 = 0;
pub const INITIALIZING: u8 = 1;
pub const DOWN: u8 = 2;

pub const ONE: Levels = Levels { one: true, two: false };
pub const TWO: Levels = Levels { one: false, two: true };
pub const BOTH: Levels = Levels { one: true, two: true };

pub const QUIET: TimerOutcome = TimerOutcome::Goes { spf: Levels::NONE, overload: Overload::Quiet };

pub fn goes(spf: Levels, overload: Overload) -> TimerOutcome {
    TimerOutcome::Goes { spf, overload }
}

pub fn ended(spf: Levels, overload: Overload) -> TimerOutcome {
    TimerOutcome::Ended { spf, overload }
}

/// For each circuit, whether its number is listed.
pub fn circuits(numbers: &[usize]) -> [bool; 8] {
    std::array::from_fn(|at| numbers.contains(&(at + 1)))
}

/// The place of a point-to-point circuit's one hello is that of level 1.
pub const SINGLE: usize = 1;

/// Hellos with these flags, ordered on these circuits: on a LAN at this level.
pub fn hellos(orders: &[(usize, usize)], flags: u8) -> Hellos {
    let order = |at, level| orders.contains(&(at + 1, level));
    Hellos { orders: std::array::from_fn(|at| [order(at, 1), order(at, 2)]), flags }
}

pub const NO_HELLO: Hellos = Hellos { orders: [[false; 2]; 8], flags: 0 };

pub fn p2p() -> CircuitSettings {
    CircuitSettings { kind: Kind::PointToPoint, levels: BOTH, mac: OWN_MAC, priority: 64, hold: 30, metric: 10, id: OWN_ID }
}

pub fn lan() -> CircuitSettings {
    CircuitSettings { kind: Kind::Lan, ..p2p() }
}

pub fn settings(mode: Mode, circuits: &[CircuitSettings]) -> Settings {
    Settings { system: OWN, t1: 60, t2: 60, tries: 3, clock: 0, mode, circuits: circuits.to_vec() }
}

/// A hello under construction.
#[derive(Clone)]
pub struct Hello {
    pdu_type: u8,
    circuit_type: u8,
    source: SystemId,
    hold: u16,
    priority: u8,
    tlvs: Vec<u8>,
}

impl Hello {
    fn new(pdu_type: u8) -> Hello {
        Hello { pdu_type, circuit_type: 3, source: PEER, hold: 27, priority: 64, tlvs: Vec::new() }
    }

    /// A point-to-point hello without any TLV.
    pub fn bare() -> Hello {
        Hello::new(17)
    }

    /// A point-to-point hello with a three-way TLV that names us.
    pub fn p2p(state: u8) -> Hello {
        Hello::bare().three_way(state, OWN, OWN_ID)
    }

    /// A LAN hello that lists no one.
    pub fn lan(level: u8) -> Hello {
        Hello::new(14 + level)
    }

    /// A LAN hello that lists us.
    pub fn lan_up(level: u8) -> Hello {
        Hello::lan(level).tlv(6, &OWN_MAC)
    }

    pub fn from(mut self, source: SystemId) -> Hello {
        self.source = source;
        self
    }

    pub fn hold(mut self, hold: u16) -> Hello {
        self.hold = hold;
        self
    }

    pub fn circuit_type(mut self, circuit_type: u8) -> Hello {
        self.circuit_type = circuit_type;
        self
    }

    pub fn priority(mut self, priority: u8) -> Hello {
        self.priority = priority;
        self
    }

    pub fn tlv(mut self, kind: u8, value: &[u8]) -> Hello {
        self.tlvs.extend([kind, value.len() as u8]);
        self.tlvs.extend(value);
        self
    }

    pub fn octets_at_end(mut self, octets: &[u8]) -> Hello {
        self.tlvs.extend(octets);
        self
    }

    pub fn three_way(self, state: u8, neighbour: SystemId, circuit: u32) -> Hello {
        let mut value = vec![state, 1, 2, 3, 4];
        value.extend(neighbour);
        value.extend(circuit.to_be_bytes());
        self.tlv(240, &value)
    }

    /// A Restart TLV of length 9 that names us.
    pub fn restart(self, flags: u8, remaining: u16) -> Hello {
        self.restart_of(flags, remaining, OWN)
    }

    pub fn restart_of(self, flags: u8, remaining: u16, neighbour: SystemId) -> Hello {
        let mut value = vec![flags];
        value.extend(remaining.to_be_bytes());
        value.extend(neighbour);
        self.tlv(211, &value)
    }

    pub fn reverse(self, flags: u8, metric: u32) -> Hello {
        let [_, a, b, c] = metric.to_be_bytes();
        self.tlv(16, &[flags, a, b, c, 0])
    }

    pub fn octets(&self) -> Vec<u8> {
        let header = if self.pdu_type & 31 == 17 { 20 } else { 27 };
        let mut octets = vec![0x83, header, 1, 0, self.pdu_type, 1, 0, 0, self.circuit_type];
        octets.extend(self.source);
        octets.extend(self.hold.to_be_bytes());
        octets.extend((u16::from(header) + self.tlvs.len() as u16).to_be_bytes());
        if header == 27 {
            octets.push(self.priority);
            octets.extend(THIRD);
        }
        octets.push(5);
        octets.extend(&self.tlvs);
        octets
    }
}

/// A gateway with the checks that every call must pass.
#[derive(Clone)]
pub struct Run {
    pub gateway: Gateway,
    pub hellos: Hellos,
    /// The reply buffer after the last frame.
    pub reply: [u8; 14],
}

pub const UNTOUCHED: u8 = 0xee;

impl Run {
    pub fn new(settings: &Settings) -> Run {
        let (gateway, hellos) = Gateway::set_up(settings).expect("settings in range");
        Run { gateway, hellos, reply: [UNTOUCHED; 14] }
    }

    pub fn running(circuits: &[CircuitSettings]) -> Run {
        Run::new(&settings(Mode::Running, circuits))
    }

    pub fn restarting(circuits: &[CircuitSettings]) -> Run {
        Run::new(&settings(Mode::Restarting, circuits))
    }

    /// Lends octets. A refusal changes nothing, and the buffer is written only for a reply and only in 11 octets.
    pub fn lend(&mut self, circuit: u8, source: Mac, octets: &[u8]) -> Result<Received, u8> {
        self.reply = [UNTOUCHED; 14];
        let before = self.gateway.clone();
        let answer = self.gateway.receive(circuit, source, octets, &mut self.reply);
        if answer.is_err() {
            assert_eq!(self.gateway, before);
        }
        self.checked(answer)
    }

    /// Begins a frame and adds chunks, all of which are taken.
    pub fn hand(&mut self, circuit: u8, source: Mac, chunks: &[&[u8]]) {
        assert_eq!(self.gateway.begin_frame(circuit, source), Ok(()));
        for chunk in chunks {
            assert_eq!(self.gateway.add_chunk(circuit, chunk), Ok(()));
        }
        assert_eq!(self.gateway.unfinished(circuit), Some((source, &chunks.concat()[..])));
    }

    /// Ends a circuit's frame, which is gone then. A refusal changes nothing else.
    pub fn end(&mut self, circuit: u8) -> Result<Received, u8> {
        self.reply = [UNTOUCHED; 14];
        let before = self.gateway.clone();
        let answer = self.gateway.end_frame(circuit, &mut self.reply);
        assert_eq!(self.gateway.unfinished(circuit), None);
        if answer.is_err() {
            assert_eq!(but_for_frame(&self.gateway, circuit), but_for_frame(&before, circuit));
        }
        self.checked(answer)
    }

    /// The reply buffer is written only for a reply, and only in 11 octets.
    fn checked(&self, answer: Result<Received, Refusal>) -> Result<Received, u8> {
        match &answer {
            Ok(Received { reply: Some(reply), .. }) => {
                assert_eq!(self.reply[..2], [211, 9]);
                assert_eq!(self.reply[2], if reply.kind == ReplyKind::Ra { RA } else { PA });
                assert_eq!(self.reply[3..5], reply.remaining.to_be_bytes());
                assert_eq!(self.reply[11..], [UNTOUCHED; 3]);
            }
            Ok(Received { reply: None, .. }) | Err(_) => assert_eq!(self.reply, [UNTOUCHED; 14]),
        }
        answer.map_err(Refusal::number)
    }

    pub fn receive(&mut self, circuit: u8, source: Mac, hello: &Hello) -> Result<Received, u8> {
        self.lend(circuit, source, &hello.octets())
    }

    /// Circuit 1, from the peer's MAC, accepted.
    pub fn accept(&mut self, hello: &Hello) -> Received {
        self.receive(1, PEER_MAC, hello).expect("accepted")
    }

    /// Circuit 1, from the peer's MAC, refused.
    pub fn refuse(&mut self, hello: &Hello) -> u8 {
        self.receive(1, PEER_MAC, hello).expect_err("refused")
    }

    pub fn tick(&mut self, clock: u32) -> Ticked {
        self.gateway.tick(clock).expect("clock not lower")
    }

    /// The flags of the next hello at a level of a circuit that has it.
    pub fn flags(&self, circuit: u8, level: u8) -> u8 {
        self.gateway.next_hello_flags(circuit, level).expect("level enabled")
    }

    /// The peer's record on circuit 1: on a LAN at level 1, under the peer's MAC.
    pub fn peer(&self) -> Option<Record> {
        self.gateway.look_up(1, 1, PEER, PEER_MAC).expect("circuit stands")
    }

    /// The peer's record, which stands.
    pub fn record(&self) -> Record {
        self.peer().expect("record stands")
    }
}

/// A gateway with the same frame begun on a circuit, whichever it had there.
pub fn but_for_frame(gateway: &Gateway, circuit: u8) -> Gateway {
    let mut copy = gateway.clone();
    let _ = copy.begin_frame(circuit, OWN_MAC);
    copy
}

/// A point-to-point circuit, Running, the peer UP from this clock on.
pub fn p2p_up(clock: u32, hold: u16) -> Run {
    let mut run = Run::new(&Settings { clock, ..settings(Mode::Running, &[p2p()]) });
    run.accept(&Hello::p2p(INITIALIZING).hold(hold));
    assert!(run.record().up);
    run
}

/// Restarting at clock 0 with this T1, T2 and number of tries.
pub fn restart(t1: u16, t2: u16, tries: u8, circuits: &[CircuitSettings]) -> Run {
    Run::new(&Settings { t1, t2, tries, ..settings(Mode::Restarting, circuits) })
}

/// Overload is ordered set, and the start goes on.
pub const SET: TimerOutcome = TimerOutcome::Goes { spf: Levels::NONE, overload: Overload::Set };

/// Starting at clock 7 with T1 of 10 s, T2 of 100 s and three tries.
pub fn start(circuits: &[CircuitSettings]) -> Run {
    Run::new(&Settings { t1: 10, t2: 100, tries: 3, clock: 7, ..settings(Mode::Starting, circuits) })
}

/// A point-to-point hello with a Restart TLV of these flags that lasts beyond all timers.
pub fn p2p_with(state: u8, flags: u8) -> Hello {
    Hello::p2p(state).restart(flags, 20).hold(2_000)
}

/// The same on a LAN; lists us.
pub fn lan_with(level: u8, flags: u8) -> Hello {
    Hello::lan_up(level).restart(flags, 20).hold(2_000)
}

/// What a frame orders: the hello's flags and what it does to the timers.
pub fn orders(answer: Received) -> (Option<u8>, TimerOutcome) {
    (answer.hello, answer.timers)
}

/// The first UP record of a circuit, on a LAN of a level: T1 begins with a hello of SA alone.
pub const BEGINS: (Option<u8>, TimerOutcome) = (Some(SA), SET);
/// A record that becomes UP later.
pub const RISES: (Option<u8>, TimerOutcome) = (None, SET);
pub const NOTHING: (Option<u8>, TimerOutcome) = (None, QUIET);

/// A small pseudo-random source (xorshift), the same numbers for the same seed.
pub struct Dice(u64);

impl Dice {
    pub fn new(seed: u64) -> Dice {
        Dice(seed.wrapping_mul(0x9e37_79b9_7f4a_7c15) | 1)
    }

    pub fn roll(&mut self) -> u64 {
        self.0 ^= self.0 << 13;
        self.0 ^= self.0 >> 7;
        self.0 ^= self.0 << 17;
        self.0
    }

    pub fn below(&mut self, end: u64) -> u64 {
        (self.roll() >> 11) % end
    }

    pub fn chance(&mut self, one_in: u64) -> bool {
        self.below(one_in) == 0
    }

    pub fn pick<T: Copy>(&mut self, from: &[T]) -> T {
        from[self.below(from.len() as u64) as usize]
    }
}
