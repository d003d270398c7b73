//! The archive's side: every call goes through the wrapper, so that its decoding is what is compared. Circuits and levels that its types cannot say go to
//! the archive by their numbers.
use crate::calls::Call;
use crate::frames::Meant;
use crate::memory::{self, Octets, Words};
use crate::side::{Explained, Side, UNTOUCHED};
use crate::words;
use isis_gr::{
    CircuitSettings, Flags, Frames, Gateway, Hellos, Key, Level, Levels, Question, Received, Record, Refusal, Ticked, Timers, Waiting, Why,
};
use isis_gr_reference::{Asked, Kind, Mac, Mode, Settings, SystemId};
use std::rc::Rc;

/// A gateway of the archive, and the octets of its unfinished frames, which a clone shares until one of the two is given a chunk.
#[derive(Clone)]
pub struct Proved {
    gateway: Gateway,
    frames: Rc<Frames>,
}

impl PartialEq for Proved {
    /// Word by word, and octet by octet.
    fn eq(&self, other: &Proved) -> bool {
        self.words() == other.words() && (Rc::ptr_eq(&self.frames, &other.frames) || self.octets() == other.octets())
    }
}

fn circuit(number: u8) -> Option<isis_gr::Circuit> {
    isis_gr::Circuit::new(number)
}

fn level(number: u8) -> Option<Level> {
    [Level::One, Level::Two].into_iter().find(|level| level.number() == number)
}

/// The key as the wrapper has it, where it can say it.
fn key(Asked { level: at, system, mac, .. }: Asked) -> Option<Key> {
    let system = isis_gr::SystemId(system);
    let p2p = (at == 0 && mac == [0; 6]).then_some(Key::P2p(system));
    p2p.or(level(at).map(|level| Key::Lan { level, system, mac: isis_gr::Mac(mac) }))
}

/// The call as the wrapper takes it to be asked about, where it can say it.
fn spoken<'a>(call: &'a Call, reply: &'a mut [u8]) -> Option<isis_gr::Call<'a>> {
    Some(match *call {
        Call::Receive(n, from, ref frame, ..) => isis_gr::Call::Receive { circuit: circuit(n)?, from: isis_gr::Mac(from), frame, reply },
        Call::Tick(clock) => isis_gr::Call::Tick { clock },
        Call::Release(n) => isis_gr::Call::Release { circuit: circuit(n)? },
        Call::Clear(n) => isis_gr::Call::Clear { circuit: circuit(n)? },
        Call::Csnp(n, at) => isis_gr::Call::CsnpComplete { circuit: circuit(n)?, level: level(at)? },
        Call::Database(at) => isis_gr::Call::DatabaseComplete { level: level(at)? },
        Call::LookUpP2p(n, _) | Call::LookUpLan(n, ..) => isis_gr::Call::LookUp { circuit: circuit(n)? },
        Call::Metric(n) => isis_gr::Call::LinkMetric { circuit: circuit(n)? },
        Call::Flags(n, at) => isis_gr::Call::NextHelloFlags { circuit: circuit(n)?, level: level(at)? },
        Call::Waiting => isis_gr::Call::Waiting,
        Call::Begin(..) | Call::Chunk(..) | Call::End(..) => panic!("{call:02x?} is not asked about"),
    })
}

/// The settings as the wrapper has them.
pub fn settings(s: &Settings) -> isis_gr::Settings {
    let mode = match s.mode {
        Mode::Running => isis_gr::Mode::Running,
        Mode::Restarting => isis_gr::Mode::Restarting,
        Mode::Starting => isis_gr::Mode::Starting,
    };
    let start = isis_gr::Settings::new(isis_gr::SystemId(s.system), mode, s.clock).t1(s.t1).t2(s.t2).tries(s.tries);
    s.circuits.iter().fold(start, |all, own| {
        let kind = match own.kind {
            Kind::Lan => isis_gr::Kind::Lan,
            Kind::PointToPoint => isis_gr::Kind::P2p,
        };
        let levels = Levels { one: own.levels.one, two: own.levels.two };
        let circuit = CircuitSettings::new(kind, levels, isis_gr::Mac(own.mac)).priority(own.priority).hold(own.hold);
        all.circuit(circuit.metric(own.metric).extended_circuit_id(own.id))
    })
}

impl Proved {
    /// Memory with these words and octets.
    pub fn of_memory(words: Words, octets: Octets) -> Proved {
        Proved { gateway: Gateway::from_words(words), frames: Rc::new(Frames::from_octets(octets)) }
    }

    /// Its words.
    pub fn words(&self) -> &Words {
        self.gateway.words()
    }

    /// The octets of its unfinished frames.
    pub fn octets(&self) -> &Octets {
        self.frames.octets()
    }

    /// What a call tells of a copy of the memory.
    fn tell(&self, call: &Call) -> words::Told {
        words::tell(&mut self.words().clone(), &mut self.octets().clone(), call)
    }

    /// A call with a number that the wrapper's types cannot say, on a copy of the memory: the archive refuses it 1, and leaves that as it was.
    fn refused<T>(&self, call: &Call) -> Result<T, Refusal> {
        assert_eq!(self.tell(call).code(), Refusal::NoCircuit.number(), "{call:02x?}");
        Err(Refusal::NoCircuit)
    }
}

impl Side for Proved {
    fn new(settings: &Settings) -> Result<(Proved, Hellos), Refusal> {
        let mut proved = Proved { gateway: Gateway::new(), frames: Rc::default() };
        let hellos = proved.set_up(settings)?;
        Ok((proved, hellos))
    }

    fn set_up(&mut self, s: &Settings) -> Result<Hellos, Refusal> {
        Ok(self.gateway.set_up(&settings(s))?)
    }

    fn receive(&mut self, n: u8, source: Mac, frame: &[u8], reply: &mut [u8]) -> Result<Received, Refusal> {
        match circuit(n) {
            Some(circuit) => self.gateway.receive(circuit, isis_gr::Mac(source), frame, reply),
            None => self.refused(&Call::Receive(n, source, frame.to_vec(), reply.len(), Meant::default())),
        }
    }

    fn begin_frame(&mut self, n: u8, source: Mac) -> Result<(), Refusal> {
        match circuit(n) {
            Some(circuit) => self.gateway.begin_frame(circuit, isis_gr::Mac(source)),
            None => self.refused(&Call::Begin(n, source)),
        }
    }

    fn add_chunk(&mut self, n: u8, octets: &[u8]) -> Result<(), Refusal> {
        match circuit(n) {
            Some(circuit) => self.gateway.add_chunk(Rc::make_mut(&mut self.frames), circuit, octets),
            None => self.refused(&Call::Chunk(n, octets.to_vec())),
        }
    }

    fn end_frame(&mut self, n: u8, reply: &mut [u8]) -> Result<Received, Refusal> {
        match circuit(n) {
            Some(circuit) => self.gateway.end_frame(&self.frames, circuit, reply),
            None => self.refused(&Call::End(n, reply.len(), Vec::new(), Meant::default())),
        }
    }

    fn unfinished(&self, n: u8) -> Option<(Mac, &[u8])> {
        memory::unfinished(self.words(), self.octets(), n)
    }

    fn tick(&mut self, clock: u32) -> Result<Ticked, Refusal> {
        self.gateway.tick(clock)
    }

    fn release(&mut self, n: u8) -> Result<(), Refusal> {
        match circuit(n) {
            Some(circuit) => self.gateway.release(circuit),
            None => self.refused(&Call::Release(n)),
        }
    }

    fn clear(&mut self, n: u8) -> Result<(), Refusal> {
        match circuit(n) {
            Some(circuit) => self.gateway.clear(circuit),
            None => self.refused(&Call::Clear(n)),
        }
    }

    fn csnp_complete(&mut self, n: u8, at: u8) -> Result<Timers, Refusal> {
        match (circuit(n), level(at)) {
            (Some(circuit), Some(level)) => self.gateway.csnp_complete(circuit, level),
            _ => self.refused(&Call::Csnp(n, at)),
        }
    }

    fn database_complete(&mut self, at: u8) -> Result<Timers, Refusal> {
        match level(at) {
            Some(level) => self.gateway.database_complete(level),
            None => self.refused(&Call::Database(at)),
        }
    }

    fn look_up_p2p(&self, n: u8, system: SystemId) -> Result<Option<Record>, Refusal> {
        match circuit(n) {
            Some(circuit) => self.gateway.look_up_p2p(circuit, isis_gr::SystemId(system)),
            None => self.refused(&Call::LookUpP2p(n, system)),
        }
    }

    fn look_up_lan(&self, n: u8, at: u8, system: SystemId, mac: Mac) -> Result<Option<Record>, Refusal> {
        let by_number = |at: u8| self.tell(&Call::LookUpLan(n, at, system, mac));
        let of = |circuit, level| self.gateway.look_up_lan(circuit, level, isis_gr::SystemId(system), isis_gr::Mac(mac));
        match (circuit(n), level(at)) {
            (Some(circuit), Some(level)) => of(circuit, level),
            // on P2P the level counts for nothing: the answer is that of any
            (Some(circuit), None) if by_number(at).code() == 0 => {
                assert_eq!(by_number(at), by_number(1));
                of(circuit, Level::One)
            }
            _ => self.refused(&Call::LookUpLan(n, at, system, mac)),
        }
    }

    fn link_metric(&self, n: u8) -> Result<u32, Refusal> {
        match circuit(n) {
            Some(circuit) => self.gateway.link_metric(circuit),
            None => self.refused(&Call::Metric(n)),
        }
    }

    fn next_hello_flags(&self, n: u8, at: u8) -> Result<Flags, Refusal> {
        match (circuit(n), level(at)) {
            (Some(circuit), Some(level)) => self.gateway.next_hello_flags(circuit, level),
            _ => self.refused(&Call::Flags(n, at)),
        }
    }

    fn waiting(&self) -> Waiting {
        self.gateway.waiting()
    }

    fn why(&self, question: Question, call: &Call, asked: Asked) -> Explained<Proved> {
        let Explained { reason, after, reply } = words::explain(self.words(), question, call, asked);
        let mut lent = vec![UNTOUCHED; reply.len()];
        if let (Some(circuit), Some(key), Some(call)) = (circuit(asked.circuit), key(asked), spoken(call, &mut lent)) {
            let mut other = Gateway::new();
            assert_eq!(self.gateway.why(&mut other, question, call, circuit, key), Why { question, reason }, "as the wrapper reads it");
            assert!(*other.words() == after && lent == reply, "as the wrapper lends it");
        }
        let after = Proved { gateway: Gateway::from_words(after), frames: Rc::clone(&self.frames) };
        Explained { reason, after, reply }
    }
}
