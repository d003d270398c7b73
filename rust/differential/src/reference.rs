//! The reference's side: its answers as the wrapper's types. The reference itself knows nothing of them.
use crate::calls::Call;
use crate::side::{Explained, Side, UNTOUCHED};
use isis_gr::{
    Ack, Change, Circuit, Circuits, Flags, Freed, Hellos, Level, Levels, Line, Mark, Overload, Phase, Question, Reason, Received, Record,
    Refusal, Reply, ReverseMetric, Standing, Ticked, Timers, Waiting,
};
use isis_gr_reference as theirs;
use isis_gr_reference::{Asked, Mac, Settings, SystemId, MAX_CIRCUITS};

/// A gateway of the reference.
#[derive(Clone, Debug, PartialEq, Eq)]
pub struct Reference(pub theirs::Gateway);

/// The level that a P2P look-up is made with: it counts for nothing there, and is enabled on no LAN.
const NO_LEVEL: u8 = 0;

fn refusal(why: theirs::Refusal) -> Refusal {
    Refusal::of_number(u32::from(why.number()), why.position().unwrap_or(0)).expect("a number of the table")
}

fn circuits(set: [bool; MAX_CIRCUITS]) -> Circuits {
    (1..).zip(set).filter(|(_, is_in)| *is_in).map(|(number, _)| Circuit::new(number).expect("1 to 8")).collect()
}

fn flags(octet: u8) -> Flags {
    let known = [Flags::default(), Flags::RR, Flags::SA, Flags::RR.and(Flags::SA)];
    known.into_iter().find(|flags| flags.octet() == octet).unwrap_or_else(|| panic!("flags {octet}"))
}

fn hellos(theirs::Hellos { orders, flags: octet }: theirs::Hellos) -> Hellos {
    let of = |(number, [one, two]): (u8, [bool; 2])| {
        let circuit = Circuit::new(number).expect("1 to 8");
        [(one, Level::One), (two, Level::Two)].into_iter().filter(|(is_in, _)| *is_in).map(move |(_, level)| (circuit, level))
    };
    Hellos { orders: (1..).zip(orders).flat_map(of).collect(), flags: flags(octet) }
}

fn levels(set: theirs::Levels) -> Levels {
    Levels { one: set.one, two: set.two }
}

fn overload(order: theirs::Overload) -> Overload {
    match order {
        theirs::Overload::Quiet => Overload::Keep,
        theirs::Overload::Set => Overload::Set,
        theirs::Overload::Clear => Overload::Clear,
        theirs::Overload::Both => Overload::Both,
    }
}

fn timers(outcome: theirs::TimerOutcome) -> Timers {
    match outcome {
        theirs::TimerOutcome::Idle => Timers::Idle,
        theirs::TimerOutcome::Goes { spf, overload: order } => Timers::GoOn { spf: levels(spf), overload: overload(order) },
        theirs::TimerOutcome::Ended { spf, overload: order } => Timers::Ended { spf: levels(spf), overload: overload(order) },
    }
}

fn reply(theirs::Reply { kind, remaining }: theirs::Reply) -> Reply {
    let ack = match kind {
        theirs::ReplyKind::Ra => Ack::Restart,
        theirs::ReplyKind::Pa => Ack::Planned,
    };
    Reply { ack, remaining }
}

fn freed(freed: theirs::Freed) -> Freed {
    match freed {
        theirs::Freed::Kept => Freed::Kept,
        theirs::Freed::Stopped => Freed::Stopped,
        theirs::Freed::Reinitialise => Freed::Reinitialise,
    }
}

fn standing(up: Option<bool>) -> Standing {
    match up {
        None => Standing::None,
        Some(false) => Standing::Init,
        Some(true) => Standing::Up,
    }
}

fn change(theirs::Change { level, system, before, after, advertised }: theirs::Change) -> Change {
    let level = match level {
        0 => None,
        1 => Some(Level::One),
        2 => Some(Level::Two),
        n => panic!("level {n}"),
    };
    Change { level, system: isis_gr::SystemId(system), before: standing(before), after: standing(after), advertised }
}

fn received(got: theirs::Received) -> Received {
    let theirs::Received { reply: written, csnps, hello, timers: outcome, freed: t1, change: of } = got;
    let csnps = csnps.map(levels).unwrap_or_default();
    Received { reply: written.map(reply), csnps, hello: hello.map(flags), freed: freed(t1), timers: timers(outcome), change: change(of) }
}

fn record(found: theirs::Record) -> Record {
    let theirs::Record { up, expiry, mark, suppressed, priority, tlv, reverse } = found;
    let mark = match mark {
        theirs::Mark::Clear => Mark::Clear,
        theirs::Mark::Restart => Mark::Restart,
        theirs::Mark::Planned => Mark::Planned,
    };
    assert!(up || mark == Mark::Clear, "a mark on a record that is not UP");
    let phase = if up { Phase::Up(mark) } else { Phase::Init };
    let reverse = reverse.map(|theirs::Reverse { offset, whole, unreachable }| ReverseMetric { offset, whole_lan: whole, unreachable });
    Record { phase, advertised: found.advertised(), expiry, suppressed, priority, tlv, reverse }
}

fn question(asks: Question) -> theirs::Question {
    match asks {
        Question::NotAdvertised => theirs::Question::NotAdvertised,
        Question::Vanished => theirs::Question::Vanished,
        Question::NoCsnps => theirs::Question::NoCsnps,
        other => panic!("{other:?} is no question of the reference"),
    }
}

fn reason(named: theirs::Reason) -> Reason {
    match named {
        theirs::Reason::NotSo => Reason::NotSo,
        theirs::Reason::Init => Reason::Init,
        theirs::Reason::Suppressed => Reason::Suppressed,
        theirs::Reason::NoRecord => Reason::NoRecord,
        theirs::Reason::Refused(why) => Reason::Refused(refusal(why)),
        theirs::Reason::Expired => Reason::Expired,
        theirs::Reason::Released => Reason::Released,
        theirs::Reason::Cleared => Reason::Cleared,
        theirs::Reason::Line(2) => Reason::Fits(Line::Two),
        theirs::Reason::Line(3) => Reason::Fits(Line::Three),
        theirs::Reason::Line(4) => Reason::Fits(Line::Four),
        theirs::Reason::Line(5) => Reason::Fits(Line::Five),
        theirs::Reason::Line(n) => panic!("line {n}"),
        theirs::Reason::Outranked { system, priority, mac } => {
            Reason::Outranked { system: isis_gr::SystemId(system), priority, mac: isis_gr::Mac(mac) }
        }
    }
}

impl Side for Reference {
    fn new(settings: &Settings) -> Result<(Reference, Hellos), Refusal> {
        let (gateway, ordered) = theirs::Gateway::set_up(settings).map_err(refusal)?;
        Ok((Reference(gateway), hellos(ordered)))
    }

    fn set_up(&mut self, settings: &Settings) -> Result<Hellos, Refusal> {
        let (new, ordered) = Reference::new(settings)?;
        *self = new;
        Ok(ordered)
    }

    fn receive(&mut self, circuit: u8, source: Mac, frame: &[u8], reply: &mut [u8]) -> Result<Received, Refusal> {
        self.0.receive(circuit, source, frame, reply).map(received).map_err(refusal)
    }

    fn begin_frame(&mut self, circuit: u8, source: Mac) -> Result<(), Refusal> {
        self.0.begin_frame(circuit, source).map_err(refusal)
    }

    fn add_chunk(&mut self, circuit: u8, octets: &[u8]) -> Result<(), Refusal> {
        self.0.add_chunk(circuit, octets).map_err(refusal)
    }

    fn end_frame(&mut self, circuit: u8, reply: &mut [u8]) -> Result<Received, Refusal> {
        self.0.end_frame(circuit, reply).map(received).map_err(refusal)
    }

    fn unfinished(&self, circuit: u8) -> Option<(Mac, &[u8])> {
        self.0.unfinished(circuit)
    }

    fn tick(&mut self, clock: u32) -> Result<Ticked, Refusal> {
        let theirs::Ticked { marks, hellos: ordered, timers: outcome } = self.0.tick(clock).map_err(refusal)?;
        Ok(Ticked { lost: circuits(marks), hellos: hellos(ordered), timers: timers(outcome) })
    }

    fn release(&mut self, circuit: u8) -> Result<(), Refusal> {
        self.0.release(circuit).map_err(refusal)
    }

    fn clear(&mut self, circuit: u8) -> Result<(), Refusal> {
        self.0.clear(circuit).map_err(refusal)
    }

    fn csnp_complete(&mut self, circuit: u8, level: u8) -> Result<Timers, Refusal> {
        self.0.csnp_complete(circuit, level).map(timers).map_err(refusal)
    }

    fn database_complete(&mut self, level: u8) -> Result<Timers, Refusal> {
        self.0.database_complete(level).map(timers).map_err(refusal)
    }

    fn look_up_p2p(&self, circuit: u8, system: SystemId) -> Result<Option<Record>, Refusal> {
        self.look_up_lan(circuit, NO_LEVEL, system, [0; 6])
    }

    fn look_up_lan(&self, circuit: u8, level: u8, system: SystemId, mac: Mac) -> Result<Option<Record>, Refusal> {
        self.0.look_up(circuit, level, system, mac).map(|found| found.map(record)).map_err(refusal)
    }

    fn link_metric(&self, circuit: u8) -> Result<u32, Refusal> {
        self.0.link_metric(circuit).map_err(refusal)
    }

    fn next_hello_flags(&self, circuit: u8, level: u8) -> Result<Flags, Refusal> {
        self.0.next_hello_flags(circuit, level).map(flags).map_err(refusal)
    }

    fn waiting(&self) -> Waiting {
        let (count, lowest) = self.0.waiting();
        Waiting { count, lowest: lowest.map(|number| Circuit::new(number).expect("1 to 8")) }
    }

    fn why(&self, asks: Question, call: &Call, asked: Asked) -> Explained<Reference> {
        let mut reply = Vec::new();
        let made = match *call {
            Call::Receive(circuit, source, ref frame, room, _) => {
                reply = vec![UNTOUCHED; room];
                theirs::Call::Receive { circuit, source, frame, reply: &mut reply }
            }
            Call::Tick(clock) => theirs::Call::Tick(clock),
            Call::Release(n) => theirs::Call::Release(n),
            Call::Clear(n) => theirs::Call::Clear(n),
            Call::Csnp(n, level) => theirs::Call::CsnpComplete(n, level),
            Call::Database(level) => theirs::Call::DatabaseComplete(level),
            Call::LookUpP2p(..) | Call::LookUpLan(..) | Call::Metric(_) | Call::Flags(..) | Call::Waiting => theirs::Call::Asks,
            Call::Begin(..) | Call::Chunk(..) | Call::End(..) => panic!("{call:02x?} is not asked about"),
        };
        let (named, after) = self.0.why(question(asks), made, asked);
        Explained { reason: reason(named), after: Reference(after), reply }
    }
}
