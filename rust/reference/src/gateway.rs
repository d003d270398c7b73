//! The gateway and its calls (document 01, "What the gateway holds"; document 02).

use crate::adjacency::{self, Own, Record};
use crate::answers::{Change, Hellos, Received, Reply, ReplyKind, Ticked, TimerOutcome};
use crate::chunks::Unfinished;
use crate::frame::{self, Hello, Link, RESTART};
use crate::metric;
use crate::refusal::Refusal;
use crate::settings::{CircuitSettings, Kind, Level, Levels, Mac, Mode, Settings, SystemId, MAX_CIRCUITS};
use crate::table::{Key, Place, Room, Senior};
use crate::timers::{Heard, Timers};
use crate::tlvs::Flags;

/// The octets of a reply: a whole Restart TLV.
const REPLY_LENGTH: usize = 11;

#[derive(Clone, Debug, PartialEq, Eq)]
struct Circuit {
    settings: CircuitSettings,
    room: Room,
    unfinished: Unfinished,
}

/// A gateway of 1 to 8 circuits.
#[derive(Clone, Debug, PartialEq, Eq)]
pub struct Gateway {
    system: SystemId,
    clock: u32,
    circuits: Vec<Circuit>,
    /// The timers of a restart or start; the mode is Running where there are none.
    timers: Option<Timers>,
}

impl Gateway {
    /// Makes a gateway. If it restarts, a hello with RR is ordered on every circuit, on a LAN at each enabled level. If it
    /// starts, no hello is ordered. Refusal 12.
    pub fn set_up(settings: &Settings) -> Result<(Gateway, Hellos), Refusal> {
        settings.check()?;
        let circuits =
            settings.circuits.iter().map(|&own| Circuit { settings: own, room: Room::new(own.kind), unfinished: Unfinished::NONE });
        let (timers, hellos) = match settings.mode {
            Mode::Running => (None, Hellos::NONE),
            Mode::Restarting => {
                let (timers, hellos) = Timers::restart(settings);
                (Some(timers), hellos)
            }
            Mode::Starting => (Some(Timers::start(settings)), Hellos::NONE),
        };
        let gateway = Gateway { system: settings.system, clock: settings.clock, circuits: circuits.collect(), timers };
        Ok((gateway, hellos))
    }

    /// Takes one hello frame that came on a circuit from a source MAC. `reply` has at least 11 octets and is written only
    /// where the answer has a reply, and there only its first 11 octets. Refusals 1 to 9, in this order.
    pub fn receive(&mut self, circuit: u8, source: Mac, frame: &[u8], reply: &mut [u8]) -> Result<Received, Refusal> {
        let at = self.place(circuit)?;
        if reply.len() < REPLY_LENGTH {
            return Err(Refusal::ReplyRoom);
        }
        let circuit = &mut self.circuits[at];
        let settings = &circuit.settings;
        let hello = frame::read_hello(frame, settings.kind, &settings.mac)?;

        let (key, enabled) = match hello.link {
            Link::Lan { level, .. } => (Key::Lan { level, system: hello.source, mac: source }, settings.levels.has(level)),
            Link::PointToPoint(_) => (Key::PointToPoint { system: hello.source }, true),
        };
        if !enabled || hello.source == self.system {
            return Err(Refusal::NotForUs);
        }
        let place = circuit.room.place(&key);
        let before = circuit.room.at(place);
        let restarting = self.timers.as_ref().is_some_and(Timers::restarting);
        let own = Own { system: self.system, id: settings.id, hold: settings.hold, clock: self.clock, restarting };
        if let Link::PointToPoint(three) = &hello.link {
            if adjacency::names_another(three, &hello, before, &own) {
                return Err(Refusal::OtherNeighbour);
            }
        }
        let (Place::Taken(slot) | Place::Free(slot)) = place else { return Err(Refusal::RoomFull) };

        let reaction = adjacency::react(&hello, before, &own);
        let change = change_of(&hello, before, reaction.record.as_ref());
        if let Some(record) = reaction.record {
            circuit.room.put(slot, key, record);
        }
        let csnps = if reaction.kept_up { csnp_order(circuit, &hello.link) } else { None };
        let heard = match &mut self.timers {
            Some(timers) => timers.hear(at, &hello, &own, change.rises()),
            None => Heard::IDLE,
        };
        self.follow(heard.outcome);
        let reply = reaction.reply.map(|kind| {
            let remaining = reaction.record.map_or(0, |record| remaining(record.expiry, own.clock));
            write_reply(reply, kind, remaining, &hello.source);
            Reply { kind, remaining }
        });
        Ok(Received { reply, csnps, hello: heard.hello.map(Flags::octet), timers: heard.outcome, freed: heard.freed, change })
    }

    /// Begins a frame that comes on a circuit from a source MAC, with no octet yet; drops an unfinished one there. Refusal 1
    /// (document 02, W-205).
    pub fn begin_frame(&mut self, circuit: u8, source: Mac) -> Result<(), Refusal> {
        let at = self.place(circuit)?;
        self.circuits[at].unfinished.begin(source);
        Ok(())
    }

    /// Adds a chunk, which may be empty, to a circuit's unfinished frame. Refusals 1, 13 and 14, in this order: the frame stays
    /// as it was.
    pub fn add_chunk(&mut self, circuit: u8, octets: &[u8]) -> Result<(), Refusal> {
        let at = self.place(circuit)?;
        self.circuits[at].unfinished.add(octets)
    }

    /// Ends a circuit's unfinished frame: receive, of the begin's MAC and the octets joined, whatever the gateway is by now. The
    /// frame is dropped, also where that refuses. Refusals 1 and 13, and then those of receive from 2 on.
    pub fn end_frame(&mut self, circuit: u8, reply: &mut [u8]) -> Result<Received, Refusal> {
        let at = self.place(circuit)?;
        let (source, frame) = self.circuits[at].unfinished.take()?;
        let answer = self.receive(circuit, source, &frame, reply);
        self.circuits[at].unfinished.give_back(frame);
        answer
    }

    /// A circuit's unfinished frame: its source MAC and the octets joined so far. None too where no circuit has that number.
    pub fn unfinished(&self, circuit: u8) -> Option<(Mac, &[u8])> {
        self.circuits[self.place(circuit).ok()?].unfinished.get()
    }

    /// Moves the clock, removes the records that ended and runs the timers. An equal clock is a whole tick. Refusal 10.
    pub fn tick(&mut self, clock: u32) -> Result<Ticked, Refusal> {
        if clock < self.clock {
            return Err(Refusal::ClockBack);
        }
        self.clock = clock;
        let mut marks = [false; MAX_CIRCUITS];
        for (circuit, mark) in self.circuits.iter_mut().zip(&mut marks) {
            *mark = circuit.room.expire(u64::from(clock));
        }
        let (hellos, outcome) = match &mut self.timers {
            Some(timers) => timers.tick(clock),
            None => (Hellos::NONE, TimerOutcome::Idle),
        };
        self.follow(outcome);
        Ok(Ticked { marks, hellos, timers: outcome })
    }

    /// Removes a circuit's Planned records. Refusal 1.
    pub fn release(&mut self, circuit: u8) -> Result<(), Refusal> {
        let at = self.place(circuit)?;
        self.circuits[at].room.release();
        Ok(())
    }

    /// Removes all records of a circuit: its link went down. No timer is touched. Refusal 1.
    pub fn clear(&mut self, circuit: u8) -> Result<(), Refusal> {
        let at = self.place(circuit)?;
        self.circuits[at].room = Room::new(self.circuits[at].settings.kind);
        Ok(())
    }

    /// The CSNP set of a level is complete on a circuit. Refusals 1 and 11.
    pub fn csnp_complete(&mut self, circuit: u8, level: u8) -> Result<TimerOutcome, Refusal> {
        let at = self.place(circuit)?;
        let level = enabled(level, self.circuits[at].settings.levels)?;
        let timers = self.timers.as_mut().ok_or(Refusal::NotRestarting)?;
        let outcome = timers.csnp_complete(at, level);
        self.follow(outcome);
        Ok(outcome)
    }

    /// The database of a level is complete. Refusals 1, for a level enabled on no circuit, and 11.
    pub fn database_complete(&mut self, level: u8) -> Result<TimerOutcome, Refusal> {
        let levels = self.circuits.iter().fold(Levels::NONE, |all, circuit| all.union(circuit.settings.levels));
        let level = enabled(level, levels)?;
        let timers = self.timers.as_mut().ok_or(Refusal::NotRestarting)?;
        let outcome = timers.database_complete(level);
        self.follow(outcome);
        Ok(outcome)
    }

    /// The record of a key, if it stands. A point-to-point record is known by its System ID; level and MAC are not looked
    /// at there. Refusal 1, also for a level not enabled on a LAN.
    pub fn look_up(&self, circuit: u8, level: u8, system: SystemId, mac: Mac) -> Result<Option<Record>, Refusal> {
        let circuit = &self.circuits[self.place(circuit)?];
        let key = match circuit.settings.kind {
            Kind::Lan => Key::Lan { level: enabled(level, circuit.settings.levels)?, system, mac },
            Kind::PointToPoint => Key::PointToPoint { system },
        };
        Ok(circuit.room.find(&key).copied())
    }

    /// The metric of a circuit's link: the configured one, worse by the reverse metric of a point-to-point neighbour that
    /// is UP. Refusal 1.
    pub fn link_metric(&self, circuit: u8) -> Result<u32, Refusal> {
        let Circuit { settings, room, .. } = &self.circuits[self.place(circuit)?];
        let reverse = match settings.kind {
            Kind::Lan => None,
            Kind::PointToPoint => room.first().filter(|record| record.up).and_then(|record| record.reverse),
        };
        Ok(reverse.map_or(settings.metric, |reverse| metric::with_reverse(settings.metric, reverse)))
    }

    /// The flags of the next hello on a circuit at a level; on point-to-point, of its one hello, at each enabled level. While
    /// we restart: RR exactly while its T1 runs, and no other. While we start: SA, and RR beside it while its T1 runs and has
    /// expired. While running: none. Refusal 1, also for a level not enabled there (document 02, W-202).
    pub fn next_hello_flags(&self, circuit: u8, level: u8) -> Result<u8, Refusal> {
        let at = self.place(circuit)?;
        let level = enabled(level, self.circuits[at].settings.levels)?;
        Ok(self.timers.as_ref().map_or(Flags::NONE, |timers| timers.flags(at, level)).octet())
    }

    /// How many T1s still run, and the lowest circuit that has one: a LAN has one for each level, point-to-point one (document
    /// 02, W-202).
    pub fn waiting(&self) -> (u32, Option<u8>) {
        let mask = self.timers.as_ref().map_or(0, Timers::waiting);
        let lowest = (mask != 0).then(|| mask.trailing_zeros() as u8 / 2 + 1);
        (mask.count_ones(), lowest)
    }

    /// The router that has the CSNP duty before us at a level of a LAN circuit.
    pub(crate) fn senior(&self, circuit: u8, level: u8) -> Option<Senior> {
        let Circuit { settings: own, room, .. } = &self.circuits[self.place(circuit).ok()?];
        room.senior(Level::from_number(level)?, own.priority, own.mac)
    }

    /// The place of a circuit by its number. Refusal 1.
    fn place(&self, circuit: u8) -> Result<usize, Refusal> {
        match usize::from(circuit).checked_sub(1) {
            Some(at) if at < self.circuits.len() => Ok(at),
            _ => Err(Refusal::NoCircuit),
        }
    }

    /// Drops the timers of a restart or start that ended: the mode is Running.
    fn follow(&mut self, outcome: TimerOutcome) {
        if matches!(outcome, TimerOutcome::Ended { .. }) {
            self.timers = None;
        }
    }
}

/// A level by its number, refused (1) unless enabled.
fn enabled(level: u8, levels: Levels) -> Result<Level, Refusal> {
    Level::from_number(level).filter(|&level| levels.has(level)).ok_or(Refusal::NoCircuit)
}

/// What becomes of the record of a frame.
fn change_of(hello: &Hello, before: Option<&Record>, after: Option<&Record>) -> Change {
    Change {
        level: match hello.link {
            Link::Lan { level, .. } => level.number(),
            Link::PointToPoint(_) => 0,
        },
        system: hello.source,
        before: before.map(|record| record.up),
        after: after.map(|record| record.up),
        advertised: after.is_some_and(Record::advertised),
    }
}

/// The levels for which a restart request on this circuit orders CSNPs, if it does: always on point-to-point, and on a LAN
/// unless another router has the duty.
fn csnp_order(circuit: &Circuit, link: &Link) -> Option<Levels> {
    let own = &circuit.settings;
    match *link {
        Link::PointToPoint(_) => Some(own.levels),
        Link::Lan { level, .. } => (!circuit.room.outranked(level, own.priority, own.mac)).then(|| Levels::only(level)),
    }
}

/// The Remaining Time of a reply: expiry less clock, held to the field's range.
fn remaining(expiry: u64, clock: u32) -> u16 {
    u16::try_from(expiry.saturating_sub(u64::from(clock))).unwrap_or(u16::MAX)
}

/// Writes the reply's Restart TLV to the first 11 octets, which the caller checked.
fn write_reply(reply: &mut [u8], kind: ReplyKind, remaining: u16, sender: &SystemId) {
    let flag = match kind {
        ReplyKind::Ra => Flags::RA,
        ReplyKind::Pa => Flags::PA,
    };
    reply[0] = RESTART;
    reply[1] = 9;
    reply[2] = flag.octet();
    reply[3..5].copy_from_slice(&remaining.to_be_bytes());
    reply[5..REPLY_LENGTH].copy_from_slice(sender);
}
