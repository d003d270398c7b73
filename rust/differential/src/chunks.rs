//! The branches of frames that come in chunks (document 02, W-205), as they can be told apart from outside.
use crate::calls::{is_piece, name, named, Call};
use crate::coverage::Coverage;
use crate::side::{Answer, Side};
use crate::watch::timers_of;
use isis_gr::{Ack, Received, Refusal, Standing, Timers};
use isis_gr_reference::{Kind, Mac, Mode, Settings, MAX_CIRCUITS};

/// The most octets that are joined.
const MOST: usize = 1_500;

/// The least reply buffer.
const ROOM: usize = 11;

/// What came of a circuit's frame since its begin.
#[derive(Clone, Copy, Default)]
struct Begun {
    chunks: u32,
    empty: bool,
    /// A chunk was refused 14.
    too_long: bool,
    /// A first chunk with octets ended before the least header does.
    cut_header: bool,
    clock: u64,
    /// The mode was not Running.
    timers: bool,
    /// A frame came whole on the circuit.
    receive: bool,
}

/// What the answers told of the unfinished frames.
#[derive(Default)]
pub struct Chunks([Option<Begun>; MAX_CIRCUITS]);

/// A call, and what it came to.
pub struct Handed<'a, S> {
    /// The call.
    pub call: &'a Call,
    /// Its answer.
    pub answer: Result<Answer, Refusal>,
    /// The side before it.
    pub before: &'a S,
    /// What the gateway was set up with.
    pub settings: &'a Settings,
    /// The clock.
    pub clock: u64,
    /// Whether the mode was Running before it.
    pub running: bool,
}

const MODES: [&str; 3] = ["Running", "Restarting", "Starting"];
/// The calls that leave an unfinished frame of the circuit that they name, and those that name none.
const BESIDE: [&str; 11] =
    ["receive", "tick", "release", "clear", "csnp", "database", "P2P look up", "LAN look up", "metric", "flags", "waiting"];

/// Every branch that must be reached, the refusals included.
pub fn branches() -> Vec<String> {
    let mut all: Vec<String> = [
        "begin refused 1",
        "chunk refused 1",
        "chunk refused 13",
        "chunk refused 14",
        "end refused 13",
        "begin, no frame there",
        "begin again, octets are dropped",
        "begin again, no octet is dropped",
        "begin again, from another MAC",
        "frames begun on two circuits",
        "frames begun on three circuits or more",
        "chunk, the first",
        "chunk, a later one",
        "chunk, empty",
        "chunk, up to 1,500 octets",
        "chunk, empty, behind 1,500 octets",
        "chunk that fits, behind one that was too long",
        "chunk refused 14 by one octet",
        "chunk refused 14, above 1,500 octets alone",
        "chunk refused 14 behind 1,500 octets",
        "chunk refused 1, too long besides",
        "chunk refused 13, too long besides",
        "end refused 1, no room besides",
        "end refused 13, no room besides",
        "end refused 2, no octet",
        "end refused 3, no octet",
        "end refused 4, 1,500 octets",
        "end accepted, no cut",
        "end accepted, cut",
        "end accepted, cut in the header",
        "end accepted, cut octets and empty chunks",
        "end accepted, 1,500 octets",
        "end accepted, though a chunk was too long",
        "end accepted, reply RA",
        "end accepted, reply PA",
        "end accepted, T1 begins",
        "end accepted, a restart or start ends",
        "end accepted, a frame came whole since the begin",
        "end accepted, the clock moved since the begin",
        "end accepted, the mode ended since the begin",
        "end accepted, no record is kept, as the restart ended since the begin",
        "refused 1 leaves frames begun",
        "refused 13 leaves frames begun",
        "set up drops frames begun",
        "the mode ends, frames stay begun",
        "receive refused, a frame begun there stays",
    ]
    .map(str::to_owned)
    .to_vec();
    all.extend((1..=9).map(|n| format!("end refused {n}")));
    all.extend(["P2P", "LAN"].map(|kind| format!("end accepted, {kind}")));
    all.extend(MODES.map(|mode| format!("end accepted, {mode}")));
    all.extend(BESIDE.map(|name| format!("{name}, a frame begun there stays")));
    all
}

impl Chunks {
    /// A set-up over whatever stood there.
    pub fn set_up(&mut self, c: &mut Coverage) {
        c.hit_if(self.0.iter().any(Option::is_some), "set up drops frames begun");
        *self = Chunks::default();
    }

    /// The branches that a call shows.
    pub fn count<S: Side>(&mut self, c: &mut Coverage, seen: &Handed<'_, S>) {
        let unfinished = named(seen.call).and_then(|n| seen.before.unfinished(n));
        let begun = self.0.iter().flatten().count();
        c.hit_if(begun > 0 && seen.answer == Err(Refusal::NoCircuit), "refused 1 leaves frames begun");
        c.hit_if(begun > 0 && seen.answer == Err(Refusal::NotBegun), "refused 13 leaves frames begun");
        match *seen.call {
            Call::Begin(n, source) => self.count_begin(c, seen, n, source, unfinished),
            Call::Chunk(n, ref octets) => self.count_chunk(c, seen, n, octets, unfinished),
            Call::End(n, room, ..) => self.count_end(c, seen, n, room, unfinished),
            _ => self.count_beside(c, seen, unfinished.is_some()),
        }
    }

    fn at(&mut self, n: u8) -> &mut Option<Begun> {
        &mut self.0[usize::from(n) - 1]
    }

    fn count_begin<S>(&mut self, c: &mut Coverage, seen: &Handed<'_, S>, n: u8, source: Mac, before: Option<(Mac, &[u8])>) {
        if seen.answer.is_err() {
            return;
        }
        c.hit_if(before.is_none(), "begin, no frame there");
        c.hit_if(before.is_some_and(|(_, octets)| !octets.is_empty()), "begin again, octets are dropped");
        c.hit_if(before.is_some_and(|(_, octets)| octets.is_empty()), "begin again, no octet is dropped");
        c.hit_if(before.is_some_and(|(mac, _)| mac != source), "begin again, from another MAC");
        *self.at(n) = Some(Begun { clock: seen.clock, timers: !seen.running, ..Begun::default() });
        let begun = self.0.iter().flatten().count();
        c.hit_if(begun == 2, "frames begun on two circuits");
        c.hit_if(begun > 2, "frames begun on three circuits or more");
    }

    fn count_chunk<S>(&mut self, c: &mut Coverage, seen: &Handed<'_, S>, n: u8, chunk: &[u8], before: Option<(Mac, &[u8])>) {
        let too_long = chunk.len() > MOST;
        match seen.answer {
            Err(Refusal::NoCircuit) => c.hit_if(too_long, "chunk refused 1, too long besides"),
            Err(Refusal::NotBegun) => c.hit_if(too_long, "chunk refused 13, too long besides"),
            Err(_) => {
                let joined = before.map_or(0, |(_, octets)| octets.len());
                c.hit_if(joined + chunk.len() == MOST + 1, "chunk refused 14 by one octet");
                c.hit_if(too_long, "chunk refused 14, above 1,500 octets alone");
                c.hit_if(joined == MOST, "chunk refused 14 behind 1,500 octets");
                self.at(n).as_mut().expect("begun").too_long = true;
            }
            Ok(_) => {
                let (_, joined) = before.expect("begun");
                let begun = self.at(n).as_mut().expect("begun");
                c.hit(if begun.chunks == 0 { "chunk, the first" } else { "chunk, a later one" });
                c.hit_if(chunk.is_empty(), "chunk, empty");
                c.hit_if(!chunk.is_empty() && joined.len() + chunk.len() == MOST, "chunk, up to 1,500 octets");
                c.hit_if(chunk.is_empty() && joined.len() == MOST, "chunk, empty, behind 1,500 octets");
                c.hit_if(!chunk.is_empty() && begun.too_long, "chunk that fits, behind one that was too long");
                begun.chunks += 1;
                begun.empty |= chunk.is_empty();
                begun.cut_header |= joined.is_empty() && (1..20).contains(&chunk.len());
            }
        }
    }

    fn count_end<S>(&mut self, c: &mut Coverage, seen: &Handed<'_, S>, n: u8, room: usize, before: Option<(Mac, &[u8])>) {
        c.hit_if(seen.answer == Err(Refusal::NoCircuit) && room < ROOM, "end refused 1, no room besides");
        c.hit_if(seen.answer == Err(Refusal::NotBegun) && room < ROOM, "end refused 13, no room besides");
        let Some((_, octets)) = before.filter(|_| seen.answer != Err(Refusal::NoCircuit)) else { return };
        let begun = self.at(n).take().expect("begun");
        match seen.answer {
            Ok(Answer::Received(got)) => self.count_accepted(c, seen, n, octets.len(), begun, got),
            Ok(other) => panic!("{other:?} is no answer to an end"),
            Err(why) => {
                c.hit_if(why == Refusal::ReplyRoom && octets.is_empty(), "end refused 2, no octet");
                c.hit_if(why == Refusal::NotHello && octets.is_empty(), "end refused 3, no octet");
                c.hit_if(why == Refusal::BadLength && octets.len() == MOST, "end refused 4, 1,500 octets");
            }
        }
    }

    fn count_accepted<S>(&self, c: &mut Coverage, seen: &Handed<'_, S>, n: u8, length: usize, begun: Begun, got: Received) {
        let kind = seen.settings.circuits[usize::from(n) - 1].kind;
        c.hit(&format!("end accepted, {}", if kind == Kind::Lan { "LAN" } else { "P2P" }));
        c.hit(&format!("end accepted, {}", if seen.running { "Running" } else { mode_name(seen.settings.mode) }));
        c.hit(if begun.chunks == 1 { "end accepted, no cut" } else { "end accepted, cut" });
        c.hit_if(begun.cut_header, "end accepted, cut in the header");
        c.hit_if(begun.empty && begun.chunks > 2, "end accepted, cut octets and empty chunks");
        c.hit_if(length == MOST, "end accepted, 1,500 octets");
        c.hit_if(begun.too_long, "end accepted, though a chunk was too long");
        c.hit_if(got.reply.is_some_and(|reply| reply.ack == Ack::Restart), "end accepted, reply RA");
        c.hit_if(got.reply.is_some_and(|reply| reply.ack == Ack::Planned), "end accepted, reply PA");
        c.hit_if(got.hello.is_some(), "end accepted, T1 begins");
        c.hit_if(matches!(got.timers, Timers::Ended { .. }), "end accepted, a restart or start ends");
        c.hit_if(begun.receive, "end accepted, a frame came whole since the begin");
        c.hit_if(begun.clock < seen.clock, "end accepted, the clock moved since the begin");
        let over = begun.timers && seen.running;
        c.hit_if(over, "end accepted, the mode ended since the begin");
        // a restart would have kept one
        let none = got.change.after == Standing::None && seen.settings.mode == Mode::Restarting;
        c.hit_if(over && none, "end accepted, no record is kept, as the restart ended since the begin");
    }

    /// A call that is none of the three.
    fn count_beside<S>(&mut self, c: &mut Coverage, seen: &Handed<'_, S>, there: bool) {
        debug_assert!(!is_piece(seen.call));
        let any = self.0.iter().any(Option::is_some);
        let stays = if named(seen.call).is_some() { there } else { any };
        let receive = matches!(seen.call, Call::Receive(..));
        c.hit_if(stays && seen.answer.is_ok(), &format!("{}, a frame begun there stays", name(seen.call)));
        c.hit_if(stays && seen.answer.is_err() && receive, "receive refused, a frame begun there stays");
        let ended = seen.answer.is_ok_and(|answer| matches!(timers_of(answer), Timers::Ended { .. }));
        c.hit_if(any && ended, "the mode ends, frames stay begun");
        if let (true, true, Some(n)) = (receive, there, named(seen.call)) {
            self.at(n).as_mut().expect("begun").receive |= seen.answer.is_ok();
        }
    }
}

fn mode_name(mode: Mode) -> &'static str {
    match mode {
        Mode::Running => "Running",
        Mode::Restarting => "Restarting",
        Mode::Starting => "Starting",
    }
}
