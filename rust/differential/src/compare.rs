//! One random run of both: a difference panics with the seed and the call.
use crate::calls::{call, is_piece, mode, name, named, question, settings, spoilt, Call, Now};
use crate::chunks::{Chunks, Handed};
use crate::coverage::Coverage;
use crate::frames::{mac, system, Meant, MACS, SYSTEMS};
use crate::levels::ByLevel;
use crate::marks::{self, is_up, Took};
use crate::memory;
use crate::places;
use crate::proved::Proved;
use crate::random::Random;
use crate::reference::Reference;
use crate::side::{Answer, Outcome, Side, UNTOUCHED};
use crate::starting::Start;
use crate::watch::{timers_of, Seen, Watch};
use crate::why::{self, Asking};
use isis_gr::{Ack, Flags, Freed, Hellos, Overload, Question, Received, Record, Refusal, Timers};
use isis_gr_reference::{Asked, Kind, Mac, Mode, Settings, MAX_CIRCUITS};
use isis_gr_sys::{FRAME_OCTETS, GATEWAY_WORDS};

/// Both gateways, and the settings that they came from.
pub struct Pair {
    proved: Proved,
    reference: Reference,
    settings: Settings,
    watch: Watch,
    start: Start,
    levels: ByLevel,
    chunks: Chunks,
    /// the mode is Running
    running: bool,
}

fn timers(c: &mut Coverage, t: Timers) {
    match t {
        Timers::Idle => c.hit("timers idle"),
        Timers::GoOn { .. } => c.hit("timers go on"),
        Timers::Ended { .. } => c.hit("timers ended"),
        _ => panic!("{t:?} has no branch"),
    }
    c.hit_if(!t.spf().is_empty(), "SPF ordered");
    c.hit_if(t.overload() == Overload::Set, "overload set");
    c.hit_if(t.overload() == Overload::Clear, "overload clear");
    c.hit_if(t.overload() == Overload::Both, "overload both");
}

/// The branch of a refused call.
fn refused(c: &mut Coverage, call: &Call, why: Refusal) {
    c.hit(&format!("{} refused {}", name(call), why.number()));
    c.hit_if(why == Refusal::NoRoom, "full room");
    c.hit_if(named(call).is_some_and(|n| !(1..=MAX_CIRCUITS).contains(&usize::from(n))), "circuit 0, or above 8");
    let (Call::Csnp(_, level) | Call::Database(level) | Call::LookUpLan(_, level, ..) | Call::Flags(_, level)) = *call else { return };
    c.hit_if(!(1..=2).contains(&level), "level that is neither 1 nor 2");
}

impl Pair {
    /// Sets both up, the memory being whatever it was.
    pub fn new(r: &mut Random, c: &mut Coverage, mode: Mode) -> Pair {
        let settings = settings(r, mode);
        let filling = r.pick(&[0, u64::MAX, 0x0101_0101_0101_0101, 5_283_647_409_863_405_617]);
        let mut proved = Proved::of_memory([filling; GATEWAY_WORDS], [filling as u8; FRAME_OCTETS]);
        let (mut reference, hellos) = Reference::new(&settings).expect("in range");
        let bad = spoilt(r, settings.clone());
        let before = (proved.clone(), reference.clone());
        assert_eq!(proved.set_up(&bad), Err(Refusal::BadSetting), "{bad:?}");
        assert_eq!(reference.set_up(&bad), Err(Refusal::BadSetting), "{bad:?}");
        assert!((&proved, &reference) == (&before.0, &before.1), "a refused set-up changed the memory");
        c.hit("setup refused 12");
        assert_eq!(proved.set_up(&settings), Ok(hellos));
        let watch = Watch::new(&settings, hellos);
        let (start, levels) = (Start::new(&settings), ByLevel::new(c, &settings, &watch, hellos));
        let running = settings.mode == Mode::Running;
        let pair = Pair { proved, reference, settings, watch, start, levels, chunks: Chunks::default(), running };
        pair.look_at_frames();
        pair
    }

    /// Sets both up anew over what they hold, at this clock.
    fn set_up_again(&mut self, c: &mut Coverage, clock: u32) {
        self.settings.clock = clock;
        let hellos: Hellos = self.proved.set_up(&self.settings).expect("in range");
        assert_eq!(self.reference.set_up(&self.settings), Ok(hellos));
        self.watch = Watch::new(&self.settings, hellos);
        self.start = Start::new(&self.settings);
        self.levels = ByLevel::new(c, &self.settings, &self.watch, hellos);
        self.chunks.set_up(c);
        self.running = self.settings.mode == Mode::Running;
        self.look_at_frames();
    }

    /// The record of the key that a frame has.
    fn look(&self, circuit: u8, meant: Meant, source: Mac) -> Option<Record> {
        self.look_at(circuit, meant.level.max(1), meant.system, source)
    }

    fn look_at(&self, circuit: u8, level: u8, from: u8, source: Mac) -> Option<Record> {
        let a = self.proved.look_up_lan(circuit, level, system(from), source);
        let b = self.reference.look_up_lan(circuit, level, system(from), source);
        assert_eq!(a, b, "record of {from} {source:?} at {level} on {circuit}");
        a.ok().flatten()
    }

    /// Every record of every key that frames can have.
    pub fn look_at_all(&self) {
        for circuit in 1..=MAX_CIRCUITS as u8 {
            for from in 0..SYSTEMS {
                for level in 1..=2 {
                    for n in 0..MACS {
                        self.look_at(circuit, level, from, mac(n));
                    }
                }
                assert_eq!(self.proved.look_up_p2p(circuit, system(from)), self.reference.look_up_p2p(circuit, system(from)));
            }
            assert_eq!(self.proved.link_metric(circuit), self.reference.link_metric(circuit));
            for level in 0..=3 {
                assert_eq!(self.proved.next_hello_flags(circuit, level), self.reference.next_hello_flags(circuit, level));
            }
        }
        assert_eq!(self.proved.waiting(), self.reference.waiting());
    }

    /// Every unfinished frame.
    fn look_at_frames(&self) {
        for circuit in 1..=MAX_CIRCUITS as u8 {
            assert_eq!(self.proved.unfinished(circuit), self.reference.unfinished(circuit), "unfinished frame on {circuit}");
        }
    }

    /// The receive that an end is: of the begin's MAC and the octets joined. What was meant holds of them where they are the frame that was meant.
    fn as_receive(&self, call: &Call) -> Option<Call> {
        let Call::End(n, room, ref frame, meant) = *call else { return None };
        let (source, octets) = self.reference.unfinished(n)?;
        let meant = Meant { damaged: meant.damaged || octets != frame, ..meant };
        Some(Call::Receive(n, source, octets.to_vec(), room, meant))
    }

    fn is_lan(&self, n: u8) -> bool {
        self.settings.circuits[usize::from(n) - 1].kind == Kind::Lan
    }

    fn count_frame(&self, c: &mut Coverage, n: u8, got: Received, stood: Option<Record>, after: Option<Record>, meant: Meant) {
        let lan = self.is_lan(n);
        c.hit_if(got.reply.is_some_and(|reply| reply.ack == Ack::Planned), "reply PA");
        c.hit_if(got.reply.is_some_and(|reply| reply.ack == Ack::Restart), "reply RA");
        c.hit_if(!got.csnps.is_empty() && !lan, "CSNPs on P2P");
        c.hit_if(!got.csnps.is_empty() && lan, "CSNPs on a LAN");
        c.hit_if(got.freed == Freed::Stopped, "T1 stopped");
        c.hit_if(got.freed == Freed::Reinitialise, "T1 stopped, reinitialise");
        if meant.damaged {
            return;
        }
        c.hit_if(got.reply.is_some() && after.is_none(), "reply RA, no record");
        let line1 = meant.flags.is_some_and(|f| f & 1 == 1) && is_up(stood) && got.reply.is_some();
        c.hit_if(line1 && lan && got.csnps.is_empty(), "no CSNPs on a LAN: another has the duty");
        let configured = self.settings.circuits[usize::from(n) - 1].hold;
        marks::count(c, meant, &Took { lan, clock: self.watch.clock, configured, stood, after });
        c.hit_if(stood.is_none() && after.is_none(), "no record, and none is kept");
        c.hit_if(is_up(stood) && (meant.wrong_system || meant.wrong_circuit), "wrong ID excused by RR on an UP record");
        c.hit_if(!is_up(stood) && meant.wrong_circuit, "wrong circuit ID excused while Restarting");
        if let Some(record) = after {
            c.hit_if(!is_up(after), "record INIT");
            c.hit_if(is_up(after), "record UP");
            c.hit_if(record.suppressed, "record suppressed");
            c.hit_if(record.reverse.is_some_and(|m| m.whole_lan), "record with W");
            c.hit_if(record.reverse.is_some_and(|m| m.unreachable), "record with U");
        }
    }

    fn count_metric(&self, c: &mut Coverage, n: u8, metric: u32) {
        let configured = self.settings.circuits[usize::from(n) - 1].metric;
        c.hit_if(metric == configured, "metric configured");
        c.hit_if(metric > configured && metric < 16_777_214, "metric raised");
        c.hit_if(metric > configured && metric == 16_777_214, "metric at 16,777,214");
        c.hit_if(metric == 16_777_215, "metric at 16,777,215");
    }

    /// The branches that an answer shows; of a frame, with its record before.
    fn count(&self, c: &mut Coverage, call: &Call, answer: Answer, stood: Option<Record>) {
        match (call, answer) {
            (&Call::Receive(n, source, _, _, meant), Answer::Received(got)) => {
                timers(c, got.timers);
                self.count_frame(c, n, got, stood, self.look(n, meant, source), meant);
            }
            (_, Answer::Ticked(t)) => {
                timers(c, t.timers);
                c.hit_if(!t.lost.is_empty(), "tick marks a circuit");
                c.hit_if(t.hellos.flags == Flags::RR, "tick orders RR");
                c.hit_if(t.hellos.flags == Flags::RR.and(Flags::SA), "tick orders RR and SA");
            }
            (_, Answer::Timers(t)) => timers(c, t),
            (_, Answer::Record(found)) => {
                let name = if matches!(call, Call::LookUpP2p(..)) { "P2P look up" } else { "LAN look up" };
                c.hit(&format!("{name} finds{}", if found.is_some() { "" } else { " none" }));
            }
            (&Call::Metric(n), Answer::Metric(metric)) => self.count_metric(c, n, metric),
            (&Call::Flags(n, level), Answer::Flags(flags)) => {
                self.levels.count_flags(c, self.is_lan(n), flags, self.proved.next_hello_flags(n, 3 - level).ok());
                c.hit_if(flags == Flags::RR, "RR in the next hello");
                c.hit_if(flags == Flags::SA, "SA in the next hello");
                c.hit_if(flags == Flags::RR.and(Flags::SA), "RR and SA in the next hello");
                c.hit_if(flags.is_empty(), "no flag in the next hello");
            }
            (_, Answer::Waiting(waiting)) => {
                c.hit_if(waiting.count > 0, "T1s run");
                c.hit_if(waiting.count == 0, "no T1 runs");
            }
            (_, Answer::Done) => {}
            (_, other) => panic!("{other:?} is no answer to {call:?}"),
        }
    }

    /// A question about a call on both, and then the call; whether a restart or a start ended with it.
    pub fn step(&mut self, c: &mut Coverage, call: &Call, (question, asked): (Question, Asked)) -> bool {
        let (told, theirs) = (self.proved.why(question, call, asked), self.reference.why(question, call, asked));
        assert_eq!((told.reason, &told.reply), (theirs.reason, &theirs.reply), "{question:?} of {asked:02x?}");
        let before = self.proved.clone();
        let (outcome, ended) = self.take(c, call);
        assert!(told.after == self.proved && theirs.after == self.reference, "`after` is not what the call leaves");
        assert_eq!(told.reply, outcome.reply, "the reply");
        let (answer, after, settings) = (outcome.answer, &self.proved, &self.settings);
        why::count(c, &Asking { question, asked, reason: told.reason, call, answer, before: &before, after, settings });
        ended
    }

    /// One call on both. An end counts as the receive that it is.
    fn take(&mut self, c: &mut Coverage, call: &Call) -> (Outcome, bool) {
        let before = self.proved.clone();
        let t1s = self.watch.t1s;
        let whole = self.as_receive(call);
        let counted = whole.as_ref().unwrap_or(call);
        let stood = match *counted {
            Call::Receive(n, source, _, _, meant) => self.look(n, meant, source),
            _ => None,
        };
        let outcome = call.on(&mut self.proved);
        assert_eq!(outcome, call.on(&mut self.reference));
        let answer = outcome.answer;
        let code = answer.err().map_or(0, Refusal::number);
        memory::check(call, code, (before.words(), before.octets()), (self.proved.words(), self.proved.octets()));
        self.look_at_frames();
        if let Some(whole) = &whole {
            self.ends_as(&before, whole, &outcome);
        }
        match answer {
            Err(why) => {
                assert!(outcome.reply.iter().all(|octet| *octet == UNTOUCHED), "a refusal wrote the reply");
                refused(c, call, why);
                if let Call::Receive(_, _, frame, ..) = counted {
                    places::count(c, frame, why);
                }
            }
            Ok(answer) => self.count(c, counted, answer, stood),
        }
        let (settings, clock, running) = (&self.settings, self.watch.clock, self.running);
        self.chunks.count(c, &Handed { call, answer, before: &before, settings, clock, running });
        let timers = answer.map_or(Timers::Idle, |answer| {
            self.watch.follow(counted, answer, self.proved.waiting());
            timers_of(answer)
        });
        let seen = Seen { call: counted, answer, stood, before: t1s, watch: &self.watch };
        self.start.count(c, &seen);
        self.levels.count(c, &seen);
        let fewer = self.watch.t1s.running.count_ones() < t1s.running.count_ones();
        let acknowledged = matches!(counted, Call::Receive(.., m) if !m.damaged && m.acknowledges);
        let keeps = matches!(timers, Timers::GoOn { overload: Overload::Keep, .. });
        c.hit_if(fewer && acknowledged, "T1 stops by an acknowledgement");
        c.hit_if(fewer && matches!(call, Call::Csnp(..)), "T1 stops by a CSNP set");
        c.hit_if(fewer && keeps && matches!(call, Call::Tick(_)), "T1 stops at its last expiry");
        let ended = matches!(timers, Timers::Ended { .. });
        self.running |= ended;
        (outcome, ended)
    }

    /// "The answer, state and reply equal those of receive on the joined octets": the receive, made on the memory before the end. The frame is dropped.
    fn ends_as(&self, before: &Proved, whole: &Call, outcome: &Outcome) {
        let mut twin = before.clone();
        assert_eq!(whole.on(&mut twin), *outcome, "receive on the joined octets");
        assert!(memory::own(twin.words()) == memory::own(self.proved.words()), "an end leaves another gateway than receive");
        assert!(named(whole).is_some_and(|n| self.proved.unfinished(n).is_none()), "an end left its frame");
    }
}

/// A run of `calls` calls from a seed; the branches that it reached. A restart or start that ended mostly begins anew.
pub fn run(seed: u64, calls: u64) -> Coverage {
    let mut c = Coverage::default();
    let mut r = Random::new(seed);
    let mode = mode(&mut r);
    let mut pair = Pair::new(&mut r, &mut c, mode);
    let (mut now, mut asking) = (Now::new(&mut r, pair.settings.clock), Random::new(seed ^ 0xA5C));
    for i in 0..calls {
        let next = call(&mut r, &pair.settings, &mut now);
        let stands = |at: Asked| pair.proved.look_up_lan(at.circuit, at.level, at.system, at.mac).is_ok_and(|found| found.is_some());
        let asked = (!is_piece(&next)).then(|| question(&mut asking, &next, stands));
        let outcome = std::panic::catch_unwind(std::panic::AssertUnwindSafe(|| match asked {
            Some(asked) => pair.step(&mut c, &next, asked),
            None => pair.take(&mut c, &next).1,
        }));
        match outcome {
            Ok(ended) if ended && r.chance(80) => pair.set_up_again(&mut c, now.clock),
            Ok(_) => {}
            Err(why) => {
                eprintln!("seed {seed}, call {i}: {next:02x?} after {:?}", pair.settings);
                std::panic::resume_unwind(why);
            }
        }
        if i % 50 == 49 {
            pair.look_at_all();
        }
    }
    pair.look_at_all();
    c
}
