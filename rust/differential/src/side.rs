//! One trait for both sides, the wrapper of the archive and the reference, and a call made on either.
//!
//! Arguments are plain numbers, so that circuits and levels that do not exist can be named. Answers are the wrapper's types: what is compared is what
//! the wrapper read from the archive's words. Settings are the reference's, whose fields a test can read and spoil.
use crate::calls::Call;
use isis_gr::{Flags, Hellos, Question, Reason, Received, Record, Refusal, Ticked, Timers, Waiting};
use isis_gr_reference::{Asked, Mac, Settings, SystemId};

/// What a reply buffer holds before a call.
pub const UNTOUCHED: u8 = 0xEE;

/// A gateway of one of the two sides.
pub trait Side: Sized {
    /// A gateway that is set up, and the hellos that are ordered.
    fn new(settings: &Settings) -> Result<(Self, Hellos), Refusal>;
    /// Setup over whatever stood there.
    fn set_up(&mut self, settings: &Settings) -> Result<Hellos, Refusal>;
    /// Receive.
    fn receive(&mut self, circuit: u8, source: Mac, frame: &[u8], reply: &mut [u8]) -> Result<Received, Refusal>;
    /// Begin a frame that comes in chunks.
    fn begin_frame(&mut self, circuit: u8, source: Mac) -> Result<(), Refusal>;
    /// A chunk.
    fn add_chunk(&mut self, circuit: u8, octets: &[u8]) -> Result<(), Refusal>;
    /// End it.
    fn end_frame(&mut self, circuit: u8, reply: &mut [u8]) -> Result<Received, Refusal>;
    /// A circuit's unfinished frame: its source MAC, and the octets joined so far.
    fn unfinished(&self, circuit: u8) -> Option<(Mac, &[u8])>;
    /// Tick.
    fn tick(&mut self, clock: u32) -> Result<Ticked, Refusal>;
    /// Release.
    fn release(&mut self, circuit: u8) -> Result<(), Refusal>;
    /// Clear.
    fn clear(&mut self, circuit: u8) -> Result<(), Refusal>;
    /// CSNP set complete.
    fn csnp_complete(&mut self, circuit: u8, level: u8) -> Result<Timers, Refusal>;
    /// Database complete.
    fn database_complete(&mut self, level: u8) -> Result<Timers, Refusal>;
    /// Look up on a P2P circuit.
    fn look_up_p2p(&self, circuit: u8, system: SystemId) -> Result<Option<Record>, Refusal>;
    /// Look up on a LAN circuit.
    fn look_up_lan(&self, circuit: u8, level: u8, system: SystemId, mac: Mac) -> Result<Option<Record>, Refusal>;
    /// Link metric.
    fn link_metric(&self, circuit: u8) -> Result<u32, Refusal>;
    /// Flags of the next hello at a level.
    fn next_hello_flags(&self, circuit: u8, level: u8) -> Result<Flags, Refusal>;
    /// T1s that still run.
    fn waiting(&self) -> Waiting;
    /// Why, of this gateway before a call.
    fn why(&self, question: Question, call: &Call, asked: Asked) -> Explained<Self>;
}

/// What a question is answered.
#[derive(Clone, Debug, PartialEq, Eq)]
pub struct Explained<S, R = Reason> {
    /// The reason.
    pub reason: R,
    /// The gateway as the call leaves it.
    pub after: S,
    /// The reply buffer after the call; empty where the call has none.
    pub reply: Vec<u8>,
}

/// What a call that was not refused answers.
#[derive(Clone, Copy, Debug, PartialEq, Eq)]
pub enum Answer {
    /// To receive, and to an end.
    Received(Received),
    /// To tick.
    Ticked(Ticked),
    /// To release and clear, a begin and a chunk.
    Done,
    /// To the two notices.
    Timers(Timers),
    /// To the two look-ups.
    Record(Option<Record>),
    /// To link metric.
    Metric(u32),
    /// To flags of the next hello.
    Flags(Flags),
    /// To T1s that still run.
    Waiting(Waiting),
}

/// What a call came to.
#[derive(Clone, Debug, PartialEq, Eq)]
pub struct Outcome {
    /// Its answer, or why it was refused.
    pub answer: Result<Answer, Refusal>,
    /// The reply buffer after it; empty where the call has none.
    pub reply: Vec<u8>,
}

impl Call {
    /// The call on a side.
    pub fn on(&self, side: &mut impl Side) -> Outcome {
        let mut reply = Vec::new();
        let answer = match *self {
            Call::Receive(n, source, ref frame, room, _) => {
                reply = vec![UNTOUCHED; room];
                side.receive(n, source, frame, &mut reply).map(Answer::Received)
            }
            Call::Begin(n, source) => side.begin_frame(n, source).map(|()| Answer::Done),
            Call::Chunk(n, ref octets) => side.add_chunk(n, octets).map(|()| Answer::Done),
            Call::End(n, room, ..) => {
                reply = vec![UNTOUCHED; room];
                side.end_frame(n, &mut reply).map(Answer::Received)
            }
            Call::Tick(clock) => side.tick(clock).map(Answer::Ticked),
            Call::Release(n) => side.release(n).map(|()| Answer::Done),
            Call::Clear(n) => side.clear(n).map(|()| Answer::Done),
            Call::Csnp(n, level) => side.csnp_complete(n, level).map(Answer::Timers),
            Call::Database(level) => side.database_complete(level).map(Answer::Timers),
            Call::LookUpP2p(n, system) => side.look_up_p2p(n, system).map(Answer::Record),
            Call::LookUpLan(n, level, system, mac) => side.look_up_lan(n, level, system, mac).map(Answer::Record),
            Call::Metric(n) => side.link_metric(n).map(Answer::Metric),
            Call::Flags(n, level) => side.next_hello_flags(n, level).map(Answer::Flags),
            Call::Waiting => Ok(Answer::Waiting(side.waiting())),
        };
        Outcome { answer, reply }
    }
}
