//! The gateway and its calls.
use crate::answers::{Received, Ticked, Timers, Waiting};
use crate::ffi;
use crate::frames::Frames;
use crate::hellos::{Flags, HelloOrders, Hellos};
use crate::names::{Circuit, Level, Mac, SystemId};
use crate::record::Record;
use crate::refusals::Refusal;
use crate::settings::{SettingError, Settings};
use crate::why::{Call, Key, Question, Reason, Why};

/// The octets of a reply, and the least reply buffer that `receive` and `end_frame` take.
pub const REPLY_OCTETS: usize = 11;

/// The level of a P2P key: it counts for nothing there, and is enabled on no LAN.
pub(crate) const NO_LEVEL: u8 = 0;

/// A gateway: memory of 5,248 octets that [`Gateway::set_up`] makes a gateway of, in place. It stands wherever its owner puts it: in a
/// `static`, in a field, in a box. It is moved and cloned as so many octets.
#[derive(Clone)]
pub struct Gateway {
    words: [u64; Gateway::WORDS],
}

impl Gateway {
    /// The words of a gateway.
    pub const WORDS: usize = ffi::GATEWAY_WORDS;

    /// Memory that is not set up. It holds no circuit: a call that names one is refused 1, a tick has nothing to do, and nothing waits.
    ///
    /// ```
    /// # use isis_gr::{Circuit, Gateway, Refusal};
    /// use std::sync::Mutex;
    ///
    /// static GATEWAY: Mutex<Gateway> = Mutex::new(Gateway::new());
    /// let gateway = GATEWAY.lock().expect("nobody panicked");
    /// assert_eq!(gateway.link_metric(Circuit::new(1).expect("1 to 8")), Err(Refusal::NoCircuit));
    /// ```
    pub const fn new() -> Gateway {
        Gateway::from_words([0; Gateway::WORDS])
    }

    /// Memory with these words, such as another gateway's. Any words are a gateway to the archive, and safe; those that no set-up wrote are
    /// one that nobody meant.
    pub const fn from_words(words: [u64; Gateway::WORDS]) -> Gateway {
        Gateway { words }
    }

    /// Its words: to copy, or to see that a call left them as they were. What each means is not told.
    pub const fn words(&self) -> &[u64; Gateway::WORDS] {
        &self.words
    }

    /// A new gateway, whatever the memory was; the hellos that are ordered (with RR on every circuit, on a LAN at each enabled level, in the mode
    /// Restarting: RFC 8706, 3.3.1 and 3.3.3; else none). Where the archive refuses the settings (12), the memory is as it was, and the error
    /// names the first that is out of its range.
    ///
    /// ```
    /// # use isis_gr::{CircuitSettings, Gateway, Kind, Levels, Mac, Mode, Settings, SystemId};
    /// let lan = CircuitSettings::new(Kind::Lan, Levels::ONE, Mac([2; 6])).hold(0);
    /// let settings = Settings::new(SystemId([1; 6]), Mode::Running, 0).circuit(lan);
    /// let error = Gateway::new().set_up(&settings).unwrap_err();
    /// assert_eq!(error.to_string(), "circuit 1: hold is out of its range");
    /// ```
    pub fn set_up(&mut self, settings: &Settings) -> Result<Hellos, SettingError> {
        let word = ffi::set_up(&mut self.words, &settings.octets());
        match word & 0xFF {
            0 => Ok(Hellos { orders: HelloOrders((word >> 8) as u16), flags: Flags((word >> 24) as u8) }),
            _ => Err(settings.fault()),
        }
    }

    /// Takes one hello frame from a source MAC, from the frame's first octet, 0x83, on (after the LLC's FE FE 03; padding behind the PDU may be
    /// lent too). A reply, where one is due, is the first 11 octets of `reply`; else the buffer is untouched. Refused 1 to 9; 5 and 6 bring the position of
    /// what is wrong, which [`Refusal::in_frame`] says in words.
    pub fn receive(&mut self, circuit: Circuit, from: Mac, frame: &[u8], reply: &mut [u8]) -> Result<Received, Refusal> {
        let words = ffi::receive(&mut self.words, circuit.number(), &from.0, frame, reply);
        Refusal::check(words.answer, words.change)?;
        Ok(Received::of_words(words.answer, words.change))
    }

    /// Begins a frame that comes in chunks (document 02, W-205), from a source MAC. Each circuit has its own unfinished frame: one that was begun
    /// there before is dropped, and [`Gateway::set_up`] drops all; no other call but [`Gateway::add_chunk`] and [`Gateway::end_frame`] touches it.
    /// Refused 1.
    ///
    /// ```
    /// # use isis_gr::{Circuit, CircuitSettings, Frames, Gateway, Kind, Levels, Mac, Mode, Refusal, Settings, SystemId, REPLY_OCTETS};
    /// # let p2p = CircuitSettings::new(Kind::P2p, Levels::TWO, Mac([2; 6]));
    /// # let mut gateway = Gateway::new();
    /// # gateway.set_up(&Settings::new(SystemId([1; 6]), Mode::Running, 0).circuit(p2p)).expect("in range");
    /// let (first, mut frames, mut reply) = (Circuit::new(1).expect("1 to 8"), Frames::new(), [0; REPLY_OCTETS]);
    /// gateway.begin_frame(first, Mac([2, 0, 0, 0, 0, 2]))?;
    /// for chunk in [&b"no"[..], b"", b" hello"] {
    ///     gateway.add_chunk(&mut frames, first, chunk)?;
    /// }
    /// assert_eq!(gateway.end_frame(&frames, first, &mut reply), Err(Refusal::NotHello), "as of `receive`");
    /// assert_eq!(gateway.end_frame(&frames, first, &mut reply), Err(Refusal::NotBegun), "the frame is gone all the same");
    /// # Ok::<(), Refusal>(())
    /// ```
    pub fn begin_frame(&mut self, circuit: Circuit, from: Mac) -> Result<(), Refusal> {
        Refusal::unless(u64::from(ffi::begin_frame(&mut self.words, circuit.number(), &from.0)), ())
    }

    /// Joins a chunk, which may be empty, to a circuit's unfinished frame. All chunks of a frame and its end take the same memory for frames.
    /// Refused 1, 13, or 14 where more than 1,500 octets would be joined; the frame then stays as it was, nothing of the chunk is kept, and a
    /// smaller one may still fit.
    pub fn add_chunk(&mut self, frames: &mut Frames, circuit: Circuit, octets: &[u8]) -> Result<(), Refusal> {
        Refusal::unless(u64::from(ffi::add_chunk(&mut self.words, frames.octets_mut(), circuit.number(), octets)), ())
    }

    /// Ends a circuit's unfinished frame: answer, gateway and reply are those of [`Gateway::receive`] on the octets joined, with the MAC of the
    /// begin and the clock and mode of now. Refused 1, 13, or as `receive` is, 2 to 9; the frame is dropped but with 1 and 13.
    pub fn end_frame(&mut self, frames: &Frames, circuit: Circuit, reply: &mut [u8]) -> Result<Received, Refusal> {
        let words = ffi::end_frame(&mut self.words, frames.octets(), circuit.number(), reply);
        Refusal::check(words.answer, words.change)?;
        Ok(Received::of_words(words.answer, words.change))
    }

    /// The clock in seconds. Refused 10 where it is lower than the held one.
    pub fn tick(&mut self, clock: u32) -> Result<Ticked, Refusal> {
        let word = ffi::tick(&mut self.words, clock);
        Refusal::unless(word, Ticked::of_word(word))
    }

    /// Removes a circuit's Planned records. Refused 1.
    pub fn release(&mut self, circuit: Circuit) -> Result<(), Refusal> {
        Refusal::unless(u64::from(ffi::release(&mut self.words, circuit.number())), ())
    }

    /// The link went down: removes all records of a circuit, and touches no timer. Refused 1.
    pub fn clear(&mut self, circuit: Circuit) -> Result<(), Refusal> {
        Refusal::unless(u64::from(ffi::clear(&mut self.words, circuit.number())), ())
    }

    /// The CSNP set of a level is complete on a circuit. Refused 1 or 11.
    pub fn csnp_complete(&mut self, circuit: Circuit, level: Level) -> Result<Timers, Refusal> {
        let word = ffi::csnp_complete(&mut self.words, circuit.number(), level.number());
        Refusal::unless(word, Timers::of_word(word))
    }

    /// The database of a level is complete. Refused 1 or 11.
    pub fn database_complete(&mut self, level: Level) -> Result<Timers, Refusal> {
        let word = ffi::database_complete(&mut self.words, level.number());
        Refusal::unless(word, Timers::of_word(word))
    }

    /// The record of a neighbour on a P2P circuit, known by its System ID alone. Refused 1, on a LAN too.
    pub fn look_up_p2p(&self, circuit: Circuit, system: SystemId) -> Result<Option<Record>, Refusal> {
        self.find(circuit, NO_LEVEL, system, Mac([0; 6]))
    }

    /// The record of a neighbour on a LAN circuit, by level, System ID and source MAC. Refused 1. On P2P the level and the MAC count for
    /// nothing.
    pub fn look_up_lan(&self, circuit: Circuit, level: Level, system: SystemId, mac: Mac) -> Result<Option<Record>, Refusal> {
        self.find(circuit, level.number(), system, mac)
    }

    fn find(&self, circuit: Circuit, level: u8, system: SystemId, mac: Mac) -> Result<Option<Record>, Refusal> {
        let mut record = [0; 2];
        let word = ffi::look_up(&self.words, circuit.number(), level, &system.0, &mac.0, &mut record);
        Refusal::unless(u64::from(word), Record::of_words(word, record))
    }

    /// The metric of a circuit's link. Refused 1.
    pub fn link_metric(&self, circuit: Circuit) -> Result<u32, Refusal> {
        let word = ffi::link_metric(&self.words, circuit.number());
        Refusal::unless(word, (word >> 32) as u32)
    }

    /// The flags of the Restart TLV in the next hello on a circuit at a level; on P2P in the one hello, at each enabled level. RR while its T1 of a
    /// restart runs (RFC 8706, 3.3.1); SA while we start, and RR beside it from the first expiry of its T1 while that runs (RFC 8706, 3.3.2). Refused
    /// 1, also for a level that is not enabled on the circuit.
    ///
    /// ```
    /// # use isis_gr::{Circuit, CircuitSettings, Flags, Gateway, Kind, Level, Levels, Mac, Mode, Refusal, Settings, SystemId};
    /// let p2p = CircuitSettings::new(Kind::P2p, Levels::TWO, Mac([2; 6]));
    /// let mut gateway = Gateway::new();
    /// gateway.set_up(&Settings::new(SystemId([1; 6]), Mode::Restarting, 0).circuit(p2p))?;
    /// let first = Circuit::new(1).expect("1 to 8");
    /// assert_eq!(gateway.next_hello_flags(first, Level::Two), Ok(Flags::RR));
    /// assert_eq!(gateway.next_hello_flags(first, Level::One), Err(Refusal::NoCircuit));
    /// # Ok::<(), isis_gr::SettingError>(())
    /// ```
    pub fn next_hello_flags(&self, circuit: Circuit, level: Level) -> Result<Flags, Refusal> {
        let word = ffi::next_hello_flags(&self.words, circuit.number(), level.number());
        Refusal::unless(u64::from(word), Flags((word >> 8) as u8))
    }

    /// How many T1s still run, and the lowest circuit with one.
    pub fn waiting(&self) -> Waiting {
        let word = ffi::waiting(&self.words);
        Waiting { count: word >> 8 & 0xFF, lowest: Circuit::new((word >> 16) as u8) }
    }

    /// Why (document 02, W-204), of this gateway before a call, the call, and a circuit with a record's key. The call is made on `after`, whatever that
    /// holds: it is then the gateway as the call leaves it, and the reply buffer of a receive has what it writes. So ask before the call is made, of the
    /// live gateway; or later, of a clone that was kept. A circuit that is not there, or on a LAN a level that is not enabled there, has no record. A frame
    /// that comes in chunks is asked about as the receive of its octets joined.
    ///
    /// ```
    /// # use isis_gr::{Call, Circuit, CircuitSettings, Gateway, Key, Kind, Levels, Mac, Mode, Question, Settings, SystemId};
    /// let p2p = CircuitSettings::new(Kind::P2p, Levels::TWO, Mac([2; 6]));
    /// let (mut gateway, mut scratch) = (Gateway::new(), Gateway::new());
    /// gateway.set_up(&Settings::new(SystemId([1; 6]), Mode::Running, 0).circuit(p2p))?;
    /// let first = Circuit::new(1).expect("1 to 8");
    /// let key = Key::P2p(SystemId([2; 6]));
    /// let why = gateway.why(&mut scratch, Question::NotAdvertised, Call::Tick { clock: 1 }, first, key);
    /// assert_eq!(why.to_string(), "not advertised: there is no record");
    /// # Ok::<(), isis_gr::SettingError>(())
    /// ```
    pub fn why(&self, after: &mut Gateway, question: Question, call: Call<'_>, circuit: Circuit, key: Key) -> Why {
        let words = ffi::why(&self.words, &mut after.words, question.number(), call.given(), &key.asked(circuit));
        Why { question, reason: Reason::of_words(words.answer, words.pair) }
    }
}

impl Default for Gateway {
    fn default() -> Gateway {
        Gateway::new()
    }
}

impl core::fmt::Debug for Gateway {
    fn fmt(&self, f: &mut core::fmt::Formatter<'_>) -> core::fmt::Result {
        f.debug_struct("Gateway").field("waiting", &self.waiting()).finish_non_exhaustive()
    }
}
