//! The archive's words as they are, apart from the wrapper's reading of them: what include/isis_gr.h says of every word is checked on random calls. A refusal
//! tells nothing but its number, 5 and 6 a position too, and changes no word, but that an end may drop its frame; a call that asks changes none either; a number is one that the
//! header knows; bits without a meaning are 0; what is not told is not written. Of why: the gateway before the call is not written, and a number that is
//! none changes nothing.
use crate::calls::{call, is_piece, mode, question, settings, Call, Now};
use crate::memory::{self, Octets, Words};
use crate::random::Random;
use crate::side::{Explained, UNTOUCHED};
use isis_gr::{Line, Question, Reason, Refusal};
use isis_gr_reference::{Asked, Kind, Mode, Settings};
use isis_gr_sys::*;

/// What a record's words hold before a look-up.
const BLANK: u64 = 0xEEEE_EEEE_EEEE_EEEE;

/// Flags of our hellos.
const RR: u64 = 1;
const SA: u64 = 4;

/// What a call told.
#[derive(Clone, Debug, PartialEq, Eq)]
pub struct Told {
    /// The word of its answer.
    pub answer: u64,
    /// The second word of a frame's answer.
    pub change: u64,
    /// The words of a look-up's record.
    pub record: [u64; 2],
    /// The reply buffer.
    pub reply: Vec<u8>,
}

impl Told {
    /// 0, or the number of a refusal.
    pub fn code(&self) -> u32 {
        (self.answer & 0xFF) as u32
    }

    /// So many bits of the answer, from a place on.
    fn bits(&self, at: u32, count: u32) -> u64 {
        bits(self.answer, at, count)
    }
}

fn bits(word: u64, at: u32, count: u32) -> u64 {
    word >> at & (u64::MAX >> (64 - count))
}

/// The archive's function of a call, with its words checked.
pub fn tell(words: &mut Words, octets: &mut Octets, call: &Call) -> Told {
    let before = *words;
    let lent = if is_piece(call) { Some(*octets) } else { None };
    let told = ask(words, octets, call);
    memory::check(call, told.code(), (&before, lent.as_ref().unwrap_or(octets)), (words, octets));
    if told.code() == 0 {
        check(call, &told);
    } else {
        let known = match call {
            Call::Chunk(..) => [1, 13, 14].contains(&told.code()),
            Call::End(..) => (1..=9).contains(&told.code()) || told.code() == 13,
            _ => (1..=11).contains(&told.code()),
        };
        assert!(known, "an unknown code");
        assert_eq!((told.answer >> 8, told.record), (0, [BLANK; 2]), "a refusal tells nothing else");
        let position = if [5, 6].contains(&told.code()) { 9..=1_493 } else { 0..=0 };
        assert!(position.contains(&told.change), "refusals 5 and 6 bring a position, and no other");
        assert!(is_untouched(&told.reply), "a refusal wrote the reply");
    }
    told
}

fn ask(words: &mut Words, octets: &mut Octets, call: &Call) -> Told {
    let (gateway, frames) = (words.as_mut_ptr(), octets.as_mut_ptr());
    let mut told = Told { answer: 0, change: 0, record: [BLANK; 2], reply: Vec::new() };
    let record = told.record.as_mut_ptr();
    // SAFETY: the gateway's pointer is valid for its words, that of the frames for its octets, and each other one for the length beside it or the size
    // that the archive reads or writes; no two of one call overlap.
    told.answer = unsafe {
        match *call {
            Call::Receive(n, source, ref frame, room, _) => {
                told.reply = vec![UNTOUCHED; room];
                let reply = told.reply.as_mut_ptr();
                let got = isis_gr_raw_receive(gateway, n, source.as_ptr(), frame.as_ptr(), frame.len(), reply, room);
                told.change = got.change;
                got.answer
            }
            Call::Begin(n, source) => u64::from(isis_gr_raw_begin_frame(gateway, n, source.as_ptr())),
            Call::Chunk(n, ref chunk) => u64::from(isis_gr_raw_add_chunk(gateway, frames, n, chunk.as_ptr(), chunk.len())),
            Call::End(n, room, ..) => {
                told.reply = vec![UNTOUCHED; room];
                let got = isis_gr_raw_end_frame(gateway, frames, n, told.reply.as_mut_ptr(), room);
                told.change = got.change;
                got.answer
            }
            Call::Tick(clock) => isis_gr_raw_tick(gateway, clock),
            Call::Release(n) => u64::from(isis_gr_raw_release(gateway, n)),
            Call::Clear(n) => u64::from(isis_gr_raw_clear(gateway, n)),
            Call::Csnp(n, level) => isis_gr_raw_csnp_complete(gateway, n, level),
            Call::Database(level) => isis_gr_raw_database_complete(gateway, level),
            Call::LookUpP2p(n, system) => u64::from(isis_gr_raw_look_up(gateway, n, 0, system.as_ptr(), [0; 6].as_ptr(), record)),
            Call::LookUpLan(n, level, system, mac) => {
                u64::from(isis_gr_raw_look_up(gateway, n, level, system.as_ptr(), mac.as_ptr(), record))
            }
            Call::Metric(n) => isis_gr_raw_link_metric(gateway, n),
            Call::Flags(n, level) => u64::from(isis_gr_raw_next_hello_flags(gateway, n, level)),
            Call::Waiting => u64::from(isis_gr_raw_waiting_t1s(gateway)),
        }
    };
    told
}

/// What the words of `after` hold before a question.
const LENT: Words = [BLANK; GATEWAY_WORDS];

/// The archive's answer to a question by its number, about a call with this number; the gateway before is not written.
fn ask_why(words: &Words, question: u8, number: u8, call: &Call, asked: Asked) -> Explained<Words, ReasonWords> {
    let (before, mut after) = (*words, LENT);
    let (mut n, mut level, mut clock, mut source, mut lent, mut reply) =
        (BLANK as u8, BLANK as u8, BLANK as u32, [UNTOUCHED; 6], &[][..], Vec::new());
    match *call {
        Call::Receive(circuit, from, ref frame, room, _) => (n, source, lent, reply) = (circuit, from, frame, vec![UNTOUCHED; room]),
        Call::Tick(to) => clock = to,
        Call::Release(circuit) | Call::Clear(circuit) | Call::Metric(circuit) => n = circuit,
        Call::LookUpP2p(circuit, _) | Call::LookUpLan(circuit, ..) => n = circuit,
        Call::Csnp(circuit, at) | Call::Flags(circuit, at) => (n, level) = (circuit, at),
        Call::Database(at) => level = at,
        Call::Waiting => {}
        Call::Begin(..) | Call::Chunk(..) | Call::End(..) => panic!("{call:02x?} is not asked about"),
    }
    let Asked { circuit, level: at, system, mac } = asked;
    let (frame, room) = (lent.as_ptr(), reply.len());
    let to = reply.as_mut_ptr();
    // SAFETY: each pointer is valid for a gateway's words, for six octets, or for the length beside it; those that are written overlap none.
    let reason = unsafe {
        let (gateway, source, system, mac) = (words.as_ptr(), source.as_ptr(), system.as_ptr(), mac.as_ptr());
        isis_gr_raw_why(
            gateway,
            after.as_mut_ptr(),
            question,
            number,
            n,
            level,
            clock,
            source,
            frame,
            lent.len(),
            to,
            room,
            circuit,
            at,
            system,
            mac,
        )
    };
    assert!(*words == before, "a question changed the gateway before the call");
    Explained { reason, after, reply }
}

/// The number of a call that is asked about.
fn call_number(call: &Call) -> u8 {
    match call {
        Call::Receive(..) => 0,
        Call::Tick(_) => 1,
        Call::Release(_) => 2,
        Call::Clear(_) => 3,
        Call::Csnp(..) => 4,
        Call::Database(_) => 5,
        Call::LookUpP2p(..) | Call::LookUpLan(..) => 6,
        Call::Metric(_) => 7,
        Call::Flags(..) => 8,
        Call::Waiting => 9,
        Call::Begin(..) | Call::Chunk(..) | Call::End(..) => panic!("{call:02x?} has no number"),
    }
}

/// The reason that words tell, as the header says it.
fn read(ReasonWords { answer, pair }: ReasonWords) -> Reason {
    let (number, detail, rest) = (bits(answer, 0, 8), bits(answer, 8, 8), bits(answer, 16, 48));
    assert!(detail == 0 || number == 4 || number == 8, "a number or a line of no refusal and no line");
    assert!(pair == 0 || number == 9, "a router that has no duty");
    match (number, detail) {
        (4, 5 | 6) => assert!((9..=1_493).contains(&rest), "a position"),
        (9, _) => {}
        _ => assert_eq!(rest, 0, "a position of another refusal, or a router that has no duty"),
    }
    let octets = |n: u64| -> [u8; 6] { std::array::from_fn(|at| (n >> (40 - 8 * at)) as u8) };
    match number {
        0 => Reason::NotSo,
        1 => Reason::Init,
        2 => Reason::Suppressed,
        3 => Reason::NoRecord,
        4 => {
            let refusal = Refusal::of_number(detail as u32, rest as u16);
            Reason::Refused(refusal.filter(|refusal| refusal.number() <= 9).expect("a refusal of a frame"))
        }
        5 => Reason::Expired,
        6 => Reason::Released,
        7 => Reason::Cleared,
        8 => Reason::Fits(*[Line::Two, Line::Three, Line::Four, Line::Five].get((detail as usize).wrapping_sub(2)).expect("2 to 5")),
        9 => {
            assert!(bits(pair, 48, 16) < 128, "a priority, and nothing above it");
            let mac = isis_gr::Mac(octets(bits(pair, 0, 48)));
            Reason::Outranked { system: isis_gr::SystemId(octets(rest)), priority: bits(pair, 48, 8) as u8, mac }
        }
        _ => panic!("reason {number}"),
    }
}

/// Why, by the archive's words.
pub fn explain(words: &Words, question: Question, call: &Call, asked: Asked) -> Explained<Words> {
    let number = match question {
        Question::NotAdvertised => 0,
        Question::Vanished => 1,
        Question::NoCsnps => 2,
        other => panic!("{other:?} has no number"),
    };
    let Explained { reason, after, reply } = ask_why(words, number, call_number(call), call, asked);
    Explained { reason: read(reason), after, reply }
}

/// A number that is no question's or no call's: nothing was asked.
fn check_unknown(r: &mut Random, words: &Words, call: &Call, asked: Asked) {
    let (question, number) =
        if r.chance(50) { (3 + r.below(253) as u8, call_number(call)) } else { (r.below(3) as u8, 10 + r.below(246) as u8) };
    let Explained { reason, after, reply } = ask_why(words, question, number, call, asked);
    assert_eq!(reason, ReasonWords { answer: 10, pair: 0 }, "question {question}, call {number}");
    assert!(after == LENT && is_untouched(&reply), "nothing was asked, and something was written");
}

fn is_untouched(octets: &[u8]) -> bool {
    octets.iter().all(|octet| *octet == UNTOUCHED)
}

/// What the header says of the words of a call that was done.
fn check(call: &Call, told: &Told) {
    let unused: &[(u32, u32)] = match call {
        Call::Receive(..) | Call::End(..) => {
            check_received(told);
            &[(18, 6), (38, 2)]
        }
        Call::Tick(_) => {
            let (hellos, flags) = (told.bits(16, 16), told.bits(40, 8));
            assert!([0, RR, RR + SA].contains(&flags) && (hellos == 0) == (flags == 0), "the flags of ordered hellos");
            &[(38, 2), (48, 16)]
        }
        Call::Release(_) | Call::Clear(_) | Call::Begin(..) | Call::Chunk(..) => &[(8, 56)],
        Call::Csnp(..) | Call::Database(_) => &[(8, 24), (38, 26)],
        Call::LookUpP2p(..) | Call::LookUpLan(..) => {
            check_record(told);
            &[(17, 47)]
        }
        Call::Metric(_) => &[(8, 24)],
        Call::Flags(..) => {
            assert!([0, RR, SA, RR + SA].contains(&told.bits(8, 8)), "the flags of the next hello");
            &[(16, 48)]
        }
        Call::Waiting => {
            let (count, lowest) = (told.bits(8, 8), told.bits(16, 8));
            assert!(count <= 2 * CIRCUITS as u64 && lowest <= CIRCUITS as u64 && (count == 0) == (lowest == 0));
            &[(24, 40)]
        }
    };
    if matches!(call, Call::Receive(..) | Call::End(..) | Call::Tick(_) | Call::Csnp(..) | Call::Database(_)) {
        assert!(told.bits(32, 2) < 3, "the restart");
        assert!(told.bits(32, 2) != 0 || told.bits(34, 4) == 0, "orders of timers that do not run");
    }
    for (at, count) in unused {
        assert_eq!(told.bits(*at, *count), 0, "bits from {at} of {call:02x?}: {:016x}", told.answer);
    }
}

fn check_received(Told { answer, change, reply, .. }: &Told) {
    let (flags, remaining) = (bits(*answer, 8, 8) as u8, bits(*answer, 40, 16) as u16);
    assert!([0, 2, 16].contains(&flags), "the reply's flags");
    assert!(bits(*answer, 24, 8) < 3, "the end of T1");
    let (written, rest) = reply.split_at(if flags == 0 { 0 } else { 11 });
    assert!(is_untouched(rest), "octets that are no reply were written");
    if flags == 0 {
        assert_eq!(remaining, 0, "a Remaining Time of no reply");
    } else {
        let [_, _, system @ ..] = change.to_be_bytes();
        assert_eq!(written, [&[211, 9, flags][..], &remaining.to_be_bytes(), &system].concat(), "the reply is what the answer says of it");
    }
    let (level, before, after, advertised) = (bits(*change, 48, 2), bits(*change, 50, 2), bits(*change, 52, 2), bits(*change, 54, 1));
    assert!(level < 3 && before < 3 && after < 3 && bits(*change, 55, 9) == 0, "{change:016x}");
    assert!(before == 0 || after != 0, "a frame removes no record");
    assert!(advertised == 0 || after == 2, "advertised: UP");
    let (hello, overload, rises) = (bits(*answer, 56, 8), bits(*answer, 36, 2), before != 2 && after == 2);
    assert!(hello == 0 || hello == SA, "the flags of an ordered hello");
    assert!(overload & 1 == 0 || rises, "a frame sets overload: its record becomes UP");
    assert!(hello == 0 || overload == 1, "a hello is ordered: overload too, and the mode goes on");
}

fn check_record(told: &Told) {
    let [_, small] = told.record;
    let (state, advertised) = (told.bits(8, 8), told.bits(16, 1));
    if state == 0 {
        assert_eq!((told.record, advertised), ([BLANK; 2], 0), "nothing found, and the record was written");
        return;
    }
    let (mark, suppressed) = (bits(small, 0, 2), bits(small, 2, 1));
    assert!(state < 3 && mark < 3, "the state and its mark");
    assert!(state == 2 || mark == 0, "a mark on a record that is not UP");
    assert_eq!(advertised, u64::from(state == 2 && suppressed == 0), "advertised: UP and not Suppressed");
    assert_eq!((bits(small, 7, 1), bits(small, 16, 16)), (0, 0), "bits of the record without a meaning");
}

/// The octets of settings, as the header lays them out.
fn packed(s: &Settings) -> [u8; SETTINGS_OCTETS] {
    let mode = match s.mode {
        Mode::Running => 0,
        Mode::Restarting => 1,
        Mode::Starting => 2,
    };
    let mut octets = [&s.system[..], &s.t1.to_be_bytes(), &s.t2.to_be_bytes(), &[s.tries], &s.clock.to_be_bytes(), &[mode]].concat();
    octets.push(s.circuits.len() as u8);
    for own in &s.circuits {
        octets.extend([u8::from(own.kind == Kind::PointToPoint), u8::from(own.levels.one) + 2 * u8::from(own.levels.two)]);
        octets.extend([&own.mac[..], &[own.priority], &own.hold.to_be_bytes(), &own.metric.to_be_bytes(), &own.id.to_be_bytes()].concat());
    }
    octets.resize(SETTINGS_OCTETS, 0);
    octets.try_into().expect("so many were made")
}

/// The hellos that there are, as the header's mask has them: on a LAN one for each enabled level, on P2P one.
fn hellos(octets: &[u8; SETTINGS_OCTETS]) -> u64 {
    let circuits = octets[17..].chunks(19).take(usize::from(octets[16]));
    circuits.enumerate().fold(0, |mask, (at, own)| mask | u64::from(if own[0] == 0 { own[1] } else { 1 }) << (2 * at))
}

/// Ordered hellos and running T1s are some of those that there are.
fn check_places(all: u64, call: &Call, told: &Told) {
    match call {
        Call::Tick(_) => assert_eq!(told.bits(16, 16) & !all, 0, "a hello that there is not"),
        Call::Waiting if told.bits(8, 8) > 0 => {
            let rest = all >> (2 * (told.bits(16, 8) - 1));
            assert!(rest & 3 != 0 && told.bits(8, 8) <= u64::from(rest.count_ones()), "more T1s than there are");
        }
        _ => {}
    }
}

/// A set-up of these octets, over whatever the memory is: whether it was done.
fn set_up(words: &mut Words, octets: &[u8; SETTINGS_OCTETS]) -> bool {
    let before = *words;
    // SAFETY: both pointers are valid for the sizes that the archive reads and writes, and do not overlap.
    let word = unsafe { isis_gr_raw_set_up(LAYOUT, words.as_mut_ptr(), octets.as_ptr()) };
    if word & 0xFF == 0 {
        let restarting = if octets[15] == 1 { RR << 24 | hellos(octets) << 8 } else { 0 };
        assert_eq!(u64::from(word), restarting, "hellos with RR, all that there are, in the mode Restarting alone");
    } else {
        assert!(word == 12 && *words == before, "a refused set-up tells nothing else, and changes nothing");
    }
    word & 0xFF == 0
}

/// A run of `calls` random calls from a seed, by their words alone.
pub fn run(seed: u64, calls: u64) {
    let mut r = Random::new(seed ^ 0xB175);
    let mode = mode(&mut r);
    let s = settings(&mut r, mode);
    let octets = packed(&s);
    let (mut words, mut frames) = ([r.number(); GATEWAY_WORDS], [r.octet(); FRAME_OCTETS]);
    for _ in 0..8 {
        set_up(&mut words.clone(), &std::array::from_fn(|_| r.octet()));
        let mut near = octets;
        near[r.below(SETTINGS_OCTETS as u64) as usize] = r.octet();
        set_up(&mut words.clone(), &near);
        near = octets;
        near[15] = 3 + r.below(253) as u8;
        assert!(!set_up(&mut words.clone(), &near), "an unknown mode");
    }
    assert!(set_up(&mut words, &octets), "settings in range");
    assert!((1..=CIRCUITS as u8).all(|n| memory::unfinished(&words, &frames, n).is_none()), "setup begins no frame");
    let (mut now, mut asking) = (Now::new(&mut r, s.clock), Random::new(seed ^ 0xA5C));
    for _ in 0..calls {
        let next = call(&mut r, &s, &mut now);
        if !is_piece(&next) {
            let (_, asked) = question(&mut asking, &next, |_| false);
            check_unknown(&mut asking, &words, &next, asked);
        }
        check_places(hellos(&octets), &next, &tell(&mut words, &mut frames, &next));
    }
}
