//! The reasons (document 02, W-204), question by question: each is held to the document's words by what answers and look-ups show of the call, and counted.
use crate::calls::{name, named, Call};
use crate::coverage::Coverage;
use crate::frames::{mac, system, MACS, SYSTEMS};
use crate::marks::{self, is_up};
use crate::proved::Proved;
use crate::side::{Answer, Side};
use isis_gr::{Line, Mark, Phase, Question, Reason, Record, Refusal};
use isis_gr_reference::{Asked, CircuitSettings, Kind, Mac, Settings, SystemId};

/// A question, its reason, and the call that it was about.
pub struct Asking<'a> {
    /// What was asked.
    pub question: Question,
    /// The circuit and the key.
    pub asked: Asked,
    /// The reason.
    pub reason: Reason,
    /// The call.
    pub call: &'a Call,
    /// Its answer.
    pub answer: Result<Answer, Refusal>,
    /// The gateway before it.
    pub before: &'a Proved,
    /// The gateway after it.
    pub after: &'a Proved,
    /// What the gateway was set up with.
    pub settings: &'a Settings,
}

const KINDS: [&str; 2] = ["P2P", "LAN"];
/// The names of the calls that are no receive.
const OTHERS: [&str; 10] = ["tick", "release", "clear", "csnp", "database", "P2P look up", "LAN look up", "metric", "flags", "waiting"];

/// Every branch that must be reached.
pub fn branches() -> Vec<String> {
    let mut all: Vec<String> = [
        "not advertised: not so",
        "not advertised: not so, though a receive was refused there",
        "not advertised: INIT, and Suppressed too",
        "not advertised: INIT, though a receive was refused there",
        "not advertised: Suppressed, though a receive was refused there",
        "not advertised: refused, a frame of another key",
        "not advertised: no record, and it went in the call",
        "not advertised: no record, and a receive was refused elsewhere",
        "not advertised: no record, and a call that is no receive was refused there",
        "not advertised: no record, for a level is not enabled on a LAN",
        "not advertised: no record, for a circuit is not there",
        "vanished: expired, from INIT",
        "vanished: not so, it did not stand",
        "vanished: not so, it stands, though others went",
        "vanished: not so, it stands, though release or clear was done there",
        "vanished: not so, and a tick, release or clear was refused",
        "vanished: not so, and a frame came of that key",
        "no CSNPs: outranked by priority",
        "no CSNPs: outranked by MAC",
        "no CSNPs: outranked, and two or more have the duty",
        "no CSNPs: outranked, and a greater pair is marked Restart",
        "no CSNPs: outranked, and a greater pair is INIT",
        "no CSNPs: outranked, and a greater pair sent no Restart TLV",
        "no CSNPs: outranked, and a greater pair stands at the other level",
        "no CSNPs: outranked, and several System IDs have the pair",
    ]
    .map(str::to_owned)
    .to_vec();
    for kind in KINDS {
        all.extend(["INIT", "Suppressed", "no record"].map(|reason| format!("not advertised: {reason}, {kind}")));
        all.extend(["expired", "released", "cleared"].map(|reason| format!("vanished: {reason}, {kind}")));
        all.extend(["not so, ordered", "line 2", "line 3", "line 4", "line 5"].map(|reason| format!("no CSNPs: {reason}, {kind}")));
    }
    for question in ["not advertised", "no CSNPs"] {
        all.extend((1..=9).map(|n| format!("{question}: refused {n}")));
    }
    all.extend(OTHERS.map(|name| format!("no CSNPs: not so, {name}")));
    all
}

/// A router of a LAN, by its record.
struct Router {
    system: SystemId,
    mac: Mac,
    record: Record,
}

impl Router {
    fn pair(&self) -> (u8, Mac) {
        (self.record.priority, self.mac)
    }

    /// "UP at that level on that circuit, with a Restart TLV in its last frame and not marked Restart"
    fn may_have_the_duty(&self) -> bool {
        self.record.tlv && matches!(self.record.phase, Phase::Up(Mark::Clear | Mark::Planned))
    }
}

impl Asking<'_> {
    fn record(&self, side: &Proved) -> Option<Record> {
        let Asked { circuit, level, system, mac } = self.asked;
        side.look_up_lan(circuit, level, system, mac).ok().flatten()
    }

    fn circuit(&self, number: u8) -> Option<&CircuitSettings> {
        self.settings.circuits.get(usize::from(number).checked_sub(1)?)
    }

    /// The kind of a circuit, if it is there.
    fn kind(&self, number: u8) -> &'static str {
        match self.circuit(number).map(|own| own.kind) {
            None => "no circuit",
            Some(Kind::Lan) => "LAN",
            Some(Kind::PointToPoint) => "P2P",
        }
    }

    /// The number of the refusal of a receive on a circuit.
    fn refused_at(&self, number: u8) -> Option<Refusal> {
        let there = matches!(*self.call, Call::Receive(n, ..) if n == number);
        self.answer.err().filter(|_| there)
    }

    fn count_not_advertised(&self, c: &mut Coverage) {
        let (was, is, there) = (self.record(self.before), self.record(self.after), self.refused_at(self.asked.circuit));
        let kind = self.kind(self.asked.circuit);
        let (reason, text) = match (is.map(|r| (r.phase, r.suppressed)), there) {
            (Some((Phase::Init, _)), _) => (Reason::Init, format!("INIT, {kind}")),
            (Some((_, true)), _) => (Reason::Suppressed, format!("Suppressed, {kind}")),
            (Some((_, false)), _) => (Reason::NotSo, "not so".to_owned()),
            (None, Some(why)) => (Reason::Refused(why), format!("refused {}", why.number())),
            (None, None) if self.circuit(self.asked.circuit).is_none() => {
                (Reason::NoRecord, "no record, for a circuit is not there".to_owned())
            }
            (None, None) => (Reason::NoRecord, format!("no record, {kind}")),
        };
        assert_eq!(self.reason, reason, "not advertised");
        c.hit(&format!("not advertised: {text}"));
        let short = text.split(',').next().expect("a first part");
        if there.is_some() && is.is_some() {
            c.hit(&format!("not advertised: {short}, though a receive was refused there"));
        }
        c.hit_if(reason == Reason::Init && is.is_some_and(|r| r.suppressed), "not advertised: INIT, and Suppressed too");
        if let (Call::Receive(_, source, _, _, meant), Reason::Refused(_)) = (self.call, reason) {
            let same = (system(meant.system), *source) == (self.asked.system, self.asked.mac);
            c.hit_if(!meant.damaged && !same, "not advertised: refused, a frame of another key");
        }
        if reason == Reason::NoRecord {
            let refused = self.answer.is_err();
            let lan = self.circuit(self.asked.circuit).filter(|own| own.kind == Kind::Lan);
            let enabled = |own: &CircuitSettings| (self.asked.level == 1 && own.levels.one) || (self.asked.level == 2 && own.levels.two);
            let receive = matches!(self.call, Call::Receive(..));
            c.hit_if(was.is_some(), "not advertised: no record, and it went in the call");
            c.hit_if(receive && refused, "not advertised: no record, and a receive was refused elsewhere");
            let there = named(self.call) == Some(self.asked.circuit);
            c.hit_if(!receive && refused && there, "not advertised: no record, and a call that is no receive was refused there");
            c.hit_if(lan.is_some_and(|own| !enabled(own)), "not advertised: no record, for a level is not enabled on a LAN");
        }
    }

    fn count_vanished(&self, c: &mut Coverage) {
        let (was, is) = (self.record(self.before), self.record(self.after));
        let kind = self.kind(self.asked.circuit);
        let (reason, text) = match (was, is, self.call) {
            (Some(_), None, Call::Tick(_)) => (Reason::Expired, format!("expired, {kind}")),
            (Some(_), None, Call::Release(_)) => (Reason::Released, format!("released, {kind}")),
            (Some(_), None, Call::Clear(_)) => (Reason::Cleared, format!("cleared, {kind}")),
            (Some(_), None, call) => panic!("{call:?} removed a record"),
            (None, _, _) => (Reason::NotSo, "not so, it did not stand".to_owned()),
            (Some(_), Some(_), _) => (Reason::NotSo, String::new()),
        };
        assert_eq!(self.reason, reason, "vanished");
        if !text.is_empty() {
            c.hit(&format!("vanished: {text}"));
        }
        c.hit_if(reason == Reason::Expired && !is_up(was), "vanished: expired, from INIT");
        let stands = was.is_some() && is.is_some();
        let lost = matches!(self.answer, Ok(Answer::Ticked(tick)) if !tick.lost.is_empty());
        c.hit_if(stands && lost, "vanished: not so, it stands, though others went");
        let removes = matches!(*self.call, Call::Release(n) | Call::Clear(n) if n == self.asked.circuit) && self.answer.is_ok();
        c.hit_if(stands && removes, "vanished: not so, it stands, though release or clear was done there");
        let removal = matches!(self.call, Call::Tick(_) | Call::Release(_) | Call::Clear(_));
        c.hit_if(removal && self.answer.is_err(), "vanished: not so, and a tick, release or clear was refused");
        let its = matches!(*self.call, Call::Receive(n, source, ..) if n == self.asked.circuit && source == self.asked.mac);
        c.hit_if(stands && its, "vanished: not so, and a frame came of that key");
    }

    fn count_no_csnps(&self, c: &mut Coverage) {
        let &Call::Receive(n, source, _, _, meant) = self.call else {
            assert_eq!(self.reason, Reason::NotSo, "no receive");
            c.hit(&format!("no CSNPs: not so, {}", name(self.call)));
            return;
        };
        let got = match self.answer {
            Ok(Answer::Received(got)) => got,
            Err(why) => {
                assert_eq!(self.reason, Reason::Refused(why), "no CSNPs");
                c.hit(&format!("no CSNPs: refused {}", why.number()));
                return;
            }
            Ok(other) => panic!("{other:?} is no answer to a frame"),
        };
        let kind = self.kind(n);
        assert_eq!(self.reason == Reason::NotSo, !got.csnps.is_empty(), "no CSNPs");
        let line = match self.reason {
            Reason::NotSo => 1,
            Reason::Fits(line) => line.number(),
            Reason::Outranked { system, priority, mac } => {
                self.count_outranked(c, (n, meant.level, source), (system.0, priority, mac.0));
                1
            }
            other => panic!("{other:?} is no reason why no CSNPs were ordered"),
        };
        c.hit_if(self.reason == Reason::NotSo, &format!("no CSNPs: not so, ordered, {kind}"));
        c.hit_if(matches!(self.reason, Reason::Fits(_)), &format!("no CSNPs: line {line}, {kind}"));
        if !meant.damaged {
            let look = |side: &Proved| side.look_up_lan(n, meant.level.max(1), system(meant.system), source).ok().flatten();
            assert_eq!(line, marks::line(meant, look(self.before), look(self.after)), "the line that fits");
        }
        assert!(matches!(self.reason, Reason::Fits(Line::Two)) || got.reply.is_none() || line == 1 || line == 3, "a reply of line 4 or 5");
    }

    /// All routers that stand at a level of a LAN, of those that frames come from if they are not damaged.
    fn routers(&self, n: u8, level: u8) -> Vec<Router> {
        let keys = (0..SYSTEMS).flat_map(|from| (0..MACS).map(move |source| (system(from), mac(source))));
        let find = |(system, mac): (SystemId, Mac)| {
            let record = self.after.look_up_lan(n, level, system, mac).ok().flatten()?;
            Some(Router { system, mac, record })
        };
        keys.filter_map(find).collect()
    }

    fn count_outranked(&self, c: &mut Coverage, (n, level, source): (u8, u8, Mac), (system, priority, mac): (SystemId, u8, Mac)) {
        let own = self.circuit(n).expect("a frame was accepted there");
        assert!(own.kind == Kind::Lan && (priority, mac) > (own.priority, own.mac), "its pair is greater than ours");
        let found = self.after.look_up_lan(n, level, system, mac).ok().flatten();
        let Some(record) = found else { return }; // the frame was damaged, and its level is not the one that was meant
        assert!(Router { system, mac, record }.may_have_the_duty() && record.priority == priority, "it has the duty");
        let all = self.routers(n, level);
        let rivals: Vec<&Router> = all.iter().filter(|r| r.may_have_the_duty() && r.pair() > (own.priority, own.mac)).collect();
        let same = rivals.iter().filter(|r| r.pair() == (priority, mac));
        assert!(rivals.iter().all(|r| r.pair() <= (priority, mac)), "no greater pair has it");
        assert!(same.clone().all(|r| r.system >= system), "no lower System ID has that pair");
        c.hit(if priority > own.priority { "no CSNPs: outranked by priority" } else { "no CSNPs: outranked by MAC" });
        c.hit_if(rivals.len() >= 2, "no CSNPs: outranked, and two or more have the duty");
        c.hit_if(same.count() >= 2, "no CSNPs: outranked, and several System IDs have the pair");
        // of another router than the sender, which is marked Restart by this frame
        let mut greater = |all: &[Router], so: fn(&Record) -> bool, text: &str| {
            let greater = all.iter().any(|r| r.mac != source && r.pair() > (priority, mac) && so(&r.record));
            c.hit_if(greater, &format!("no CSNPs: outranked, and {text}"));
        };
        greater(&all, |r| r.phase == Phase::Up(Mark::Restart), "a greater pair is marked Restart");
        greater(&all, |r| r.phase == Phase::Init, "a greater pair is INIT");
        greater(&all, |r| r.phase != Phase::Init && !r.tlv, "a greater pair sent no Restart TLV");
        greater(&self.routers(n, 3 - level), |r| r.phase != Phase::Init, "a greater pair stands at the other level");
    }
}

/// Counts the branch of a reason, and holds it to the document's words.
pub fn count(c: &mut Coverage, asking: &Asking<'_>) {
    match asking.question {
        Question::NotAdvertised => asking.count_not_advertised(c),
        Question::Vanished => asking.count_vanished(c),
        Question::NoCsnps => asking.count_no_csnps(c),
        other => panic!("{other:?} has no branches"),
    }
}
