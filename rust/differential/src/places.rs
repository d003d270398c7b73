//! Where refusals 5 and 6 stand (document 02, W-206): which rule is broken, at which place among the frame's TLVs, and what else is bad. The reference gives the
//! position too, and every answer is compared; here it must be a TLV's, and the wrapper must have words for it.
use crate::coverage::Coverage;
use isis_gr::Refusal;

/// The rules that a TLV can break, by its type and the words of [`Refusal::in_frame`].
const RULES: [(u8, &str); 11] = [
    (211, "1 to 9"),
    (211, "9 with RA"),
    (211, "9 with PA"),
    (211, "at least 3 with PR"),
    (211, "the second"),
    (240, "one of 1, 5, 11 and 15"),
    (240, "state"),
    (240, "the second"),
    (6, "a multiple of 6"),
    (16, "at least 5"),
    (16, "sub-TLV length"),
];

const PLACES: [&str; 3] = ["first", "between", "last"];

/// The types that can be bad in one frame.
const PAIRS: [(u8, u8); 5] = [(211, 16), (211, 240), (16, 240), (211, 6), (16, 6)];

/// Every branch that must be reached.
pub fn branches() -> Vec<String> {
    let mut all: Vec<String> = [
        "refused 5: a value passes the end",
        "refused 5: no length octet",
        "refused 5, and a TLV before it is bad",
        "refused 6: circuit type",
        "refused 6: circuit type, and a TLV is bad",
        "refused 6: no TLV 240",
    ]
    .map(str::to_owned)
    .to_vec();
    for (kind, rule) in RULES {
        let places = PLACES.iter().filter(|place| rule != "the second" || **place != "first");
        all.extend(places.map(|place| format!("refused 6: TLV {kind}, {rule}, {place}")));
    }
    for (a, b) in PAIRS {
        all.extend([(a, b), (b, a)].map(|(a, b)| format!("refused 6: TLV {a}, and a bad {b} behind it")));
    }
    all
}

/// The places of the TLVs of a frame up to its PDU Length, one that passes it included; counted from 0.
fn places(frame: &[u8]) -> Vec<usize> {
    let length = usize::from(u16::from_be_bytes([frame[17], frame[18]]));
    let (mut at, mut all) = (usize::from(frame[1]), Vec::new());
    while at < length {
        all.push(at);
        at += 2 + frame.get(at + 1).map_or(0, |value| usize::from(*value));
    }
    all
}

/// The type of the TLV at a place and the rule that it breaks; none where it breaks none.
fn rule_at(frame: &[u8], at: usize) -> Option<(u8, String)> {
    let words = Refusal::BadTlv { position: at as u16 + 1 }.in_frame(frame).to_string();
    let (kind, said) = words.strip_prefix("TLV ")?.split_once(&format!(" at octet {}: ", at + 1))?;
    let rule = match said.split_once(", ")? {
        ("the second", _) => "the second",
        (first, _) if first.starts_with("state ") => "state",
        (first, _) if first.contains("sub-TLV length") => "sub-TLV length",
        (_, rest) => rest,
    };
    Some((kind.parse().expect("a type"), rule.to_owned()))
}

/// Counts the branches of a refused frame.
pub fn count(c: &mut Coverage, frame: &[u8], why: Refusal) {
    let Some(position) = why.position() else { return };
    let words = why.in_frame(frame).to_string();
    let at = usize::from(position) - 1;
    let all = places(frame);
    let lone_16 = all.iter().filter(|place| frame[**place] == 16).count() == 1;
    let mut bad: Vec<(usize, u8)> = all.iter().filter_map(|place| Some((*place, rule_at(frame, *place)?.0))).collect();
    bad.retain(|(_, kind)| *kind != 16 || lone_16);
    if why.number() == 5 {
        assert_eq!(all.last(), Some(&at), "{words}");
        c.hit(if words.contains("no length octet") { "refused 5: no length octet" } else { "refused 5: a value passes the end" });
        c.hit_if(bad.len() > 1, "refused 5, and a TLV before it is bad");
        return;
    }
    if at == 8 {
        assert!(words.starts_with("circuit type at octet 9: "), "{words}");
        c.hit("refused 6: circuit type");
        c.hit_if(!bad.is_empty(), "refused 6: circuit type, and a TLV is bad");
        return;
    }
    if words.starts_with("no TLV 240") {
        assert!(bad.is_empty(), "{words}");
        c.hit("refused 6: no TLV 240");
        return;
    }
    let (kind, rule) = rule_at(frame, at).unwrap_or_else(|| panic!("{words}"));
    assert_eq!(bad.first(), Some(&(at, kind)), "{words}");
    let place = if all.first() == Some(&at) {
        "first"
    } else if all.last() == Some(&at) {
        "last"
    } else {
        "between"
    };
    c.hit(&format!("refused 6: TLV {kind}, {rule}, {place}"));
    for (_, other) in &bad[1..] {
        if PAIRS.contains(&(kind, *other)) || PAIRS.contains(&(*other, kind)) {
            c.hit(&format!("refused 6: TLV {kind}, and a bad {other} behind it"));
        }
    }
}
