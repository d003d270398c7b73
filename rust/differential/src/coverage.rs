//! How often each branch of the definitions was reached. A branch that was never reached is a failure of the test.
use crate::chunks;
use crate::levels;
use crate::marks;
use crate::places;
use crate::why;
use std::collections::BTreeMap;

/// Counts by the branch's name.
#[derive(Clone, Debug)]
pub struct Coverage(BTreeMap<String, u64>);

/// Every branch that must be reached: refusals, lines, steps and timers as they can be told apart from outside. The list is made by hand from documents
/// 01 and 02 and the definitions; a branch that makes no difference to any answer, record or reply is not in it.
fn branches() -> Vec<String> {
    let mut all: Vec<String> = (1..=9).map(|n| format!("receive refused {n}")).collect();
    for text in [
        "tick refused 10",
        "release refused 1",
        "clear refused 1",
        "csnp refused 1",
        "csnp refused 11",
        "database refused 1",
        "database refused 11",
        "P2P look up refused 1",
        "LAN look up refused 1",
        "metric refused 1",
        "flags refused 1",
        "setup refused 12",
        "circuit 0, or above 8",
        "level that is neither 1 nor 2",
        "no record, and none is kept",
        "wrong ID excused by RR on an UP record",
        "wrong circuit ID excused while Restarting",
        "reply RA",
        "reply RA, no record",
        "reply PA",
        "CSNPs on P2P",
        "CSNPs on a LAN",
        "no CSNPs on a LAN: another has the duty",
        "record INIT",
        "record UP",
        "record suppressed",
        "record with W",
        "record with U",
        "full room",
        "T1 stopped",
        "T1 stopped, reinitialise",
        "T1 stops by an acknowledgement",
        "T1 stops by a CSNP set",
        "T1 stops at its last expiry",
        "timers idle",
        "timers go on",
        "timers ended",
        "SPF ordered",
        "overload set",
        "overload clear",
        "overload both",
        "tick marks a circuit",
        "tick orders RR",
        "tick orders RR and SA",
        "RR in the next hello",
        "SA in the next hello",
        "RR and SA in the next hello",
        "no flag in the next hello",
        "hello with SA ordered",
        "a second record becomes UP",
        "a record becomes UP, and T1 is over",
        "overload set by a record becoming UP",
        "overload clear at a start's end",
        "both by one frame",
        "a start ends by a frame",
        "a start ends by a notice",
        "a start ends by a tick",
        "a start ends before any T1 began",
        "acknowledgement before T1 began",
        "CSNP set before T1 began",
        "T1 begins and stops by one acknowledgement",
        "T1 begins and stops by one frame without the TLV",
        "T1 waits for an acknowledgement, though an early one came",
        "T1 stopped while Starting",
        "T1 of one try stops while Starting",
        "SPF ordered while Starting",
        "reply RA while Starting",
        "reply PA while Starting",
        "no record is kept while Starting",
        "wrong circuit ID refused while Starting",
        "T1s run",
        "no T1 runs",
        "metric configured",
        "metric raised",
        "metric at 16,777,214",
        "metric at 16,777,215",
        "P2P look up finds",
        "P2P look up finds none",
        "LAN look up finds",
        "LAN look up finds none",
    ] {
        all.push(text.to_owned());
    }
    all.extend(marks::branches());
    all.extend(levels::branches());
    all.extend(why::branches());
    all.extend(chunks::branches());
    all.extend(places::branches());
    all
}

impl Default for Coverage {
    fn default() -> Coverage {
        Coverage(branches().into_iter().map(|name| (name, 0)).collect())
    }
}

impl Coverage {
    /// One more of a branch.
    pub fn hit(&mut self, name: &str) {
        *self.0.get_mut(name).unwrap_or_else(|| panic!("no branch is named {name}")) += 1;
    }

    /// One more, where it is so.
    pub fn hit_if(&mut self, so: bool, name: &str) {
        if so {
            self.hit(name);
        }
    }

    /// The counts of another run too.
    pub fn add(&mut self, other: &Coverage) {
        for (name, count) in &other.0 {
            *self.0.entry(name.clone()).or_default() += count;
        }
    }

    /// The branches that were never reached.
    pub fn missing(&self) -> Vec<&str> {
        self.0.iter().filter(|(_, count)| **count == 0).map(|(name, _)| name.as_str()).collect()
    }
}

impl std::fmt::Display for Coverage {
    fn fmt(&self, f: &mut std::fmt::Formatter<'_>) -> std::fmt::Result {
        self.0.iter().try_for_each(|(name, count)| writeln!(f, "{count:>12}  {name}"))
    }
}
