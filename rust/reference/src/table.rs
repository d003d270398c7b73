//! The room of one circuit and its records by key (document 01, "What the gateway holds").

use crate::adjacency::{Mark, Record};
use crate::settings::{Kind, Level, Mac, SystemId};
use std::cmp::Reverse;

/// The records that a LAN circuit has room for, over both levels.
const LAN_ROOM: usize = 16;
/// The records that a point-to-point circuit has room for.
const P2P_ROOM: usize = 1;

/// What a record is known by.
#[derive(Clone, Copy, Debug, PartialEq, Eq)]
pub(crate) enum Key {
    Lan { level: Level, system: SystemId, mac: Mac },
    PointToPoint { system: SystemId },
}

/// A record with its key.
#[derive(Clone, Copy, Debug, PartialEq, Eq)]
struct Entry {
    key: Key,
    record: Record,
}

impl Entry {
    /// A router, UP at this level, with a Restart TLV in its last frame and not marked Restart, that has a greater pair of
    /// priority and MAC (RFC 8706, 3.2.1, item c). Who is DIS plays no part.
    fn outranks(&self, level: Level, priority: u8, mac: Mac) -> bool {
        let Entry { key, record } = self;
        match key {
            Key::Lan { level: at, mac: theirs, .. } => {
                *at == level && record.up && record.tlv && record.mark != Mark::Restart && (record.priority, *theirs) > (priority, mac)
            }
            Key::PointToPoint { .. } => false,
        }
    }
}

/// A router that has the CSNP duty before us, with its pair.
#[derive(Clone, Copy, Debug, PartialEq, Eq)]
pub(crate) struct Senior {
    pub(crate) system: SystemId,
    pub(crate) priority: u8,
    pub(crate) mac: Mac,
}

/// Where a key's record stands or may stand.
#[derive(Clone, Copy, Debug, PartialEq, Eq)]
pub(crate) enum Place {
    Taken(usize),
    Free(usize),
    Full,
}

/// The room of one circuit. Freed slots are used again.
#[derive(Clone, Debug, PartialEq, Eq)]
pub(crate) struct Room {
    slots: [Option<Entry>; LAN_ROOM],
    size: usize,
}

impl Room {
    pub(crate) fn new(kind: Kind) -> Room {
        let size = match kind {
            Kind::Lan => LAN_ROOM,
            Kind::PointToPoint => P2P_ROOM,
        };
        Room { slots: [None; LAN_ROOM], size }
    }

    /// The place of a key: its record's, else the first free one, else none.
    pub(crate) fn place(&self, key: &Key) -> Place {
        let mut free = Place::Full;
        for (at, slot) in self.slots[..self.size].iter().enumerate() {
            match slot {
                Some(entry) if entry.key == *key => return Place::Taken(at),
                Some(_) => {}
                None if free == Place::Full => free = Place::Free(at),
                None => {}
            }
        }
        free
    }

    /// The record at a place.
    pub(crate) fn at(&self, place: Place) -> Option<&Record> {
        match place {
            Place::Taken(at) => self.slots[at].as_ref().map(|entry| &entry.record),
            Place::Free(_) | Place::Full => None,
        }
    }

    /// The record with this key.
    pub(crate) fn find(&self, key: &Key) -> Option<&Record> {
        self.at(self.place(key))
    }

    /// Puts a record into slot `at`.
    pub(crate) fn put(&mut self, at: usize, key: Key, record: Record) {
        self.slots[at] = Some(Entry { key, record });
    }

    /// The first record: on a point-to-point circuit, the only one.
    pub(crate) fn first(&self) -> Option<&Record> {
        self.slots[..self.size].iter().flatten().map(|entry| &entry.record).next()
    }

    /// Removes each record with expiry at or below the clock; answers whether there was one.
    pub(crate) fn expire(&mut self, clock: u64) -> bool {
        self.remove(|record| record.expiry <= clock)
    }

    /// Removes each Planned record.
    pub(crate) fn release(&mut self) {
        self.remove(|record| record.mark == Mark::Planned);
    }

    fn remove(&mut self, gone: impl Fn(&Record) -> bool) -> bool {
        let mut any = false;
        for slot in &mut self.slots[..self.size] {
            if slot.as_ref().is_some_and(|entry| gone(&entry.record)) {
                *slot = None;
                any = true;
            }
        }
        any
    }

    /// Whether some router has the CSNP duty before us.
    pub(crate) fn outranked(&self, level: Level, priority: u8, mac: Mac) -> bool {
        self.slots[..self.size].iter().flatten().any(|entry| entry.outranks(level, priority, mac))
    }

    /// Of those routers the one with the greatest pair; of several System IDs with that pair the lowest.
    pub(crate) fn senior(&self, level: Level, priority: u8, mac: Mac) -> Option<Senior> {
        let all = self.slots[..self.size].iter().flatten().filter(|entry| entry.outranks(level, priority, mac));
        let named = all.filter_map(|Entry { key, record }| match *key {
            Key::Lan { system, mac, .. } => Some(Senior { system, priority: record.priority, mac }),
            Key::PointToPoint { .. } => None,
        });
        named.max_by_key(|router| (router.priority, router.mac, Reverse(router.system)))
    }
}
