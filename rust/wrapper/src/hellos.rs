//! Orders for hellos, and the flags that a hello carries.
use crate::ffi::CIRCUITS;
use crate::names::{Circuit, Level};
use core::{array, fmt, iter};

/// Two for each circuit.
const PLACES: usize = 2 * CIRCUITS;

/// A set of hellos: on a LAN one of each level; on P2P the one hello, which is told with [`Level::One`] whatever the levels of the circuit are
/// (RFC 8706, 3.3.3).
#[derive(Clone, Copy, PartialEq, Eq, Hash, Default)]
pub struct HelloOrders(pub(crate) u16);

/// The place of a hello in the mask.
const fn place(circuit: Circuit, level: Level) -> u8 {
    2 * (circuit.number() - 1) + (level.number() - 1)
}

impl HelloOrders {
    /// Whether the hello of the circuit at the level is in the set; the one of a P2P circuit is asked for with [`Level::One`].
    pub const fn has(self, circuit: Circuit, level: Level) -> bool {
        self.0 >> place(circuit, level) & 1 == 1
    }

    /// How many there are, 0 to 16.
    pub const fn len(self) -> usize {
        self.0.count_ones() as usize
    }

    /// Whether there is none.
    pub const fn is_empty(self) -> bool {
        self.0 == 0
    }

    /// The hellos of the set, the lowest circuit first, and of a circuit level 1 first.
    ///
    /// ```
    /// # use isis_gr::{Circuit, HelloOrders, Level};
    /// let (two, five) = (Circuit::new(2).unwrap(), Circuit::new(5).unwrap());
    /// let set: HelloOrders = [(five, Level::One), (two, Level::Two), (two, Level::One)].into_iter().collect();
    /// assert!(set.iter().eq([(two, Level::One), (two, Level::Two), (five, Level::One)]));
    /// assert!(set.has(two, Level::Two) && !set.has(five, Level::Two) && set.len() == 3);
    /// assert_eq!(format!("{set:?}"), "{(2, 1), (2, 2), (5, 1)}");
    /// ```
    pub fn iter(self) -> iter::Flatten<array::IntoIter<Option<(Circuit, Level)>, PLACES>> {
        array::from_fn(|at| {
            let circuit = Circuit::new(at as u8 / 2 + 1)?;
            let level = if at % 2 == 0 { Level::One } else { Level::Two };
            self.has(circuit, level).then_some((circuit, level))
        })
        .into_iter()
        .flatten()
    }
}

impl IntoIterator for HelloOrders {
    type Item = (Circuit, Level);
    type IntoIter = iter::Flatten<array::IntoIter<Option<(Circuit, Level)>, PLACES>>;

    fn into_iter(self) -> Self::IntoIter {
        self.iter()
    }
}

impl FromIterator<(Circuit, Level)> for HelloOrders {
    fn from_iter<I: IntoIterator<Item = (Circuit, Level)>>(hellos: I) -> HelloOrders {
        HelloOrders(hellos.into_iter().fold(0, |mask, (circuit, level)| mask | 1 << place(circuit, level)))
    }
}

impl fmt::Debug for HelloOrders {
    /// As the set of pairs of their numbers.
    fn fmt(&self, f: &mut fmt::Formatter<'_>) -> fmt::Result {
        f.debug_set().entries(self.iter().map(|(circuit, level)| (circuit.number(), level.number()))).finish()
    }
}

/// Order: send these hellos with these flags (RFC 8706, 3.3.1 and 3.3.2); no hello, no flags.
#[derive(Clone, Copy, PartialEq, Eq, Hash, Debug, Default)]
pub struct Hellos {
    /// The hellos.
    pub orders: HelloOrders,
    /// The flags of all these hellos.
    pub flags: Flags,
}

impl Hellos {
    /// Whether the hello of the circuit at the level is ordered; the one of a P2P circuit is asked for with [`Level::One`].
    pub const fn has(self, circuit: Circuit, level: Level) -> bool {
        self.orders.has(circuit, level)
    }

    /// Whether none is ordered.
    pub const fn is_empty(self) -> bool {
        self.orders.is_empty()
    }
}

/// The flags of the Restart TLV that a hello carries (RFC 8706, 3.1).
#[derive(Clone, Copy, PartialEq, Eq, Hash, Default)]
pub struct Flags(pub(crate) u8);

impl Flags {
    /// RR: a restart is requested.
    pub const RR: Flags = Flags(1);
    /// SA: the adjacency is not to be advertised.
    pub const SA: Flags = Flags(4);

    /// These and those.
    ///
    /// ```
    /// # use isis_gr::Flags;
    /// let both = Flags::RR.and(Flags::SA);
    /// assert!(both.has(Flags::RR) && both.has(Flags::SA));
    /// ```
    pub const fn and(self, flags: Flags) -> Flags {
        Flags(self.0 | flags.0)
    }

    /// Whether all of these are set.
    ///
    /// ```
    /// # use isis_gr::Flags;
    /// assert!(Flags::RR.has(Flags::RR));
    /// assert!(!Flags::default().has(Flags::RR));
    /// ```
    pub const fn has(self, flags: Flags) -> bool {
        self.0 & flags.0 == flags.0
    }

    /// Whether there is none.
    pub const fn is_empty(self) -> bool {
        self.0 == 0
    }

    /// The first octet of the TLV's value.
    pub const fn octet(self) -> u8 {
        self.0
    }
}

impl fmt::Debug for Flags {
    /// As the set of their names.
    fn fmt(&self, f: &mut fmt::Formatter<'_>) -> fmt::Result {
        let names = [(Flags::RR, "RR"), (Flags::SA, "SA")];
        f.debug_set().entries(names.iter().filter(|(flag, _)| self.has(*flag)).map(|(_, name)| name)).finish()
    }
}
