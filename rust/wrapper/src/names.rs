//! What calls are about: circuits, levels, System IDs and MACs.
use crate::ffi::CIRCUITS;
use core::{array, fmt, iter};

/// A circuit's number, 1 to 8.
#[derive(Clone, Copy, PartialEq, Eq, PartialOrd, Ord, Hash, Debug)]
pub struct Circuit(u8);

impl Circuit {
    /// The circuit of a number from 1 to 8. Whether the gateway has it is the gateway's to say.
    ///
    /// ```
    /// # use isis_gr::Circuit;
    /// assert!(Circuit::new(8).is_some());
    /// assert!(Circuit::new(0).is_none());
    /// ```
    pub const fn new(number: u8) -> Option<Circuit> {
        if number >= 1 && number as usize <= CIRCUITS {
            Some(Circuit(number))
        } else {
            None
        }
    }

    /// Its number.
    pub const fn number(self) -> u8 {
        self.0
    }
}

/// A set of circuits.
#[derive(Clone, Copy, PartialEq, Eq, Hash, Default)]
pub struct Circuits(pub(crate) u8);

impl Circuits {
    /// Whether the circuit is in the set.
    pub fn contains(self, circuit: Circuit) -> bool {
        self.0 >> (circuit.0 - 1) & 1 == 1
    }

    /// Whether there is none.
    pub fn is_empty(self) -> bool {
        self.0 == 0
    }

    /// The circuits of the set, lowest first.
    ///
    /// ```
    /// # use isis_gr::{Circuit, Circuits};
    /// let (two, five) = (Circuit::new(2).unwrap(), Circuit::new(5).unwrap());
    /// let set: Circuits = [five, two].into_iter().collect();
    /// assert!(set.iter().eq([two, five]));
    /// ```
    pub fn iter(self) -> iter::Flatten<array::IntoIter<Option<Circuit>, CIRCUITS>> {
        array::from_fn(|at| Some(Circuit(at as u8 + 1)).filter(|circuit| self.contains(*circuit))).into_iter().flatten()
    }
}

impl IntoIterator for Circuits {
    type Item = Circuit;
    type IntoIter = iter::Flatten<array::IntoIter<Option<Circuit>, CIRCUITS>>;

    fn into_iter(self) -> Self::IntoIter {
        self.iter()
    }
}

impl FromIterator<Circuit> for Circuits {
    fn from_iter<I: IntoIterator<Item = Circuit>>(circuits: I) -> Circuits {
        Circuits(circuits.into_iter().fold(0, |mask, circuit| mask | 1 << (circuit.0 - 1)))
    }
}

impl fmt::Debug for Circuits {
    fn fmt(&self, f: &mut fmt::Formatter<'_>) -> fmt::Result {
        f.debug_set().entries(self.iter().map(Circuit::number)).finish()
    }
}

/// An IS-IS level (of ISO 10589: there is no other).
#[derive(Clone, Copy, PartialEq, Eq, PartialOrd, Ord, Hash, Debug)]
pub enum Level {
    /// Level 1.
    One,
    /// Level 2.
    Two,
}

impl Level {
    /// Its number, 1 or 2.
    pub const fn number(self) -> u8 {
        match self {
            Level::One => 1,
            Level::Two => 2,
        }
    }
}

/// A set of levels.
#[derive(Clone, Copy, PartialEq, Eq, Hash, Debug, Default)]
pub struct Levels {
    /// Level 1 is in it.
    pub one: bool,
    /// Level 2 is in it.
    pub two: bool,
}

impl Levels {
    /// Level 1 alone.
    pub const ONE: Levels = Levels { one: true, two: false };
    /// Level 2 alone.
    pub const TWO: Levels = Levels { one: false, two: true };
    /// Both levels.
    pub const BOTH: Levels = Levels { one: true, two: true };

    /// Whether there is none.
    pub fn is_empty(self) -> bool {
        self == Levels::default()
    }

    /// Whether the level is in the set.
    pub fn contains(self, level: Level) -> bool {
        match level {
            Level::One => self.one,
            Level::Two => self.two,
        }
    }

    /// The levels of the set, level 1 first.
    ///
    /// ```
    /// # use isis_gr::{Level, Levels};
    /// assert!(Levels::BOTH.iter().eq([Level::One, Level::Two]));
    /// assert!(Levels::TWO.iter().eq([Level::Two]));
    /// ```
    pub fn iter(self) -> iter::Flatten<array::IntoIter<Option<Level>, 2>> {
        [Level::One, Level::Two].map(|level| Some(level).filter(|level| self.contains(*level))).into_iter().flatten()
    }

    pub(crate) fn mask(self) -> u8 {
        u8::from(self.one) + 2 * u8::from(self.two)
    }

    pub(crate) fn of_mask(mask: u8) -> Levels {
        Levels { one: mask & 1 == 1, two: mask & 2 == 2 }
    }
}

impl IntoIterator for Levels {
    type Item = Level;
    type IntoIter = iter::Flatten<array::IntoIter<Option<Level>, 2>>;

    fn into_iter(self) -> Self::IntoIter {
        self.iter()
    }
}

impl FromIterator<Level> for Levels {
    fn from_iter<I: IntoIterator<Item = Level>>(levels: I) -> Levels {
        levels.into_iter().fold(Levels::default(), |set, level| match level {
            Level::One => Levels { one: true, ..set },
            Level::Two => Levels { two: true, ..set },
        })
    }
}

/// A System ID.
#[derive(Clone, Copy, PartialEq, Eq, PartialOrd, Ord, Hash)]
pub struct SystemId(pub [u8; 6]);

impl fmt::Debug for SystemId {
    /// As 1921.6800.1001.
    fn fmt(&self, f: &mut fmt::Formatter<'_>) -> fmt::Result {
        let [a, b, c, d, e, g] = self.0;
        write!(f, "{a:02x}{b:02x}.{c:02x}{d:02x}.{e:02x}{g:02x}")
    }
}

/// A MAC.
#[derive(Clone, Copy, PartialEq, Eq, PartialOrd, Ord, Hash)]
pub struct Mac(pub [u8; 6]);

impl fmt::Debug for Mac {
    /// As 02:00:00:00:00:01.
    fn fmt(&self, f: &mut fmt::Formatter<'_>) -> fmt::Result {
        let [a, b, c, d, e, g] = self.0;
        write!(f, "{a:02x}:{b:02x}:{c:02x}:{d:02x}:{e:02x}:{g:02x}")
    }
}
