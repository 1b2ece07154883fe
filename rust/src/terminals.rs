//! Sets of terminals.

use std::fmt;
use std::ops::{BitAnd, BitOr, Sub};

/// A set of terminals, one bit for each of the 64 that a pack may have.
///
/// ```
/// use zhgarelli::Terminals;
///
/// let set: Terminals = [2, 1].into_iter().collect();
/// assert_eq!(set.bits(), 6);
/// assert_eq!(set.iter().collect::<Vec<_>>(), [1, 2]);
/// assert_eq!((set - Terminals::one(1)).lowest(), Some(2));
/// ```
#[derive(Clone, Copy, Default, PartialEq, Eq, Hash)]
pub struct Terminals(u64);

impl Terminals {
    /// No terminal.
    pub const NONE: Terminals = Terminals(0);
    /// Every number that a terminal may have.
    pub const ALL: Terminals = Terminals(u64::MAX);

    /// The set whose bit t stands for terminal t.
    pub const fn of_bits(bits: u64) -> Terminals {
        Terminals(bits)
    }

    /// Bit t stands for terminal t.
    pub const fn bits(self) -> u64 {
        self.0
    }

    /// One terminal alone; none where the number is 64 or more.
    pub const fn one(terminal: usize) -> Terminals {
        if terminal < 64 {
            Terminals(1 << terminal)
        } else {
            Terminals::NONE
        }
    }

    /// Whether a terminal is in the set.
    pub const fn contains(self, terminal: usize) -> bool {
        terminal < 64 && self.0 >> terminal & 1 == 1
    }

    /// How many they are.
    pub const fn len(self) -> usize {
        self.0.count_ones() as usize
    }

    /// Whether there is none.
    pub const fn is_empty(self) -> bool {
        self.0 == 0
    }

    /// The lowest of them.
    pub fn lowest(self) -> Option<usize> {
        self.iter().next()
    }

    /// The terminals, rising.
    pub fn iter(self) -> impl Iterator<Item = usize> {
        (0..64).filter(move |&terminal| self.contains(terminal))
    }
}

impl FromIterator<usize> for Terminals {
    fn from_iter<I: IntoIterator<Item = usize>>(terminals: I) -> Terminals {
        terminals
            .into_iter()
            .fold(Terminals::NONE, |set, terminal| {
                set | Terminals::one(terminal)
            })
    }
}

impl BitOr for Terminals {
    type Output = Terminals;

    fn bitor(self, other: Terminals) -> Terminals {
        Terminals(self.0 | other.0)
    }
}

impl BitAnd for Terminals {
    type Output = Terminals;

    fn bitand(self, other: Terminals) -> Terminals {
        Terminals(self.0 & other.0)
    }
}

impl Sub for Terminals {
    type Output = Terminals;

    fn sub(self, other: Terminals) -> Terminals {
        Terminals(self.0 & !other.0)
    }
}

impl fmt::Debug for Terminals {
    fn fmt(&self, f: &mut fmt::Formatter) -> fmt::Result {
        f.debug_set().entries(self.iter()).finish()
    }
}
