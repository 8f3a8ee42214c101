// Made of crates/tag_core/src/berth.rt, where the contracts are, by rust/generate.

//! A caller's berth: the one word by which it waits and is told.

/// Number of turns. The clock of turns begins anew after so many, so whoever takes its turn later has a higher one only
/// among fewer than 2^61 of them. Turns decide who is told first, and nothing else.
pub const TURNS: u64 = 1 << 61;

/// As what a caller waits.
#[derive(Clone, Copy, Debug, PartialEq, Eq)]
pub enum Waiter {
    /// It sleeps until it is told.
    Sleeper,
    /// It learns by other means that it was told.
    Listener,
}

impl Waiter {
    /// Its bit in the word of a berth, bit 2.
    #[inline]
    fn bit(self) -> u64 {
        match self {
            Waiter::Sleeper => 0,
            Waiter::Listener => 4,
        }
    }

    /// The waiter of which the word of a berth tells.
    #[inline]
    fn of_word(word: u64) -> Waiter {
        if word / 4 % 2 == 0 {
            Waiter::Sleeper
        } else {
            Waiter::Listener
        }
    }
}

/// Whether a caller waits, as what and with which turn. A turn is below `TURNS`.
#[derive(Clone, Copy, Debug, PartialEq, Eq)]
pub enum Berth {
    /// It does not wait.
    Up,
    /// It waits, and nobody has told it. Of those listed, whoever has the lowest turn is to be told first.
    Listed(Waiter, u64),
    /// Somebody has told it, and it has not got up since.
    Told(Waiter, u64),
}

impl Berth {
    /// Returns whether the caller waits, and nobody has told it.
    #[inline]
    pub fn is_listed(self) -> bool {
        match self {
            Berth::Up => false,
            Berth::Listed(_, _) => true,
            Berth::Told(_, _) => false,
        }
    }

    /// Returns whether somebody has told the caller.
    #[inline]
    pub fn is_told(self) -> bool {
        match self {
            Berth::Up => false,
            Berth::Listed(_, _) => false,
            Berth::Told(_, _) => true,
        }
    }

    /// Its word: in bits 0 and 1 0 for `Up`, 1 for `Listed` and 2 for `Told`, in bit 2 the waiter, and in bits 3 to 63
    /// the turn.
    #[inline]
    pub(crate) fn to_word(self) -> u64 {
        match self {
            Berth::Up => 0,
            Berth::Listed(waiter, turn) => turn * 8 + waiter.bit() + 1,
            Berth::Told(waiter, turn) => turn * 8 + waiter.bit() + 2,
        }
    }

    /// The berth of which a word tells.
    #[inline]
    pub(crate) fn of_word(word: u64) -> Berth {
        let waiter = Waiter::of_word(word);
        match word % 4 {
            1 => Berth::Listed(waiter, word / 8),
            2 => Berth::Told(waiter, word / 8),
            _ => Berth::Up,
        }
    }
}
