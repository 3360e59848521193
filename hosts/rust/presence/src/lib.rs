//! The list of present cards for Rust, over the proved archive libpresence_c.a (include/presence.h).
//!
//! ```
//! use presence::{Bitrate, Card, Kind, List, Refusal};
//!
//! let mut list = List::new();
//! let card = Card::new(Kind::F, &[1, 2, 3, 4, 5, 6, 7, 8], Bitrate::B212F);
//! assert_eq!(list.round(1, &[card]).unwrap().arrived, [card]);
//! assert_eq!(list.round(1, &[]), Err(Refusal::StaleRound));
//! assert!(list.round(2, &[]).unwrap().departed.is_empty());
//! assert_eq!(list.round(3, &[]).unwrap().departed[0].identifier(), [1, 2, 3, 4, 5, 6, 7, 8]);
//! assert!(list.present().is_empty());
//! ```

#![deny(unsafe_code)]

#[allow(unsafe_code)]
mod ffi;
#[cfg(test)]
mod tests;

/// Kinds, in their order.
#[derive(Clone, Copy, Debug, PartialEq, Eq, PartialOrd, Ord)]
pub enum Kind {
    A,
    Type1,
    B,
    F,
    Dep,
}

#[derive(Clone, Copy, Debug, PartialEq, Eq)]
pub enum Bitrate {
    B106A,
    B212F,
    B424F,
    B106B,
    B212B,
    B424B,
    B848B,
}

/// Why a round was refused; the list is then as it was.
#[derive(Clone, Copy, Debug, PartialEq, Eq)]
pub enum Refusal {
    /// 1: the list has a field out of range, or cards out of order.
    OutOfRange,
    /// 3: an identifier over 16 bytes.
    OverLong,
    /// 4: a kind or bitrate that there is not.
    BadArgument,
    /// 27: the number is not above that of the last accepted round.
    StaleRound,
    /// 28: the list after the round would pass 64 cards.
    ListFull,
}

/// A card with its bitrate: a record of a round, or one of the list.
#[repr(C)]
#[derive(Clone, Copy, Debug, PartialEq, Eq)]
pub struct Card {
    kind: u8,
    identifier: [u8; 16],
    length: u8,
    bitrate: u8,
    missed: u8,
}

/// Who came and who left with an accepted round.
#[derive(Clone, Copy, Debug, PartialEq, Eq)]
pub struct Report<'a> {
    pub arrived: &'a [Card],
    pub departed: &'a [Card],
}

/// The list of a gate, kept for its life and updated in place.
#[derive(Clone)]
pub struct List(ffi::List);

impl Card {
    /// An identifier of more than 16 bytes makes a record that is refused with [`Refusal::OverLong`].
    pub fn new(kind: Kind, identifier: &[u8], bitrate: Bitrate) -> Card {
        let held = &identifier[..identifier.len().min(16)];
        let mut card = Card {
            kind: kind as u8,
            identifier: [0; 16],
            length: identifier.len().min(17) as u8,
            bitrate: bitrate as u8,
            missed: 0,
        };
        card.identifier[..held.len()].copy_from_slice(held);
        card
    }

    pub fn kind(&self) -> Kind {
        [Kind::A, Kind::Type1, Kind::B, Kind::F, Kind::Dep][self.kind as usize]
    }

    pub fn identifier(&self) -> &[u8] {
        &self.identifier[..(self.length as usize).min(16)]
    }

    pub fn bitrate(&self) -> Bitrate {
        use Bitrate::*;
        [B106A, B212F, B424F, B106B, B212B, B424B, B848B][self.bitrate as usize]
    }

    /// Whether the card was not seen in the last accepted round.
    pub fn missed(&self) -> bool {
        self.missed != 0
    }
}

impl Default for List {
    fn default() -> Self {
        List::new()
    }
}

impl List {
    /// Nobody is there, and no round was accepted.
    pub fn new() -> List {
        List(ffi::empty())
    }

    /// Who is there, in order of kind, then of identifier bytes, a prefix first.
    pub fn present(&self) -> &[Card] {
        &self.0.cards[..self.0.state.count as usize]
    }

    /// A round with its number and the cards found.
    pub fn round(&mut self, number: u32, found: &[Card]) -> Result<Report<'_>, Refusal> {
        let outcome = ffi::round(&mut self.0, number, found);
        match outcome.refusal {
            0 => Ok(Report {
                arrived: &self.0.arrived[..outcome.arrived],
                departed: &self.0.departed[..outcome.departed],
            }),
            1 => Err(Refusal::OutOfRange),
            3 => Err(Refusal::OverLong),
            4 => Err(Refusal::BadArgument),
            27 => Err(Refusal::StaleRound),
            _ => Err(Refusal::ListFull),
        }
    }
}
