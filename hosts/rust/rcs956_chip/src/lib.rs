//! A chip with a field of cards for Rust, over the proved archive libchip_c.a (include/rcs956_chip.h): the other end of the wire, for hosts that are
//! tried without a chip.
//!
//! ```
//! use rcs956_chip::{ACK, Bitrate, Chip, Kind, Refusal};
//!
//! let mut chip = Chip::new();
//! let listed = [0x12, 0x01, 1, 2, 3, 4, 5, 6, 7, 8, 1, 2, 3, 4, 5, 6, 7, 8];
//! chip.add_card(Kind::F, Bitrate::B212F, &listed, &[]).unwrap();
//! assert_eq!(chip.add_card(Kind::F, Bitrate::B106A, &listed, &[]), Err(Refusal::BadArgument));
//!
//! // InListPassiveTarget at 212F: ACK, then one target with number 1 and the list data
//! let frame = [0x00, 0x00, 0xFF, 0x09, 0xF7, 0xD4, 0x4A, 0x01, 0x01, 0x00, 0xFF, 0xFF, 0x00, 0x00, 0xE2, 0x00];
//! let response = chip.step(&frame).unwrap();
//! assert_eq!(response[5..9], [0xD5, 0x4B, 0x01, 0x01]);
//! assert_eq!(response[9..27], listed);
//! assert_eq!(chip.step(&ACK), None);
//! ```
//!
//! hosts/rust/with_chip runs a reader at it.

#![deny(unsafe_code)]

#[allow(unsafe_code)]
mod ffi;
#[cfg(test)]
mod tests;

/// The packet that the chip sends before a response.
pub const ACK: [u8; 6] = [0x00, 0x00, 0xFF, 0x00, 0xFF, 0x00];

/// The kinds of discovery.
#[derive(Clone, Copy, Debug, PartialEq, Eq)]
pub enum Kind {
    A,
    B,
    F,
    Dep,
}

/// The bitrates. A card of Type A may have any of them, of Type B 106B, of Type F 212F and 424F, and a DEP partner all but 106B.
#[derive(Clone, Copy, Debug, PartialEq, Eq)]
pub enum Bitrate {
    B106A,
    B212F,
    B424F,
    B106B,
}

/// Why a card or a reply was refused; the chip is then as it was.
#[derive(Clone, Copy, Debug, PartialEq, Eq)]
pub enum Refusal {
    /// 3: a response that passes a packet of 1,024 bytes, bytes sent over 512, a ninth reply.
    OverLong,
    /// 4: a fifth card, a bitrate that is not of the kind, list data that does not serve the discovery, a reply without a card, a second reply to the same bytes,
    /// a Type 2 card's reply without its CRC_A.
    BadArgument,
}

/// The chip with its field.
#[derive(Clone)]
pub struct Chip {
    chip: Box<ffi::Chip>,
    buffer: [u8; 1024],
}

impl Default for Chip {
    fn default() -> Self {
        Chip::new()
    }
}

fn added(outcome: ffi::Outcome) -> Result<(), Refusal> {
    match outcome.refusal {
        0 => Ok(()),
        3 => Err(Refusal::OverLong),
        _ => Err(Refusal::BadArgument),
    }
}

impl Chip {
    /// An empty field, and the chip as at its start.
    pub fn new() -> Chip {
        Chip { chip: Box::new(ffi::fresh()), buffer: [0; 1024] }
    }

    /// A card more in the field, with its list data. `atqb` is a Type B card's answer to WUPB, and is not looked at of the other kinds.
    pub fn add_card(&mut self, kind: Kind, bitrate: Bitrate, listed: &[u8], atqb: &[u8]) -> Result<(), Refusal> {
        added(ffi::add_card(&mut self.chip, kind as u8, bitrate as u8, listed, atqb))
    }

    /// To these bytes the card added last replies so.
    pub fn add_reply(&mut self, bytes: &[u8], reply: &[u8]) -> Result<(), Refusal> {
        added(ffi::add_reply(&mut self.chip, bytes, reply))
    }

    /// The bytes that the host wrote. Of a command's frame the response, before which the chip sends [`ACK`]; nothing of other bytes.
    pub fn step(&mut self, written: &[u8]) -> Option<&[u8]> {
        let outcome = ffi::step(&mut self.chip, written, &mut self.buffer);
        (outcome.packet > 0).then(|| &self.buffer[..outcome.packet])
    }

    /// How many cards the field has.
    pub fn cards(&self) -> usize {
        self.chip.state.count as usize
    }
}
