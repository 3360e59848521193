//! The archive's functions. Nothing checks these declarations against include/rcs956_chip.h but the tests.

#[repr(C)]
#[derive(Clone)]
pub struct State {
    pub count: u8,
    pub found: u8,
    pub on: u8,
}

#[repr(C)]
#[derive(Clone)]
pub struct Chip {
    pub cards: [u8; 4060],
    pub sent: [u8; 18504],
    pub replies: [u8; 36468],
    pub state: State,
}

#[repr(C)]
pub struct Outcome {
    pub refusal: u8,
    pub packet: usize,
}

unsafe extern "C" {
    fn rcs956_chip_fresh() -> Chip;
    fn rcs956_chip_add_card(
        chip: *mut Chip,
        kind: u8,
        bitrate: u8,
        listed: *const u8,
        listed_len: usize,
        atqb: *const u8,
        atqb_len: usize,
    ) -> Outcome;
    fn rcs956_chip_add_reply(
        chip: *mut Chip,
        bytes: *const u8,
        len: usize,
        reply: *const u8,
        reply_len: usize,
    ) -> Outcome;
    fn rcs956_chip_step(chip: *mut Chip, written: *const u8, len: usize, buffer: *mut u8, size: usize) -> Outcome;
}

pub fn fresh() -> Chip {
    // SAFETY: it takes nothing, and any bytes are a chip.
    unsafe { rcs956_chip_fresh() }
}

// SAFETY, of the three below: what is lent is borrowed for the call alone, and a slice's pointer is not null.

pub fn add_card(chip: &mut Chip, kind: u8, bitrate: u8, listed: &[u8], atqb: &[u8]) -> Outcome {
    unsafe { rcs956_chip_add_card(chip, kind, bitrate, listed.as_ptr(), listed.len(), atqb.as_ptr(), atqb.len()) }
}

pub fn add_reply(chip: &mut Chip, bytes: &[u8], reply: &[u8]) -> Outcome {
    unsafe { rcs956_chip_add_reply(chip, bytes.as_ptr(), bytes.len(), reply.as_ptr(), reply.len()) }
}

pub fn step(chip: &mut Chip, written: &[u8], buffer: &mut [u8]) -> Outcome {
    unsafe { rcs956_chip_step(chip, written.as_ptr(), written.len(), buffer.as_mut_ptr(), buffer.len()) }
}
