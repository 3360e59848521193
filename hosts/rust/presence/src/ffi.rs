//! The archive's two functions. Nothing checks these declarations against include/presence.h but the tests.

use crate::Card;

#[repr(C)]
#[derive(Clone, Copy)]
pub struct State {
    pub number: u32,
    pub begun: u8,
    pub count: u8,
}

#[repr(C)]
#[derive(Clone, Copy)]
pub struct List {
    pub cards: [Card; 64],
    pub arrived: [Card; 64],
    pub departed: [Card; 64],
    pub state: State,
}

#[repr(C)]
pub struct Outcome {
    pub refusal: u8,
    pub arrived: usize,
    pub departed: usize,
}

unsafe extern "C" {
    fn presence_empty() -> List;
    fn presence_round(list: *mut List, number: u32, records: *const Card, bytes: usize) -> Outcome;
}

pub fn empty() -> List {
    // SAFETY: it takes nothing, and any bytes are a list.
    unsafe { presence_empty() }
}

pub fn round(list: &mut List, number: u32, found: &[Card]) -> Outcome {
    // SAFETY: the list is borrowed for the call alone, a slice's pointer is not null, and a card has 20 bytes.
    unsafe { presence_round(list, number, found.as_ptr(), size_of_val(found)) }
}
