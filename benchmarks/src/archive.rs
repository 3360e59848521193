//! The functions of the proved archives, as include/ declares them for C.

#[link(name = "codec_c", kind = "static")]
unsafe extern "C" {
    pub fn rcs956_checksum(bytes: *const u8, len: usize) -> u8;
    pub fn rcs956_crc_a_check(bytes: *const u8, len: usize) -> bool;
    pub fn rcs956_crc_b_check(bytes: *const u8, len: usize) -> bool;
    pub fn rcs956_crc_b_append(
        bytes: *const u8,
        len: usize,
        out: *mut u8,
        room: usize,
        count: &mut usize,
    ) -> u8;
    pub fn rcs956_frame_build(
        setting: u8,
        payload: *const u8,
        len: usize,
        buffer: *mut u8,
        room: usize,
        count: &mut usize,
    ) -> u8;
    pub fn rcs956_frame_parse(
        setting: u8,
        packet: *const u8,
        len: usize,
        kind: &mut u8,
        start: &mut usize,
        length: &mut usize,
        frame: &mut usize,
    ) -> u8;
}

#[link(name = "session_c", kind = "static")]
unsafe extern "C" {
    pub fn rcs956_fresh() -> Session;
    pub fn rcs956_event(
        session: &mut Session,
        number: u8,
        packet: *const u8,
        packet_len: usize,
        buffer: *mut u8,
        buffer_len: usize,
    ) -> Outcome;
    pub fn rcs956_call(
        session: &mut Session,
        number: u8,
        numbers: Numbers,
        first: *const u8,
        first_len: usize,
        second: *const u8,
        second_len: usize,
        third: *const u8,
        third_len: usize,
        fourth: *const u8,
        fourth_len: usize,
        buffer: *mut u8,
        buffer_len: usize,
    ) -> Outcome;
}

#[repr(C)]
pub struct Numbers {
    pub ms: u32,
    pub word: u16,
    pub x: u8,
    pub y: u8,
    pub caller: u8,
}

#[repr(C)]
pub struct Session {
    command: [u8; 512],
    found: [u8; 1024],
    frames: [u32; 8],
    books: Books,
    core: Core,
}

#[repr(C)]
struct Core {
    command: usize,
    found: usize,
    exchange: Exchange,
    call: Call,
}

#[repr(C)]
struct Books {
    opened: u8,
    mode: u8,
    caller: u8,
}

#[repr(C)]
struct Exchange {
    phase: u8,
    code: u8,
    clock: u32,
}

#[repr(C)]
struct Call {
    kind: u8,
    stage: u8,
    cursor: u8,
    phase: u8,
}

#[repr(C)]
pub struct Outcome {
    pub kind: u8,
    pub refusal: u8,
    pub status: u8,
    pub status2: u8,
    pub finished: u8,
    pub uid: u8,
    pub ats: u8,
    pub time: u32,
    pub len: usize,
}

/// Kinds of outcomes: four orders, and the answer.
pub const WRITE: u8 = 0;
pub const READ: u8 = 1;
pub const DRAIN: u8 = 2;
pub const PAUSE: u8 = 3;
pub const DONE: u8 = 4;

/// Events.
pub const OK: u8 = 0;
pub const PACKET: u8 = 2;
pub const TIME_OUT: u8 = 3;
pub const LATE: u8 = 5;
pub const SLEPT: u8 = 6;

/// Calls.
pub const OPEN: u8 = 0;
pub const VERSION: u8 = 1;
pub const DETECT_TYPE_F: u8 = 21;
pub const DETECT_DEP: u8 = 22;
pub const TRANSCEIVE: u8 = 23;
