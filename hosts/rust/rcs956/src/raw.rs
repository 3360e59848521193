//! The three functions of include/rcs956.h on slices, with numbers for calls, events and outcomes.
//!
//! They take any arguments: a session with a field out of range is refused, and so is a short buffer. Most hosts want
//! [`crate::Reader`] instead.

use crate::ffi;
use std::fmt;

/// The callers of a session, numbered from 0.
pub const CALLERS: usize = 8;

/// Kinds of outcomes.
pub mod kind {
    pub const WRITE: u8 = 0;
    pub const READ: u8 = 1;
    pub const DRAIN: u8 = 2;
    pub const PAUSE: u8 = 3;
    pub const DONE: u8 = 4;
    pub const DONE_TYPE1: u8 = 5;
    pub const NONE: u8 = 6;
    /// The call has ended.
    pub const REFUSED: u8 = 7;
    pub const LIST_REFUSED: u8 = 8;
    pub const UID_AND_ATS: u8 = 9;
    /// Nothing has changed.
    pub const REFUSED_AT_ONCE: u8 = 10;
}

/// Events.
pub mod event {
    pub const OK: u8 = 0;
    pub const BAD: u8 = 1;
    pub const PACKET: u8 = 2;
    pub const TIME: u8 = 3;
    pub const FAIL: u8 = 4;
    pub const LATE: u8 = 5;
    pub const SLEPT: u8 = 6;
}

/// The exchange of one command.
#[repr(C)]
#[derive(Clone, Debug, Default, PartialEq, Eq)]
pub struct ExchangeState {
    pub phase: u8,
    pub code: u8,
    pub clock: u32,
}

/// The running call; kind 0 is none.
#[repr(C)]
#[derive(Clone, Debug, Default, PartialEq, Eq)]
pub struct CallState {
    pub kind: u8,
    pub stage: u8,
    pub cursor: u8,
    pub phase: u8,
}

/// The numbers of the running call.
#[repr(C)]
#[derive(Clone, Debug, Default, PartialEq, Eq)]
pub struct Core {
    /// The bytes in use of the session's two arrays.
    pub command: usize,
    pub found: usize,
    pub exchange: ExchangeState,
    pub call: CallState,
}

/// The reader's books, but for the counts. An opening that is accepted begins them anew: its mode, its caller, and else 0.
#[repr(C)]
#[derive(Clone, Debug, Default, PartialEq, Eq)]
pub struct Books {
    /// 1 where the reader is open, else 0, also while an opening runs; any other value is out of range.
    pub opened: u8,
    /// 1 where the last opening that was accepted chose the padded mode, else 0; any other value is out of range.
    pub mode: u8,
    /// Of the last call that was accepted; above 7 is out of range.
    pub caller: u8,
}

/// One reader's session.
#[repr(C)]
#[derive(Clone, Debug, PartialEq, Eq)]
pub struct RawSession {
    pub command: [u8; 512],
    pub found: [u8; 1024],
    /// Of each caller the command frames that its calls ordered since the last opening began, its own included.
    pub frames: [u32; CALLERS],
    pub books: Books,
    pub core: Core,
}

/// What comes out of a call or an event. What does not apply is 0.
#[repr(C)]
#[derive(Clone, Copy, Debug, PartialEq, Eq)]
pub struct Outcome {
    pub kind: u8,
    /// Of a refusal its number.
    pub refusal: u8,
    /// Of refusal 15 the status byte, of 20 the first status flag.
    pub status: u8,
    /// Of refusal 20 the second status flag.
    pub status2: u8,
    /// Of a list's refusal how many of its codes were finished.
    pub finished: u8,
    /// Of an answer whose UID and ATS are told apart the length of each.
    pub uid: u8,
    pub ats: u8,
    /// Of a read its ms, of a pause its µs.
    pub time: u32,
    /// Of a write order and of an answer the bytes at the buffer's start.
    pub len: usize,
}

/// A call's arguments that are numbers. What a call does not use counts for nothing; each has a caller.
#[repr(C)]
#[derive(Clone, Copy, Debug, Default, PartialEq, Eq)]
pub struct Numbers {
    pub ms: u32,
    pub word: u16,
    pub x: u8,
    pub y: u8,
    /// 0 to 7; one above is refused with 4.
    pub caller: u8,
}

/// A call's number and arguments, as `rcs956_call` takes them.
#[derive(Clone, Copy, Debug, Default, PartialEq, Eq)]
pub struct Arguments<'a> {
    pub number: u8,
    pub numbers: Numbers,
    pub first: &'a [u8],
    pub second: &'a [u8],
    pub third: &'a [u8],
    pub fourth: &'a [u8],
}

/// A session in which no call runs, of a reader that is not open.
pub fn fresh() -> RawSession {
    ffi::fresh()
}

pub fn call(session: &mut RawSession, arguments: &Arguments<'_>, buffer: &mut [u8]) -> Outcome {
    ffi::call(session, arguments, buffer)
}

/// The packet's bytes count with [`event::PACKET`] alone.
pub fn event(session: &mut RawSession, number: u8, packet: &[u8], buffer: &mut [u8]) -> Outcome {
    ffi::event(session, number, packet, buffer)
}

/// An outcome and its bytes, printed as a bench line.
pub struct Line<'a>(pub Outcome, pub &'a [u8]);

impl fmt::Display for Line<'_> {
    fn fmt(&self, f: &mut fmt::Formatter<'_>) -> fmt::Result {
        let Line(outcome, bytes) = self;
        match outcome.kind {
            kind::WRITE => hex(f, "write", bytes),
            kind::READ => write!(f, "read {}", outcome.time),
            kind::DRAIN => f.write_str("drain"),
            kind::PAUSE => write!(f, "pause {}", outcome.time),
            kind::DONE => hex(f, "done", bytes),
            kind::DONE_TYPE1 => hex(f, "done", bytes).and_then(|()| f.write_str(" type1")),
            kind::UID_AND_ATS => {
                hex(f, "done", bytes).and_then(|()| write!(f, " uid {} ats {}", outcome.uid, outcome.ats))
            }
            kind::NONE => f.write_str("none"),
            kind::LIST_REFUSED => refused(f, outcome).and_then(|()| write!(f, " finished {}", outcome.finished)),
            _ => refused(f, outcome),
        }
    }
}

fn refused(f: &mut fmt::Formatter<'_>, outcome: &Outcome) -> fmt::Result {
    match outcome.refusal {
        15 => write!(f, "refused 15 {:02X}", outcome.status),
        20 => write!(f, "refused 20 {:02X}{:02X}", outcome.status, outcome.status2),
        number => write!(f, "refused {number}"),
    }
}

fn hex(f: &mut fmt::Formatter<'_>, word: &str, bytes: &[u8]) -> fmt::Result {
    f.write_str(word)?;
    f.write_str(if bytes.is_empty() { "" } else { " " })?;
    bytes.iter().try_for_each(|byte| write!(f, "{byte:02X}"))
}
