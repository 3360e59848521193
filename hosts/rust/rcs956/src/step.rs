//! Readers, orders and the events that fit them.

use crate::raw::{self, CALLERS, Line, Outcome, RawSession, event, kind};
use crate::{BUFFER_SIZE, Call, Fault, Refusal};
use std::fmt;

/// One reader: its session and its buffer.
pub struct Reader {
    session: RawSession,
    buffer: [u8; BUFFER_SIZE],
    /// The order that waits for its event.
    due: Option<Outcome>,
}

/// What follows a call or an event. The four orders come first.
#[must_use = "an order waits for its event"]
pub enum Step<'r> {
    Write(Write<'r>),
    Read(Read<'r>),
    Drain(Drain<'r>),
    Pause(Pause<'r>),
    /// The call ended with an answer.
    Done(Answer<'r>),
    /// The call ended with none: no card, or no command.
    None,
    /// The call ended with a refusal.
    Refused(Fault),
    /// The same of a list; so many of its codes were finished.
    ListRefused {
        refusal: Fault,
        finished: u8,
    },
    /// Nothing has changed: an order that was due still is, see [`Reader::due`].
    RefusedAtOnce(Refusal),
}

/// The bytes of an answer.
#[derive(Clone, Copy, Debug, PartialEq, Eq)]
pub struct Answer<'r> {
    pub bytes: &'r [u8],
    /// They are a Type 1 tag's.
    pub type1: bool,
    /// Where UID and ATS are told apart, the length of each.
    pub lengths: Option<Lengths>,
}

/// The lengths of a UID and of an ATS, 0 where there is none. In the answer the UID stands behind three bytes, and the ATS behind it.
#[derive(Clone, Copy, Debug, PartialEq, Eq)]
pub struct Lengths {
    pub uid: u8,
    pub ats: u8,
}

/// To write bytes.
pub struct Write<'r>(Order<'r>);

/// To read a packet.
pub struct Read<'r>(Order<'r>);

/// To read a packet, of those that are thrown away for up to 50 ms.
pub struct Drain<'r>(Order<'r>);

/// To wait.
pub struct Pause<'r>(Order<'r>);

/// The reader that has ordered it, and the order.
struct Order<'r> {
    reader: &'r mut Reader,
    outcome: Outcome,
}

impl Default for Reader {
    fn default() -> Self {
        Reader::new()
    }
}

impl Reader {
    /// A reader that is not open.
    pub fn new() -> Self {
        Reader { session: raw::fresh(), buffer: [0; BUFFER_SIZE], due: None }
    }

    /// A call of a caller, 0 to 7; one above is refused with 4.
    pub fn call(&mut self, caller: u8, call: Call<'_>) -> Step<'_> {
        let outcome = raw::call(&mut self.session, &call.arguments().by(caller), &mut self.buffer);
        self.step(outcome)
    }

    /// The order that waits for its event, where a step was dropped or its event refused.
    pub fn due(&mut self) -> Option<Step<'_>> {
        self.due.map(|outcome| self.step(outcome))
    }

    /// The last opening has succeeded; false while one runs.
    pub fn is_open(&self) -> bool {
        self.session.books.opened == 1
    }

    /// The last opening that was accepted has chosen the padded mode.
    pub fn is_padded(&self) -> bool {
        self.session.books.mode == 1
    }

    /// Of each caller the command frames that its calls ordered since the last opening began, up to 4,294,967,295.
    pub fn frames(&self) -> [u32; CALLERS] {
        self.session.frames
    }

    fn event(&mut self, number: u8, packet: &[u8]) -> Step<'_> {
        let outcome = raw::event(&mut self.session, number, packet, &mut self.buffer);
        self.step(outcome)
    }

    fn step(&mut self, outcome: Outcome) -> Step<'_> {
        if outcome.kind != kind::REFUSED_AT_ONCE {
            self.due = (outcome.kind <= kind::PAUSE).then_some(outcome);
        }
        let refusal = || Refusal::numbered(outcome.refusal).expect("a refusal at once has its number");
        let fault =
            || Fault::numbered(outcome.refusal, outcome.status, outcome.status2).expect("a fault has its number");
        match outcome.kind {
            kind::WRITE => Step::Write(Write(Order { reader: self, outcome })),
            kind::READ => Step::Read(Read(Order { reader: self, outcome })),
            kind::DRAIN => Step::Drain(Drain(Order { reader: self, outcome })),
            kind::PAUSE => Step::Pause(Pause(Order { reader: self, outcome })),
            kind::DONE | kind::DONE_TYPE1 | kind::UID_AND_ATS => {
                let lengths = Lengths { uid: outcome.uid, ats: outcome.ats };
                Step::Done(Answer {
                    bytes: &self.buffer[..outcome.len],
                    type1: outcome.kind == kind::DONE_TYPE1,
                    lengths: (outcome.kind == kind::UID_AND_ATS).then_some(lengths),
                })
            }
            kind::NONE => Step::None,
            kind::LIST_REFUSED => Step::ListRefused { refusal: fault(), finished: outcome.finished },
            kind::REFUSED => Step::Refused(fault()),
            _ => Step::RefusedAtOnce(refusal()),
        }
    }
}

impl<'r> Order<'r> {
    fn event(self, number: u8, packet: &[u8]) -> Step<'r> {
        self.reader.event(number, packet)
    }
}

impl<'r> Write<'r> {
    /// What is to be written.
    pub fn bytes(&self) -> &[u8] {
        &self.0.reader.buffer[..self.0.outcome.len]
    }

    /// All bytes are written.
    pub fn ok(self) -> Step<'r> {
        self.0.event(event::OK, &[])
    }

    pub fn failed(self) -> Step<'r> {
        self.0.event(event::BAD, &[])
    }
}

impl<'r> Read<'r> {
    /// How long to wait. Under a command's clock, from the second read behind its frame on, it is the whole clock, which began with
    /// that second read: what has passed is to be subtracted.
    pub fn ms(&self) -> u32 {
        self.0.outcome.time
    }

    /// A packet came; one of more than 1,024 bytes is refused with 3.
    pub fn packet(self, bytes: &[u8]) -> Step<'r> {
        self.0.event(event::PACKET, bytes)
    }

    pub fn timed_out(self) -> Step<'r> {
        self.0.event(event::TIME, &[])
    }

    pub fn failed(self) -> Step<'r> {
        self.0.event(event::FAIL, &[])
    }

    /// The command's clock has passed before the read. Refused with 1 where the read is not under that clock.
    pub fn late(self) -> Step<'r> {
        self.0.event(event::LATE, &[])
    }
}

impl<'r> Drain<'r> {
    /// A packet came; one of more than 1,024 bytes is refused with 3.
    pub fn packet(self, bytes: &[u8]) -> Step<'r> {
        self.0.event(event::PACKET, bytes)
    }

    pub fn timed_out(self) -> Step<'r> {
        self.0.event(event::TIME, &[])
    }

    pub fn failed(self) -> Step<'r> {
        self.0.event(event::FAIL, &[])
    }

    /// The drain's 50 ms have passed before the read.
    pub fn late(self) -> Step<'r> {
        self.0.event(event::LATE, &[])
    }
}

impl<'r> Pause<'r> {
    pub fn us(&self) -> u32 {
        self.0.outcome.time
    }

    pub fn slept(self) -> Step<'r> {
        self.0.event(event::SLEPT, &[])
    }
}

impl Step<'_> {
    /// The outcome and its bytes.
    fn outcome(&self) -> (Outcome, &[u8]) {
        let end =
            |kind| Outcome { kind, refusal: 0, status: 0, status2: 0, finished: 0, uid: 0, ats: 0, time: 0, len: 0 };
        let refused = |fault: &Fault, kind| Outcome {
            refusal: fault.number(),
            status: fault.status(),
            status2: fault.status2(),
            ..end(kind)
        };
        match self {
            Step::Write(order) => (order.0.outcome, order.bytes()),
            Step::Read(order) => (order.0.outcome, &[]),
            Step::Drain(order) => (order.0.outcome, &[]),
            Step::Pause(order) => (order.0.outcome, &[]),
            Step::Done(Answer { bytes, lengths: Some(Lengths { uid, ats }), .. }) => {
                (Outcome { uid: *uid, ats: *ats, ..end(kind::UID_AND_ATS) }, bytes)
            }
            Step::Done(answer) => (end(if answer.type1 { kind::DONE_TYPE1 } else { kind::DONE }), answer.bytes),
            Step::None => (end(kind::NONE), &[]),
            Step::Refused(fault) => (refused(fault, kind::REFUSED), &[]),
            Step::ListRefused { refusal, finished } => {
                (Outcome { finished: *finished, ..refused(refusal, kind::LIST_REFUSED) }, &[])
            }
            Step::RefusedAtOnce(why) => (Outcome { refusal: why.number(), ..end(kind::REFUSED_AT_ONCE) }, &[]),
        }
    }
}

/// As a bench line.
impl fmt::Display for Step<'_> {
    fn fmt(&self, f: &mut fmt::Formatter<'_>) -> fmt::Result {
        let (outcome, bytes) = self.outcome();
        Line(outcome, bytes).fmt(f)
    }
}
