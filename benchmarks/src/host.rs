//! A host of the proved engine: it executes the engine's orders on the wire.

use crate::archive::*;
use crate::inputs::{self, Call};
use crate::stack;
use crate::wire::Wire;
use std::time::{Duration, Instant};

const ACK_LENGTH: usize = 6;
const DRAIN_TIME: Duration = Duration::from_millis(50);

pub struct Host {
    session: Session,
    /// Lent to the engine, and where packets are read to.
    buffer: [u8; 1024],
    packet: [u8; 1024],
    wire: Wire,
    /// How many more reads have a time of their own: one after a command, all
    /// after a bare ACK. The others, and those of a drain, share a clock.
    own: u32,
    /// When that clock ends. It starts with the first read under it.
    deadline: Option<Instant>,
}

impl Host {
    pub fn new() -> Self {
        Host {
            session: unsafe { rcs956_fresh() },
            buffer: [0; 1024],
            packet: [0; 1024],
            wire: Wire::new(inputs::packets(&Call::Open)),
            own: 0,
            deadline: None,
        }
    }

    /// Lets the wire answer the call from here on. All calls but the opening
    /// need an open session.
    pub fn prepare(&mut self, call: &Call) {
        self.call(&Call::Open);
        self.wire.answer(inputs::packets(call));
    }

    /// A whole call, and the length of its answer. The opening starts with a
    /// fresh session.
    pub fn call(&mut self, call: &Call) -> usize {
        self.wire.rewind();
        if let Call::Open = call {
            self.session = unsafe { rcs956_fresh() };
        }
        let mut outcome = self.begin(call);
        while outcome.kind <= PAUSE {
            let (number, len) = self.execute(&outcome);
            outcome = self.event(number, len);
        }
        assert_eq!(outcome.kind, DONE);
        outcome.len
    }

    /// The stack that the call's entry needs, and the most that an event of it does.
    pub fn stack(&mut self, call: &Call) -> (usize, usize) {
        self.wire.rewind();
        let (mut outcome, entry) = stack::used(|| self.begin(call));
        let mut deepest = 0;
        while outcome.kind <= PAUSE {
            let (number, len) = self.execute(&outcome);
            let (next, event) = stack::used(|| self.event(number, len));
            outcome = next;
            deepest = deepest.max(event);
        }
        assert_eq!(outcome.kind, DONE);
        (entry, deepest)
    }

    /// The answer of that length, and behind it all that was written.
    pub fn result(&self, len: usize) -> Vec<u8> {
        [&self.buffer[..len], &self.wire.written].concat()
    }

    fn begin(&mut self, call: &Call) -> Outcome {
        let none = &[][..];
        let (number, word, given, bitrate, request, sent) = match call {
            Call::Open => (OPEN, 0, 0, none, none, none),
            Call::Version => (VERSION, 0, 0, none, none, none),
            Call::DetectTypeF => (DETECT_TYPE_F, 0xFFFF, 0, &b"212F"[..], none, none),
            Call::DetectDep(request) => (DETECT_DEP, 0, 0, &b"212F"[..], &request[..], none),
            Call::Transceive(sent) => (TRANSCEIVE, 500, 1, &b"212F"[..], none, &sent[..]),
        };
        unsafe {
            rcs956_call(
                &mut self.session,
                number,
                Numbers {
                    ms: 0,
                    word,
                    x: 0,
                    y: given,
                    caller: 0,
                },
                bitrate.as_ptr(),
                bitrate.len(),
                request.as_ptr(),
                request.len(),
                sent.as_ptr(),
                sent.len(),
                none.as_ptr(),
                none.len(),
                self.buffer.as_mut_ptr(),
                self.buffer.len(),
            )
        }
    }

    fn event(&mut self, number: u8, len: usize) -> Outcome {
        unsafe {
            rcs956_event(
                &mut self.session,
                number,
                self.packet.as_ptr(),
                len,
                self.buffer.as_mut_ptr(),
                self.buffer.len(),
            )
        }
    }

    /// Executes an order: the event's number, and the length of its packet.
    fn execute(&mut self, order: &Outcome) -> (u8, usize) {
        let ms = Duration::from_millis(order.time.into());
        match order.kind {
            WRITE => {
                self.wire.write(&self.buffer[..order.len]);
                self.own = if order.len == ACK_LENGTH { u32::MAX } else { 1 };
                self.deadline = None;
                (OK, 0)
            }
            READ if self.own > 0 => {
                self.own -= 1;
                self.read(ms)
            }
            READ => self.read_by_clock(ms),
            DRAIN => self.read_by_clock(DRAIN_TIME),
            _ => {
                std::thread::sleep(Duration::from_micros(order.time.into()));
                (SLEPT, 0)
            }
        }
    }

    fn read_by_clock(&mut self, whole: Duration) -> (u8, usize) {
        let now = Instant::now();
        let deadline = *self.deadline.get_or_insert(now + whole);
        match deadline.checked_duration_since(now) {
            Some(left) if !left.is_zero() => self.read(left),
            _ => (LATE, 0),
        }
    }

    fn read(&mut self, time: Duration) -> (u8, usize) {
        match self.wire.read(time) {
            None => (TIME_OUT, 0),
            Some(packet) => {
                self.packet[..packet.len()].copy_from_slice(packet);
                (PACKET, packet.len())
            }
        }
    }
}
