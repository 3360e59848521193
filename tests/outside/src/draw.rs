//! What a case draws: a session, a call or an event, a buffer.

use rcs956::BUFFER_SIZE;
use rcs956::raw::{self, RawSession, event};

/// A generator of numbers (splitmix64): a seed gives the same numbers in each run.
pub struct Draw(u64);

impl Draw {
    pub fn new(seed: u64, case: u64) -> Draw {
        Draw(seed.wrapping_mul(0x2545_F491_4F6C_DD1D) ^ case.wrapping_mul(0x9E37_79B9_7F4A_7C15))
    }

    pub fn number(&mut self) -> u64 {
        self.0 = self.0.wrapping_add(0x9E37_79B9_7F4A_7C15);
        let x = (self.0 ^ (self.0 >> 30)).wrapping_mul(0xBF58_476D_1CE4_E5B9);
        let x = (x ^ (x >> 27)).wrapping_mul(0x94D0_49BB_1331_11EB);
        x ^ (x >> 31)
    }

    /// 0 to `end` - 1.
    pub fn below(&mut self, end: u64) -> u64 {
        self.number() % end
    }

    pub fn byte(&mut self) -> u8 {
        self.number() as u8
    }

    /// True in one of `n`.
    pub fn once(&mut self, n: u64) -> bool {
        self.below(n) == 0
    }

    pub fn pick<T: Copy>(&mut self, from: &[T]) -> T {
        from[self.below(from.len() as u64) as usize]
    }

    /// Random bytes in memory of their own, no longer than they are.
    pub fn bytes(&mut self, len: usize) -> Box<[u8]> {
        let mut bytes = vec![0; len];
        self.fill(&mut bytes);
        bytes.into_boxed_slice()
    }

    pub fn fill(&mut self, bytes: &mut [u8]) {
        for chunk in bytes.chunks_mut(8) {
            chunk.copy_from_slice(&self.number().to_le_bytes()[..chunk.len()]);
        }
    }

    /// How many bytes an argument has: mostly few, now and then about a limit.
    pub fn length(&mut self) -> usize {
        match self.below(12) {
            0 => 0,
            1 => self.pick(&[128, 192, 195, 477, 478, 508, 509, 510, 511, 512, 513, 600]),
            2 => self.below(1400) as usize,
            3 => self.pick(&[2, 6, 10, 16, 18, 32, 64]),
            _ => self.below(20) as usize,
        }
    }

    /// Mostly at most `last`; else any byte.
    fn small(&mut self, last: u8) -> u8 {
        if self.once(48) { self.byte() } else { self.below(last as u64 + 1) as u8 }
    }

    /// Mostly at most `last`; else just above, or any number.
    fn used(&mut self, last: usize) -> usize {
        match self.below(64) {
            0 => last + 1 + self.below(4) as usize,
            1 => self.pick(&[usize::MAX, usize::MAX / 2, 1 << 32, 65536]),
            2 => self.number() as usize,
            _ => self.below(last as u64 + 1) as usize,
        }
    }

    /// A fresh session, mostly as if the reader were open.
    pub fn fresh(&mut self) -> Box<RawSession> {
        let mut session = Box::new(raw::fresh());
        session.books.opened = !self.once(8) as u8;
        session.books.mode = self.below(2) as u8;
        session
    }

    /// A session with any bytes, also between its fields.
    fn any_bytes(&mut self) -> Box<RawSession> {
        let bytes = self.bytes(size_of::<RawSession>());
        let mut session = Box::new(raw::fresh());
        // SAFETY: a session has so many bytes, and its fields are numbers, which may have any.
        unsafe { (&raw mut *session).cast::<u8>().copy_from_nonoverlapping(bytes.as_ptr(), bytes.len()) };
        session
    }

    /// A session with any bytes; in most its numbers are drawn anew, most of them in their ranges.
    pub fn session(&mut self) -> Box<RawSession> {
        let mut session = self.any_bytes();
        if self.once(16) {
            return session;
        }
        let (core, books) = (&mut session.core, &mut session.books);
        core.command = self.used(512);
        core.found = self.used(1024);
        core.exchange.phase = self.small(6);
        core.exchange.code = self.code();
        core.call.kind = if self.once(3) { 0 } else { self.small(24) };
        core.call.stage = self.small(9);
        core.call.cursor = self.small(16);
        core.call.phase = if self.once(2) { 0 } else { self.small(5) };
        books.opened = self.opened();
        books.mode = self.small(1);
        books.caller = self.small(7);
        session.frames = std::array::from_fn(|_| self.pick(&[0, 1, 77, u32::MAX - 1, u32::MAX, u32::MAX]));
        session
    }

    /// Mostly 1; else 0, or any byte.
    fn opened(&mut self) -> u8 {
        let any = self.byte();
        match self.below(16) {
            0 => any,
            1 | 2 => 0,
            _ => 1,
        }
    }

    /// A command's code, mostly of the chip's.
    fn code(&mut self) -> u8 {
        let any = self.byte();
        self.pick(&[
            0x02, 0x06, 0x08, 0x12, 0x18, 0x32, 0x40, 0x42, 0x4A, 0x56, 0x86, 0x88, 0x8A, 0x8C, 0x90, 0x92, any,
        ])
    }

    /// The buffer's length: mostly enough.
    pub fn buffer_len(&mut self) -> usize {
        match self.below(16) {
            0 => self.below(BUFFER_SIZE as u64) as usize,
            1 => self.pick(&[0, 1, 1023]),
            2 => BUFFER_SIZE + self.below(1024) as usize,
            _ => BUFFER_SIZE,
        }
    }

    /// An event's number: mostly one that fits what the session waits for.
    pub fn event(&mut self, session: &RawSession) -> u8 {
        if self.once(10) {
            return if self.once(4) { self.byte() } else { self.below(8) as u8 };
        }
        match (session.core.call.phase, session.core.exchange.phase) {
            (1 | 3, _) | (0, 0 | 3 | 4 | 5) => self.pick(&[event::OK, event::OK, event::OK, event::BAD]),
            (2 | 5, _) => event::SLEPT,
            _ if self.once(5) => self.pick(&[event::TIME, event::FAIL, event::LATE]),
            _ => event::PACKET,
        }
    }

    /// A packet, in every other case behind 0 to 18 zeros.
    pub fn packet(&mut self, code: u8) -> Box<[u8]> {
        let packet = self.unpadded(code);
        if self.once(2) {
            return packet;
        }
        let zeros = self.below(19) as usize;
        [&vec![0; zeros], &packet[..]].concat().into_boxed_slice()
    }

    /// An ACK, the response to the session's command, the same with a fault, or any bytes.
    fn unpadded(&mut self, code: u8) -> Box<[u8]> {
        match self.below(12) {
            0 => Box::new([0, 0, 0xFF, 0, 0xFF, 0]),
            1 => Box::new([0, 0, 0xFF, 0, 0xFF, 0, self.byte()]),
            2 => Box::new([0, 0, 0xFF, 0xFF, 0xFF, 0]),
            3 => {
                let any = self.below(1030) as usize;
                let len = self.pick(&[0, 1024, 1025, 2000, any, any]);
                self.bytes(len)
            }
            4 => {
                let mut frame = self.response(code);
                let at = self.below(frame.len() as u64) as usize;
                frame[at] ^= 1 << self.below(8);
                frame.into_boxed_slice()
            }
            5 => {
                let mut frame = self.response(code);
                let len = self.below(frame.len() as u64 + 4) as usize;
                frame.resize(len, 0);
                frame.into_boxed_slice()
            }
            6 => {
                let head = self.pick(&[[0xD5, code], [0x7F, 0], [0xD4, code.wrapping_add(1)]]);
                frame(&head).into_boxed_slice()
            }
            _ => self.response(code).into_boxed_slice(),
        }
    }

    /// The frame of a response: a status or a list of targets, and bytes behind it.
    fn response(&mut self, code: u8) -> Vec<u8> {
        if code == 0x4A && self.once(3) {
            return self.target();
        }
        let any = self.byte();
        let mut payload = vec![0xD5, code.wrapping_add(1)];
        if code == IN_COMMUNICATE_THRU && self.once(2) {
            payload.push(0);
            payload.extend(self.felica_reply());
            return frame(&payload);
        }
        match self.below(5) {
            0 => payload.extend([1, 1]),
            1 => payload.push(self.pick(&[0x26, 1, 0x40, 0x80, any])),
            _ => payload.push(0),
        }
        let len = if self.once(20) { self.below(1014) } else { self.below(24) } as usize;
        let bytes = self.bytes(len);
        match self.below(5) {
            0 => payload.truncate(2 + self.below(2) as usize),
            1 => payload.extend(std::iter::repeat_n(0, len)),
            2 => payload.extend(with_crc_a(&bytes)),
            _ => payload.extend(bytes),
        }
        frame(&payload)
    }

    /// The frame of a list with one Type A target, mostly laid out as the manual has it.
    fn target(&mut self) -> Vec<u8> {
        let (uid, ats) = (self.pick(&[4, 7, 10, 5]), self.pick(&[0, 1, 6]));
        let (head, rest) = (self.bytes(3), self.bytes(uid + ats));
        let mut payload = vec![0xD5, 0x4B, 1, 1];
        payload.extend(head);
        payload.push(uid as u8);
        payload.extend(rest);
        if ats > 0 {
            payload[8 + uid] = ats as u8;
        }
        frame(&payload)
    }
}

/// The command that FeliCa blocks are read and written through, and the IDm of a card.
const IN_COMMUNICATE_THRU: u8 = 0x42;
pub const IDM: [u8; 8] = [1, 2, 3, 4, 5, 6, 7, 8];

impl Draw {
    /// A card's reply to a read or a write of blocks.
    fn felica_reply(&mut self) -> Vec<u8> {
        let blocks = 1 + self.below(4) as u8;
        let (code, flag1) = (self.pick(&[0x07, 0x09]), self.pick(&[0, 0, 1, 0xFF]));
        let data = if code == 0x07 && flag1 == 0 { 16 * blocks as usize } else { 0 };
        let mut reply = vec![12 + if data > 0 { 1 + data as u8 } else { 0 }, code];
        reply.extend(IDM);
        reply.extend([flag1, self.byte()]);
        if data > 0 {
            reply.push(blocks);
            reply.extend(self.bytes(data));
        }
        reply
    }
}

/// The frame of a payload, as the chip builds it.
fn frame(payload: &[u8]) -> Vec<u8> {
    let negated = |bytes: &[u8]| bytes.iter().fold(0u8, |sum, byte| sum.wrapping_sub(*byte));
    let mut frame = vec![0, 0, 0xFF];
    if payload.len() < 256 {
        let len = payload.len() as u8;
        frame.extend([len, negated(&[len])]);
    } else {
        let len = (payload.len() as u16).to_be_bytes();
        frame.extend([0xFF, 0xFF, len[0], len[1], negated(&len)]);
    }
    frame.extend(payload);
    frame.extend([negated(payload), 0]);
    frame
}

/// Bytes and their CRC_A.
fn with_crc_a(bytes: &[u8]) -> Vec<u8> {
    let bits = bytes.iter().flat_map(|byte| (0..8).map(move |k| (byte >> k & 1) as u16));
    let crc = bits.fold(0x6363u16, |crc, bit| (crc >> 1) ^ if crc & 1 == bit { 0 } else { 0x8408 });
    [bytes, &crc.to_le_bytes()].concat()
}
