//! The reader's end of the wire, the same for both sides.

use crate::inputs::Packets;
use std::hint::black_box;
use std::time::Duration;

/// Answers each read with the next packet, and keeps what is written.
pub struct Wire {
    packets: Packets,
    next: usize,
    pub written: Vec<u8>,
}

impl Wire {
    pub fn new(packets: Packets) -> Self {
        Wire {
            packets,
            next: 0,
            written: Vec::with_capacity(4096),
        }
    }

    /// Starts from the first packet again, with nothing written.
    pub fn rewind(&mut self) {
        self.next = 0;
        self.written.clear();
    }

    /// Starts anew with other packets.
    pub fn answer(&mut self, packets: Packets) {
        self.packets = packets;
        self.rewind();
    }

    pub fn write(&mut self, frame: &[u8]) {
        self.written.extend_from_slice(frame);
    }

    /// The next packet, or none in time.
    pub fn read(&mut self, time: Duration) -> Option<&[u8]> {
        black_box(time);
        self.next += 1;
        self.packets[self.next - 1].as_deref()
    }
}
