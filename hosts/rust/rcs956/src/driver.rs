//! A call's orders, carried out over a transport.

use crate::{BUFFER_SIZE, Step};

/// What a host brings along.
pub trait Transport {
    /// Writes the bytes, and says whether it did.
    fn write(&mut self, bytes: &[u8]) -> bool;

    /// Waits up to `ms` for a packet. With `shared` it waits for what is left of the time that began with the last read without
    /// it; `Late` where nothing is left.
    fn read(&mut self, ms: u32, shared: bool, packet: &mut [u8; BUFFER_SIZE]) -> Received;

    /// The same with 50 ms, shared with the last drain without `shared`.
    fn drain(&mut self, shared: bool, packet: &mut [u8; BUFFER_SIZE]) -> Received;

    fn sleep(&mut self, us: u32);

    /// Is shown each step before it is carried out.
    fn seen(&mut self, _step: &Step<'_>) {}
}

/// What a read came to.
#[derive(Clone, Copy, Debug, PartialEq, Eq)]
pub enum Received {
    /// So many bytes of the packet.
    Packet(usize),
    TimedOut,
    Failed,
    /// The shared time was over before the read.
    Late,
}

/// Carries out a call's orders, from its first step to its last, which it answers.
pub fn run<'r>(mut step: Step<'r>, transport: &mut impl Transport) -> Step<'r> {
    let mut packet = [0; BUFFER_SIZE];
    // Reads and drains since the last write, and whether that was a command's frame, not an ACK.
    let (mut reads, mut drains, mut framed) = (0u8, 0u8, false);
    loop {
        transport.seen(&step);
        step = match step {
            Step::Write(order) => {
                (reads, drains, framed) = (0, 0, order.bytes().len() > 6);
                if transport.write(order.bytes()) { order.ok() } else { order.failed() }
            }
            Step::Read(order) => {
                let shared = framed && reads >= 2;
                reads = reads.saturating_add(1);
                match transport.read(order.ms(), shared, &mut packet) {
                    Received::Packet(n) => order.packet(&packet[..n]),
                    Received::TimedOut => order.timed_out(),
                    Received::Failed => order.failed(),
                    Received::Late => order.late(),
                }
            }
            Step::Drain(order) => {
                let shared = drains >= 1;
                drains = 1;
                match transport.drain(shared, &mut packet) {
                    Received::Packet(n) => order.packet(&packet[..n]),
                    Received::TimedOut => order.timed_out(),
                    Received::Failed => order.failed(),
                    Received::Late => order.late(),
                }
            }
            Step::Pause(order) => {
                transport.sleep(order.us());
                order.slept()
            }
            end => return end,
        };
    }
}
