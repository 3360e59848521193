//! A host in Rust: it carries out the engine's orders over a transport and prints each as a bench line.
//!
//! The transport here takes its events from a script of bench lines: `host SCRIPT`. The script is that of the program `session`,
//! and so is what is printed. A line that does not fit ends the program.

use rcs956::{BUFFER_SIZE, Call, Reader, Received, Step, Transport, run};

/// The line of a search for a card of Type F.
const SEARCH: &str = "detect_type_f 212F FFFF 00 00";

struct Script<'a> {
    lines: std::str::Lines<'a>,
}

impl Script<'_> {
    fn next(&mut self) -> &str {
        self.lines.next().unwrap_or_else(|| stop("a line", "nothing"))
    }

    /// An opening, in the mode that its line names.
    fn opening(&mut self) -> Call<'static> {
        match self.next() {
            "open" => Call::Open { padded: false },
            "open padded" => Call::Open { padded: true },
            line => stop("open or open padded", line),
        }
    }

    /// The next line has to be this one.
    fn take(&mut self, due: &str) {
        let line = self.next();
        if line != due {
            stop(due, line);
        }
    }
}

fn stop(due: &str, line: &str) -> ! {
    eprintln!("script: {due} is due, and there is: {line}");
    std::process::exit(2)
}

/// The bytes of pairs of hex digits; `-` has none.
fn bytes(hex: &str) -> Option<Vec<u8>> {
    if hex == "-" {
        return Some(Vec::new());
    }
    let byte = |k| hex.get(k..k + 2).and_then(|pair| u8::from_str_radix(pair, 16).ok());
    (0..hex.len()).step_by(2).map(byte).collect()
}

impl Transport for Script<'_> {
    fn write(&mut self, _bytes: &[u8]) -> bool {
        match self.next() {
            "ok" => true,
            "bad" => false,
            line => stop("ok or bad", line),
        }
    }

    fn read(&mut self, _ms: u32, shared: bool, packet: &mut [u8; BUFFER_SIZE]) -> Received {
        self.drain(shared, packet)
    }

    fn drain(&mut self, shared: bool, packet: &mut [u8; BUFFER_SIZE]) -> Received {
        match self.next() {
            "time" => Received::TimedOut,
            "fail" => Received::Failed,
            "late" if shared => Received::Late,
            line => match line.strip_prefix("pkt ").and_then(bytes) {
                Some(bytes) if bytes.len() <= BUFFER_SIZE => {
                    packet[..bytes.len()].copy_from_slice(&bytes);
                    Received::Packet(bytes.len())
                }
                _ => stop("pkt, time, fail or late", line),
            },
        }
    }

    fn sleep(&mut self, _us: u32) {
        self.take("slept");
    }

    fn seen(&mut self, step: &Step<'_>) {
        println!("{step}");
    }
}

fn main() {
    let Some(text) = std::env::args().nth(1).and_then(|path| std::fs::read_to_string(path).ok()) else {
        eprintln!("usage: host SCRIPT");
        std::process::exit(2)
    };
    let mut script = Script { lines: text.lines() };
    let mut reader = Reader::new();
    let mut idm = [0; 8];
    let search = Call::DetectTypeF { bitrate: b"212F", system_code: 0xFFFF, request_code: 0, time_slots: 0 };
    // A write that fails leaves the reader unopened; then a whole opening, and a search that finds a card at the second try. `None` is
    // an opening: its line names the mode.
    let calls = [None, Some(("version", Call::Version)), None, Some((SEARCH, search)), Some((SEARCH, search))];
    for next in calls {
        let call = match next {
            None => script.opening(),
            Some((line, call)) => {
                script.take(line);
                call
            }
        };
        if let Step::Done(found) = run(reader.call(0, call), &mut script) {
            idm = found.bytes.first_chunk().copied().unwrap_or(idm);
        }
    }
    // The card's balance: block 00 of service 000B, the first two bytes, low byte first.
    script.take("read_without_encryption 1011121314151617 000B none 00");
    let balance = Call::ReadWithoutEncryption { idm: &idm, service: 0x000B, blocks: &[0], ms: None };
    if let Step::Done(block) = run(reader.call(0, balance), &mut script) {
        eprintln!("balance {}", u16::from_le_bytes([block.bytes[0], block.bytes[1]]));
    }
}
