//! The bench program's lines over the archive. With `--frames` the call of line k, from 0, is one of caller k % 8, and each line has the
//! session's eight frame counts behind it; without it all calls are caller 0's.

use rcs956::raw::{self, Line, RawSession, event};
use rcs956::{BUFFER_SIZE, Call};
use std::io::{self, BufRead, Write};

/// The longest line that can be read.
const LONGEST: usize = 8192;

/// A line's words, and the bytes of those that are hex.
struct Words<'a> {
    words: Vec<&'a [u8]>,
    bytes: Vec<Option<Vec<u8>>>,
}

/// The bytes of pairs of hex digits; `-` has none.
fn hex(word: &[u8]) -> Option<Vec<u8>> {
    if word == b"-" {
        return Some(Vec::new());
    }
    let digit = |byte: u8| (byte as char).to_digit(16).map(|n| n as u8);
    let pair = |pair: &[u8]| match pair {
        [high, low] => Some(16 * digit(*high)? + digit(*low)?),
        _ => None,
    };
    word.chunks(2).map(pair).collect()
}

impl<'a> Words<'a> {
    fn of(line: &'a [u8]) -> Words<'a> {
        let words: Vec<_> = line.split(|byte| *byte == b' ').collect();
        let bytes = words.iter().map(|word| hex(word)).collect();
        Words { words, bytes }
    }

    fn hex(&self, k: usize) -> Option<&[u8]> {
        self.bytes[k].as_deref()
    }

    /// Hex, or no bytes for `none`.
    fn perhaps(&self, k: usize) -> Option<&[u8]> {
        if self.words[k] == b"none" { Some(&[]) } else { self.hex(k) }
    }

    fn byte(&self, k: usize) -> Option<u8> {
        if let [byte] = self.hex(k)? { Some(*byte) } else { None }
    }

    fn word(&self, k: usize) -> Option<u16> {
        if let [high, low] = self.hex(k)? { Some(u16::from_be_bytes([*high, *low])) } else { None }
    }

    fn text(&self, k: usize) -> &[u8] {
        if self.words[k] == b"-" { &[] } else { self.words[k] }
    }

    fn ms(&self, k: usize) -> Option<u32> {
        let decimal = |n: Option<u32>, byte: &u8| {
            let digit = (*byte as char).to_digit(10)?;
            n?.checked_mul(10)?.checked_add(digit)
        };
        self.words[k].iter().fold(Some(0), decimal)
    }

    fn short_ms(&self, k: usize) -> Option<Option<u16>> {
        if self.words[k] == b"none" { Some(None) } else { u16::try_from(self.ms(k)?).ok().map(Some) }
    }

    fn flag(&self, k: usize) -> Option<bool> {
        self.byte(k).filter(|byte| *byte < 2).map(|byte| byte == 1)
    }

    /// So many bytes for each, and no others.
    fn groups(&self, k: usize, of: usize) -> Option<&[u8]> {
        self.hex(k).filter(|bytes| bytes.len() % of == 0)
    }

    /// The call of the line.
    fn call(&self) -> Option<Call<'_>> {
        Some(match (self.words[0], self.words.len()) {
            (b"open", 1) => Call::Open { padded: false },
            (b"open", 2) if self.words[1] == b"padded" => Call::Open { padded: true },
            (b"version", 1) => Call::Version,
            (b"reset_mode", 1) => Call::ResetMode,
            (b"set_parameters", 2) => Call::SetParameters { flags: self.byte(1)? },
            (b"rf_configuration", 3) => Call::RfConfiguration { item: self.byte(1)?, data: self.hex(2)? },
            (b"read_register", 2) => Call::ReadRegister { addresses: self.groups(1, 2)? },
            (b"write_register", 2) => Call::WriteRegister { registers: self.groups(1, 3)? },
            (b"read_single_register", 2) => Call::ReadSingleRegister { address: self.word(1)? },
            (b"write_single_register", 3) => Call::WriteSingleRegister { address: self.word(1)?, value: self.byte(2)? },
            (b"rf_field_off", 1) => Call::RfFieldOff,
            (b"detect_type_a", 3) => Call::DetectTypeA { bitrate: self.text(1), uid: self.hex(2)?, split: false },
            (b"detect_type_a", 4) if self.words[3] == b"split" => {
                Call::DetectTypeA { bitrate: self.text(1), uid: self.hex(2)?, split: true }
            }
            (b"detect_type_b", 3) => Call::DetectTypeB { bitrate: self.text(1), sensb_req: self.hex(2)? },
            (b"detect_type_f", 5) => Call::DetectTypeF {
                bitrate: self.text(1),
                system_code: self.word(2)?,
                request_code: self.byte(3)?,
                time_slots: self.byte(4)?,
            },
            _ => return self.exchange(),
        })
    }

    /// FeliCa blocks and polls, DEP, and an exchange with a card.
    fn exchange(&self) -> Option<Call<'_>> {
        Some(match (self.words[0], self.words.len()) {
            (b"read_without_encryption", 5) => Call::ReadWithoutEncryption {
                idm: self.hex(1)?,
                service: self.word(2)?,
                ms: self.short_ms(3)?,
                blocks: self.hex(4)?,
            },
            (b"write_without_encryption", 6) => Call::WriteWithoutEncryption {
                idm: self.hex(1)?,
                service: self.word(2)?,
                ms: self.short_ms(3)?,
                blocks: self.hex(4)?,
                data: self.hex(5)?,
            },
            (b"poll_type_f", 3) => Call::PollTypeF { bitrate: self.text(1), codes: self.groups(2, 2)? },
            (b"detect_dep", 3) => Call::DetectDep { bitrate: self.text(1), atr_req: self.perhaps(2)? },
            (b"transceive", 6) => Call::Transceive {
                bitrate: self.text(1),
                sel_res: self.perhaps(2)?,
                rid_res: self.perhaps(3).map(|_| self.words[3] != b"none")?,
                ms: self.short_ms(4)?,
                data: self.hex(5)?,
            },
            _ => return self.peer(),
        })
    }

    /// The commands of an initiator and of a target.
    fn peer(&self) -> Option<Call<'_>> {
        Some(match (self.words[0], self.words.len()) {
            (b"in_list_passive_target", 4) => {
                Call::InListPassiveTarget { max_tg: self.byte(1)?, bitrate: self.byte(2)?, initiator: self.hex(3)? }
            }
            (b"in_data_exchange", 3) => Call::InDataExchange { ms: self.ms(1)?, data: self.hex(2)? },
            (b"in_communicate_thru", 3) => Call::InCommunicateThru { ms: self.ms(1)?, data: self.hex(2)? },
            (b"in_jump_for_dep", 6) => Call::InJumpForDep {
                active: self.flag(1)?,
                br: self.byte(2)?,
                passive: self.hex(3)?,
                nfcid3: self.hex(4)?,
                gi: self.hex(5)?,
            },
            (b"tg_init_target", 7) => Call::TgInitTarget {
                ms: self.ms(1)?,
                mode: self.byte(2)?,
                mifare: self.hex(3)?,
                felica: self.hex(4)?,
                nfcid3t: self.hex(5)?,
                gt: self.hex(6)?,
            },
            (b"tg_set_general_bytes", 2) => Call::TgSetGeneralBytes { data: self.hex(1)? },
            (b"tg_get_initiator_command", 2) => Call::TgGetInitiatorCommand { ms: self.ms(1)? },
            (b"tg_response_to_initiator", 2) => Call::TgResponseToInitiator { data: self.hex(1)? },
            (b"tg_get_target_status", 1) => Call::TgGetTargetStatus,
            _ => return None,
        })
    }

    /// The event of the line, with the bytes of a packet.
    fn event(&self) -> Option<(u8, &[u8])> {
        Some(match (self.words[0], self.words.len()) {
            (b"ok", 1) => (event::OK, &[]),
            (b"bad", 1) => (event::BAD, &[]),
            (b"pkt", 1) => (event::PACKET, &[]),
            (b"pkt", 2) => (event::PACKET, self.hex(1)?),
            (b"time", 1) => (event::TIME, &[]),
            (b"fail", 1) => (event::FAIL, &[]),
            (b"late", 1) => (event::LATE, &[]),
            (b"slept", 1) => (event::SLEPT, &[]),
            _ => return None,
        })
    }
}

/// The answer to a line; a line that cannot be read is refused with 4.
fn answered(line: &[u8], caller: u8, session: &mut RawSession, buffer: &mut [u8]) -> String {
    let words = Words::of(line);
    let readable = line.len() <= LONGEST && words.words.iter().all(|word| !word.is_empty());
    let outcome = if !readable {
        None
    } else if let Some((number, packet)) = words.event() {
        Some(raw::event(session, number, packet, buffer))
    } else {
        words.call().map(|call| raw::call(session, &call.arguments().by(caller), buffer))
    };
    outcome.map_or(String::from("refused 4"), |outcome| Line(outcome, &buffer[..outcome.len]).to_string())
}

fn main() -> io::Result<()> {
    let frames = std::env::args().skip(1).any(|word| word == "--frames");
    let mut session = raw::fresh();
    let mut buffer = [0; BUFFER_SIZE];
    let (mut input, mut output) = (io::stdin().lock(), io::stdout().lock());
    let mut line = Vec::new();
    let mut turn: u8 = 0;
    while input.read_until(b'\n', &mut line)? > 0 {
        let text = line.strip_suffix(b"\n").unwrap_or(&line);
        let answer = answered(text, if frames { turn } else { 0 }, &mut session, &mut buffer);
        write!(output, "{answer}")?;
        if frames {
            let counts = session.frames.map(|count| count.to_string());
            write!(output, " frames {}", counts.join(" "))?;
        }
        writeln!(output)?;
        turn = (turn + 1) % 8;
        output.flush()?;
        line.clear();
    }
    Ok(())
}
