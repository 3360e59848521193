//! The inputs, the same for both sides.

/// `n` bytes of a linear congruential generator, the same in each run.
pub fn bytes(n: usize) -> Vec<u8> {
    let mut state = 1u32;
    let next = |_| {
        state = state.wrapping_mul(1664525).wrapping_add(1013904223);
        (state >> 24) as u8
    };
    (0..n).map(next).collect()
}

/// Such bytes and behind them their CRC of ISO/IEC 14443-3, annex B, bit by bit:
/// CRC_A from 0x6363, or CRC_B from 0xFFFF and inverted.
pub fn bytes_with_crc(n: usize, initial: u16, inverted: bool) -> Vec<u8> {
    let mut all = bytes(n);
    let mut register = initial;
    for bit in all
        .iter()
        .flat_map(|byte| (0..8).map(move |k| (byte >> k & 1) as u16))
    {
        register = (register >> 1) ^ if (register & 1) == bit { 0 } else { 0x8408 };
    }
    let crc = if inverted { !register } else { register };
    all.extend(crc.to_le_bytes());
    all
}

/// A frame of the normal form (PN532 user manual, 6.2.1.1), or from 256 bytes on
/// of the extended form (6.2.1.2).
pub fn frame(payload: &[u8]) -> Vec<u8> {
    let complement = |part: &[u8]| part.iter().fold(0u8, |sum, b| sum.wrapping_sub(*b));
    let mut all = vec![0x00, 0x00, 0xFF];
    let length = (payload.len() as u16).to_be_bytes();
    if length[0] == 0 {
        all.extend([length[1], complement(&length)]);
    } else {
        all.extend([0xFF, 0xFF, length[0], length[1], complement(&length)]);
    }
    all.extend(payload);
    all.extend([complement(payload), 0x00]);
    all
}

/// A call of the driver, with the ATR_REQ or the bytes that it sends.
pub enum Call {
    Open,
    Version,
    DetectTypeF,
    DetectDep(Vec<u8>),
    Transceive(Vec<u8>),
}

/// What the reader answers: a packet, or none in time.
pub type Packets = Vec<Option<Vec<u8>>>;

/// The driver's call of that name.
pub fn call(name: &str) -> Option<Call> {
    match name {
        "open" => Some(Call::Open),
        "version" => Some(Call::Version),
        "detect_type_f" => Some(Call::DetectTypeF),
        "detect_dep" => Some(Call::DetectDep(bytes(32))),
        _ => Some(Call::Transceive(bytes(length(name, "transceive_")?))),
    }
}

/// The number that stands behind the prefix in a call's name.
pub fn length(name: &str, prefix: &str) -> Option<usize> {
    name.strip_prefix(prefix)?.parse().ok()
}

/// The packets of a reader to the call. A transceive is answered with as many
/// bytes as it sends.
pub fn packets(call: &Call) -> Packets {
    match call {
        Call::Open => opening(),
        Call::Version => acknowledged([frame(&VERSION)]),
        Call::DetectTypeF => acknowledged([
            frame(&[0xD5, 0x07, 0x80]), // TX_CONTROL: the field is off
            frame(&CONFIGURED),
            response(&[0xD5, 0x4B, 0x01, 0x01, 0x12, 0x01], &bytes(16)),
        ]),
        Call::DetectDep(request) => acknowledged([
            frame(&CONFIGURED),
            response(&[0xD5, 0x57, 0x00, 0x01], &request[2..]),
            frame(&WRITTEN),
        ]),
        Call::Transceive(sent) => acknowledged([response(&[0xD5, 0x43, 0x00], sent)]),
    }
}

fn response(head: &[u8], rest: &[u8]) -> Vec<u8> {
    frame(&[head, rest].concat())
}

const VERSION: [u8; 6] = [0xD5, 0x03, 0x33, 0x01, 0x30, 0x07];
const RESET: [u8; 2] = [0xD5, 0x19];
const CONFIGURED: [u8; 2] = [0xD5, 0x33];
const WRITTEN: [u8; 3] = [0xD5, 0x09, 0x00];

/// Nothing to be cleared, then the answers to the ten commands.
fn opening() -> Packets {
    let mut all = vec![None];
    all.extend(acknowledged([
        frame(&RESET),
        frame(&VERSION),
        frame(&CONFIGURED),
        frame(&CONFIGURED),
        frame(&CONFIGURED),
        frame(&CONFIGURED),
        frame(&CONFIGURED),
        frame(&[0xD5, 0x13]),
        frame(&RESET),
        frame(&WRITTEN),
    ]));
    all
}

/// Each response with the ACK before it.
fn acknowledged<const N: usize>(responses: [Vec<u8>; N]) -> Packets {
    let ack = vec![0x00, 0x00, 0xFF, 0x00, 0xFF, 0x00];
    responses
        .into_iter()
        .flat_map(|response| [Some(ack.clone()), Some(response)])
        .collect()
}
