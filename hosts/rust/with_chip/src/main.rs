//! A host in Rust without hardware: reader and chip in one program. What the engine writes goes to the chip, and what the chip sends is
//! read. On a board another `Transport` stands here, and the calls stay as they are.

use rcs956::{BUFFER_SIZE, Call, Reader, Received, Step, Transport, run};
use rcs956_chip::{ACK, Bitrate, Chip, Kind, Refusal};
use std::collections::VecDeque;

/// SENS_RES, SEL_RES, UID with its length; READ of page 4, and its 16 bytes with their CRC_A.
const TAG: &[u8] = b"\x00\x44\x00\x07\x04\xA1\xB2\xC3\xD4\xE5\xF6";
const READ_PAGE_4: &[u8] = b"\x30\x04";
const PAGE_4: &[u8] = b"\x03\x10\xD1\x01\x0C\x55\x01example.c\x3E\x0D";

/// ATQB and what ATTRIB got; ATQB.
const BADGE: &[u8] = b"\x50\x11\x22\x33\x44\x00\x00\x00\x00\x00\x81\x81\x01\x00";
const ATQB: &[u8] = b"\x50\x11\x22\x33\x44\x00\x00\x00\x00\x00\x81\x81";

/// SENSF_RES: its length, 01, IDm and PMm; block 00 of service 000B, and the balance in it, 1,234.
const FELICA: &[u8] = b"\x12\x01\x10\x11\x12\x13\x14\x15\x16\x17\x20\x21\x22\x23\x24\x25\x26\x27";
const READ_BALANCE: &[u8] = b"\x10\x06\x10\x11\x12\x13\x14\x15\x16\x17\x01\x0B\x00\x01\x80\x00";
const BALANCE: &[u8] = b"\x1D\x07\x10\x11\x12\x13\x14\x15\x16\x17\x00\x00\x01\xD2\x04\0\0\0\0\0\0\0\0\0\0\0\0\0\0";

/// ATR_REQ and what stands in ATR_RES behind D5 01; a DEP_REQ with two bytes of LLCP, and DEP_RES.
const ATR_REQ: &[u8] = b"\xD4\x00\x01\x02\x03\x04\x05\x06\x07\x08\x09\x0A\x00\x00\x00\x00";
const PARTNER: &[u8] = b"\x0A\x09\x08\x07\x06\x05\x04\x03\x02\x01\x00\x00\x00\x09\x00";
const DEP_REQ: &[u8] = b"\x06\xD4\x06\x00\x00\x00";
const DEP_RES: &[u8] = b"\x06\xD5\x07\x00\x00\x00";

/// The chip, the packets that it sent and that are not read yet, and the lines of what the reader did.
struct Wire {
    chip: Chip,
    unread: VecDeque<Vec<u8>>,
    lines: String,
}

/// This chip is never late: what is there is read at once, and where nothing is there nothing will come.
impl Transport for Wire {
    fn write(&mut self, bytes: &[u8]) -> bool {
        if let Some(response) = self.chip.step(bytes) {
            self.unread.extend([ACK.to_vec(), response.to_vec()]);
        }
        true
    }

    fn read(&mut self, _ms: u32, shared: bool, packet: &mut [u8; BUFFER_SIZE]) -> Received {
        self.drain(shared, packet)
    }

    fn drain(&mut self, _shared: bool, packet: &mut [u8; BUFFER_SIZE]) -> Received {
        let Some(bytes) = self.unread.pop_front() else { return Received::TimedOut };
        packet[..bytes.len()].copy_from_slice(&bytes);
        Received::Packet(bytes.len())
    }

    fn sleep(&mut self, _us: u32) {}

    fn seen(&mut self, step: &Step<'_>) {
        self.lines += &format!("{step}\n");
    }
}

/// A card of each kind, three of them with a stated reply.
fn field() -> Result<Chip, Refusal> {
    let mut chip = Chip::new();
    chip.add_card(Kind::A, Bitrate::B106A, TAG, &[])?;
    chip.add_reply(READ_PAGE_4, PAGE_4)?;
    chip.add_card(Kind::B, Bitrate::B106B, BADGE, ATQB)?;
    chip.add_card(Kind::F, Bitrate::B212F, FELICA, &[])?;
    chip.add_reply(READ_BALANCE, BALANCE)?;
    chip.add_card(Kind::Dep, Bitrate::B106A, PARTNER, &[])?;
    chip.add_reply(DEP_REQ, DEP_RES)?;
    Ok(chip)
}

/// A call of caller 0 to its end: the bytes of its answer, none where it has none.
fn called(reader: &mut Reader, wire: &mut Wire, call: Call<'_>) -> Vec<u8> {
    match run(reader.call(0, call), wire) {
        Step::Done(answer) => answer.bytes.to_vec(),
        _ => Vec::new(),
    }
}

/// Opens the reader, looks for a card of each kind and talks to it: the lines, and the balance of the FeliCa card.
fn played() -> (String, Option<u16>) {
    let mut wire =
        Wire { chip: field().expect("a field that is allowed"), unread: VecDeque::new(), lines: String::new() };
    let mut reader = Reader::new();
    let mut call = |call: Call<'_>| called(&mut reader, &mut wire, call);
    call(Call::Open { padded: false });

    // Type A. The answer is SENS_RES, SEL_RES and the UID: SEL_RES tells transceive that it is a Type 2 tag.
    let tag = call(Call::DetectTypeA { bitrate: b"106A", uid: &[], split: false });
    let sel_res = tag.get(2..3).unwrap_or_default();
    call(Call::Transceive { bitrate: b"106A", sel_res, rid_res: false, data: READ_PAGE_4, ms: None });

    call(Call::DetectTypeB { bitrate: b"106B", sensb_req: &[] });

    // Type F: none at 424F, one at 212F. The answer begins with the IDm; then its balance, low byte first.
    call(Call::DetectTypeF { bitrate: b"424F", system_code: 0xFFFF, request_code: 0, time_slots: 0 });
    let felica = call(Call::DetectTypeF { bitrate: b"212F", system_code: 0xFFFF, request_code: 0, time_slots: 0 });
    let idm = felica.get(..8).unwrap_or_default();
    let block = call(Call::ReadWithoutEncryption { idm, service: 0x000B, blocks: &[0], ms: None });
    let balance = block.first_chunk().map(|low_first| u16::from_le_bytes(*low_first));

    call(Call::DetectDep { bitrate: b"106A", atr_req: ATR_REQ });
    call(Call::Transceive { bitrate: b"106A", sel_res: &[], rid_res: false, data: DEP_REQ, ms: None });
    (wire.lines, balance)
}

fn main() {
    let (lines, balance) = played();
    print!("{lines}");
    if let Some(balance) = balance {
        eprintln!("balance {balance}");
    }
}

#[test]
fn prints_what_the_host_in_c_prints() {
    let (lines, balance) = played();
    assert_eq!(lines, include_str!("../../../with_chip.out"));
    assert_eq!(balance, Some(1234));
}
