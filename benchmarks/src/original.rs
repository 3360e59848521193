//! The calls of the unmodified Rust.

use crate::clf::crc::{add_crc_b, check_crc_a, check_crc_b};
use crate::clf::targets::RemoteTarget;
use crate::driver::common::DeviceInfo;
use crate::driver::framing::checksum;
use crate::driver::rcs956::device::{self, Device};
use crate::driver::rcs956::frame::Frame;
use crate::inputs::{self, Call, bytes, bytes_with_crc};
use crate::repeat;
use crate::transport::Transport;
use crate::wire::Wire;
use std::hint::black_box;
use std::io;
use std::time::Duration;

impl Transport for &mut Wire {
    fn write(&mut self, data: &[u8]) -> io::Result<()> {
        Wire::write(self, data);
        Ok(())
    }

    fn read(&mut self, timeout: Duration) -> io::Result<Vec<u8>> {
        match Wire::read(self, timeout) {
            Some(packet) => Ok(packet.to_vec()),
            None => Err(io::ErrorKind::TimedOut.into()),
        }
    }

    fn close(&mut self) -> io::Result<()> {
        Ok(())
    }
}

/// Makes a call of the codec `times` times, and once more for its result.
pub fn codec(name: &str, times: u64) -> Vec<u8> {
    match name {
        "crc_a_check" => {
            let data = bytes_with_crc(1024, 0x6363, false);
            vec![repeat(times, || check_crc_a(black_box(&data))) as u8]
        }
        "crc_b_check" => {
            let data = bytes_with_crc(1024, 0xFFFF, true);
            vec![repeat(times, || check_crc_b(black_box(&data))) as u8]
        }
        "crc_b_append" => {
            let data = bytes(1024);
            repeat(times, || add_crc_b(owned(black_box(&data))))
        }
        "frame_build" => {
            let payload = bytes(255);
            let frame = repeat(times, || Frame::build(black_box(&payload)));
            frame.as_bytes().to_vec()
        }
        "frame_parse" => {
            let packet = inputs::frame(&bytes(255));
            let frame = repeat(times, || Frame::parse(black_box(&packet)));
            frame.unwrap().payload().unwrap().to_vec()
        }
        _ => {
            let length = inputs::length(name, "checksum_").expect("a call of the codec");
            let data = bytes(length);
            vec![repeat(times, || checksum(black_box(&data)))]
        }
    }
}

/// A vector of one's own, which `add_crc_b` asks for, with room for the CRC.
fn owned(data: &[u8]) -> Vec<u8> {
    let mut own = Vec::with_capacity(data.len() + 2);
    own.extend_from_slice(data);
    own
}

/// Makes a call of the driver `times` times, and once more for its answer. What
/// was written stands behind it.
pub fn driver(call: &Call, times: u64) -> Vec<u8> {
    let mut wire = Wire::new(inputs::packets(&Call::Open));
    if let Call::Open = call {
        return open(&mut wire, times);
    }
    let mut device = device::init(&mut wire).unwrap();
    device.chipset.transport.answer(inputs::packets(call));
    let mut answer = on_device(&mut device, call, times);
    answer.extend(&wire.written);
    answer
}

fn on_device(device: &mut Device<&mut Wire>, call: &Call, times: u64) -> Vec<u8> {
    let mut card = RemoteTarget::new("212F").unwrap();
    match call {
        Call::Open => unreachable!("opening is no call on an open device"),
        Call::Version => {
            let version = || rewound(device).chipset.get_firmware_version();
            let (ic, version, revision) = repeat(times, version).unwrap();
            vec![ic, version, revision]
        }
        Call::DetectTypeF => {
            let detect = || rewound(device).detect_type_f(black_box(&card), 0xFFFF, 0, 0);
            let found = repeat(times, detect).unwrap();
            [found.idm, found.pmm, found.optional].concat()
        }
        Call::DetectDep(request) => {
            card.data.atr_req = Some(request.clone());
            let detect = || rewound(device).detect_dep(black_box(&card));
            repeat(times, detect)
                .unwrap()
                .unwrap()
                .data
                .atr_res
                .unwrap()
        }
        Call::Transceive(sent) => {
            let send = || rewound(device).transceive(black_box(&card), black_box(sent), Some(500));
            repeat(times, send).unwrap()
        }
    }
}

fn rewound<'a, 'w>(device: &'a mut Device<&'w mut Wire>) -> &'a mut Device<&'w mut Wire> {
    device.chipset.transport.rewind();
    device
}

/// Makes the device anew each time.
fn open(wire: &mut Wire, times: u64) -> Vec<u8> {
    for _ in 0..times {
        wire.rewind();
        black_box(device::init(&mut *wire).unwrap());
    }
    wire.rewind();
    let device = device::init(&mut *wire).unwrap();
    let (ic, version, revision) = device.chipset.firmware_version();
    let mut answer = vec![ic, version, revision];
    answer.extend(device.chipset_name().as_bytes());
    answer.extend(&wire.written);
    answer
}
