//! The calls of the proved archives.

use crate::archive::*;
use crate::host::Host;
use crate::inputs::{self, Call, bytes, bytes_with_crc};
use crate::repeat;
use std::hint::black_box;

/// The RC-S956's setting: NormalOrExtendedBigEndian with ErrorFrame.
const RCS956: u8 = 4;

fn checksum(data: &[u8]) -> u8 {
    unsafe { rcs956_checksum(data.as_ptr(), data.len()) }
}

fn check_crc_a(data: &[u8]) -> bool {
    unsafe { rcs956_crc_a_check(data.as_ptr(), data.len()) }
}

fn check_crc_b(data: &[u8]) -> bool {
    unsafe { rcs956_crc_b_check(data.as_ptr(), data.len()) }
}

fn add_crc_b(data: &[u8], out: &mut [u8]) -> usize {
    let mut count = 0;
    let (room, out) = (out.len(), out.as_mut_ptr());
    let answer = unsafe { rcs956_crc_b_append(data.as_ptr(), data.len(), out, room, &mut count) };
    assert_eq!(answer, 0);
    count
}

fn build(payload: &[u8], buffer: &mut [u8]) -> usize {
    let mut count = 0;
    let (room, buffer) = (buffer.len(), buffer.as_mut_ptr());
    let answer = unsafe {
        rcs956_frame_build(
            RCS956,
            payload.as_ptr(),
            payload.len(),
            buffer,
            room,
            &mut count,
        )
    };
    assert_eq!(answer, 0);
    count
}

/// Kind, start and length of the payload, length of the frame.
fn parse(packet: &[u8]) -> (u8, usize, usize, usize) {
    let (mut kind, mut start, mut length, mut frame) = (0, 0, 0, 0);
    let answer = unsafe {
        rcs956_frame_parse(
            RCS956,
            packet.as_ptr(),
            packet.len(),
            &mut kind,
            &mut start,
            &mut length,
            &mut frame,
        )
    };
    assert_eq!(answer, 0);
    (kind, start, length, frame)
}

/// Makes a call of the codec `times` times, and once more for its result.
pub fn codec(name: &str, times: u64) -> Vec<u8> {
    let mut buffer = [0u8; 2048];
    match name {
        "crc_a_check" => {
            let data = bytes_with_crc(1024, 0x6363, false);
            vec![repeat(times, || check_crc_a(black_box(&data))) as u8]
        }
        "crc_b_check" => {
            let data = bytes_with_crc(1024, 0xFFFF, true);
            vec![repeat(times, || check_crc_b(black_box(&data))) as u8]
        }
        "crc_b_append" => {
            let data = bytes(1024);
            let n = repeat(times, || add_crc_b(black_box(&data), &mut buffer));
            buffer[..n].to_vec()
        }
        "frame_build" => {
            let payload = bytes(255);
            let n = repeat(times, || build(black_box(&payload), &mut buffer));
            buffer[..n].to_vec()
        }
        "frame_parse" => {
            let packet = inputs::frame(&bytes(255));
            let (_, start, length, _) = repeat(times, || parse(black_box(&packet)));
            packet[start..start + length].to_vec()
        }
        _ => {
            let length = inputs::length(name, "checksum_").expect("a call of the codec");
            let data = bytes(length);
            vec![repeat(times, || checksum(black_box(&data)))]
        }
    }
}

/// Makes a call of the driver `times` times, and once more for its answer.
pub fn driver(call: &Call, times: u64) -> Vec<u8> {
    let mut host = Host::new();
    host.prepare(call);
    let len = repeat(times, || host.call(call));
    host.result(len)
}

/// Prints the stack that the call's entry and its events need, and the session's size.
pub fn sizes(call: &Call) {
    let mut host = Host::new();
    host.prepare(call);
    let (entry, event) = host.stack(call);
    println!("{entry} {event} {}", size_of::<Session>());
}
