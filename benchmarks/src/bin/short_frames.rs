//! Prints what the program short_frames of this repository prints: every frame of a payload of at most 2 bytes,
//! under the six settings in turn. Each is built by `Frame::build` and printed through a buffered writer.
//! `short_frames format` prints a frame byte by byte with `{:02X}`; `short_frames table` puts its line together
//! from a table of digits and writes it at once.

// Of the Rust only a part is called.
#![allow(dead_code, unused_imports)]

include!(concat!(env!("OUT_DIR"), "/felica.rs"));

use crate::driver::framing::{ErrorDetection, Frame, FrameFormat, LengthEncoding};
use std::io::{self, BufWriter, Write};

macro_rules! setting {
    ($name:ident, $length:ident, $error:ident) => {
        struct $name;

        impl FrameFormat for $name {
            const LENGTH: LengthEncoding = LengthEncoding::$length;
            const ERROR: ErrorDetection = ErrorDetection::$error;
        }
    };
}

setting!(NormalErrorFrame, Normal, ErrorFrame);
setting!(NormalStatusByte, Normal, StatusByte);
setting!(LittleEndianErrorFrame, ExtendedLittleEndian, ErrorFrame);
setting!(LittleEndianStatusByte, ExtendedLittleEndian, StatusByte);
setting!(BigEndianErrorFrame, NormalOrExtendedBigEndian, ErrorFrame);
setting!(BigEndianStatusByte, NormalOrExtendedBigEndian, StatusByte);

/// The longest frame of a short payload, in hex, and a line feed.
const LONGEST_LINE: usize = 25;

/// How a frame is printed.
type Print<W> = fn(&mut W, &[u8]) -> io::Result<()>;

fn by_format<W: Write>(out: &mut W, frame: &[u8]) -> io::Result<()> {
    for byte in frame {
        write!(out, "{byte:02X}")?;
    }
    writeln!(out)
}

fn by_table<W: Write>(out: &mut W, frame: &[u8]) -> io::Result<()> {
    const DIGITS: &[u8; 16] = b"0123456789ABCDEF";
    let mut line = [0; LONGEST_LINE];
    let mut len = 0;
    for byte in frame {
        line[len] = DIGITS[usize::from(byte >> 4)];
        line[len + 1] = DIGITS[usize::from(byte & 15)];
        len += 2;
    }
    line[len] = b'\n';
    out.write_all(&line[..=len])
}

fn setting<F: FrameFormat, W: Write>(out: &mut W, print: Print<W>) -> io::Result<()> {
    print(out, Frame::<F>::build(&[]).as_bytes())?;
    for byte in 0..=255 {
        print(out, Frame::<F>::build(&[byte]).as_bytes())?;
    }
    for first in 0..=255 {
        for second in 0..=255 {
            print(out, Frame::<F>::build(&[first, second]).as_bytes())?;
        }
    }
    Ok(())
}

fn main() -> io::Result<()> {
    let print = match std::env::args().nth(1).as_deref() {
        Some("format") => by_format,
        Some("table") => by_table,
        _ => panic!("format or table"),
    };
    let mut out = BufWriter::new(io::stdout().lock());
    setting::<NormalErrorFrame, _>(&mut out, print)?;
    setting::<NormalStatusByte, _>(&mut out, print)?;
    setting::<LittleEndianErrorFrame, _>(&mut out, print)?;
    setting::<LittleEndianStatusByte, _>(&mut out, print)?;
    setting::<BigEndianErrorFrame, _>(&mut out, print)?;
    setting::<BigEndianStatusByte, _>(&mut out, print)?;
    out.flush()
}
