#!/usr/bin/env python3
"""Writes the fixed list of the test crate codec_oracle: lines (stdin) and the oracle's answers to them (stdout).

    python3 tools/codec-list.py ORACLE FUZZ CRATE

ORACLE is the program built from the Rust, FUZZ the folder of its fuzz.py, CRATE the crate's folder. The lines are those of
fuzz.py's generator for the codec at a fixed seed, without its long ones; long payloads at the limits of the length forms; and packets
with extra zeros, none, some and too many, under every setting.
"""
import sys
from pathlib import Path

oracle, folder, crate = sys.argv[1:4]
sys.path.insert(0, folder)
import fuzz

SEED, CASE, LINES, SHORT = 956, 0, 400, 700


def generated():
    rng = fuzz.case_rng(SEED, CASE, "codec")
    while True:
        text = fuzz.codec_line(rng)
        if len(text) <= SHORT:
            yield text


def payload(size):
    """Bytes that repeat after 251, so that no two neighbouring blocks of 256 are alike."""
    return bytes(at % 251 for at in range(size))


def line(name, setting, data):
    return f"{name} {setting} {data.hex().upper() or '-'}".encode()


def long_lines():
    for size in (255, 256):
        for setting in range(6):
            yield line("build", setting, payload(size))
        for setting in range(6):
            for form in ("little", "big"):
                yield line("parse", setting, fuzz.extended(payload(size), form))
            yield line("parse", setting, fuzz.frame(payload(size)))
    for setting in (3, 4):
        yield line("build", setting, payload(65535))
    yield line("build", 2, payload(65536))
    yield line("parse", 2, fuzz.extended(payload(65535), "little"))
    yield line("parse", 5, fuzz.extended(payload(65535), "big"))


def padded_lines():
    shapes = (
        fuzz.ACK,
        fuzz.ACK + b"\x00",
        bytes.fromhex("0000FFFFFF00"),
        bytes.fromhex("0000FF01FF7F8100"),
        fuzz.frame(bytes.fromhex("D50333")) + b"\xaa",
        fuzz.frame(bytes.fromhex("D503"))[:-2],
        fuzz.extended(payload(300), "little"),
        fuzz.extended(payload(300), "big"),
        b"\x00\xff",
        b"",
    )
    for shape in shapes:
        for zeros in (0, 1, 2, 16, 17, 18):
            for setting in range(6) if len(shape) < 10 else (2, 5):
                yield line("parse_padded", setting, b"\x00" * zeros + shape)


lines = generated()
script = [next(lines) for _ in range(LINES)] + list(long_lines()) + list(padded_lines())
answers = fuzz.run([oracle, "codec"], script)
assert len(answers) == len(script)
Path(crate, "stdin").write_bytes(b"".join(text + b"\n" for text in script))
Path(crate, "stdout").write_bytes(b"".join(text + b"\n" for text in answers))
