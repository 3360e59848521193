#!/usr/bin/env python3
"""Compares all that short_frames prints with a list made here, byte by byte, and its summary with the one that the gate holds it to.

    tools/program short_frames && python3 tests/short_frames/compare.py

The list is made from document 01's frames alone: six settings, of which the error form plays no part in building. A difference, or a
run of over a second, ends it with status 1.
"""
import subprocess
import sys
import time
import zlib
from itertools import product
from pathlib import Path

root = Path(__file__).resolve().parent.parent.parent
program = root / "target/bin/short_frames"
BLOCK = 65536  # the program's buffer
LONGEST_LINE = 25


def checksum(data):
    return -sum(data) % 256


def normal(payload):
    length = bytes([len(payload)])
    return bytes([0x00, 0x00, 0xFF]) + length + bytes([checksum(length)]) + payload + bytes([checksum(payload), 0x00])


def extended(payload):
    length = len(payload).to_bytes(2, "little")
    return bytes([0x00, 0x00, 0xFF, 0xFF, 0xFF]) + length + bytes([checksum(length)]) + payload + bytes([checksum(payload), 0x00])


def lines():
    # Normal, ExtendedLittleEndian, NormalOrExtendedBigEndian (normal to 255 bytes), each with ErrorFrame and with StatusByte
    for build in (normal, normal, extended, extended, normal, normal):
        for length in (0, 1, 2):
            for payload in product(range(256), repeat=length):
                yield build(bytes(payload)).hex().upper() + "\n"


def summary(listed):
    """The first line of each block, then lines, bytes and CRC-32. A block has as many lines as leave room for one more of 25 bytes."""
    room = 0
    for line in listed:
        if room < LONGEST_LINE:
            yield line
            room = BLOCK
        room -= len(line)
    text = "".join(listed).encode()
    yield f"{len(listed)} lines, {len(text)} bytes, CRC-32 {zlib.crc32(text):08x}\n"


def first_difference(expected, found):
    pairs = zip(expected.split(b"\n"), found.split(b"\n"))
    return next((f"line {n}: {b.decode()} in place of {a.decode()}" for n, (a, b) in enumerate(pairs, 1) if a != b), "its length")


listed = list(lines())
expected = "".join(listed).encode()
begun = time.monotonic()
found = subprocess.run([program], stdin=subprocess.DEVNULL, capture_output=True, check=True).stdout
seconds = time.monotonic() - begun
if found != expected:
    sys.exit(f"differs: {first_difference(expected, found)}")
if (root / "crates/short_frames/stdout").read_text() != "".join(summary(listed)):
    sys.exit("the gate's summary is not that of the list")
if seconds > 1:
    sys.exit(f"{seconds:.2f} s, over one second")
print(f"{len(listed)} lines, {len(found)} bytes, no difference; {seconds:.2f} s")
