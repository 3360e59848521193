#!/usr/bin/env python3
"""Writes the fixed list of the test crate session_padded: lines (stdin) and the oracle's answers to them (stdout).

    python3 tools/padded-list.py ORACLE FUZZ CRATE

ORACLE is the program built from the Rust, FUZZ the folder of its fuzz.py, CRATE the crate's folder. The lines are the edges of
document 02's N2: 0, 1, 16 and 17 extra zeros before each kind of packet, in both modes, and packets that are no frame.
"""
import os
import sys
from pathlib import Path

oracle, folder, crate = sys.argv[1:4]
sys.path.insert(0, folder)
os.environ["REQUESTS"] = "N2"
import fuzz

ACK, ERROR = fuzz.ACK, fuzz.ERROR
VERSION = fuzz.frame(bytes.fromhex("D50333013007"))
STATUS = fuzz.frame(bytes.fromhex("7F"))
# What answers the opening's ten commands; a pause is behind the resets.
OPENING = ("D519", None, "D50333013007", "D533", "D533", "D533", "D533", "D533", "D513", "D519", None, "D50900")


def pkt(packet, zeros=0):
    return "pkt " + ((b"\x00" * zeros + packet).hex().upper() or "-")


def opening(line, zeros):
    """A whole opening, its packets with so many zeros before them."""
    yield from (line, "ok", "time")
    for body in OPENING:
        if body is None:
            yield from ("ok", "slept")
        else:
            yield from ("ok", pkt(ACK, zeros), pkt(fuzz.frame(bytes.fromhex(body)), zeros))


def answered(*packets):
    """A `version` whose reads get these."""
    yield from ("version", "ok", *packets)


def false_start(packet):
    """A `version` whose first packet has no start: ACK is written and the channel drained."""
    yield from (*answered(packet), "ok", pkt(ACK, 3), "time")


def edges(zeros):
    """The places of an exchange, with so many zeros that it has a start."""
    yield from answered(pkt(ACK, zeros), pkt(VERSION, zeros))
    yield from answered(pkt(ACK), pkt(VERSION, zeros))
    yield from answered(pkt(VERSION, zeros))
    yield from answered(pkt(ACK + b"\x00", zeros), pkt(ACK, zeros), pkt(ACK + b"\x00", zeros), pkt(VERSION, zeros))
    yield from answered(pkt(ERROR, zeros))
    yield from answered(pkt(ACK, zeros), pkt(ERROR, zeros))
    yield from answered(pkt(ACK, zeros), pkt(STATUS, zeros))
    yield from answered(pkt(ACK, zeros), pkt(VERSION + b"\x00", zeros))
    yield from answered(pkt(ACK, zeros), pkt(VERSION[:-1], zeros))
    yield from answered(pkt(ACK, zeros), "late", "ok")


def no_start(zeros):
    """The same with too many zeros: a false start for the first packet, a broken frame for the second."""
    for packet in (ACK, ACK + b"\x00", VERSION, ERROR):
        yield from false_start(pkt(packet, zeros))
        yield from answered(pkt(ACK), pkt(packet, zeros))


def others():
    """Packets that are no frame whatever is stepped over."""
    for packet in (b"\x00", bytes(3), bytes(18), bytes(19), b"\x00\xff", b"\x00\x00\x00\x01", bytes(16) + b"\x01\x00\x00\xff"):
        yield from false_start(pkt(packet))
        yield from answered(pkt(ACK, 1), pkt(packet))
    for packet in (b"\x00\x00\xff", bytes(18) + b"\xff"):
        yield from answered(pkt(packet))
    yield from answered(pkt(b""))
    yield from answered(pkt(ACK, 16), pkt(b""))
    yield from answered(pkt(ACK + bytes(1024 - 22), 16), pkt(bytes(1025)), pkt(VERSION, 2))


def script():
    yield from opening("open padded", 16)
    for zeros in (0, 1, 16):
        yield from edges(zeros)
    for zeros in (17, 18):
        yield from no_start(zeros)
    yield from others()
    # The packets of the opening's own reads are not looked into.
    yield from ("open padded", "ok", pkt(ACK, 17), pkt(bytes(30)), pkt(b""), "fail")
    # A reset's outcome is ignored; a false start of the next command ends the opening.
    yield from ("ok", pkt(ACK, 17), "ok", "time", "ok", "slept", "ok", pkt(VERSION, 17), "ok", "time")
    # With the mode off, extra zeros are no start; the opening that is accepted last decides.
    yield from opening("open", 0)
    yield from edges(0)
    for zeros in (1, 16, 17):
        yield from no_start(zeros)
    yield from ("open padded", "bad", "version")
    yield from opening("open padded", 1)
    yield from ("version", "open", "open padded", "ok", pkt(ACK, 1), pkt(VERSION, 1))
    # Lines that cannot be read.
    yield from ("open padded ", "open  padded", "open PADDED", "open padded padded", "open off", "open 1")
    yield from answered(pkt(ACK, 5), pkt(VERSION, 5))


lines = [text.encode() for text in script()]
answers = fuzz.run([oracle], lines)
assert len(answers) == len(lines)
Path(crate, "stdin").write_bytes(b"".join(text + b"\n" for text in lines))
Path(crate, "stdout").write_bytes(b"".join(text + b"\n" for text in answers))
