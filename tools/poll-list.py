#!/usr/bin/env python3
"""Writes the fixed list of the test crate session_polls: lines (stdin) and the oracle's answers to them (stdout).

    python3 tools/poll-list.py ORACLE FUZZ CRATE

ORACLE is the program built from the Rust, FUZZ the folder of its fuzz.py, CRATE the crate's folder. The lines are the edges of
document 02's N1: 0, 1, 16 and 17 codes, a field that is on or off, cards with and without optional bytes and none, a list that ends
at each of its commands by each kind of failure, in both modes.
"""
import os
import subprocess
import sys
from pathlib import Path

oracle, folder, crate = sys.argv[1:4]
sys.path.insert(0, folder)
os.environ["REQUESTS"] = "N1,N2"
import fuzz

OPENING = ("D519", None, "D50333013007", "D533", "D533", "D533", "D533", "D533", "D513", "D519", None, "D50900")
CARD = "D54B010114010102030405060708F0F1F2F3F4F5F6F7"
CODES = ("0003", "12FC", "FE00", "FFFF")


def pkt(packet, zeros=0):
    return "pkt " + ((b"\x00" * zeros + packet).hex().upper() or "-")


def answered(body, zeros=0):
    """A command's frame is written, acknowledged and answered."""
    yield from ("ok", pkt(fuzz.ACK, zeros), pkt(fuzz.frame(bytes.fromhex(body)), zeros))


def opening(line="open", zeros=0):
    yield from (line, "ok", "time")
    for body in OPENING:
        yield from ("ok", "slept") if body is None else answered(body, zeros)


def field(on, zeros=0):
    """The field check, and the field switched on where it is off."""
    yield from answered("D50703" if on else "D50700", zeros)
    if not on:
        yield from (*answered("D533", zeros), "slept")


def code(on=True, reply="D54B00", zeros=0):
    yield from (*field(on, zeros), *answered(reply, zeros))


def poll(count, bitrate="212F"):
    return f"poll_type_f {bitrate} " + ("".join(CODES[k % 4] for k in range(count)) or "-")


def failures():
    """What ends a command, by the first read, by a later one, and by the packet itself."""
    yield ("bad", "ok")
    yield ("ok", "time")
    yield ("ok", "fail")
    yield ("ok", pkt(b"\x11\x22\x33"), "ok", "time")
    yield ("ok", pkt(fuzz.ACK), "late", "ok")
    yield ("ok", pkt(fuzz.ACK), pkt(fuzz.ACK), "time")
    for body in (fuzz.ERROR, fuzz.frame(b"\x7f"), fuzz.frame(b"\xd4\x4b\x00"), fuzz.frame(b"\xd5\x03\x00"), b"\x00\x00\xff\x02"):
        yield ("ok", pkt(fuzz.ACK), pkt(body))
    yield ("ok", pkt(fuzz.ACK), pkt(fuzz.frame(bytes.fromhex("D54B01"))))
    yield ("ok", pkt(fuzz.ACK), pkt(fuzz.frame(bytes.fromhex(CARD[:-2]))))


def lists(zeros=0):
    """Lists that go through."""
    yield from (poll(1), *code(True, CARD, zeros))
    yield from (poll(1, "424F"), *code(False, CARD + "0003", zeros))
    yield from (poll(3), *code(False, CARD, zeros), *code(True, "D54B00", zeros), *code(False, CARD + "8C", zeros))
    yield from (poll(16), *(line for k in range(16) for line in code(k % 3 == 0, CARD if k % 5 == 0 else "D54B00", zeros)))


def lines():
    yield from (poll(1), *opening())
    for count in (0, 17, 64):
        yield from (poll(count), poll(count, "106A"))
    yield from ("poll_type_f 212F 00", "poll_type_f 212F 000300", "poll_type_f 212F", poll(2, "106A"), poll(2, "212f"), poll(2, "-"))
    yield from lists()
    for finished in (0, 1, 2):
        for place in (0, 1, 2):
            for failure in failures():
                yield from (poll(4), *(line for k in range(finished) for line in code(k == 0, CARD if k else "D54B00")))
                yield from (*field(False),)[:4 * place] if place < 2 else (*field(False),)
                yield from failure
    yield from (poll(2), "pkt 00", "slept", poll(1), "version", "open", *code(True, CARD), *code())
    yield from ("open padded", "ok", "time", *(line for line in list(opening("open padded", 3))[3:]))
    yield from lists(16)
    yield from (poll(2), *code(True, CARD, 1), *field(True), "ok", pkt(fuzz.ACK, 17), "ok", "time")


script = list(lines())
output = subprocess.run([oracle], input="\n".join(script) + "\n", capture_output=True, text=True, check=True).stdout
assert output.count("\n") == len(script), (output.count("\n"), len(script))
Path(crate, "stdin").write_text("\n".join(script) + "\n")
Path(crate, "stdout").write_text(output)
for word in sorted({" ".join(line.split()[:4]) for line in output.split("\n") if "finished" in line}):
    print(word)
