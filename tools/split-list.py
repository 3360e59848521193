#!/usr/bin/env python3
"""Writes the fixed list of the test crate session_split: lines (stdin) and the answers of the Rust with N6's rule beside it (stdout).

    python3 tools/split-list.py ORACLE FUZZ CRATE

ORACLE is the program built from the Rust, FUZZ the folder of its fuzz.py, CRATE the crate's folder. The lines are the edges of
document 02's N6: UIDs of 4, 7 and 10 bytes with and without an ATS, an ATS of one byte and of 255, other lengths, one byte too few or
too many, list data under 4 bytes, of a Type 2 tag and of others; no target, the Type 1 try, failures at each command; in the mode
and out of it, with padded packets too.
"""
import subprocess
import sys
from pathlib import Path

oracle, folder, crate = sys.argv[1:4]
sys.path.insert(0, folder)
import fuzz

OPENING = ("19", None, "0333013007", "33", "33", "33", "33", "33", "13", "19", None, "0900")
TYPE_2, OTHERS = 0x00, (0x08, 0x20, 0x40, 0x60)
UID = bytes(range(0xA1, 0xA1 + 16))


def pkt(packet, zeros=0):
    return "pkt " + ((bytes(zeros) + packet).hex().upper() or "-")


def answered(body, zeros=0):
    """A command's frame is written, acknowledged and answered."""
    yield from ("ok", pkt(fuzz.ACK, zeros), pkt(fuzz.frame(b"\xd5" + bytes.fromhex(body)), zeros))


def opening(line="open", zeros=0):
    yield from (line, "ok", "time")
    for body in OPENING:
        yield from ("ok", "slept") if body is None else answered(body, zeros)


def detect(mode=" split", bitrate="106A", uid="-"):
    return f"detect_type_a {bitrate} {uid}{mode}"


def target(length, behind, sel_res=0x20):
    """List data: NFCID1Length, and what stands behind it."""
    return bytes([0x44, 0x03, sel_res, length]) + behind


def ats(size):
    return bytes([size]) + bytes(range(0x70, 0x70 + size - 1)) if size < 100 else bytes([size]) + bytes(size - 1)


def rx_mode(zeros=0):
    yield from (*answered("078F", zeros), *answered("0900", zeros))


def listed(data, mode=" split", zeros=0):
    """A target is listed. The RX mode's packets follow where the tag is of Type 2, and are out of turn where the call has ended."""
    yield from (detect(mode), *answered("4B0101" + data.hex(), zeros))
    if len(data) > 2 and data[2] & 0x60 == 0:
        yield from rx_mode(zeros)


def layouts(sel_res):
    """List data about each border."""
    for n in (4, 7, 10):
        for tail in (b"", b"\x01", ats(2), ats(5), ats(16), ats(239), ats(255)):
            yield target(n, UID[:n] + tail, sel_res)
        yield target(n, UID[:n - 1], sel_res)
        yield target(n, b"", sel_res)
        yield target(n - 1, UID[:n - 1], sel_res)
        yield target(n + 1, UID[:n + 1], sel_res)
        for size in (1, 2, 5):
            yield target(n, UID[:n] + bytes([size + 1]) + bytes(size - 1), sel_res)
            yield target(n, UID[:n] + bytes([size - 1]) + bytes(size - 1), sel_res)
        yield target(n, UID[:n] + bytes([0]), sel_res)
        yield target(n, UID[:n] + bytes(256), sel_res)
        yield target(n, UID[:n] + b"\xff" + bytes(255), sel_res)
    for n in (0, 1, 5, 11, 255):
        yield target(n, b"", sel_res)
        yield target(n, b"\x01", sel_res)
        yield target(n, UID[:n], sel_res)
        yield target(n, UID[:n] + ats(5), sel_res)
    yield target(0, bytes([1, 4, 7, 10]), sel_res)
    for k in range(4):
        yield target(4, UID[:4], sel_res)[:k]


def failures():
    """What ends a command."""
    yield ("bad", "ok")
    yield ("ok", "time")
    yield ("ok", "fail")
    yield ("ok", pkt(b"\x11\x22\x33"), "ok", "time")
    yield ("ok", pkt(fuzz.ACK), "late", "ok")
    for packet in (fuzz.ERROR, fuzz.frame(b"\x7f"), fuzz.frame(b"\xd5\x03\x00"), b"\x00\x00\xff\x02"):
        yield ("ok", pkt(fuzz.ACK), pkt(packet))


def type_1(*rid):
    """No target, a FIFO that holds no request, a Type 1 tag's list."""
    yield from (detect(), *answered("4B00"), *answered("0700"), *answered("4B01010C00"), *rid)


def lines():
    yield from (detect(), *opening())
    yield from (detect(bitrate="848B"), detect(bitrate="106a"), detect(bitrate="-"), detect(uid="00" * 509), detect(uid="00" * 510))
    for mode in (" Split", " splits", " split ", " ", "  split", " split split", " none", " 01"):
        yield detect(mode)
    for sel_res in (TYPE_2, *OTHERS):
        for data in layouts(sel_res):
            yield from listed(data)
    for data in layouts(TYPE_2):
        yield from listed(data, "")
    good, bad = target(7, UID[:7] + ats(5), TYPE_2), target(5, UID[:5], TYPE_2)
    for failure in failures():
        yield from (detect(), *failure)
        yield from (detect(), *answered("4B0101" + good.hex()), *failure)
        yield from (detect(), *answered("4B0101" + good.hex()), *answered("078F"), *failure)
    yield from (detect(), *answered("4B0101" + good.hex()), *answered("07"))
    yield from (detect(), *answered("4B0101" + good.hex()), *answered("07FF"), *answered("0901"))
    yield from (detect(), *answered("4B0101" + good.hex()), *answered("07FF"), *answered("09"))
    for body in ("4B", "4B01", "4B0101", "4B010144", "4B02"):
        yield from (detect(), *answered(body))
    yield from (detect(), *answered("4B00"), *answered("0726"))
    yield from (detect(), *answered("4B"), *answered("0700"), *answered("4B00"))
    yield from type_1(*answered("41001148A1B2C3D4"))
    yield from type_1(*answered("4101"))
    yield from type_1(*answered("41"))
    yield from (detect(), *answered("4B00"), "ok", "time", *answered("4B01010C00"), *answered("41001148A1B2C3D4"))
    yield from (detect(uid="A1B2C3D4"), *answered("4B0101" + target(4, UID[:4]).hex()))
    yield from (detect(bitrate="212F", uid="A1B2C3D4E5F60718"), *answered("4B0101" + target(10, UID[:10] + ats(9)).hex()))
    yield from (detect(), "slept", detect(), "version", "pkt", "ok", pkt(fuzz.ACK), "open", *list(answered("4B0101" + bad.hex()))[2:])
    yield from opening("open padded", 16)
    for data in (target(4, UID[:4]), target(10, UID[:10] + ats(7)), good, bad):
        yield from listed(data, zeros=16)
        yield from listed(data, "", zeros=3)


script = list(lines())
command = [sys.executable, str(Path(__file__).with_name("split-oracle.py")), oracle]
output = subprocess.run(command, input="\n".join(script) + "\n", capture_output=True, text=True, check=True).stdout
assert output.count("\n") == len(script), (output.count("\n"), len(script))
Path(crate, "stdin").write_text("\n".join(script) + "\n")
Path(crate, "stdout").write_text(output)
ends = [line for line in output.split("\n") if " uid " in line or line == "refused 22"]
print(f"{len(script)} lines, {ends.count('refused 22')} of them 22,", *sorted({" ".join(line.split()[-4:]) for line in ends if " uid " in line}), sep="\n")
