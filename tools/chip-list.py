#!/usr/bin/env python3
"""chip-list.py FOLDER: writes FOLDER/stdin and FOLDER/stdout, the list of crates/chip.

The lines go through a chip of its own, tests/chip/reference.py, written from document 02, N10, and the PN532 user manual; nothing of the crates is used."""
import os
import sys

sys.dont_write_bytecode = True
sys.path.insert(0, os.path.join(os.path.dirname(os.path.abspath(__file__)), "../tests/chip"))
from reference import ACK, CODE, LEAST, RATES, VERSION, Chip, crc_a, frame

chip, lines, answers = Chip(), [], []


def hexed(data):
    return data.hex().upper() or "-"


def put(line, answer):
    lines.append(line)
    answers.append(answer)


def fresh():
    global chip
    chip = Chip()
    put("fresh", "ok")


def card(kind, rate, data, atqb=None):
    words = ["card", kind, rate, hexed(data)] + ([hexed(atqb)] if kind == "B" else [])
    put(" ".join(words), chip.card(kind, rate, data, atqb))


def reply(sent, answer):
    put(f"reply {hexed(sent)} {hexed(answer)}", chip.reply(sent, answer))


def write(written):
    put("frame " + hexed(written), chip.frame(written))


def command(code, data=b""):
    write(frame(bytes([0xD4, code]) + data))


def unread(line):
    put(line, "refused 4")


def search(kind, rate):
    if kind == "DEP":
        command(0x56, bytes([0, CODE[rate], 0]))
    else:
        initiator = {"A": b"", "B": b"\0", "F": bytes.fromhex("00FFFF0100")}[kind]
        command(0x4A, bytes([1, CODE[rate]]) + initiator)


def data_of(kind, n=None, mark=0):
    least = {"A": 9, "B": 14, "F": 18, "DEP": 17}[kind]
    data = bytearray((mark + 17 * k) & 255 for k in range(least if n is None else n))
    if kind == "A" and len(data) > 2:
        data[2] = 0x20
    if kind == "B" and len(data) > 10:
        data[10] = 0x81
    return bytes(data)


ATQB = bytes.fromhex("500102030405060708090A81")
KINDS = ("A", "B", "F", "DEP")

# the start: an empty field, commands of the opening, an unknown command, ACK, and bytes that are no frame
command(0x02)
command(0x06, bytes.fromhex("633963046303"))
command(0x32, bytes([1, 1]))
command(0x06, bytes.fromhex("6304"))
command(0x32, bytes([1, 0]))
command(0x06, bytes.fromhex("6304"))
command(0x32, bytes([2, 1, 1, 1]))
command(0x08, bytes.fromhex("630200"))
command(0x12, b"\x18")
command(0x18, b"\1")
command(0x77)
command(0x7F, b"\1\2")
command(0x40, b"\1\2")
command(0x42)
write(ACK)
for odd in ("", "00", "0000FF", "0000FFFFFF00", "0000FF02FED4022A0000", "0000FF02FED4022B00", "0000FF02FDD4022A00", "0000FF01FFD42C00"):
    write(bytes.fromhex(odd))
write(frame(b"\xd5\x03" + VERSION))
for kind in KINDS:
    for rate in RATES[kind]:
        search(kind, rate)
command(0x4A, bytes([1, 0, 1, 2, 3, 4]))

# each kind alone at each bitrate: searched for at each bitrate, and by the other kinds
for kind in KINDS:
    for rate in RATES[kind]:
        fresh()
        card(kind, rate, data_of(kind), ATQB)
        reply(b"\x30\0", b"\1\2" if kind == "A" else b"\1\2\3\4")
        for at in RATES[kind]:
            search(kind, at)
        search(kind, rate)
        command(0x40, b"\1\x30\0")
        command(0x42, b"\x30\0")
        command(0x42, b"\x30\1")
        if kind == "B":
            command(0x42, bytes([5, 0, 8]))
        command(0x18, b"\1")
        command(0x42, b"\x30\0")
        for other in KINDS:
            if other != kind:
                search(other, RATES[other][0])

# two of a kind: the first; four cards, one of each kind, a fifth
for kind in KINDS:
    fresh()
    rate = RATES[kind][-1]
    card(kind, rate, data_of(kind, mark=1), ATQB)
    card(kind, rate, data_of(kind, mark=2), ATQB[::-1])
    card(kind, RATES[kind][0], data_of(kind, mark=3), ATQB)
    search(kind, rate)
    search(kind, RATES[kind][0])
fresh()
for kind in KINDS:
    card(kind, RATES[kind][0], data_of(kind), ATQB)
for kind in KINDS:
    search(kind, RATES[kind][0])
for kind in KINDS:
    card(kind, RATES[kind][0], data_of(kind), ATQB)
reply(b"\1", b"\2")
search("DEP", "106A")
command(0x40, b"\1\1")
search("A", "106A")
command(0x40, b"\1\1")
fresh()
search("A", "106A")
reply(b"\1", b"\2")

# cards that are not fit: a bitrate of another kind, with a receive part, unknown; data too short; byte 10 of Type B
for kind in KINDS:
    for rate in ("106A", "212F", "424F", "106B", "212B", "424B", "848B", "106a", "-"):
        if rate not in RATES[kind]:
            card(kind, rate, data_of(kind), ATQB)
    unread(f"card {kind} {RATES[kind][0]}/{RATES[kind][0]} {hexed(data_of(kind))}" + (" 01" if kind == "B" else ""))
    if LEAST[kind]:
        card(kind, RATES[kind][0], data_of(kind, LEAST[kind] - 1), ATQB)
        card(kind, RATES[kind][0], b"", ATQB)
for byte in range(0, 256, 5):
    fresh()
    card("B", "106B", data_of("B")[:10] + bytes([byte]), ATQB)
fresh()
for kind in KINDS:
    card(kind, RATES[kind][0], data_of(kind, LEAST[kind]), b"")
for kind in KINDS:
    search(kind, RATES[kind][0])

# lengths: a frame's edges (normal and extended), 1,010 and 1,011 of list data; 4 before 3
for kind in KINDS:
    for n in (251, 252, 1009, 1010, 1011, 1012, 2000):
        fresh()
        card(kind, RATES[kind][0], data_of(kind, n), ATQB)
        search(kind, RATES[kind][0])
fresh()
card("B", "106B", data_of("B")[:10] + b"\0" + bytes(1100), ATQB)
card("B", "106A", data_of("B", 1100), ATQB)
card("B", "106B", data_of("B"), bytes(1011))
card("B", "106B", data_of("B"), bytes(1012))
search("B", "106B")
command(0x42, bytes([5, 0, 8]))
reply(bytes([5, 0, 8]), b"")

# replies: 1,011 and 1,012, bytes sent 512 and 513, no bytes, a second to the same bytes, nine of them
for kind in KINDS:
    fresh()
    card(kind, RATES[kind][0], data_of(kind), ATQB)
    reply(b"\1", bytes(1011))
    reply(b"\2", bytes(1012))
    reply(bytes(512), b"\5")
    reply(bytes(513), b"\6")
    reply(b"", b"\7")
    reply(b"\3", b"")
    reply(b"\1", bytes(1012))
    reply(b"\1", b"\1")
    for k in range(10, 16):
        reply(bytes([k]), bytes([k, k]))
    search(kind, RATES[kind][0])
    for sent in (b"\1", b"\2", bytes(512), b"", b"\3", b"\x0d", b"\x0e"):
        command(0x42, sent)
    command(0x40, b"\1")
    command(0x40)
    write(frame(b"\xd4\x42" + bytes(513)))

# Type 2 cards: a reply over 2 bytes ends in its CRC_A; not of another SEL_RES or bitrate
for sel_res in (0x00, 0x08, 0x9F, 0x20, 0x40, 0x60, 0xFF):
    for rate in RATES["A"]:
        fresh()
        card("A", rate, bytes([4, 0, sel_res, 0]))
        reply(b"\x30\0", bytes(16))
        reply(b"\x30\0", bytes(16) + crc_a(bytes(16)))
        reply(b"\x30\1", b"\1\2")
        reply(b"\x30\2", b"\1\2\3")
        reply(b"\x30\3", b"\1" + crc_a(b"\1"))
        reply(b"\x30\4", bytes(1010) + crc_a(bytes(1010)))
        reply(b"\x30\5", bytes(1012))
        search("A", rate)
        command(0x42, b"\x30\0")
        command(0x42, b"\x30\1")

# lines that cannot be read
for line in (
    "", " ", "fresh ", " fresh", "fresh 1", "frames", "frame", "frame 0", "frame 0G", "frame 00 00", "Frame 00", "card", "card A", "card A 106A",
    "card A 106A 04002000 01", "card B 106B 0102030405060708090A8100", "card C 106A 04002000", "card a 106A 04002000", "card A  04002000",
    "card A 106A 0400200", "card A 106A 040020XX", "card F 212F none", "card B 106B 0102030405060708090A8100 0", "reply", "reply 01", "reply 01 0", "reply 01 02 03",
    "reply  01", "open", "ok", "time", "trace on", "card DEP 106A 01 -",
):
    unread(line)
put("frame 0000ff02fed4022a00", chip.frame(bytes.fromhex("0000ff02fed4022a00")))
put("frame " + "00" * 4093, "-")
unread("frame " + "00" * 4094)
put("card DEP 106A -", chip.card("DEP", "106A", b""))
command(0x02)

folder = sys.argv[1]
open(f"{folder}/stdin", "w").write("\n".join(lines) + "\n")
open(f"{folder}/stdout", "w").write("\n".join(answers) + "\n")
print(len(lines), "lines")
