#!/usr/bin/env python3
"""Read and Write Without Encryption worked out from JIS X 6319-4 and document 02, N5, with no code of the engine.

    felica-reference.py scripts [SEED COUNT]      a session script and its output, as two files: stdin, stdout
    felica-reference.py codec [SEED COUNT]        the same of codec's lines
    felica-reference.py compare SESSION CODEC [SEED COUNT]   runs both programs on random lines and compares

Without SEED and COUNT, the edges alone: the standard's worked packets, each check violated in turn, each boundary.
"""
import random
import subprocess
import sys

ACK = "0000FF00FF00"
IDM = bytes(range(1, 9))

def frame(payload):
    """PN532 user manual, 6.2.1; extended from 256 bytes on."""
    n, dcs = len(payload), -sum(payload) & 255
    head = bytes([0, 0, 0xFF, n, -n & 255]) if n < 256 else bytes([0, 0, 0xFF, 0xFF, 0xFF, n >> 8, n & 255, -(n >> 8) - n & 255])
    return head + payload + bytes([dcs, 0])

def packet(body):
    return bytes([len(body) + 1]) + body

def request(code, idm, service, blocks, data=b""):
    elements = b"".join(bytes([0x80, n]) for n in blocks)
    return packet(bytes([code]) + idm + bytes([1, service & 255, service >> 8, len(blocks)]) + elements + data)

def reply(code, idm, flags, tail=b""):
    return packet(bytes([code]) + idm + flags + tail)

def read_reply(idm, flags, data):
    return reply(7, idm, flags, bytes([len(data) // 16]) + data if flags[0] == 0 else b"")

def fits(idm, blocks, data=None):
    return len(idm) == 8 and 1 <= len(blocks) <= 4 and (data is None or len(data) == 16 * len(blocks))

def checked(code, idm, n, r):
    """Document 02: 16, then 21, then 20; else None."""
    whole = len(r) == 12 if code == 9 else len(r) == 13 + 16 * n and r[12] == n
    if len(r) < 12 or r[0] != len(r) or r[10] == 0 and not whole:
        return "refused 16"
    if r[1] != code or r[2:10] != idm:
        return "refused 21"
    return None if r[10] == 0 else "refused 20 " + r[10:12].hex().upper()

def hexed(b):
    return b.hex().upper() or "-"

# ---- scripts of the program session

# the opening's commands, their responses and clocks; None: a reset, behind which follow ACK and a pause
OPENING = [("D41801", "D519", None), ("D402", "D50333013007", 100), ("D4320102", "D533", 100), ("D432020B0B0A", "D533", 100),
           ("D4320400", "D533", 100), ("D43205000001", "D533", 100), ("D4320A5AF43F114D85616F266287", "D533", 100),
           ("D41208", "D513", 100), ("D41801", "D519", None), ("D408032859", "D50900", 250)]

def line(word, payload):
    return word + " " + frame(bytes.fromhex(payload)).hex().upper()

def opening():
    """An opening that succeeds: lines in, lines out."""
    lines, out = ["open", "ok", "time"], ["write " + ACK, "read 10"]
    for sent, response, clock in OPENING:
        lines += ["ok", "pkt " + ACK, line("pkt", response)]
        out += [line("write", sent), "read 100", "read %d" % (clock or 100)]
        if clock is None:
            lines += ["ok", "slept"]
            out += ["write " + ACK, "pause 10000"]
    return lines, out + ["done 330130" + b"RCS956v1.30".hex().upper()]

def call_line(code, idm, service, ms, blocks, data):
    name = "read_without_encryption" if code == 6 else "write_without_encryption"
    words = [name, hexed(idm), "%04X" % service, "none" if ms is None else str(ms), hexed(blocks)]
    return " ".join(words + ([hexed(data)] if code == 8 else []))

def exchange(code, idm, service, ms, blocks, data, response):
    """Lines in and out of one call on an open session; `response` is what stands behind D5 43."""
    lines, out = [call_line(code, idm, service, ms, blocks, data)], []
    if not fits(idm, blocks, data if code == 8 else None):
        return lines, ["refused 4"]
    sent = request(code, idm, service, blocks, data if code == 8 else b"")
    lines += ["ok", "pkt " + ACK, "pkt " + frame(b"\xD5\x43" + response).hex().upper()]
    out += ["write " + frame(b"\xD4\x42" + sent).hex().upper(), "read 100", "read %d" % ((1000 if ms is None else ms) + 100)]
    if not response or response[0] != 0:
        return lines, out + ["refused 15 %02X" % (response[0] if response else 0xFF)]
    r = response[1:]
    fault = checked(code + 1, idm, len(blocks), r)
    answer = r[13:] if code == 6 else b""
    return lines, out + [fault or ("done " + answer.hex().upper() if answer else "done")]

def block(k, n=1):
    return bytes((16 * k + j) & 255 for j in range(16 * n))

def edges():
    """Calls: code, IDm, service, ms, blocks, data, response."""
    for n in (1, 2, 3, 4):
        nums, data = bytes(range(n)), block(1, n)
        good = read_reply(IDM, b"\0\0", data)
        yield 6, IDM, 0x000B, None, nums, b"", b"\0" + good
        yield 8, IDM, 0x0009, 65535, nums, data, b"\0" + reply(9, IDM, b"\0\0")
        for r in (good[:-1], good + b"\0", bytes([len(good) - 1]) + good[1:], bytes([len(good) + 1]) + good[1:]):
            yield 6, IDM, 0x000B, 0, nums, b"", b"\0" + r
            yield 6, IDM, 0x000B, 0, nums, b"", b"\0" + bytes([len(r)]) + r[1:]
        for m in (0, 1, 4, 5):  # another count, with the asked blocks and with its own
            yield 6, IDM, 0x000B, 0, nums, b"", b"\0" + good[:12] + bytes([m]) + data
            yield 6, IDM, 0x000B, 0, nums, b"", b"\0" + reply(7, IDM, b"\0\0", bytes([m]) + block(2, m))
    yield from edges_of_reply(6, b"", read_reply(IDM, b"\0\0", block(3)))
    yield from edges_of_reply(8, block(4), reply(9, IDM, b"\0\0"))
    yield from edges_of_arguments()

def edges_of_reply(code, data, whole):
    """Calls of one block whose reply is not the whole one: other lengths, flags and statuses."""
    ask = lambda r: (code, IDM, 0xFFFF, None, b"\xFF", data, r)
    for n in (0, 1, 11, 12, 13, 28, 29, 30):
        cut = (whole + bytes(40))[:n]
        yield ask(b"\0" + cut)
        yield ask(b"\0" + bytes([n]) + cut[1:] if n else b"\0")
    for flags in ("0000", "00FF", "01A8", "FFA1", "0100", "FF00", "80A6"):
        for tail in (b"", b"\x01", b"\x01" + block(5), whole[12:]):
            yield from map(ask, other_bytes(code, reply(code + 1, IDM, bytes.fromhex(flags), tail)))
    for status in (b"", b"\x01", b"\x7F", b"\xFF", b"\x40"):
        yield ask(status + whole if status else b"")

def other_bytes(code, r):
    """The response with the reply r, and with another byte in it, or two."""
    yield b"\0" + r
    yield b"\0" + r[:1] + bytes([code]) + r[2:]  # another code
    for k in range(8):  # another IDm, byte by byte
        yield b"\0" + r[:2 + k] + bytes([r[2 + k] ^ 1]) + r[3 + k:]
    yield b"\0" + bytes([r[0] ^ 1]) + r[1:]  # length one off
    yield b"\0" + bytes([r[0] ^ 1, 0]) + r[2:]  # length and code: 16 comes first
    yield b"\0" + r[:1] + b"\0" + r[2:]  # code and flags: 21 comes first

def edges_of_arguments():
    """Calls of another number of blocks, of other data and of another IDm."""
    for nums in (b"", bytes(1), bytes(4), bytes(5), bytes(64)):
        yield 6, IDM, 0x000B, None, nums, b"", b"\0" + read_reply(IDM, b"\0\0", block(1, len(nums) % 8))
        for extra in (-16, -1, 0, 1, 16):
            data = bytes(max(0, 16 * len(nums) + extra))
            yield 8, IDM, 0x000B, None, nums, data, b"\0" + reply(9, IDM, b"\0\0")
    for idm in (b"", IDM[:7], IDM + b"\x09", IDM * 2):
        yield 6, idm, 0x000B, None, b"\0", b"", b"\0"
        yield 8, idm, 0x000B, None, b"\0", block(1), b"\0"

def drawn(rnd):
    code = rnd.choice((6, 8))
    idm = bytes(rnd.randrange(256) for _ in range(8 if rnd.random() < 0.9 else rnd.randrange(12)))
    nums = bytes(rnd.randrange(256) for _ in range(rnd.choice((1, 2, 3, 4)) if rnd.random() < 0.9 else rnd.randrange(8)))
    size = 16 * len(nums) if rnd.random() < 0.9 else rnd.randrange(90)
    data = bytes(rnd.randrange(256) for _ in range(size)) if code == 8 else b""
    n = len(nums) if rnd.random() < 0.8 else rnd.randrange(6)
    flags = bytes((rnd.choice((0, 0, 0, 1, 0xFF)), rnd.randrange(256)))
    r = reply(code + 1, idm, flags, b"" if code == 8 else bytes([n]) + bytes(rnd.randrange(256) for _ in range(16 * n)))
    r = bytearray(r)
    for _ in range(rnd.choice((0, 0, 1, 2))):
        k = rnd.randrange(len(r))
        r[rnd.choice((0, 1, 2, 9, 10, 12, k)) % len(r)] = rnd.randrange(256)
    if rnd.random() < 0.2:
        r = r[:rnd.randrange(len(r) + 1)]
        if r and rnd.random() < 0.5:
            r[0] = len(r)
    status = rnd.choice((0, 0, 0, 0, 0, 1, 0x40))
    ms = rnd.choice((None, 0, 1, 500, 65535))
    return code, idm, rnd.randrange(65536), ms, nums, data, bytes([status]) + bytes(r) if rnd.random() < 0.97 else b""

def scripts(cases):
    lines, out = opening()
    for case in cases:
        a, b = exchange(*case)
        lines += a
        out += b
    lines += ["read_without_encryption 0102030405060708 000B 65536 00", "read_without_encryption 0102030405060708 000B none",
              "read_without_encryption 0102030405060708 0B none 00", "write_without_encryption 0102030405060708 0009 none 00",
              "write_without_encryption 0102030405060708 0009 none 00 - -", "read_without_encryption 01 000B -1 00"]
    return lines, out + ["refused 4"] * 6

# ---- codec's lines

def parsed(p):
    if len(p) < 16 or p[0] != len(p) or p[1] not in (6, 8) or p[10] != 1 or not 1 <= p[13] <= 4:
        return "none"
    n, write = p[13], p[1] == 8
    elements, data = p[14:14 + 2 * n], p[14 + 2 * n:]
    if len(elements) != 2 * n or any(b != 0x80 for b in elements[::2]) or len(data) != (16 * n if write else 0):
        return "none"
    words = ["write" if write else "read", hexed(p[2:10]), "%02X%02X" % (p[12], p[11]), hexed(elements[1::2])]
    return " ".join(words + ([hexed(data)] if write else []))

def codec_case(name, idm=b"", word=0, third=b"", fourth=b"", p=b""):
    w, bad = "%04X" % word, "refused 4"
    if name == "request":
        return "request " + hexed(p), parsed(p)
    if name == "read_request":
        return " ".join((name, hexed(idm), w, hexed(third))), hexed(request(6, idm, word, third)) if fits(idm, third) else bad
    if name == "write_request":
        line = " ".join((name, hexed(idm), w, hexed(third), hexed(fourth)))
        return line, hexed(request(8, idm, word, third, fourth)) if fits(idm, third, fourth) else bad
    flags = bytes.fromhex(w)
    if name == "write_reply":
        return " ".join((name, hexed(idm), w)), hexed(reply(9, idm, flags)) if len(idm) == 8 else bad
    good = len(idm) == 8 and (len(third) in (16, 32, 48, 64) if flags[0] == 0 else not third)
    return " ".join((name, hexed(idm), w, hexed(third))), hexed(read_reply(idm, flags, third)) if good else bad

def codec_edges():
    for n in range(0, 7):
        nums, data = bytes(range(n)), block(1, n)
        yield codec_case("read_request", IDM, 0x000B, nums)
        for extra in (-1, 0, 1):
            yield codec_case("write_request", IDM, 0x0009, nums, bytes(max(0, 16 * n + extra)))
        for word in (0x0000, 0x00FF, 0x01A8, 0xFFA1):
            yield codec_case("read_reply", IDM, word, data)
            yield codec_case("read_reply", IDM, word, data + b"\0")
        for good in (request(6, IDM, 0x1234, nums), request(8, IDM, 0x1234, nums, data)):
            yield codec_case("request", p=good)
            for k in range(len(good) if n == 1 else 0):
                yield codec_case("request", p=good[:k] + bytes([good[k] ^ 0x80]) + good[k + 1:])
            for p in (good[:-1], good + b"\0", bytes([len(good) - 1]) + good[1:-1], bytes([len(good) + 1]) + good[1:] + b"\0"):
                yield codec_case("request", p=p)
    for idm in (b"", IDM[:7], IDM + b"\0", IDM):
        for word in (0, 0xFFFF):
            yield codec_case("write_reply", idm, word)
            yield codec_case("read_reply", idm, word, block(1) if word == 0 else b"")
            yield codec_case("read_request", idm, word, b"\0")
            yield codec_case("write_request", idm, word, b"\0", block(1))
    for n in range(0, 18):
        yield codec_case("request", p=bytes([n] * n))
    for line in ("read_request 0102030405060708 0B 00", "read_request 0102030405060708 000B", "write_reply 0102030405060708 0", "request", "request 1",
                 "read_reply 0102030405060708 0000 - -", "write_request 0102030405060708 0009 00", "read_request - 000B 0", "write_reply  0000"):
        yield line, "refused 4"

def codec_drawn(rnd):
    some = lambda n: bytes(rnd.randrange(256) for _ in range(n))
    idm, word, n = some(8 if rnd.random() < 0.9 else rnd.randrange(12)), rnd.randrange(65536), rnd.choice((0, 1, 1, 2, 3, 4, 4, 5))
    name = rnd.choice(("read_request", "write_request", "read_reply", "write_reply", "request", "request"))
    size = 16 * n if rnd.random() < 0.9 else rnd.randrange(90)
    if name == "request":
        p = bytearray(request(rnd.choice((6, 8)), idm, word, some(n), some(rnd.choice((0, size)))))
        for _ in range(rnd.choice((0, 0, 1))):
            p[rnd.randrange(len(p))] = rnd.randrange(256)
        return codec_case(name, p=bytes(p))
    if name == "read_reply":
        return codec_case(name, idm, rnd.choice((word, word & 255)), some(rnd.choice((0, size))))
    return codec_case(name, idm, word, some(n), some(size))

def run(program, lines):
    return subprocess.run([program], input="\n".join(lines) + "\n", capture_output=True, text=True).stdout.split("\n")[:-1]

def compared(program, lines, due):
    got = run(program, lines)
    for k, (a, b) in enumerate(zip(got + [""] * len(due), due)):
        if a != b:
            print(f"{program}: line {k + 1}: {lines[k]}\n  is  {a}\n  due {b}")
            return False
    return len(got) == len(due)

def main():
    kind, rest = sys.argv[1], sys.argv[2:]
    programs = rest[:2] if kind == "compare" else []
    rest = rest[len(programs):]
    rnd, count = random.Random(rest[0] if rest else 0), int(rest[1]) if rest else 0
    calls = (lambda: [drawn(rnd) for _ in range(count)]) if rest else (lambda: list(edges()))
    codec = (lambda: [codec_drawn(rnd) for _ in range(count)]) if rest else (lambda: list(codec_edges()))
    if kind == "compare":
        lines, due = scripts(calls())
        pairs = codec()
        good = compared(programs[0], lines, due) & compared(programs[1], [a for a, _ in pairs], [b for _, b in pairs])
        print(f"{len(due)} lines of session, {len(pairs)} of codec: " + ("no difference" if good else "different"))
        return 0 if good else 1
    lines, due = scripts(calls()) if kind == "scripts" else tuple(map(list, zip(*codec())))
    open("stdin", "w").write("\n".join(lines) + "\n")
    open("stdout", "w").write("\n".join(due) + "\n")
    return 0

if __name__ == "__main__":
    sys.exit(main())
