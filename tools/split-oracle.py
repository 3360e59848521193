#!/usr/bin/env python3
"""The bench program with document 02's N6, a line in and a line out: the Rust, and beside it the rule of the mode.

    python3 tools/split-oracle.py ORACLE

ORACLE is the program built from the Rust, which has no such mode. A line `detect_type_a BITRATE HEX split` is handed to it without
the last word. Where it took a target's list, the list data of that packet decides: laid out as the PN532 user manual has it, the
answer gets both lengths; else the call ends with 22, and what the Rust would do next is broken off and thrown away. All other lines
and answers pass as they are.
"""
import subprocess
import sys

LINE_LIMIT = 8192
ORDERS = (b"write", b"read", b"drain", b"pause")
AT_ONCE = (b"refused 1", b"refused 3", b"refused 4")  # an order that was due still is
ACK = b"write 0000FF00FF00"
RX_MODE = bytes.fromhex("D4066303")


def payload_of(packet):
    """The payload of an intact frame, with extra zeros before it or not."""
    frame = b"\x00\x00" + packet.lstrip(b"\x00")
    if frame[3:5] == b"\xff\xff":
        return frame[8:8 + int.from_bytes(frame[5:7], "big")]
    return frame[5:5 + frame[3]]


def lengths_of(data):
    """The lengths of UID and ATS in the data of a Type A target, or None: SENS_RES, SEL_RES, NFCID1Length, NFCID1t, ATS."""
    uid = data[3]
    ats = data[4 + uid:]
    if uid not in (4, 7, 10) or len(data) < 4 + uid:
        return None
    return (uid, len(ats)) if not ats or ats[0] == len(ats) else None


class Reference:
    def __init__(self, oracle):
        self.child = subprocess.Popen([oracle], stdin=subprocess.PIPE, stdout=subprocess.PIPE)
        self.runs = self.listed = False  # a call in the mode runs; its list has come
        self.lengths = None

    def say(self, line):
        self.child.stdin.write(line + b"\n")
        self.child.stdin.flush()
        return self.child.stdout.readline()[:-1]

    def break_off(self, answer):
        """Brings the call that runs in the Rust to its end."""
        event = b"bad"
        while answer.startswith(ORDERS):
            answer, event = self.say(event), b"ok"

    def answer(self, line):
        words = line.split(b" ")
        if words[0] == b"detect_type_a" and len(words) == 4 and words[3] == b"split" and len(line) <= LINE_LIMIT:
            answer = self.say(b" ".join(words[:3]))
            if answer.startswith(b"write"):
                self.runs, self.listed, self.lengths = True, False, None
            return answer
        answer = self.say(line)
        return self.in_mode(line, answer) if self.runs and answer not in AT_ONCE else answer

    def in_mode(self, line, answer):
        self.runs = answer.startswith(ORDERS)
        done = answer.startswith(b"done") and not answer.endswith(b"type1")
        command = answer.startswith(b"write") and answer != ACK
        if not self.listed and (done or command):
            self.listed = True
            if done or RX_MODE in bytes.fromhex(answer[6:].decode()):
                self.lengths = lengths_of(payload_of(bytes.fromhex(line[4:].decode()))[4:])
                if self.lengths is None:
                    self.runs = False
                    self.break_off(answer)
                    return b"refused 22"
        return answer + b" uid %d ats %d" % self.lengths if done else answer


def main():
    reference = Reference(sys.argv[1])
    for line in sys.stdin.buffer:
        sys.stdout.buffer.write(reference.answer(line.removesuffix(b"\n")) + b"\n")
        sys.stdout.buffer.flush()


if __name__ == "__main__":
    main()
