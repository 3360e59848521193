#!/usr/bin/env python3
"""A chip with a field of cards, written from document 02, N10, and the PN532 user manual; nothing of the crates is used.

As a program it takes the lines of `chip`, those alone that can be read: reference.py [FAULT], with one of FAULTS where the chip is to be wrong in one place."""
import sys

ACK = bytes.fromhex("0000FF00FF00")
ERROR = bytes.fromhex("0000FF01FF7F8100")
VERSION = bytes.fromhex("33013007")
RATES = {"A": ("106A", "212F", "424F", "106B"), "B": ("106B",), "F": ("212F", "424F"), "DEP": ("106A", "212F", "424F")}
CODE = {"106A": 0, "212F": 1, "424F": 2, "106B": 3}
LEAST = {"A": 4, "B": 11, "F": 18, "DEP": 0}


def frame(payload):
    n = len(payload)
    if n <= 255:
        head = bytes([0, 0, 255, n, -n & 255])
    else:
        head = bytes([0, 0, 255, 255, 255, n >> 8, n & 255, -((n >> 8) + (n & 255)) & 255])
    return head + payload + bytes([-sum(payload) & 255, 0])


def payload_of(written):
    """The payload of a frame that the bytes are; None where they are none."""
    if written[:3] != b"\0\0\xff" or len(written) < 8:
        return None
    if written[3:5] == b"\xff\xff":
        n, at = written[5] * 256 + written[6], 8
        if (written[5] + written[6] + written[7]) & 255:
            return None
    else:
        n, at = written[3], 5
        if (written[3] + written[4]) & 255:
            return None
    if len(written) != at + n + 2 or n == 0:
        return None
    body = written[at : at + n]
    if (sum(body) + written[at + n]) & 255 or written[-1]:
        return None
    return body


def crc_a(data):
    crc = 0x6363
    for byte in data:
        byte ^= crc & 255
        byte = (byte ^ (byte << 4)) & 255
        crc = (crc >> 8) ^ (byte << 8) ^ (byte << 3) ^ (byte >> 4)
    return bytes([crc & 255, crc >> 8 & 255])


class Chip:
    def __init__(self):
        self.cards, self.found, self.field = [], None, False

    def card(self, kind, rate, data, atqb=None):
        if len(self.cards) == 4 or rate not in RATES[kind] or len(data) < LEAST[kind]:
            return "refused 4"
        if kind == "B" and data[10] & 9 != 1:
            return "refused 4"
        if len(data) > 1010 or len(atqb or b"") > 1011:
            return "refused 3"
        replies = {bytes([5, 0, 8]): atqb} if kind == "B" else {}
        self.cards.append((kind, rate, data, replies))
        return "ok"

    def reply(self, sent, answer):
        if not self.cards:
            return "refused 4"
        kind, rate, data, replies = self.cards[-1]
        if sent in replies:
            return "refused 4"
        type2 = kind == "A" and rate == "106A" and data[2] & 0x60 == 0
        if type2 and len(answer) > 2 and crc_a(answer[:-2]) != answer[-2:]:
            return "refused 4"
        if len(answer) > 1011 or len(sent) > 512 or len(replies) == 8 + (kind == "B"):
            return "refused 3"
        replies[sent] = answer
        return "ok"

    def first(self, kind, code):
        for card in self.cards:
            if card[0] == kind and CODE[card[1]] == code:
                return card
        return None

    def exchange(self, sent):
        if self.found is None or sent not in self.found[3]:
            return b"\1"
        return b"\0" + self.found[3][sent]

    def register(self, address):
        return {0x6339: 0x26, 0x6304: 0x83 if self.field else 0x80}.get(address, 0)

    def response(self, code, data):
        if code == 0x02:
            return VERSION
        if code == 0x06:
            words = [data[k] * 256 + data[k + 1] for k in range(0, len(data) - 1, 2)]
            return bytes(map(self.register, words))
        if code == 0x08:
            return b"\0"
        if code == 0x12:
            return b""
        if code == 0x18:
            self.found, self.field = None, False
            return b""
        if code == 0x32:
            if data[:1] == b"\1":
                self.field = data[1] & 1 == 1
            return b""
        if code == 0x40:
            return self.exchange(data[1:])
        if code == 0x42:
            return self.exchange(data)
        if code == 0x4A:
            kind = {0: "A", 1: "B", 5: "F"}.get(len(data) - 2)
            self.found, self.field = self.first(kind, data[1]), True
            return b"\0" if self.found is None else b"\1\1" + self.found[2]
        if code == 0x56:
            self.found, self.field = self.first("DEP", data[1]), True
            return b"\1" if self.found is None else b"\0\1" + self.found[2]
        return None

    def frame(self, written):
        body = payload_of(written)
        if body is None or len(body) < 2 or body[0] != 0xD4:
            return "-"
        data = self.response(body[1], body[2:])
        packet = ERROR if data is None else frame(bytes([0xD5, body[1] + 1 & 255]) + data)
        return ACK.hex().upper() + " " + packet.hex().upper()


class LastCard(Chip):
    def first(self, kind, code):
        self.cards.reverse()
        card = super().first(kind, code)
        self.cards.reverse()
        return card


class BitrateAlone(Chip):
    def first(self, kind, code):
        return next((card for card in self.cards if CODE[card[1]] == code), None)


class KindAlone(Chip):
    def first(self, kind, code):
        return next((card for card in self.cards if card[0] == kind), None)


class FifoReads00(Chip):
    def register(self, address):
        return 0 if address == 0x6339 else super().register(address)


class FieldNeverOn(Chip):
    def register(self, address):
        return 0x80 if address == 0x6304 else super().register(address)


class FieldAlwaysOn(Chip):
    def register(self, address):
        return 0x83 if address == 0x6304 else super().register(address)


class NoStatus(Chip):
    """Bytes without a stated reply get an empty one."""

    def exchange(self, sent):
        answer = super().exchange(sent)
        return b"\0" if answer == b"\1" else answer


class FoundForGood(Chip):
    """A reset leaves the card found."""

    def response(self, code, data):
        found = self.found
        answer = super().response(code, data)
        self.found = found if code == 0x18 else self.found
        return answer


class OtherDepStatus(Chip):
    def response(self, code, data):
        answer = super().response(code, data)
        return b"\2" if code == 0x56 and answer == b"\1" else answer


class OtherTarget(Chip):
    """The target has the number 2."""

    def response(self, code, data):
        answer = super().response(code, data)
        return answer[:1] + b"\2" + answer[2:] if code == 0x4A and len(answer) > 1 else answer


class OtherVersion(Chip):
    def response(self, code, data):
        return bytes.fromhex("33013107") if code == 0x02 else super().response(code, data)


class HostDirection(Chip):
    """Responses have D4."""

    def frame(self, written):
        answer = super().frame(written)
        if answer == "-":
            return answer
        body = payload_of(bytes.fromhex(answer.split()[1]))
        return answer if body is None else ACK.hex() + " " + frame(b"\xd4" + body[1:]).hex()


class NoAck(Chip):
    def frame(self, written):
        return super().frame(written).split()[-1]


class LateExtended(Chip):
    """A response that fills a normal frame comes in an extended one."""

    def frame(self, written):
        answer = super().frame(written)
        packet = bytes.fromhex(answer.split()[-1]) if answer != "-" else b""
        return ACK.hex() + " " + (b"\0\0\xff\xff\xff\0\xff\1" + packet[5:]).hex() if packet[3:5] == b"\xff\1" else answer


class ShortListData(Chip):
    def card(self, kind, rate, data, atqb=None):
        return "ok" if kind == "F" and rate in RATES["F"] and len(data) == LEAST["F"] - 1 else super().card(kind, rate, data, atqb)


class NoCrcAsked(Chip):
    def reply(self, sent, answer):
        answered = super().reply(sent, answer)
        return "ok" if answered == "refused 4" and self.cards and sent not in self.cards[-1][3] else answered


class NinthReply(Chip):
    def reply(self, sent, answer):
        answered = super().reply(sent, answer)
        return "ok" if answered == "refused 3" and len(answer) <= 1011 and len(sent) <= 512 else answered


FAULTS = {fault.__name__: fault for fault in Chip.__subclasses__()}


def given(word):
    return b"" if word == "-" else bytes.fromhex(word)


def main():
    new = FAULTS[sys.argv[1]] if len(sys.argv) > 1 else Chip
    chip = new()
    for line in sys.stdin:
        word, *rest = line.split()
        if word == "fresh":
            chip, answer = new(), "ok"
        elif word == "card":
            answer = chip.card(rest[0], rest[1], *map(given, rest[2:]))
        elif word == "reply":
            answer = chip.reply(*map(given, rest))
        else:
            answer = chip.frame(given(rest[0]))
        print(answer, flush=True)


if __name__ == "__main__":
    main()
