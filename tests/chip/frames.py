"""Packets as a client of the PN532 reads them.

Written from the PN532 user manual, 6.2.1 (frames) and InListPassiveTarget: what a client such as libnfc looks at before it hands a response on.
Nothing of libnfc or of the crates is used."""

ACK = bytes.fromhex("0000FF00FF00")
ERROR = bytes.fromhex("0000FF01FF7F8100")
HOST, CHIP = 0xD4, 0xD5
IN_LIST_PASSIVE_TARGET = 0x4A
LONGEST = 1024


class Bad(Exception):
    """A packet that a client would refuse."""


def need(holds, what):
    if not holds:
        raise Bad(what)


def information(packet):
    """TFI and data of an information frame, normal or extended, that fills the packet."""
    need(len(packet) <= LONGEST, "at most 1,024 bytes")
    need(packet[:3] == b"\0\0\xff" and len(packet) >= 9, "preamble, start code, and a frame behind")
    if packet[3:5] == b"\xff\xff":
        need(sum(packet[5:8]) & 255 == 0, "LCS of an extended frame")
        n, at = packet[5] << 8 | packet[6], 8
        need(n > 255, "extended only where a normal frame is too short")
    else:
        need((packet[3] + packet[4]) & 255 == 0, "LCS")
        n, at = packet[3], 5
    need(n >= 2 and len(packet) == at + n + 2, "LEN")
    need(sum(packet[at:at + n + 1]) & 255 == 0, "DCS")
    need(packet[-1] == 0, "postamble")
    return packet[at:at + n]


def command(packet):
    """The code of a command's frame."""
    body = information(packet)
    need(body[0] == HOST, "TFI of a command")
    return body[1]


def response(packets, code):
    """What stands behind the code in the response to a command: ACK comes first. None for the error frame."""
    need(len(packets) == 2 and packets[0] == ACK, "ACK and one packet")
    if packets[1] == ERROR:
        return None
    body = information(packets[1])
    need(body[0] == CHIP, "TFI of a response")
    need(body[1] == code + 1 & 255, "the command's code plus 1")
    return body[2:]


def listed(body):
    """The target's data in the response of InListPassiveTarget for one target: NbTg, Tg and the data. None where there is no target."""
    need(body == b"\0" or body[:2] == b"\1\1", "NbTg and Tg")
    return body[2:] if body[0] else None


def target(kind, data):
    """The fields of a target's data."""
    if kind == "A":
        n = data[3]
        ats = data[4 + n:]
        need(len(data) >= 4 + n, "NFCID1")
        need(not ats or ats[0] == len(ats), "ATS")
        return data[:2], data[2:3], data[4:4 + n], ats[1:]
    if kind == "B":
        need(data[0] == 0x50 and len(data) == 13 + data[12], "ATQB, ATTRIB_RES")
        return data[:12], data[13:]
    need(data[0] == len(data) and data[0] in (18, 20) and data[1] == 1, "POL_RES")
    return data[2:10], data[10:18], data[18:]
