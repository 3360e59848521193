"""What document 02's N10 says of a reader at a chip with a field of cards: how each call ends, and its number of events.

Written from documents 01 and 02; nothing of the crates is used."""

RATES = {"A": ("106A", "212F", "424F", "106B"), "B": ("106B",), "F": ("212F", "424F"), "DEP": ("106A", "212F", "424F")}
LEAST_LISTED = {"A": 4, "B": 11, "F": 18, "DEP": 0}
MOST_CARDS, MOST_REPLIES, MOST_LISTED, MOST_REPLY, MOST_SENT = 4, 8, 1010, 1011, 512
WUPB = bytes.fromhex("050008")
VERSION = bytes.fromhex("330130")
COMMAND = 3  # events of a command: the frame is written, ACK, the response
RESET = COMMAND + 2  # ACK is written, and the pause
UNSTATED = "refused 15 01"


def hexed(data):
    return data.hex().upper() or "-"


def done(data):
    return ("done " + data.hex().upper()).rstrip()


class Card:
    def __init__(self, kind, rate, listed, atqb, fields):
        self.kind, self.rate, self.listed, self.fields = kind, rate, listed, fields
        self.replies = {WUPB: atqb} if kind == "B" else {}
        self.requests = []  # FeliCa requests that a reply was stated to

    def line(self):
        return f"card {self.kind} {self.rate} {hexed(self.listed)}" + (f" {hexed(self.replies[WUPB])}" if self.kind == "B" else "")

    def is_type2(self):
        return self.kind == "A" and self.rate == "106A" and self.listed[2] & 0x60 == 0


class Reader:
    def __init__(self):
        self.cards, self.found, self.rf_on = [], None, False

    def opening(self, unread):
        """ACK is written, and what is unread is read until nothing comes; ten commands, two of them resets."""
        self.found, self.rf_on = None, False
        return done(VERSION + b"RCS956v1.30"), 2 + unread + 8 * COMMAND + 2 * RESET

    def discovery(self, kind, rate):
        """The first card of the kind at the bitrate searched."""
        card = next((card for card in self.cards if (card.kind, card.rate) == (kind, rate)), None)
        was_on, self.rf_on, self.found = self.rf_on, True, card
        if kind == "F":
            events = 2 * COMMAND if was_on else 3 * COMMAND + 1  # CIU_TxControl is read; the RF field is switched on, and the pause
            return ("refused 17" if card is None else done(card.listed[2:])), events
        if card is None:
            return "none", COMMAND if kind == "B" else 2 * COMMAND  # of Type A the FIFO is read; of DEP time-outs are set
        if kind == "A":
            listed = card.listed
            events = COMMAND if listed[2] & 0x60 else 3 * COMMAND  # CIU_RxMode is read and written
            return done(bytes([listed[1], listed[0], listed[2]]) + listed[4:]), events
        if kind == "B":
            return done(card.replies[WUPB]), 3 * COMMAND  # the list, DESELECT, WUPB
        return done(b"\xd5\1" + card.listed), 3 * COMMAND  # time-outs, the jump, CIU_Mode

    def transceive(self, data):
        """The stated reply; a Type 2 card's over 2 bytes without its CRC_A."""
        reply = self.found and self.found.replies.get(data)
        if reply is None:
            return UNSTATED, COMMAND
        return done(reply[:-2] if self.found.is_type2() and len(reply) > 2 else reply), COMMAND

    def blocks(self, request, code, count):
        """What N5 makes of the stated reply to a read (07) of so many blocks or a write (09): 16, 21, 20 or the answer."""
        reply = self.found and self.found.replies.get(request)
        if reply is None:
            return UNSTATED, COMMAND
        if len(reply) < 12 or reply[0] != len(reply):
            return "refused 16", COMMAND
        whole = len(reply) == 12 if code == 9 else len(reply) == 13 + 16 * count and reply[12] == count
        if reply[10] == 0 and not whole:
            return "refused 16", COMMAND
        if reply[1:10] != bytes([code]) + request[2:10]:
            return "refused 21", COMMAND
        if reply[10] != 0:
            return "refused 20 " + hexed(reply[10:12]), COMMAND
        return done(reply[13:]), COMMAND
