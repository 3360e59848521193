"""Cards, replies and requests, drawn at random: those that a field allows, and unfit ones with their refusal, 4 before 3."""
from expected import LEAST_LISTED, MOST_LISTED, MOST_REPLY, MOST_SENT, RATES, Card, hexed

LONGEST_NORMAL = 251  # the list data or reply, by a byte, with which a response fills a normal frame


def crc_a(data):
    crc = 0x6363
    for byte in data:
        byte ^= crc & 255
        byte = (byte ^ (byte << 4)) & 255
        crc = (crc >> 8) ^ (byte << 8) ^ (byte << 3) ^ (byte >> 4)
    return bytes([crc & 255, crc >> 8 & 255])


class Draw:
    def __init__(self, rng):
        self.rng = rng

    def some(self, least, most):
        """Bytes: half of the time few, else a length at an edge or any."""
        edges = (least, least + 1, 2, 3, LONGEST_NORMAL, LONGEST_NORMAL + 1, LONGEST_NORMAL + 2, most - 1, most, self.rng.randint(least, most))
        few = least + self.rng.randint(0, 40)
        n = self.rng.choice([n for n in edges if least <= n <= most]) if self.rng.random() < 0.5 else min(few, most)
        return self.rng.randbytes(n)

    def protocol(self):
        """Byte 10 of Type B's list data: masked with 09 it is 01."""
        return bytes([self.rng.randrange(256) & ~9 | 1])

    def by_layout(self, kind):
        """List data as the manual lays it out, and its fields."""
        some, choice = self.rng.randbytes, self.rng.choice
        if kind == "A":
            sens_res, sel_res, uid = some(2), choice((b"\0", b"\x08", b"\x20", b"\x60", some(1))), some(choice((4, 7, 10)))
            ats = some(choice((0, 1, 5, 19)))
            return sens_res + sel_res + bytes([len(uid)]) + uid + (bytes([len(ats) + 1]) + ats if ats else b""), (sens_res, sel_res, uid, ats)
        if kind == "B":
            atqb, attrib_res = b"\x50" + some(9) + self.protocol() + some(1), some(choice((0, 1, 4)))
            return atqb + bytes([len(attrib_res)]) + attrib_res, (atqb, attrib_res)
        idm, pmm, system = some(8), some(8), some(choice((0, 2)))
        return bytes([18 + len(system), 1]) + idm + pmm + system, (idm, pmm, system)

    def card(self):
        kind = self.rng.choice(("A", "B", "F", "DEP"))
        listed, fields = self.some(LEAST_LISTED[kind], MOST_LISTED), None
        if kind == "B":
            listed = listed[:10] + self.protocol() + listed[11:]
        if kind != "DEP" and self.rng.random() < 0.6:
            listed, fields = self.by_layout(kind)
        atqb = self.rng.choice((listed[:12], self.some(0, MOST_REPLY)))
        rates = RATES[kind] + ("106A",) * 3 if kind == "A" else RATES[kind]  # more Type 2 cards
        return Card(kind, self.rng.choice(rates), listed, atqb, fields)

    def unfit_card(self):
        """The line of a card that no field takes, and its refusal: another kind's bitrate, list data too short, byte 10 of Type B, data too long."""
        card, fault = self.card(), self.rng.choice(("rate", "short", "protocol", "long"))
        if fault == "rate" or (fault == "short" and card.kind == "DEP"):
            card.rate = self.rng.choice([rate for rate in ("106A", "212F", "424F", "106B", "212B", "848B") if rate not in RATES[card.kind]])
        elif fault == "short":
            card.listed = card.listed[:LEAST_LISTED[card.kind] - 1]
        elif fault == "protocol" and card.kind == "B":
            card.listed = card.listed[:10] + bytes([self.rng.choice((0, 8, 9, 0x80))]) + card.listed[11:]
        else:
            card.listed += bytes(MOST_LISTED + 1 - len(card.listed))
            return card.line(), "refused 3"
        return card.line(), "refused 4"

    def unfit_reply(self, card):
        """The line of a reply that the card does not take, and its refusal: without CRC_A; too long, or too much sent."""
        sent, reply = self.rng.choice(((30, MOST_REPLY + 1), (MOST_SENT + 1, 1)))
        if card.is_type2():
            reply = self.rng.choice((3, 18, MOST_REPLY + 1))
        return f"reply {hexed(self.rng.randbytes(sent))} {hexed(bytes(reply))}", "refused 4" if card.is_type2() else "refused 3"

    def reply(self, card):
        """Bytes sent to the card, and its reply."""
        if card.kind == "F" and self.rng.random() < 0.6:
            return self.felica(card)
        reply = self.some(0, MOST_REPLY)
        if card.is_type2() and len(reply) > 2:
            reply = reply[:-2] + crc_a(reply[:-2])
        return self.some(0, MOST_SENT), reply

    def felica(self, card):
        """A request of JIS X 6319-4 for 1 to 4 blocks of one service, and a reply that is mostly right."""
        idm, numbers, is_read = card.listed[2:10], self.rng.randbytes(self.rng.randint(1, 4)), self.rng.random() < 0.7
        service, count = self.rng.choice((0x000B, 0x1009)), len(numbers)
        code, data = (7, b"") if is_read else (9, self.rng.randbytes(16 * count))
        body = bytes([code - 1]) + idm + bytes([1, service & 255, service >> 8, count]) + b"".join(bytes([0x80, n]) for n in numbers) + data
        request = bytes([len(body) + 1]) + body
        line = f"{'read' if is_read else 'write'}_without_encryption {hexed(idm)} {service:04X} none {hexed(numbers)}" + ("" if is_read else " " + hexed(data))
        card.requests.append((line, request, code, count))
        return request, self.felica_reply(idm, code, count)

    def felica_reply(self, idm, code, count):
        choice, some = self.rng.choice, self.rng.randbytes
        flags = choice((b"\0\0", b"\0\0", b"\0\0", b"\1\xa8"))
        body = bytes([choice((code, code, code, code, 5))]) + choice((idm, idm, idm, idm, some(8))) + flags
        if code == 7 and flags[0] == 0:
            body += bytes([choice((count, count, count, count, count + 1))]) + some(16 * count)
        reply = bytes([len(body) + 1]) + body
        return choice((reply, reply, reply, reply, reply[:-1], reply + b"\0", some(11)))
