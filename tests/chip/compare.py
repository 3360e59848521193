#!/usr/bin/env python3
"""compare.py ORACLE [--chip PROGRAM] [--session PROGRAM] [--seed 1] [--fields 2000]: readers at the program `chip`.

ORACLE is the Rust driver as a program of bench lines, PROGRAM `session` the proved reader. Each has a `chip` of its own at the other end of a wire that loses
nothing and is never late: this script carries out the readers' orders. A field of up to four cards is drawn, and calls on it. Each call's end and number of
events are held to document 02's N10 (expected.py), each packet to the PN532 manual (frames.py), and the readers' lines to each other. Ends with 1 at the first
difference, and prints the lines that lead to it; `--first K --fields 1` repeats field K. `--wrong`: at each chip of reference.py that is wrong in one place a
difference is to be found, and at the right one none."""
import argparse
import collections
import os
import random
import shlex
import subprocess
import sys

sys.dont_write_bytecode = True
import frames
import reference
from draw import Draw
from expected import COMMAND, MOST_CARDS, MOST_REPLIES, RATES, RESET, UNSTATED, VERSION, Reader, done, hexed

CALLS = {"A": "detect_type_a", "B": "detect_type_b", "F": "detect_type_f", "DEP": "detect_dep"}
ROWS = 57  # of the table that is printed at the end, all of which so many fields meet
MANY_FIELDS = 1000
WRONG_FIELDS = 100  # that each wrong chip is tried on


class Difference(Exception):
    pass


class Program:
    """A program of lines: one in, one out."""

    def __init__(self, command):
        self.process = subprocess.Popen(shlex.split(command), stdin=subprocess.PIPE, stdout=subprocess.PIPE, text=True)

    def line(self, text):
        self.process.stdin.write(text + "\n")
        self.process.stdin.flush()
        return self.process.stdout.readline().rstrip("\n")


class Wire:
    """A reader and a chip, the packets that are not read yet, and the lines of both."""

    def __init__(self, reader, chip):
        self.reader, self.chip, self.unread, self.lines, self.packets = Program(reader), Program(chip), [], [], 0
        self.listed = None  # the target's data in the last response of InListPassiveTarget

    def field(self, text):
        answer = self.chip.line(text)
        self.lines += [text, "    " + answer]
        return answer

    def written(self, data):
        packets = [bytes.fromhex(word) for word in self.chip.line("frame " + hexed(data)).split() if word != "-"]
        if data == frames.ACK:
            frames.need(not packets, "nothing upon ACK")
        else:
            code = frames.command(data)
            body = frames.response(packets, code)
            frames.need(body is not None, "a command that the chip knows")
            if code == frames.IN_LIST_PASSIVE_TARGET:
                self.listed = frames.listed(body)
        self.packets += len(packets)
        self.unread += packets

    def event(self, order):
        """Carries out an order."""
        word, *rest = order.split()
        if word == "write":
            self.written(bytes.fromhex(rest[0]))
            return "ok"
        if word == "pause":
            return "slept"
        return "pkt " + hexed(self.unread.pop(0)) if self.unread else "time"

    def call(self, text):
        """A call to its end: how it ends, its number of events, and its lines."""
        start, events, answer = len(self.lines), 0, self.reader.line(text)
        self.lines += [text, "    " + answer]
        while answer.startswith(("write", "read", "drain", "pause")):
            event = self.event(answer)
            events, answer = events + 1, self.reader.line(event)
            self.lines += [event, "    " + answer]
        return answer, events, self.lines[start:]


class Field:
    """One field, with two readers at chips that have it."""

    def __init__(self, seed, wires, counts):
        self.rng, self.wires, self.counts, self.expected = random.Random(seed), wires, counts, Reader()
        self.draw = Draw(self.rng)
        for wire in wires:
            wire.lines = []
        self.change("fresh", "ok")

    def change(self, text, wanted):
        """A line for the field, at both chips."""
        self.counts["(changes of a field" + ("" if wanted == "ok" else ", " + wanted) + ")"] += 1
        for wire in self.wires:
            answer = wire.field(text)
            if answer != wanted:
                raise Difference(f"chip: {wanted} is expected")

    def call(self, sentence, wanted, *texts):
        """The call at both readers, or the call of each; None for a reader that has none."""
        met = [wire.call(text) for wire, text in zip(self.wires, texts * 2 if len(texts) == 1 else texts) if text]
        for end, events, _ in met:
            if (end, events) != wanted:
                raise Difference(f"{sentence}: expected, with its number of events, is {wanted}, and there is {end, events}")
        if len(texts) == 1:
            if met[0][2] != met[1][2]:
                raise Difference(f"{sentence}: the readers' lines differ")
            self.counts["(lines of both readers, equal)"] += len(met[0][2]) // 2
        self.counts[sentence] += 1

    def add_card(self):
        card = self.draw.card()
        if len(self.expected.cards) == MOST_CARDS:
            self.change(card.line(), "refused 4")
            return
        if self.rng.random() < 0.5:
            self.change(*self.draw.unfit_card())
        self.change(card.line(), "ok")
        self.expected.cards.append(card)
        for _ in range(self.rng.choice((0, 1, 2, 3, MOST_REPLIES + 1))):
            self.add_reply(card)
        if self.rng.random() < 0.5:
            self.change(*self.draw.unfit_reply(card))

    def add_reply(self, card):
        sent, reply = self.draw.reply(card)
        line = f"reply {hexed(sent)} {hexed(reply)}"
        if sent in card.replies:
            self.change(line, "refused 4")
        elif len(card.replies) == MOST_REPLIES + (card.kind == "B"):
            self.change(line, "refused 3")
        else:
            self.change(line, "ok")
            card.replies[sent] = reply

    def open(self):
        unread = len(self.wires[0].unread)
        sentence = "an opening, with packets unread" if unread else "an opening"
        self.call(sentence, self.expected.opening(unread), self.rng.choice(("open", "open padded")))

    def arguments(self, kind):
        """No UID, AFI 0, system code FFFF, any ATR_REQ."""
        if kind == "A":
            return "-"
        if kind == "B":
            return self.rng.choice(("-", "00", "000000"))
        if kind == "F":
            return f"FFFF {self.rng.choice(('00', '01'))} {self.rng.choice(('00', '03'))}"
        return hexed(self.rng.randbytes(self.rng.randint(16, 64)))

    def discovery(self):
        kind = self.rng.choice(("A", "B", "F", "DEP"))
        present = [card.rate for card in self.expected.cards if card.kind == kind]
        rate = self.rng.choice(present if present and self.rng.random() < 0.6 else RATES[kind])
        off = ", RF field off" if kind == "F" and not self.expected.rf_on else ""
        wanted = self.expected.discovery(kind, rate)
        receive = self.rng.choice(("", "", "/106A"))
        found = self.expected.found
        type2 = ", Type 2" if found and found.is_type2() else ""
        self.call(f"{kind} at {rate}: {'found' if found else 'none'}{off}{type2}", wanted, f"{CALLS[kind]} {rate}{receive} {self.arguments(kind)}")
        if found and found.fields:
            for wire in self.wires:
                frames.need(frames.target(kind, wire.listed) == found.fields, "the fields of the target's data")
            self.counts["(target data taken apart by the manual)"] += 1

    def exchange(self, when):
        """Bytes to the card found, most of them with a stated reply; its bitrate, its own SEL_RES, no RID_RES."""
        card = self.expected.found
        rate = card.rate if card else self.rng.choice(("106A", "106B", "212F"))
        sel_res = hexed(card.listed[2:3]) if card and card.kind == "A" else "none"
        stated = [sent for some in ([card] if card else self.expected.cards) for sent in some.replies]
        data = self.rng.choice(stated) if stated and self.rng.random() < 0.85 else self.rng.randbytes(self.rng.randint(0, 20))
        wanted = self.expected.transceive(data)
        kind = card and ("Type 2" if card.is_type2() else card.kind)
        sentence = "a transceive without a stated reply" if wanted[0] == UNSTATED else f"a transceive {when}, {kind}"
        self.call(sentence, wanted, f"transceive {rate} {sel_res} none {self.rng.choice(('none', '0', '65535'))} {hexed(data)}")

    def blocks(self):
        """FeliCa blocks: N5's calls of `session`, which the Rust lacks; the Rust transceives the same request."""
        card = self.expected.found
        if card and card.requests:
            line, request, code, count = self.rng.choice(card.requests)
            wanted = self.expected.blocks(request, code, count)
            self.call(f"FeliCa blocks {'read' if code == 7 else 'written'}: {' '.join(wanted[0].split()[:2]) if wanted[0][0] == 'r' else 'done'}", wanted, None, line)
            self.call("(FeliCa requests transceived)", self.expected.transceive(request), f"transceive {card.rate} none none none {hexed(request)}", None)

    def leave_unread(self):
        """A clock of 0 ms leaves a response unread: the next discovery ends with 14, and an opening takes all away."""
        self.call("a clock of 0 ms", ("refused 8", COMMAND), "in_communicate_thru 0 00")
        kind = self.rng.choice(("A", "B", "F", "DEP"))
        self.call("a discovery behind it", ("refused 14", 2), f"{CALLS[kind]} {RATES[kind][0]} {self.arguments(kind)}")
        self.open()

    def command(self):
        """A command between: the card stays found, but for a reset."""
        text = self.rng.choice(("version", "set_parameters 08", "rf_field_off", "reset_mode"))
        if text == "reset_mode":
            self.expected.found = None
        if text in ("reset_mode", "rf_field_off"):
            self.expected.rf_on = False
        wanted = done(VERSION if text == "version" else b""), RESET if text == "reset_mode" else COMMAND
        self.call("another command between", wanted, text)

    def run(self):
        for _ in range(self.rng.choice((0, 1, 2, 3, 4, 4))):
            self.add_card()
        self.open()
        for _ in range(self.rng.randint(4, 12)):
            self.discovery()
            if self.rng.random() < 0.8:
                self.exchange("right after")
            self.blocks()
            self.rng.choice((self.command, self.open, self.add_card, self.leave_unread, lambda: None))()
            if self.rng.random() < 0.3:
                self.exchange("later")


def played(args, chip, fields, counts):
    """Both readers at a chip, on so many fields: the wires, and the difference that was found, if any."""
    wires = [Wire(args.oracle, chip), Wire(args.session, chip)]
    for k in range(args.first, args.first + fields):
        try:
            Field(f"{args.seed} {k}", wires, counts).run()
        except (Difference, frames.Bad) as what:
            return wires, f"field {k} of seed {args.seed}: {what}"
    return wires, None


def compare(args):
    counts = collections.Counter()
    wires, difference = played(args, args.chip, args.fields, counts)
    if difference:
        for wire, name in zip(wires, ("the Rust", "session")):
            print(f"{name}:", *wire.lines[-80:], sep="\n  ")
        print("DIFFERENCE in", difference)
        return 1
    for sentence in sorted(counts):
        print(f"{counts[sentence]:8} {sentence}")
    calls = sum(n for sentence, n in counts.items() if sentence[0] != "(")
    print(f"{args.fields} fields, {calls} calls, {sum(wire.packets for wire in wires)} packets: no difference")
    if args.fields >= MANY_FIELDS and len(counts) < ROWS:
        print(f"only {len(counts)} of {ROWS} rows were met")
        return 1
    return 0


def wrong_chips(args):
    program = f"{sys.executable} {os.path.join(os.path.dirname(os.path.abspath(__file__)), 'reference.py')}"
    missed = []
    for fault in ["", *reference.FAULTS]:
        _, difference = played(args, f"{program} {fault}", WRONG_FIELDS, collections.Counter())
        print(f"{fault or 'the right chip'}: {(difference or 'no difference')[:140]}")
        missed += [fault] if (difference is None) == bool(fault) else []
    print(f"{len(reference.FAULTS)} wrong chips, {len(missed)} missed")
    return 1 if missed else 0


def main():
    parser = argparse.ArgumentParser(description=__doc__, formatter_class=argparse.RawDescriptionHelpFormatter)
    parser.add_argument("oracle")
    parser.add_argument("--chip", default="target/bin/chip")
    parser.add_argument("--session", default="target/bin/session")
    parser.add_argument("--seed", type=int, default=1)
    parser.add_argument("--first", type=int, default=0)
    parser.add_argument("--fields", type=int, default=2000)
    parser.add_argument("--wrong", action="store_true")
    args = parser.parse_args()
    return wrong_chips(args) if args.wrong else compare(args)


if __name__ == "__main__":
    sys.exit(main())
