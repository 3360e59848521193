#!/usr/bin/env python3
"""Further ACK-led packets cannot matter (document 02, N11): pairs of runs of the program `session`, compared.

    python3 tests/chatter/compare.py [--program target/bin/session] [--seed 1] [--cases 20000] [--wider]

A script of a few calls is drawn by talking to the program, with a simulated chip at the other end. Then ACK-led packets are put into it at the
places of the relation: where a command has had its first ACK-led packet and waits. The program gets the second script anew. Every line of the
first must be answered as before, and every packet more by the read order that was pending. So answers, bytes to write and refusals are the same,
and the calls behind show that the sessions are. A pair without such a place is drawn again. The first difference is printed, and the end
code is 1. --wider puts packets before a command's first packet, too, and compares the lines of the first script alone: there it is untrue, and a
difference must be found.
"""
import argparse
import collections
import random
import subprocess
import sys

ACK = bytes.fromhex("0000FF00FF00")
START = bytes.fromhex("0000FF")
ORDERS = ("write", "read", "drain", "pause")
PACKET_LIMIT = 1024


def hexa(data):
    return data.hex().upper() or "-"


def frame(payload):
    size = len(payload)
    head = bytes([size, -size % 256]) if size < 256 else b"\xff\xff" + size.to_bytes(2, "big") + bytes([-sum(size.to_bytes(2, "big")) % 256])
    return START + head + payload + bytes([-sum(payload) % 256, 0])


def seen(packet, padded):
    """A packet as the mode sees it: in the padded one without up to 16 extra zeros."""
    for zeros in range(17 if padded and len(packet) <= PACKET_LIMIT else 0):
        if packet[:zeros] == bytes(zeros) and packet[zeros:zeros + 3] == START:
            return packet[zeros:]
    return packet


# ---------------------------------------------------------------- calls and the chip

def some(rng, low, high):
    return rng.randbytes(rng.randint(low, high))


def ms(rng):
    return rng.choice((0, 1, 50, 100, 1000, 65535))


CALLS = (
    lambda r: "version",
    lambda r: "reset_mode",
    lambda r: "rf_field_off",
    lambda r: "tg_get_target_status",
    lambda r: f"set_parameters {hexa(some(r, 1, 1))}",
    lambda r: f"rf_configuration {hexa(some(r, 1, 1))} {hexa(some(r, 0, 9))}",
    lambda r: f"read_register {hexa(some(r, 1, 1) * 2 * r.randint(1, 3))}",
    lambda r: f"write_register {hexa(some(r, 1, 1) * 3 * r.randint(1, 3))}",
    lambda r: f"in_list_passive_target 01 0{r.randint(0, 4)} {hexa(some(r, 0, 5))}",
    lambda r: f"in_data_exchange {ms(r)} {hexa(some(r, 0, 300))}",
    lambda r: f"in_communicate_thru {ms(r)} {hexa(some(r, 0, 20))}",
    lambda r: f"in_jump_for_dep 0{r.randint(0, 1)} 0{r.randint(0, 2)} {hexa(some(r, 0, 5))} {hexa(some(r, 0, 10))} {hexa(some(r, 0, 9))}",
    lambda r: f"tg_init_target {ms(r)} 00 {hexa(bytes(6))} {hexa(bytes(18))} {hexa(bytes(10))} {hexa(some(r, 0, 9))}",
    lambda r: f"tg_get_initiator_command {ms(r)}",
    lambda r: f"tg_response_to_initiator {hexa(some(r, 0, 20))}",
    lambda r: f"detect_type_a {r.choice(('106A', '212F', '106B', '106X'))} {hexa(some(r, 0, 10))}",
    lambda r: f"detect_type_b {r.choice(('106B', '106B', '106A'))} {hexa(some(r, 0, 2))}",
    lambda r: f"detect_type_f {r.choice(('212F', '424F'))} FFFF 0{r.randint(0, 2)} 00",
    lambda r: f"detect_dep {r.choice(('106A', '212F', '424F'))} {hexa(some(r, 16, 30))}",
    lambda r: f"transceive {r.choice(('106A', '212F'))} {r.choice(('none', '00', '20'))} {r.choice(('none', 'none', '11'))} {r.choice(('none', '0', '100'))} {hexa(bytes([r.choice((0, 1, 0x1A))]) + some(r, 0, 9))}",
    lambda r: f"poll_type_f 212F {hexa(some(r, 1, 1) * 2 * r.randint(1, 4))}",
)


def body(rng, code, data, opening):
    """The response to a command behind D5 and the code: one that lets an opening go on, and mostly a plausible one."""
    if code == 0x02:
        return bytes([0x33, 1, 0x30, 7])
    if opening or rng.random() < 0.05:
        return b"" if opening else some(rng, 0, 3)
    if code == 0x06:
        return bytes(rng.choice((0, 3, 0x26, 0x80, rng.randrange(256))) for _ in range(len(data) // 2))
    if code == 0x08:
        return rng.choice((b"", bytes(3), b"\x00\x01"))
    if code == 0x4A:
        if rng.random() < 0.3:
            return b"\x00"
        card = {0: b"\x44\x00\x08\x04" + some(rng, 4, 4), 3: b"\x50" + some(rng, 11, 11)}.get(data[1], b"\x12\x01" + some(rng, 16, 18))
        return b"\x01\x01" + card
    if code in (0x12, 0x18, 0x32):
        return b""
    if code == 0x8A:
        return bytes([rng.randint(0, 2), rng.choice((0, 0x11, 0x22, 0x33))])
    return bytes([rng.choice((0, 0, 0, 1, 0x13, 0x40))]) + some(rng, 1, 300 if rng.random() < 0.1 else 12)


def ack_led(rng, padded):
    packet = ACK + rng.choice((b"", b"", b"\x00", ACK, some(rng, 1, 9), frame(b"\xd5\x03\x33\x01\x30\x07"), bytes(990)))
    return bytes(rng.choice((0, 1, 16, rng.randint(0, 16))) if padded else 0) + packet


class Chip:
    """The reads that follow a command frame."""

    def __init__(self, rng, noise):
        self.rng, self.noise, self.packets, self.padded, self.opening = rng, noise, [], False, False

    def written(self, data):
        self.packets = []
        if data == ACK:
            return
        payload = data[8:-2] if data[3:5] == b"\xff\xff" else data[5:-2]
        rng, answer = self.rng, frame(bytes([0xD5, payload[1] + 1]) + body(self.rng, payload[1], payload[2:], self.opening))
        acks = [ACK] * rng.choice((1, 1, 1, 1, 1, 0, 2))
        if rng.random() < (self.noise / 20 if self.opening else self.noise):
            answer = rng.choice(("time", "fail", "late", b"", b"\x00", answer[1:], answer + b"\x00", bytes.fromhex("0000FFFFFF00"), frame(b"\x7f"), frame(b"\xd5\x00")))
        self.packets = acks + [answer]

    def event(self, order):
        rng, kind = self.rng, order.split()[0]
        if kind == "write":
            return "bad" if rng.random() < self.noise / 8 else "ok"
        if kind == "pause":
            return "slept"
        if kind == "drain":
            return rng.choice(("time", "fail", "late", "pkt -", "pkt 00", f"pkt {hexa(ACK)}"))
        if order == "read 10" and not self.packets:
            return rng.choice(("time", "time", "fail", f"pkt {hexa(ACK)}", "pkt -"))
        answer = self.packets.pop(0) if self.packets else rng.choice(("time", "fail"))
        if isinstance(answer, str):
            return answer
        zeros = rng.choice((0, 1, 16)) if self.padded and answer else 0
        return f"pkt {hexa(bytes(zeros) + answer)}"


# ---------------------------------------------------------------- a script, and its places

class Record:
    """What an observer sees of the running call, as far as the relation asks: whether a command is unanswered, and acknowledged."""

    def __init__(self):
        self.unanswered = self.acked = self.padded = False
        self.order = None

    def waits(self):
        return self.unanswered and self.acked and self.order is not None and self.order.startswith("read")

    def accepted(self, line, answer):
        if line.startswith("open"):
            self.padded, self.unanswered = line == "open padded", False
        elif line.startswith("pkt"):
            text = line[4:].strip("-")
            if seen(bytes.fromhex(text), self.padded).startswith(ACK):
                self.acked = True
            else:
                self.unanswered = False
        elif line != "ok":
            self.unanswered = False
        self.order = answer if answer.split()[0] in ORDERS else None
        if self.order is None or self.order.split()[0] in ("drain", "pause"):
            self.unanswered = False
        elif self.order.startswith("write"):
            self.unanswered, self.acked = self.order != "write " + hexa(ACK), False


def draw(program, rng):
    """A script, its answers, and the places: numbers of lines before which the record waits, and before which it awaits a first packet."""
    child = subprocess.Popen([program], stdin=subprocess.PIPE, stdout=subprocess.PIPE, text=True, bufsize=1)
    chip = Chip(rng, rng.choice((0, 0.05, 0.1, 0.3)))
    record, script, answers, places, firsts = Record(), [], [], [], []
    calls, opened = rng.randint(3, 7), False
    while (calls > 0 or record.order) and len(script) < 400:
        if record.waits():
            places.append(len(script))
        elif record.unanswered and record.order.startswith("read"):
            firsts.append(len(script))
        if rng.random() < 0.01:
            line = rng.choice(("ok", "slept", "version", "time 1", "pkt " + "00" * 1025))
        elif record.order:
            line = chip.event(record.order)
        elif opened and rng.random() < 0.95:
            line, calls = rng.choice(CALLS)(rng), calls - 1
        else:
            line, calls = rng.choice(("open", "open padded")), calls - 1
        child.stdin.write(line + "\n")
        child.stdin.flush()
        answer = child.stdout.readline().rstrip("\n")
        script.append(line)
        answers.append(answer)
        if answer.startswith("refused") and (record.order is None or int(answer.split()[1]) <= 4):
            continue  # at once: a call's first line, or an event's 1 to 4
        if record.order is None:
            chip.opening = line.startswith("open")
            opened = opened and not chip.opening
        record.accepted(line, answer)
        chip.padded = record.padded
        if answer.startswith("write"):
            chip.written(bytes.fromhex(answer[6:]))
        if record.order is None and chip.opening:
            opened = answer.startswith("done")
    child.stdin.close()
    child.wait()
    return script, answers, places, firsts


def modes(script, answers):
    """The mode before each line: that of the newest accepted opening."""
    padded, found = False, []
    for line, answer in zip(script, answers):
        found.append(padded)
        if line.startswith("open") and answer.startswith("write"):
            padded = line == "open padded"
    return found


def more(rng, script, answers, places, wider):
    """The script with ACK-led packets at some of the places, its answers if these do not matter (None: any), and how many there are."""
    chosen = set(rng.sample(places, rng.randint(1, len(places))))
    padded, lines, wanted, count = modes(script, answers), [], [], 0
    pending = None
    for number, (line, answer) in enumerate(zip(script, answers)):
        for _ in range(rng.choice((1, 1, 2, 3, 8)) if number in chosen else 0):
            lines.append(f"pkt {hexa(ack_led(rng, padded[number]))}")
            wanted.append(None if wider else pending)
            count += 1
        lines.append(line)
        wanted.append(answer)
        pending = answer if answer.split()[0] in ORDERS else pending
    return lines, wanted, count


def main():
    parser = argparse.ArgumentParser(description=__doc__, formatter_class=argparse.RawDescriptionHelpFormatter)
    parser.add_argument("--program", default="target/bin/session")
    parser.add_argument("--seed", default="1")
    parser.add_argument("--cases", type=int, default=20000)
    parser.add_argument("--wider", action="store_true")
    args = parser.parse_args()
    pairs = drawn = packets = lines = 0
    calls = collections.Counter()
    while pairs < args.cases:
        rng = random.Random(f"{args.seed} {drawn}")
        drawn += 1
        script, answers, places, firsts = draw(args.program, rng)
        places = places + firsts if args.wider else places
        if not places:
            continue
        second, wanted, count = more(rng, script, answers, sorted(places), args.wider)
        done = subprocess.run([args.program], input="".join(line + "\n" for line in second), capture_output=True, text=True, check=True)
        given = done.stdout.splitlines()
        at = next((i for i, want in enumerate(wanted) if want is not None and (i >= len(given) or given[i] != want)), None)
        if at is not None or len(given) != len(wanted):
            at = min(len(given), len(wanted)) - 1 if at is None else at
            print(f"pair {pairs}, script {drawn - 1}: line {at + 1} is answered by {given[at]!r}, not {wanted[at]!r}. The lines before it, with their answers:")
            print("\n".join(f"{line[:60]:60} {answer[:60]}" for line, answer in list(zip(second, given))[max(0, at - 12):at + 1]))
            return 1
        pairs, packets, lines = pairs + 1, packets + count, lines + len(second)
        calls.update(line.split()[0] for line, answer in zip(script, answers) if answer.startswith("write") and line.split()[0] not in ("ok", "bad", "pkt", "time", "fail", "late", "slept"))
    print(f"{pairs} pairs, {packets} further packets, {lines} lines, no difference")
    print("calls accepted: " + ", ".join(f"{name} {n}" for name, n in sorted(calls.items())))
    return 0


if __name__ == "__main__":
    sys.exit(main())
