#!/usr/bin/env python3
"""Compares the program `session` with the oracle on generated scripts of some or all calls.

    python3 session-compare.py FOLDER PROGRAM [--calls opening|commands|all] [--requests N1,N2] [--seed 1] [--first 0] [--cases 1000]
        [--jobs 2] [--coverage]

FOLDER has the oracle's bench program `oracle` and its scripts fuzz.py and diff.py. A script is made by talking to the
oracle line by line, with fuzz.py's simulated chip at the other end. Then PROGRAM gets the whole script on its input; every
tenth case goes line by line instead, the next line only after the answer. The first difference is cut down and printed,
and the end code is 1. `opening` is `open` and `version` with more that goes wrong in openings, `commands` the calls of
chipset.rs, `all` the whole language. --requests names the later requests whose lines are drawn and read, `none` for none: with N2
openings in both modes, and packets with 0 to 18 extra zeros.
"""
import argparse
import multiprocessing
import os
import sys
import time


def imports(folder, calls):
    """fuzz and diff of the folder, with fuzz's calls cut down."""
    folder = os.path.abspath(folder)
    if folder not in sys.path:
        sys.path.insert(0, folder)
    os.environ["ORACLE"] = os.path.join(folder, "oracle")
    import fuzz
    import diff
    if calls == "opening":
        fuzz.CALLS = {name: fuzz.CALLS[name] for name in ("open", "version")}
        fuzz.WEIGHTS = {name: fuzz.WEIGHTS[name] for name in fuzz.CALLS}
    if calls == "commands":
        others = [name for name in fuzz.WEIGHTS if name.startswith(("detect", "transceive"))]
        fuzz.WEIGHTS = {**fuzz.WEIGHTS, **dict.fromkeys(others, 0)}
    return fuzz, diff


def with_zeros(rng, text, padded):
    """A packet's line with extra zeros before it: in the padded mode mostly some, else now and then."""
    if not text.startswith(b"pkt ") or text == b"pkt -" or not rng.chance(0.7 if padded else 0.02):
        return text
    return b"pkt " + b"00" * rng.choice((0, 1, 15, 16, 16, rng.randint(0, 16), rng.randint(0, 18))) + text[4:]


def chip_of(fuzz, rng):
    """fuzz's chip, whose answers to an opening's commands are odd now and then."""
    class Chip(fuzz.Chip):
        odd = 0.0

        def body(self, code, data):
            if self.good and self.rng.chance(self.odd):
                return self.rng.choice((b"", b"\x00", b"\x01", b"\x00\x00", b"\x00\x01", bytes(3), b"\x33\x01\x30",
                                        self.rng.some(0, 6), self.rng.randbytes(300)))
            return super().body(code, data)
    return Chip(rng)


class Script:
    """A script and the oracle's output as they grow: as fuzz.session_case, with more openings and more that goes wrong in them."""

    def __init__(self, fuzz, rng, count, requests):
        self.fuzz, self.rng, self.count, self.requests = fuzz, rng, count, requests
        self.chip = chip_of(fuzz, rng)
        self.noise = rng.choice((0, 0.05, 0.1, 0.2, 0.4, 0.8))  # how often a command goes wrong
        self.stray = rng.choice((0, 0, 0.01, 0.05, 0.2))        # how often a line is out of turn
        self.clean = rng.choice((1, 0.9, 0.6, 0.3))             # how many openings go well
        self.calls = rng.randint(1, 8)
        self.lines, self.output, self.order, self.call = [], [], None, None
        self.opened, self.padded, self.frames, self.reads = False, False, 0, 0

    def next_line(self):
        """Out of turn now and then, else what happens to the order, or a call."""
        rng, n2 = self.rng, "N2" in self.requests
        if rng.chance(self.stray):
            return self.fuzz.out_of_turn(rng)
        if self.order:
            text = self.chip.event(self.order)
            return with_zeros(rng, text, self.padded) if n2 else text
        open_line = rng.choice((b"open", b"open padded") if n2 else (b"open",))
        return rng.choice((b"version", b"version", open_line)) if self.opened else rng.choice((open_line, open_line, open_line, b"version"))

    def begin(self, word, text):
        """A call begins: how much goes wrong in it."""
        rng, chip, is_open = self.rng, self.chip, word == "open"
        self.call, self.frames = word, 0
        self.padded = text == b"open padded" if is_open else self.padded
        self.calls -= 1
        good = rng.chance(self.clean)
        chip.good = is_open
        chip.odd = 0 if good else rng.choice((0, 0.05, 0.2))
        chip.noise = self.noise if not is_open else 0 if good else self.noise / rng.choice((1, 3, 10))

    def ordered(self, answer):
        """An order: the reads since the last frame, and the frames."""
        self.order = answer
        if not answer.startswith(b"write"):
            self.reads += 1
            return
        self.chip.written(bytes.fromhex(answer[6:].decode()))
        ack = answer == self.fuzz.WRITE_ACK
        self.reads = -1000 if ack else 0
        self.frames += not ack

    def end(self, answer):
        """The call ends."""
        self.count.add(self.call, self.fuzz.outcome(answer), self.frames)
        self.order = None
        self.opened = answer.startswith(b"done") if self.call == "open" else self.opened

    def accepted(self, text, answer):
        """Whether a line is accepted; counts it."""
        word, outcome = text.split(b" ")[0].decode("latin1"), self.fuzz.outcome(answer)
        if self.order is None and answer.startswith(self.fuzz.ORDERS):
            self.begin(word, text)
            return True
        if self.order is None:                              # refused at once
            self.count.add(word if word in self.fuzz.CALLS else "(idle)", outcome)
            self.calls -= self.rng.chance(0.5)
            return False
        pending = answer in (b"refused 1", b"refused 3", b"refused 4")
        where = "(" + self.fuzz.place(self.order, self.reads) + ")"
        self.count.add(where, outcome if pending else text.decode() if text == b"pkt -" else word)
        return not pending

    def add(self, text, answer):
        self.lines.append(text)
        self.output.append(answer)
        if self.accepted(text, answer):
            (self.ordered if answer.startswith(self.fuzz.ORDERS) else self.end)(answer)


def script_of(fuzz, seed, index, count, requests=()):
    """One script and the oracle's output."""
    script = Script(fuzz, fuzz.case_rng(seed, index, "session of two calls"), count, requests)
    talk = fuzz.Talk([os.environ["ORACLE"]])
    while len(script.lines) < 600 and (script.calls > 0 or script.order):
        text = script.next_line()
        script.add(text, talk.say(text))
    talk.close()
    return script.lines, script.output


def line_by_line(fuzz, command, script):
    talk = fuzz.Talk(command)
    answers = [talk.say(text) for text in script]
    talk.close()
    return answers


def one_case(job):
    args, index = job
    fuzz, diff = imports(args.folder, args.calls)
    count, requests = fuzz.Coverage(), fuzz.chosen(args)
    if args.calls == "opening":
        script, output = script_of(fuzz, args.seed, index, count, requests)
    else:
        script, output = fuzz.make("session", requests)(args.seed, index, coverage=count)
    run = line_by_line if index % 10 == 9 else lambda fuzz, command, script: fuzz.run(command, script)
    printed = run(fuzz, [args.program], script)
    differs = diff.first_difference(output, printed) is not None
    return index, len(script), script if differs else None, dict(count.counts), dict(count.ends)


def main():
    parser = argparse.ArgumentParser(description=__doc__, formatter_class=argparse.RawDescriptionHelpFormatter)
    parser.add_argument("folder")
    parser.add_argument("program")
    parser.add_argument("--calls", choices=("opening", "commands", "all"), default="all")
    parser.add_argument("--requests", default="N1,N2")
    parser.add_argument("--seed", default="1")
    parser.add_argument("--first", type=int, default=0)
    parser.add_argument("--cases", type=int, default=1000)
    parser.add_argument("--jobs", type=int, default=2)
    parser.add_argument("--coverage", action="store_true", help="print the outcomes reached, to the error output")
    args = parser.parse_args()
    args.program = os.path.abspath(args.program)
    fuzz, diff = imports(args.folder, args.calls)
    start, lines, total = time.time(), 0, fuzz.Coverage()
    with multiprocessing.Pool(args.jobs) as pool:
        jobs = ((args, index) for index in range(args.first, args.first + args.cases))
        for index, size, script, counts, ends in pool.imap(one_case, jobs, chunksize=8):
            lines += size
            for name in counts:
                total.counts[name].update(counts[name])
            for name in ends:
                total.ends[name] |= ends[name]
            if script is not None:
                rest = argparse.Namespace(oracle=os.environ["ORACLE"], kind="session", program=args.program, timeout=20, whole=False, save=None)
                diff.report(diff.Pair(rest), f"case {index} of seed {args.seed}", script, rest)
                return 1
    print(f"{args.cases} cases, {lines} lines, {time.time() - start:.0f} s: no difference")
    if args.coverage:
        total.print()
    return 0


if __name__ == "__main__":
    sys.exit(main())
