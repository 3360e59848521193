#!/usr/bin/env python3
"""Compares the program `session` with the Rust and N6's rule beside it (split-oracle.py) on random scripts.

    python3 tools/split-compare.py FOLDER PROGRAM [--seed 1] [--first 0] [--cases 1000] [--jobs 2] [--coverage]

FOLDER has the oracle's bench program, `oracle` or `target/release/oracle`, and its scripts fuzz.py and diff.py. The scripts are fuzz.py's: made by talking to the
reference line by line, with a simulated chip at the other end. Most calls are Type A's in the mode, and its lists are drawn about the
borders of the layout. The first difference is cut down and printed, and the end code is 1.
"""
import argparse
import collections
import multiprocessing
import os
import sys
import time
from pathlib import Path


def imports(folder):
    """fuzz and diff of the folder, with the mode's lines and lists."""
    folder = os.path.abspath(folder)
    if folder not in sys.path:
        sys.path.insert(0, folder)
    programs = [os.path.join(folder, name) for name in ("target/release/oracle", "oracle")]
    os.environ["ORACLE"] = next(filter(os.path.isfile, programs))
    import fuzz
    import diff
    if not hasattr(fuzz, "reference"):
        with_the_mode(fuzz)
    return fuzz, diff


def with_the_mode(fuzz):
    fuzz.reference = [sys.executable, str(Path(__file__).with_name("split-oracle.py")), os.environ["ORACLE"]]
    plain, talk, listed = fuzz.CALLS["detect_type_a"], fuzz.Talk, fuzz.Chip.listed
    fuzz.CALLS["detect_type_a"] = lambda r: plain(r) + (b" split" if r.chance(0.85) else r.choice((b"", b"", b" splits", b" split split", b" none")))
    fuzz.WEIGHTS = {name: 40 if name == "detect_type_a" else 1 for name in fuzz.CALLS}
    fuzz.Talk = lambda command: talk(fuzz.reference)

    def drawn(chip, rate):
        return b"\x01\x01" + target(chip.rng) if rate == 0 and chip.rng.chance(0.8) else listed(chip, rate)
    fuzz.Chip.listed = drawn


def target(r):
    """List data: mostly laid out as the manual has it, else about a border."""
    n = r.choice((4, 7, 10)) if r.chance(0.8) else r.choice((0, 1, 3, 5, 6, 8, 9, 11, 12, 255, r.randrange(256)))
    uid = r.randbytes(n if r.chance(0.85) else max(0, n + r.choice((-1, 1, -2, -n))))
    size = r.choice((0, 0, 1, 2, 5, 17, 20, r.randint(1, 30), r.choice((100, 241, 255, 256, 257))))
    length = size if r.chance(0.75) else size + r.choice((-1, 1, 2, -size, r.randrange(256)))
    ats = bytes([length % 256]) + r.randbytes(size - 1) if size else b""
    data = r.randbytes(2) + bytes([r.choice((0x00, 0x08, 0x18, 0x20, 0x28, 0x40, 0x60, r.randrange(256))), n]) + uid + ats
    return data if r.chance(0.97) else data[:r.randint(0, 5)]


def one_case(job):
    args, index = job
    fuzz, diff = imports(args.folder)
    count = fuzz.Coverage()
    script, output = fuzz.session_case(args.seed, index, coverage=count)
    printed = fuzz.run([args.program], script)
    ends = collections.Counter(end(line) for line in output)
    return index, len(script), ends, script if diff.first_difference(output, printed) is not None else None


def end(line):
    """A class of answers, to see what the scripts reach."""
    words = line.split(b" ")
    if b"uid" in words:
        return "done " + b" ".join(words[2:4]).decode() + (" with an ATS" if words[5] != b"0" else "")
    return b" ".join(words[:2] if words[0] == b"refused" else words[:1]).decode()


def main():
    parser = argparse.ArgumentParser(description=__doc__, formatter_class=argparse.RawDescriptionHelpFormatter)
    parser.add_argument("folder")
    parser.add_argument("program")
    parser.add_argument("--seed", default="1")
    parser.add_argument("--first", type=int, default=0)
    parser.add_argument("--cases", type=int, default=1000)
    parser.add_argument("--jobs", type=int, default=2)
    parser.add_argument("--coverage", action="store_true", help="print how often each answer was reached")
    args = parser.parse_args()
    args.program = os.path.abspath(args.program)
    fuzz, diff = imports(args.folder)
    start, lines, total = time.time(), 0, collections.Counter()
    with multiprocessing.Pool(args.jobs) as pool:
        jobs = ((args, index) for index in range(args.first, args.first + args.cases))
        for index, size, ends, script in pool.imap(one_case, jobs, chunksize=8):
            lines += size
            total += ends
            if script is not None:
                rest = argparse.Namespace(oracle=os.environ["ORACLE"], kind="session", program=args.program, timeout=20, whole=False, save=None)
                pair = diff.Pair(rest)
                pair.oracle = fuzz.reference
                diff.report(pair, f"case {index} of seed {args.seed}", script, rest)
                return 1
    print(f"{args.cases} cases, {lines} lines, {time.time() - start:.0f} s: no difference")
    if args.coverage:
        print(*(f"  {name}: {total[name]}" for name in sorted(total)), sep="\n")
    return 0


if __name__ == "__main__":
    sys.exit(main())
