#!/usr/bin/env python3
"""Compares the program `lines`, frame counts included, with the Rust driver itself on generated scripts.

    python3 compare.py ORACLE_FOLDER LINES [--requests N1,N2] [--seed 1] [--first 0] [--cases 5000] [--jobs 2]

ORACLE_FOLDER has the Rust driver as a program of bench lines, `oracle` or `target/release/oracle`, and the generator fuzz.py. A
script is made by talking to the oracle; every fourth one is of openings and versions alone (tools/session-compare.py). --requests
names the later requests whose lines are drawn: with N2 openings in both modes, and packets with extra zeros. LINES gets the whole
script, every tenth one line by line. The counts expected behind a line are the numbers of write lines of the oracle, other than the bare
ACK, since the last opening that it accepted, of the calls of each of eight callers. The first difference is printed, and the end code is 1.
"""
import argparse
import functools
import importlib.util
import multiprocessing
import os
import sys
import time

HERE = os.path.dirname(os.path.abspath(__file__))
CEILING = 4294967295
CALLERS = 8
EVENTS = (b"ok", b"bad", b"pkt", b"time", b"fail", b"late", b"slept")
sys.dont_write_bytecode = True


@functools.cache
def imports(folder):
    """tools/session-compare.py, and fuzz.py of the folder."""
    folder = os.path.abspath(folder)
    programs = [os.path.join(folder, name) for name in ("target/release/oracle", "oracle")]
    os.environ["ORACLE"] = next(filter(os.path.isfile, programs))
    sys.path.insert(0, folder)
    spec = importlib.util.spec_from_file_location("session_compare", os.path.join(HERE, "../../tools/session-compare.py"))
    base = importlib.util.module_from_spec(spec)
    spec.loader.exec_module(base)
    import fuzz
    return base, fuzz


def counted(fuzz, script, output):
    """The oracle's lines with the frame counts behind each: the calls of line k are those of caller k % 8."""
    caller, frames, lines = 0, [0] * CALLERS, []
    for k, (text, answer) in enumerate(zip(script, output)):
        if answer.startswith(b"write"):
            word = text.split(b" ")[0]
            caller = caller if word in EVENTS else k % CALLERS
            if word == b"open":
                frames = [0] * CALLERS
            elif answer != fuzz.WRITE_ACK:
                frames[caller] = min(frames[caller] + 1, CEILING)
        lines.append(b"%s frames %s" % (answer, b" ".join(b"%d" % n for n in frames)))
    return lines


def one_case(job):
    args, index = job
    base, fuzz = imports(args.folder)
    requests = fuzz.chosen(args)
    if index % 4 == 3:
        script, output = base.script_of(fuzz, args.seed, index, fuzz.Coverage(), requests)
    else:
        script, output = fuzz.make("session", requests)(args.seed, index)
    command = [args.program, "--frames"]
    printed = base.line_by_line(fuzz, command, script) if index % 10 == 9 else fuzz.run(command, script)
    expected = counted(fuzz, script, output)
    top = max((int(n) for line in expected for n in line.split()[-CALLERS:]), default=0)
    return index, len(script), top, None if printed == expected else (script, expected, printed)


def report(index, script, expected, printed):
    """The lines up to the first difference."""
    printed = printed + [b"(nothing)"] * (len(expected) - len(printed))
    at = next((k for k, line in enumerate(expected) if line != printed[k]), len(expected) - 1)
    print(f"DIFFERENCE in case {index}, line {at + 1} of {len(script)}")
    for text, left, right in list(zip(script, expected, printed))[max(0, at - 12):at + 1]:
        print("  in    ", text[:120], "\n  oracle", left[:120], "\n  lines ", right[:120])


def main():
    parser = argparse.ArgumentParser(description=__doc__, formatter_class=argparse.RawDescriptionHelpFormatter)
    parser.add_argument("folder")
    parser.add_argument("program")
    parser.add_argument("--requests", default="N1,N2")
    parser.add_argument("--seed", default="1")
    parser.add_argument("--first", type=int, default=0)
    parser.add_argument("--cases", type=int, default=5000)
    parser.add_argument("--jobs", type=int, default=2)
    args = parser.parse_args()
    args.program = os.path.abspath(args.program)
    start, lines, most = time.time(), 0, 0
    with multiprocessing.Pool(args.jobs) as pool:
        jobs = ((args, index) for index in range(args.first, args.first + args.cases))
        for index, size, top, difference in pool.imap(one_case, jobs, chunksize=8):
            lines, most = lines + size, max(most, top)
            if difference:
                report(index, *difference)
                return 1
    print(f"compare: {args.cases} scripts, {lines} lines, frame counts up to {most}, {time.time() - start:.0f} s: no difference")
    return 0


if __name__ == "__main__":
    sys.exit(main())
