#!/usr/bin/env python3
"""times.py: processor seconds of `cut` on a sample and on the worst scripts of 4,096 lines that were found; the best of five runs.

Each of the bad ones has its fault in a call that waits from its first lines on, while the lines behind are refused; so no stretch but the
whole script shows it, and each opening among them begins a run that goes to the end."""
import os
import resource
import subprocess

ROOT = os.path.dirname(os.path.dirname(os.path.dirname(os.path.abspath(__file__))))
LINES = 4096


def seconds(script):
    best = None
    for _ in range(5):
        before = resource.getrusage(resource.RUSAGE_CHILDREN).ru_utime
        out = subprocess.run([os.path.join(ROOT, "target/bin/cut")], input=script, capture_output=True, check=True).stdout
        taken = resource.getrusage(resource.RUSAGE_CHILDREN).ru_utime - before
        best = taken if best is None else min(best, taken)
    return best, out


def filled(head, pattern, tail):
    count = LINES - len(head) - len(tail)
    return head + (pattern * (count // len(pattern) + 1))[:count] + tail


def scripts():
    lines = open(os.path.join(ROOT, "crates/session/stdin")).read().split("\n")
    opening = lines[3:40]
    waiting = opening + ["version", "ok"]
    padded = ["pkt 000000" + line[8:] if line.startswith("pkt 0000FF") else line for line in opening[2:]]
    yield "the sample, crates/cut/stdin", open(os.path.join(ROOT, "crates/cut/stdin")).read().split("\n")
    yield "whole openings and calls, again and again", filled([], opening + ["version", "ok", "pkt 0000FF00FF00", "time"], opening + ["version", "ok", "fail"])
    for pattern in (["ok", "open padded", "open"], ["ok", "open"], ["open"], ["open", "ok", "slept"], ["ok", "open padded", "open", "slept"]):
        yield "`" + "`, `".join(pattern) + "` while a call waits", filled(waiting, pattern, ["fail"])
    for pattern in (["open", "ok", "pkt"], ["ok", "open"]):
        yield "`open padded`, then `" + "`, `".join(pattern) + "`", filled(["open padded"], pattern, ["ok"] + padded + ["detect_type_a 9 -"])


if __name__ == "__main__":
    for name, lines in scripts():
        script = ("\n".join(lines) + "\n").encode()
        taken, out = seconds(script)
        print(f"| {name} | {len(lines):,} | {out.count(10):,} | {taken:.3f} |")
