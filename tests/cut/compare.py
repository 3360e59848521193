#!/usr/bin/env python3
"""The program `cut` beside a plain search with the program `session`.

    compare.py [--seed N] [--cases N]     drawn scripts, both answers compared
    compare.py lists                      writes the scripts and answers of crates/cut_scripts (stdin, stdout)

The plain search: the last line, the last two lines, .. each handed to a new `session`; the first stretch whose last line is printed with
the refusal of the whole script is the answer. Scripts are drawn from the lines of the gate's lists, which have the whole language."""
import argparse
import glob
import os
import random
import subprocess

ROOT = os.path.dirname(os.path.dirname(os.path.dirname(os.path.abspath(__file__))))
SESSION = os.path.join(ROOT, "target/bin/session")
CUT = os.path.join(ROOT, "target/bin/cut")
LINE_COUNT_LIMIT, SCRIPT_LIMIT = 4096, 65536


def lines_of(script):
    parts = script.split(b"\n")
    return [p + b"\n" for p in parts[:-1]] + ([parts[-1]] if parts[-1] else [])


def printed(script):
    return subprocess.run([SESSION], input=script, capture_output=True, check=True).stdout.split(b"\n")[:-1]


def refusal(text):
    """The refusal that a line prints, without a list's `finished K`; None for any other text."""
    words = text.split(b" ")
    if words[0] != b"refused":
        return None
    return tuple(words[1 : words.index(b"finished")] if b"finished" in words else words[1:])


def search(script):
    """The answer, and the refusals that the stretches on the way print."""
    lines = lines_of(script)
    if len(script) > SCRIPT_LIMIT or len(lines) > LINE_COUNT_LIMIT:
        return b"refused 3\n", []
    fault = refusal(printed(script)[-1]) if lines else None
    if fault is None:
        return b"refused 29\n", []
    seen = []
    for k in range(1, len(lines) + 1):
        stretch = b"".join(lines[len(lines) - k :])
        seen.append(refusal(printed(stretch)[-1]))
        if seen[-1] == fault:
            return stretch, seen
    raise AssertionError("the script itself shows its fault")


def cut(script):
    return subprocess.run([CUT], input=script, capture_output=True, check=True).stdout


# ---- drawn scripts

def pool():
    """The scripts of the gate's lists of `session`: each begins with an opening."""
    scripts = []
    for path in sorted(glob.glob(os.path.join(ROOT, "crates/session*/stdin"))):
        script = []
        for line in open(path, "rb").read().split(b"\n"):
            if line.startswith(b"open") and len(script) > 3 and random.random() < 0.5:
                scripts.append(script)
                script = []
            script.append(line)
        scripts.append(script)
    return [s for s in scripts if len(s) > 3]


def drawn(draw, scripts):
    lines = []
    for _ in range(draw.randint(1, 3)):
        script = draw.choice(scripts)
        start = draw.randrange(len(script)) if draw.random() < 0.3 else 0
        lines += script[start : start + draw.randint(1, 60)]
    for _ in range(draw.randint(0, 4)):
        at = draw.randrange(len(lines) + 1)
        other = draw.choice([b"open", b"open padded", b"ok", b"time", b"fail", b"late", b"slept", b"bad", b"", b"what", b"version", draw.choice(lines or [b""])])
        if draw.random() < 0.6:
            lines.insert(at, other)
        else:
            del lines[at : at + draw.randint(1, 3)]
    if draw.random() < 0.5:
        # up to a refusal that ends a call, if there is one
        texts = printed(b"\n".join(lines) + b"\n")
        late = [k for k, text in enumerate(texts[: len(lines)]) if (refusal(text) or (b"1",))[0] not in (b"1", b"4")]
        lines = lines[: late[-1] + 1] if late else lines
    return b"\n".join(lines) + (b"\n" if draw.random() < 0.8 else b"")


def compare(seed, cases):
    random.seed(seed)
    draw = random.Random(seed)
    scripts = pool()
    kinds, other_status, differ = {}, 0, 0
    for case in range(cases):
        script = drawn(draw, scripts)
        expected, seen = search(script)
        if cut(script) != expected:
            differ += 1
            print("differs:", seed, case, script[:200])
        count = len(seen)
        fault = b" ".join(seen[-1]).decode() if seen else expected.strip().decode()
        other_status += any(s and seen[-1] != s and s[0] == seen[-1][0] for s in seen)
        key = (fault.split(" ")[0] if seen else fault, "one line" if count == 1 else "all lines" if count == len(lines_of(script)) else "more")
        kinds[key] = kinds.get(key, 0) + 1
    for key in sorted(kinds):
        print(kinds[key], *key)
    print(cases, "scripts,", other_status, "with another status on the way,", differ, "differences")


if __name__ == "__main__":
    parser = argparse.ArgumentParser()
    parser.add_argument("what", nargs="?", default="compare")
    parser.add_argument("--seed", type=int, default=1)
    parser.add_argument("--cases", type=int, default=300)
    given = parser.parse_args()
    if given.what == "lists":
        import lists
        lists.write(search)
    else:
        compare(given.seed, given.cases)
