"""The scripts of crates/cut_scripts, one for each case of the request, with their answers by the plain search."""
import os

ROOT = os.path.dirname(os.path.dirname(os.path.dirname(os.path.abspath(__file__))))


def session_lines(name, start, count):
    lines = open(os.path.join(ROOT, "crates", name, "stdin"), "rb").read().split(b"\n")
    return lines[start : start + count]


def text(lines, feed=b"\n"):
    return b"\n".join(lines) + feed


def cases():
    opening = session_lines("session", 3, 37)  # `open` up to its `done`
    padded = [b"open padded"] + opening[1:]
    version = [b"version", b"ok"]
    noise = [b"ok", b"open padded", b"open"]  # refused while a call waits for its packet
    yield b""  # no line
    yield b"\n"  # one empty line: 4
    yield text([b"version"])  # one line
    yield text([b"version"], b"")  # one line without its line feed
    yield text([b"open"])  # one line, no refusal
    yield text(opening)  # no refusal on the last of many
    yield text([b"open", b"bad"])  # the whole script
    yield text([b"open", b"bad"], b"")  # the last line without its line feed
    yield text(opening + version + [b"fail"])  # the whole script: 7 of `version`
    yield text([b"ok", b"version"] + opening + version + [b"fail"])  # the lines before the opening go
    yield text(opening + [b"what"])  # the last line alone: 4
    yield text(opening + [b"version", b"version"])  # 1 of a busy reader; alone the last line prints 1 of an unopened one
    yield text(opening + opening + opening + version + [b"late"])  # many openings: the last one
    yield text(opening + version + noise * 5 + [b"fail"])  # openings that are refused, and that a stretch would take
    yield text([b"open", b"ok"] + noise * 5 + [b"bad"])  # 1: an opening waits for a read
    yield text([b"open", b"open", b"bad"])  # the shortest begins with an opening that the script refuses
    yield text([b"open padded", b"ok", b"open", b"ok"] + padded[2:] + version + [b"fail"])  # both openings lead there
    yield text([b"open padded", b"ok", b"open", b"ok"] + [b"pkt 000000" + l[8:] if l.startswith(b"pkt 0000FF00FF") else l for l in opening[2:]] + [b"detect_type_a 9 -"])
    yield text(opening + [b"x" * 8193])  # over 8,192 bytes: 4
    yield text(opening + [b"x" * 8193] + version + [b"fail"])  # the same on the way
    yield text(opening + [b"pkt " + b"00" * 1025, b"version", b"ok", b"pkt " + b"00" * 1025])  # 3 of a packet
    yield from refusals()
    yield text(opening + version + (noise * 1400)[: 4096 - len(opening) - 3] + [b"fail"])  # 4,096 lines, all of them
    yield text((noise * 1400)[:4096])  # 4,096 lines, the last one alone
    yield text((noise * 1400)[:4097])  # one line more
    yield text([b"time"] * 4096 + [b"open"])  # too long, and no refusal: 3 before 29
    yield text([b"time"] * 4096, b"") + b"\nopen"  # the same without the last line feed
    long = opening + version
    rest = 65536 - len(text(long + [b"fail"]))
    yield text(long + [b"y" * (rest - 1)] + [b"fail"])  # 65,536 bytes
    yield text(long + [b"y" * rest] + [b"fail"])  # one byte more
    yield text([b"z" * 65536])  # one byte more, one line
    yield text([b"z" * 65536], b"")  # 65,536 bytes in one line without its line feed: 4


def refusals():
    """The lists of the gate up to their last refusal of each kind: 15, 20, a list's, with what stands before."""
    import compare

    for name, wanted in (("session_polls", (b"finished",)), ("session", (b"15",)), ("session_felica", (b"20", b"21", b"15"))):
        lines = session_lines(name, 0, 4000)
        texts = compare.printed(text(lines))
        for word in wanted:
            found = [k for k, t in enumerate(texts) if t.startswith(b"refused") and word in t.split(b" ")[1:]]
            for k in (found[0], found[len(found) // 2], found[-1]) if found else ():
                yield text(lines[max(0, k - 150) : k + 1])


def write(search):
    scripts = list(cases())
    answers = []
    for script in scripts:
        answer, seen = search(script)
        answers.append(answer if answer.startswith(b"refused") and not seen else b"%d\n" % (len(script) - len(answer)))
    folder = os.path.join(ROOT, "crates/cut_scripts")
    open(os.path.join(folder, "stdin"), "wb").write(b"".join(b"%d\n" % len(s) + s for s in scripts))
    open(os.path.join(folder, "stdout"), "wb").write(b"".join(answers))
    print(len(scripts), "scripts,", sum(map(len, scripts)), "bytes")
