#!/usr/bin/env python3
"""Makes a fixed list for the program `session`: the lines, and the oracle's answers to them.

    python3 session-list.py FOLDER CRATE [--lines 20000] [--bytes 1500000] [--cases 12000] [--seed list] [--jobs 2]

FOLDER has the oracle's bench program `oracle` and its scripts fuzz.py and diff.py. The list is written to CRATE/stdin and
CRATE/stdout: cases of fuzz.py, one after the other, each begun with no opening behind it. A case is chosen for what it shows that
no case before it shows, set against its size; calls in it that show nothing new are left out. At the end it prints how often each
call and each refusal occurs.
"""
import argparse
import collections
import heapq
import importlib.util
import multiprocessing
import os

compare = os.path.join(os.path.dirname(os.path.abspath(__file__)), "session-compare.py")
spec = importlib.util.spec_from_file_location("session_compare", compare)
session_compare = importlib.util.module_from_spec(spec)
spec.loader.exec_module(session_compare)

STAYS = (b"refused 1", b"refused 3", b"refused 4")           # during a call: its order is still pending
BETWEEN = [b"open", b"bad"]                                  # a failed opening: the next case begins unopened
LONGEST = 8300                                               # of a line
LINE_COST = 150                                              # in bytes
EVENTS = (b"ok", b"bad", b"pkt", b"time", b"fail", b"late", b"slept")
WEIGHTS = {"place": 100, "call": 100, "frames": 60, "ended": 60, "order": 10, "path": 30, "status": 3, "given": 3}


def code_of(order):
    """The command code of a write order's frame."""
    data = bytes.fromhex(order[6:].decode())
    return data[9] if data[3:5] == b"\xff\xff" else data[6]


def shape(text):
    """A line's word and the sizes of its arguments; a bitrate as it stands."""
    words = text[:60].split(b" ")
    sizes = [len(word) for word in text.split(b" ")[1:]]
    if words[0].startswith((b"detect", b"transceive")) and sizes:
        sizes[0] = words[1]
    return (words[0], *sizes)


def walk(fuzz, lines, output):
    """Each line with the order before it, its place, the call that runs and the codes written in it, and the answer."""
    order, call, reads, path = b"", b"", 0, ()
    for text, answer in zip(lines, output):
        place = fuzz.place(order, reads) if order else "idle"
        starts = not order and answer.startswith(fuzz.ORDERS)
        if starts:
            call, path = text, ()
        yield order, place, call if order or starts else text, path, text, answer
        if order and answer in STAYS:
            continue
        order = answer if answer.startswith(fuzz.ORDERS) else b""
        if order.startswith(b"write"):
            reads = -1000 if order == fuzz.WRITE_ACK else 0
            path += () if order == fuzz.WRITE_ACK else (code_of(order),)
        else:
            reads += 1


def kinds(fuzz, order, place, call, path, text, answer):
    """What a line shows."""
    word, name = text.split(b" ")[0], call.split(b" ")[0]
    event = "call" if word.decode("latin1") in fuzz.CALLS else "unreadable"
    if word in EVENTS and fuzz.outcome(answer) != "refused 4":
        event = text if text == b"pkt -" else word
    is_order = answer.startswith(fuzz.ORDERS)
    result = answer.split(b" ")[0] if is_order else fuzz.outcome(answer)
    yield ("order", order.split(b" ")[0], word, result)
    yield ("place", place, event, result)
    if is_order or order and answer in STAYS:
        return
    if answer.startswith(b"refused 15"):
        yield ("status", answer)
    if name.decode("latin1") in fuzz.CALLS:
        yield ("call", name, result)
        yield ("frames", name, len(path), result)
        yield ("path", name, path, result)
        yield ("given", *shape(call), result)
        if order:
            yield ("ended", name, place, event, result)


class Piece:
    """The lines of a case from one at which no call runs to the next such: a call with its events, or a line refused at once."""

    def __init__(self):
        self.lines, self.output, self.found = [], [], set()

    def size(self):
        return size(self.lines, self.output)


def pieces(fuzz, lines, output):
    """The pieces of a case; the last is empty, or a call that still runs."""
    made = [Piece()]
    for at in walk(fuzz, lines, output):
        order, text, answer = at[0], at[4], at[5]
        made[-1].lines.append(text)
        made[-1].output.append(answer)
        made[-1].found.update(kinds(fuzz, *at))
        if not answer.startswith(fuzz.ORDERS) and not (order and answer in STAYS):
            made.append(Piece())
    return made


def case(job):
    args, index = job
    fuzz, _ = session_compare.imports(args.folder, "all")
    lines, output = fuzz.session_case(args.seed, index, os.environ["ORACLE"], fuzz.Coverage())
    made = pieces(fuzz, lines, output)
    if max(map(len, lines)) > LONGEST or made[-1].lines:
        return None
    return made[:-1]


def size(lines, output):
    return sum(len(text) + 1 for text in lines + output)


def kept(pieces, seen):
    """A case without the pieces that show nothing new; its openings stay. And what is new in it."""
    rest, new = [], set()
    for piece in pieces:
        fresh = piece.found - seen - new
        if fresh or piece.lines[0] == b"open":
            rest.append(piece)
            new |= fresh
    return rest, new


def chosen(cases, args):
    """The cases with the most that is new for their size, until the list is full or nothing is new."""
    def worth(index):
        rest, new = kept(cases[index], seen)
        return sum(WEIGHTS[kind[0]] for kind in new) / (sum(piece.size() + LINE_COST * len(piece.lines) for piece in rest) + 1)
    seen, length, room = set(), 0, args.bytes
    heap = [(-worth(index), index) for index in range(len(cases))]
    heapq.heapify(heap)
    while heap:
        _, index = heapq.heappop(heap)
        now = -worth(index)
        if now == 0:
            continue
        if heap and now > heap[0][0]:                        # another may be worth more by now
            heapq.heappush(heap, (now, index))
            continue
        rest, new = kept(cases[index], seen)
        lines = [text for piece in rest for text in piece.lines]
        output = [text for piece in rest for text in piece.output]
        if length + len(lines) + 2 <= args.lines and size(lines, output) + 50 <= room:
            length += len(lines) + 2
            room -= size(lines, output) + 50
            seen |= new
            yield lines, output
    every = set().union(*(piece.found for case in cases for piece in case))
    for kind in WEIGHTS:
        print(f"{kind}: {sum(f[0] == kind for f in seen)} of {sum(f[0] == kind for f in every)} seen in all cases")


def tell(fuzz, script, answers):
    """How often each call and each refusal occurs."""
    calls, refusals, statuses = collections.defaultdict(collections.Counter), collections.Counter(), set()
    for order, _, call, _, _, answer in walk(fuzz, script, answers):
        if answer.startswith(b"refused"):
            refusals[int(answer.split()[1])] += 1
            statuses |= {answer} if answer.startswith(b"refused 15") else set()
        if not answer.startswith(fuzz.ORDERS) and not (order and answer in STAYS):
            calls[call.split(b" ")[0].decode("latin1")][fuzz.outcome(answer)] += 1
    for name in fuzz.CALLS:
        print(f"{name}: " + ", ".join(f"{result} {n}" for result, n in sorted(calls[name].items())))
    print("refusals: " + ", ".join(f"{k} {refusals[k]} times" for k in sorted(refusals)) + f"; 15 with {len(statuses)} statuses")
    missing = [name for name in fuzz.CALLS if not calls[name]] + [k for k in range(1, 20) if k != 2 and not refusals[k]]
    print(f"missing: {missing}" if missing else "every call, and every refusal but 2")


def main():
    parser = argparse.ArgumentParser(description=__doc__, formatter_class=argparse.RawDescriptionHelpFormatter)
    parser.add_argument("folder")
    parser.add_argument("crate")
    parser.add_argument("--lines", type=int, default=20000)
    parser.add_argument("--bytes", type=int, default=1500000, help="of both files")
    parser.add_argument("--cases", type=int, default=12000, help="how many to choose from")
    parser.add_argument("--seed", default="list")
    parser.add_argument("--jobs", type=int, default=2)
    args = parser.parse_args()
    fuzz, _ = session_compare.imports(args.folder, "all")
    with multiprocessing.Pool(args.jobs) as pool:
        jobs = ((args, index) for index in range(args.cases))
        cases = [made for made in pool.imap(case, jobs, chunksize=16) if made is not None]
    script, expected, count = [], [], 0
    for lines, output in chosen(cases, args):
        script += lines + BETWEEN
        expected += output + [fuzz.WRITE_ACK, b"refused 7"]
        count += 1
    answers = fuzz.run([os.environ["ORACLE"]], script)
    if answers != expected:
        raise SystemExit("a case is answered otherwise in the list than alone")
    for name, lines in (("stdin", script), ("stdout", answers)):
        with open(os.path.join(args.crate, name), "wb") as file:
            file.write(b"".join(text + b"\n" for text in lines))
    tell(fuzz, script, answers)
    print(f"{count} cases of {args.cases}, {len(script)} lines, {size(script, answers)} bytes")


if __name__ == "__main__":
    main()
