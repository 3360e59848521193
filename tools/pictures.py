#!/usr/bin/env python3
"""Makes docs/layers.svg and docs/phases.svg.

    python3 tools/pictures.py            # writes both
    python3 tools/pictures.py --check    # writes nothing; ends with 1 where one of them is not as the sources have it

layers.svg: the crates of crates.txt and what each depends on, without what follows from other lines of the picture. The kind of a
crate is read from its src/. Folders that use an archive are dashed.
phases.svg: the phases of an exchange and of a call. Numbers are read from the constants of the sources; names, orders, events and
places stand in tables here. A constant that only one of the two has ends the script.
"""
import html
import pathlib
import re
import sys

ROOT = pathlib.Path(__file__).resolve().parent.parent
CHAR = 0.61                                                  # width of a character, in font sizes
INK, PALE = "#222", "#777"

# ---- drawing


class Drawing:
    def __init__(self):
        self.parts = []

    def text(self, x, y, words, size=13, anchor="middle", weight="normal", fill=INK):
        self.parts.append(f'<text x="{x:.0f}" y="{y:.0f}" font-size="{size}" text-anchor="{anchor}" font-weight="{weight}" '
                          f'fill="{fill}">{html.escape(words)}</text>')

    def box(self, x, y, width, height, fill, dashed=False):
        dash = ' stroke-dasharray="5 3"' if dashed else ""
        self.parts.append(f'<rect x="{x:.0f}" y="{y:.0f}" width="{width:.0f}" height="{height:.0f}" rx="5" fill="{fill}" '
                          f'stroke="{INK}"{dash}/>')

    def path(self, points, arrow=False, colour=PALE):
        line = " ".join(f"{x:.0f},{y:.0f}" for x, y in points)
        end = ' marker-end="url(#arrow)"' if arrow else ""
        self.parts.append(f'<polyline points="{line}" fill="none" stroke="{colour}"{end}/>')

    def labelled(self, x, y, words, anchor="middle"):
        """Text on a white ground, so that no line crosses it."""
        width = len(words) * 12 * CHAR
        left = {"middle": x - width / 2, "start": x, "end": x - width}[anchor]
        self.parts.append(f'<rect x="{left - 2:.0f}" y="{y - 11:.0f}" width="{width + 4:.0f}" height="15" fill="white"/>')
        self.text(x, y, words, 12, anchor)

    def svg(self, width, height):
        head = (f'<svg xmlns="http://www.w3.org/2000/svg" width="{width:.0f}" height="{height:.0f}" '
                f'viewBox="0 0 {width:.0f} {height:.0f}" font-family="DejaVu Sans Mono, Menlo, Consolas, monospace">')
        arrow = (f'<defs><marker id="arrow" viewBox="0 0 8 8" refX="8" refY="4" markerWidth="8" markerHeight="8" '
                 f'orient="auto"><path d="M0,0 L8,4 L0,8 z" fill="{INK}"/></marker></defs>')
        ground = f'<rect width="{width:.0f}" height="{height:.0f}" fill="white"/>'
        return "\n".join([head, arrow, ground, *self.parts, "</svg>", ""])


def stop(message):
    sys.exit(f"pictures.py: {message}")


def read(path):
    if not (ROOT / path).exists():
        stop(f"no {path}")
    return (ROOT / path).read_text(encoding="utf-8")


# ---- layers

# Folders that use the archive of a crate.
USERS = {"hosts/": ["session_c"], "tests/outside/": ["session_c"], "benchmarks/": ["session_c", "codec_c"], "tests/c/": ["codec_c"]}
KINDS = {"code": "#dbe9f6", "definitions and proofs": "#f6ecd2", "archive for C": "#d9efdc", "program": "#ece3f3",
         "folder, no crate": "white"}
ROW, HIGH, GAP = 74, 30, 26


def crates():
    """Name and dependencies, those of the kit left out; and the names of those that read or write, by the kit's `io`."""
    lines = [line.split("#")[0] for line in read("crates.txt").splitlines()]
    named = {line.split(":")[0].split()[0]: line.split(":")[1].split() for line in lines if ":" in line}
    io_users = {"io"}
    for _ in named:
        io_users |= {name for name, needs in named.items() if io_users & set(needs)}
    return {name: [needed for needed in needs if needed in named] for name, needs in named.items()}, io_users


def side_of(node, io_users):
    """Programs and what only they use stand on the left, archives and their users on the right. A place is its upper node's."""
    name = node if isinstance(node, str) else node[0]
    if name in io_users or kind_of(name) == "program":
        return -1
    return 1 if kind_of(name) in ("archive for C", "folder, no crate") else 0


def kind_of(name):
    if name.endswith("/"):
        return "folder, no crate"
    source = ROOT / "crates" / name / "src"
    if (source / "main.rt").exists():
        return "program"
    code = "\n".join(path.read_text(encoding="utf-8") for path in sorted(source.glob("*.rt")))
    if 'extern "C" fn' in code:
        return "archive for C"
    return "code" if re.search(r"^\s*(pub(\(crate\))? )?fn ", code, re.M) else "definitions and proofs"


def reduced(needs):
    """Without what a crate needs anyway by way of another, and the layer of each, from 0."""
    below = {}
    for name in needs:
        below_of(name, needs, below)
    direct = {name: [a for a in on if not any(a in below[b] for b in on)] for name, on in needs.items()}
    layer = {}
    for name in needs:
        layer_of(name, direct, layer)
    return direct, layer


def below_of(name, needs, below):
    if name not in below:
        below[name] = set(needs[name]).union(*(below_of(on, needs, below) for on in needs[name]))
    return below[name]


def layer_of(name, needs, layer):
    if name not in layer:
        layer[name] = 1 + max((layer_of(on, needs, layer) for on in needs[name]), default=-1)
    return layer[name]


def rows_of(direct, layer):
    """The nodes of each layer, and edges from a layer to the next: a longer edge goes over places without a name."""
    rows = [[name for name in direct if layer[name] == k] for k in range(max(layer.values()) + 1)]
    edges = []
    for name, on in direct.items():
        for needed in on:
            upper = name
            for k in range(layer[name] - 1, layer[needed], -1):
                place = (name, needed, k)
                rows[k].append(place)
                edges.append((upper, place))
                upper = place
            edges.append((upper, needed))
    return rows, edges


def width_of(node):
    return len(node) * 14 * CHAR + 22 if isinstance(node, str) else 6


def pushed(row, wanted, sign, before=None):
    """Middles of a row's nodes from the left on (sign 1) or from the right (-1): as wanted, or else beside the one before."""
    at = dict(before or {})
    last = next(iter(at), None)
    for node in row[::sign]:
        x = sign * wanted[node]
        if last is not None:
            x = max(x, sign * at[last] + (width_of(last) + width_of(node)) / 2 + GAP)
        at[node], last = sign * x, node
    return at


def placed(row, wanted, side):
    """Middles without overlap: first the engine's crates, then those on the left and on the right of them."""
    left, middle, right = ([node for node in row if side[node] == k] for k in (-1, 0, 1))
    if not middle:
        left, middle, right = [], left + right, []
    one, two = pushed(middle, wanted, 1), pushed(middle, wanted, -1)
    at = {node: (one[node] + two[node]) / 2 for node in middle}
    first, last = ({node: at[node]} for node in (middle[0], middle[-1]))
    return {**at, **pushed(left, wanted, -1, first), **pushed(right, wanted, 1, last)}


def middles(rows, edges, side):
    """Rows are ordered and placed by what their nodes are joined to, mostly below, many times. What nothing needs goes outward."""
    neighbours, needed = {}, {lower for _, lower in edges}
    for upper, lower in edges:
        neighbours.setdefault(upper, []).extend([lower] * 4)
        neighbours.setdefault(lower, []).append(upper)
    x = {node: 400.0 * side[node] + k for row in rows for k, node in enumerate(row)}
    for turn in range(400):
        for row in rows if turn % 2 else rows[::-1]:
            wanted = {node: sum(x[on] for on in neighbours.get(node, [node])) / len(neighbours.get(node, [node])) for node in row}
            order = {node: wanted[node] + (0 if node in needed else 1000 * side[node]) for node in row}
            x.update(placed(sorted(row, key=order.get), wanted, side))
    return x


def layers():
    needs, io_users = crates()
    for folder, on in USERS.items():
        if not (ROOT / folder).is_dir():
            stop(f"no {folder}")
        needs[folder] = on
    direct, layer = reduced(needs)
    rows, edges = rows_of(direct, layer)
    x = middles(rows, edges, {node: side_of(node, io_users) for row in rows for node in row})
    left = min(x[node] - width_of(node) / 2 for node in x) - 16
    right = max(x[node] + width_of(node) / 2 for node in x) + 16
    height = len(rows) * ROW + 70
    y = {node: height - 46 - k * ROW for k, row in enumerate(rows) for node in row}
    drawing = Drawing()
    for upper, lower in edges:
        top = y[upper] + (HIGH / 2 if isinstance(upper, str) else 0)
        bottom = y[lower] - (HIGH / 2 if isinstance(lower, str) else 0)
        drawing.path([(x[upper] - left, top), (x[lower] - left, bottom)])
    for name in needs:
        kind, width = kind_of(name), width_of(name)
        drawing.box(x[name] - left - width / 2, y[name] - HIGH / 2, width, HIGH, KINDS[kind], kind == "folder, no crate")
        drawing.text(x[name] - left, y[name] + 5, name, 14)
    legend(drawing)
    return drawing.svg(max(right - left, 800), height)


def legend(drawing):
    x = 16
    for kind, fill in KINDS.items():
        drawing.box(x, 14, 22, 14, fill, kind == "folder, no crate")
        drawing.text(x + 30, 26, kind, 13, "start")
        x += 13 * CHAR * len(kind) + 56
    drawing.text(16, 52, "A line goes down from a crate to one that it uses. Lines that follow from others are left out.", 13, "start")


# ---- phases

COLUMNS, CARD, LINE = (18, 376, 734), 230, 18
EXCHANGE_SOURCE, CALL_SOURCE = "crates/exchange/src/lib.rt", "crates/engine/src/call.rt"

# Phase: column, height, its order, how it can end. Behind a colon stands the refusal.
EXCHANGE_CARDS = {
    "SENDING": (0, 84, "write the command's frame", []),
    "READING": (1, 84, "read 100", ["other packet: step 5", "time, empty packet: 8", "fail: 7"]),
    "WAITING": (2, 84, "read, the command's clock", ["other packet: step 5", "time, empty packet: 8", "fail: 7"]),
    "UNSENT": (0, 282, "write ACK", ["ok, bad: 7"]),
    "REJECTING": (1, 282, "write ACK", []),
    "OVERDUE": (2, 282, "write ACK", ["ok, bad: 8"]),
    "DRAINING": (1, 412, "drain", ["time, late, empty packet: 9"]),
}
EXCHANGE_TRANSITIONS = [
    ("SENDING", "READING", "ok"), ("SENDING", "UNSENT", "bad"), ("READING", "WAITING", "ACK-led packet"),
    ("READING", "REJECTING", "packet without 00 00 FF"), ("READING", "OVERDUE", "ACK-led, clock 0 ms"),
    ("WAITING", "WAITING", "ACK-led packet"), ("WAITING", "OVERDUE", "late"), ("REJECTING", "DRAINING", "ok, bad"),
    ("DRAINING", "DRAINING", "packet, fail"),
]
# The same of a call.
CALL_CARDS = {
    "OPENING_ACK": (0, 592, "write ACK", ["bad: 7"]),
    "OPENING_READS": (0, 752, "read 10", []),
    "EXCHANGE": (1, 592, "one command, as above;", ["behind it the next command", "or the call's end"]),
    "PAUSE": (1, 752, "pause 20400", []),
    "RESET_ACK": (2, 592, "write ACK", ["bad: 7"]),
    "RESET_PAUSE": (2, 752, "pause 10000", ["slept: reset_mode is done"]),
}
CALL_TRANSITIONS = [
    ("OPENING_ACK", "OPENING_READS", "ok"), ("OPENING_READS", "OPENING_READS", "packet"),
    ("OPENING_READS", "EXCHANGE", "time, fail"), ("EXCHANGE", "PAUSE", "field now on"),
    ("PAUSE", "EXCHANGE", "slept"), ("EXCHANGE", "RESET_ACK", "end of a reset"), ("RESET_ACK", "RESET_PAUSE", "ok"),
    ("RESET_PAUSE", "EXCHANGE", "slept, opening"),
]


def phase_numbers(path, wanted):
    """The numbers of a source's phases, `SENDING_PHASE` and the like; they are those wanted, and no more."""
    found = dict(re.findall(r"^ *pub const ([A-Z_]+)_PHASE: u8 = (\d+);", read(path), re.M))
    for name in sorted(set(wanted) ^ set(found)):
        stop(f"{name}_PHASE is not both in {path} and in the tables here")
    return found


def height_of(card):
    return LINE * (2 + len(card[3])) + 16


def both_ways(a, b):
    transitions = {(m, n) for m, n, _ in EXCHANGE_TRANSITIONS + CALL_TRANSITIONS}
    return (a, b) in transitions and (b, a) in transitions


def ends_of(a, b, cards):
    """Where the arrow from one card to another begins and ends."""
    (ca, ya, *_), (cb, yb, *_) = cards[a], cards[b]
    xa, xb = COLUMNS[ca], COLUMNS[cb]
    low, high = (ya + height_of(cards[a]), yb) if ya < yb else (ya, yb + height_of(cards[b]))
    if ca == cb:
        x = xa + CARD / 2 + (40 if both_ways(a, b) else 0) * (-1 if ya < yb else 1)
        return (x, low), (x, high)
    near, far = (xa + CARD, xb) if ca < cb else (xa, xb + CARD)
    if ya == yb:
        return (near, ya + 30), (far, yb + 30)
    if ya < yb:
        return (near, low - 12), (far, yb + 14)
    return (near + (-30 if ca < cb else 30), ya), (far, high - 12)


def loop(drawing, name, words, cards):
    column, y, *_ = cards[name]
    x, top, bottom = COLUMNS[column] + CARD, y + 12, y + height_of(cards[name]) - 12
    drawing.path([(x, top), (x + 24, top), (x + 24, bottom), (x, bottom)], True, INK)
    drawing.labelled(x + 30, (top + bottom) / 2 + 4, words, "start")


def arrow(drawing, a, b, words, cards):
    (x, y), (u, v) = ends_of(a, b, cards)
    drawing.path([(x, y), (u, v)], True, INK)
    if x != u:
        drawing.labelled((x + u) / 2, y - 7 if y == v else (y + v) / 2 + 4, words)
    elif len(words) > 16 or both_ways(a, b) and y < v:
        drawing.labelled(x - 8, (y + v) / 2 + 4, words, "end")
    else:
        drawing.labelled(x + 8, (y + v) / 2 + 4, words, "start")


def draw_cards(drawing, cards, transitions, numbers, fill):
    for name, (column, y, order, ends) in cards.items():
        x = COLUMNS[column]
        drawing.box(x, y, CARD, height_of(cards[name]), fill)
        drawing.text(x + 10, y + 20, name, 14, "start", "bold")
        drawing.text(x + CARD - 10, y + 20, numbers[name], 14, "end", fill=PALE)
        for k, words in enumerate([order, *ends]):
            drawing.text(x + 10, y + 20 + LINE * (k + 1), words, 12.5, "start")
    for a, b, words in transitions:
        if a == b:
            loop(drawing, a, words, cards)
        else:
            arrow(drawing, a, b, words, cards)


def phases():
    exchange = phase_numbers(EXCHANGE_SOURCE, EXCHANGE_CARDS)
    call = phase_numbers(CALL_SOURCE, CALL_CARDS)
    drawing = Drawing()
    drawing.text(18, 26, "The exchange of one command (steps 1 to 5)", 15, "start", "bold")
    drawing.text(18, 48, "A box is a phase: its number, its order, the events that end the exchange. An arrow is an event.", 13, "start")
    drawing.text(18, 66, "Behind a colon stands the refusal. Step 5 gives the response, or a refusal from 10 to 15.", 13, "start")
    draw_cards(drawing, EXCHANGE_CARDS, EXCHANGE_TRANSITIONS, exchange, KINDS["code"])
    drawing.text(18, 530, "The phases of a call", 15, "start", "bold")
    drawing.text(18, 552, "An opening begins with OPENING_ACK, any other call with EXCHANGE.", 13, "start")
    drawing.text(18, 570, "A reset goes on to RESET_ACK whatever its exchange came to; PAUSE is Type F's.", 13, "start")
    draw_cards(drawing, CALL_CARDS, CALL_TRANSITIONS, call, KINDS["definitions and proofs"])
    return drawing.svg(COLUMNS[2] + CARD + 146, 838)


def main():
    made = {"layers.svg": layers(), "phases.svg": phases()}
    for name, text in made.items():
        path = ROOT / "docs" / name
        if "--check" not in sys.argv:
            path.write_text(text, encoding="utf-8")
        elif not path.exists() or path.read_text(encoding="utf-8") != text:
            stop(f"docs/{name} is not as the sources have it")


if __name__ == "__main__":
    main()
