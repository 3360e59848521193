"""Document 02's N9 and the lines of the program `presence`, written from those papers: who is present is worked out afresh from the accepted rounds
for each line. Reads lines on standard input and prints the answers; `answers` does the same of a list of lines."""
import sys

KINDS = [b"A", b"T1", b"B", b"F", b"DEP"]
RATES = [b"106A", b"212F", b"424F", b"106B", b"212B", b"424B", b"848B"]
DIGITS = set(b"0123456789")
HEX = set(b"0123456789abcdefABCDEF")


def identifier(text):
    """The bytes of HEX, or None."""
    if text == b"-":
        return b""
    if not text or len(text) % 2 or not set(text) <= HEX or len(text) > 2048:
        return None
    return bytes.fromhex(text.decode())


def card(word):
    """Kind, identifier and bitrate of KIND:HEX:BITRATE, or None."""
    parts = word.split(b":")
    if len(parts) != 3 or parts[0] not in KINDS or parts[2] not in RATES:
        return None
    found = identifier(parts[1])
    return None if found is None else (KINDS.index(parts[0]), found, parts[2])


def read(line):
    """A round's number and records, or None where the line cannot be read."""
    words = line.split(b" ")
    if len(line) > 65536 or len(words) < 2 or words[0] != b"round":
        return None
    digits = words[1].lstrip(b"0")
    if not words[1] or not set(digits) <= DIGITS or len(digits) > 10 or int(digits or b"0") > 4294967295:
        return None
    found = [card(word) for word in words[2:]]
    return None if None in found else (int(digits or b"0"), found)


def present(accepted):
    """Who is there: seen in the last accepted round or the one before it, each with its latest record."""
    latest = {}
    for _, found in accepted[-2:]:
        for kind, name, rate in found:
            latest[kind, name] = rate
    return latest


def written(kind, name):
    return KINDS[kind] + b":" + (name.hex().upper().encode() or b"-")


def answer(accepted, line):
    """The line printed; an accepted round is put behind the others."""
    round_ = read(line)
    if round_ is None:
        return b"refused 4"
    number, found = round_
    if any(len(name) > 16 for _, name, _ in found):
        return b"refused 3"
    if accepted and number <= accepted[-1][0]:
        return b"refused 27"
    before, after = present(accepted), present(accepted + [round_])
    if len(after) > 64:
        return b"refused 28"
    accepted.append(round_)
    words = [b"arrived"] + [written(*c) for c in sorted(after) if c not in before]
    words += [b"departed"] + [written(*c) for c in sorted(before) if c not in after]
    words += [b"present"] + [written(*c) + b":" + after[c] for c in sorted(after)]
    return b" ".join(words)


def answers(lines):
    accepted = []
    return [answer(accepted, line) for line in lines]


if __name__ == "__main__":
    text = sys.stdin.buffer.read()
    lines = text.split(b"\n")
    if lines[-1] == b"":
        lines.pop()
    for printed in answers(lines):
        sys.stdout.buffer.write(printed + b"\n")
