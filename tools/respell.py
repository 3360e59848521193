#!/usr/bin/env python3
"""respell.py [FOLDER] [--list]: brings the definitions and lemmas of a repository to snake case, once, after the port's script.

Read are the names that crates/*/specs/**.antt and crates/*/proofs/*.antt declare, the fields of their records, and what an import calls `as`.
A name that begins with a small letter loses its capitals (`answerRoom`, `answer_room`; `analog106A`, `analog106a`); a dash stays where it joins the names
of two definitions (CONTRACT_STYLE's rule 2) and is `_` elsewhere; a fact in a lemma's name keeps its capital; `hasBytes`, a fact, is `HasBytes`.
A new name that a file already has as a word, and one that two old names would share, gets another ending (`OTHER`), or `_of` behind a definition and
`_lem` behind a lemma. Turned are the .antt files, the ghost parts of .rt files, the edits, and what stands between backticks in the pages.
Functions of src/, exported names, strings and values stay. --list prints the names, old and new, and changes nothing."""
import collections
import pathlib
import re
import sys

args = [a for a in sys.argv[1:] if not a.startswith("--")]
ROOT = pathlib.Path(args[0] if args else ".")
LIST = "--list" in sys.argv
FACTS = {"hasBytes": "HasBytes"}
STD = set("""length take drop append get_or slice_index set sum map reverse filter replicate concat zip nth head tail last min max pow div mod
◌++◌ ◌+◌ ◌-◌ ◌*◌ slice_get update foldr foldl all any""".split())

declared = re.compile(r"^( *)(?:(abbrev|unfoldable) +)?(pub +)?(?:(abbrev|unfoldable) +)?(record|data|mod|module|ruleset)? ?([^\s:(){}\[\],;.=«»]+)")
SPLIT = re.compile(r"([\s(){}\[\],;.@λ⟨⟩«»\"|:=?⌜⌝←`!+/<>]+)")


def files(pattern):
    return sorted(p for p in ROOT.glob(pattern) if p.is_file() and "/out/" not in str(p))


kinds = collections.defaultdict(set)
for p in files("crates/*/specs/**/*.antt") + files("crates/*/proofs/*.antt"):
    record = None
    for line in p.read_text(encoding="utf-8").splitlines():
        text = line.split("--")[0] if not line.lstrip().startswith("--") else ""
        if not text.strip():
            continue
        for alias in re.findall(r"[\w◌'-]+ as ([^\s,}]+)", text) if text.startswith("use ") else []:
            kinds[alias].add("alias")
        if text.startswith("use "):
            continue
        m = re.match(r"^( *)(?:abbrev +|unfoldable +)?(?:pub +)?record ", text)
        if m or re.match(r"^( *)(?:pub +)?data ", text):
            record = len(text) - len(text.lstrip())
        elif record is not None and len(text) - len(text.lstrip()) <= record:
            record = None
        if record is not None:
            f = re.match(r"^ +([^\s:(){}\[\],;.=]+(?: [^\s:(){}\[\],;.=]+)*) : ", text)
            if f:
                for n in f.group(1).split():
                    kinds[n].add("field")
            for f in re.findall(r"[{;] *([^\s:(){}\[\],;.=]+) : ", text):
                kinds[f].add("field")
            continue
        m = re.match(r"^( *)(?:(abbrev|unfoldable) +)?(?:(pub) +)?(?:(abbrev|unfoldable) +)?(?:(ruleset|module) +)?([^\s:(){}\[\],;.=]+)( :|$| =|\s+[({].*)", text)
        if m and (m.group(3) or " : " in text) and (not m.group(1) or m.group(3) or m.group(2)):
            if m.group(6) not in ("pub", "record", "data", "mod", "use", "where", "unfolding", "open"):
                kinds[m.group(6)].add(m.group(2) or m.group(4) or m.group(5) or "lemma")
for p in files("crates/*/src/**/*.rt"):
    for line in re.findall(r"ghost use [^;]*;", p.read_text(encoding="utf-8")):
        for alias in re.findall(r"[\w◌'-]+ as ([^\s,}]+)", line):
            kinds[alias].add("alias")


def small(part):
    """One part of a name without its capitals."""
    part = re.sub(r"(\d+)([ABF])(?![a-z])", lambda m: m.group(1) + m.group(2).lower(), part)
    part = re.sub(r"([a-z0-9])([A-Z])(?![A-Z]*$)", r"\1_\2", part)
    part = re.sub(r"([a-z])([A-Z])", r"\1_\2", part)
    part = re.sub(r"([A-Z])([A-Z][a-z])", r"\1_\2", part)
    return part.lower()


own = {n for n in kinds if kinds[n] & {"abbrev", "unfoldable"}}
names = own | STD
facts = {n for n in kinds if n[:1].isupper()}


def new_name(n):
    if n in FACTS:
        return FACTS[n]
    if not re.match(r"[a-z]", n) or not (re.search(r"[A-Z]", n) or "-" in n):
        return n
    parts = n.split("-")
    if any(p == "" or not re.match(r"[\w']", p) for p in parts):  # a dash beside an operator stays
        return "-".join(small(p) if re.match(r"[a-z][\w']*$", p) else p for p in parts)
    out = small(parts[0])
    definition = kinds[n] & {"abbrev", "unfoldable", "field"}
    for a, b in zip(parts, parts[1:]):
        joins = not definition and a in names and b in (names | facts)
        out += ("-" if joins else "_") + (small(b) if not b[:1].isupper() else b)
    return out


wanted = {n: new_name(n) for n in kinds}
KEPT = {"add-suc", "not-true", "or-true"}  # names of the kit, too
changed = {n: w for n, w in wanted.items() if n != w and n not in KEPT}

# words of each file, to see names that fall together
words = {}
sources = files("crates/*/specs/**/*.antt") + files("crates/*/proofs/**/*.antt") + files("crates/*/src/**/*.rt")
for p in sources:
    text = p.read_text(encoding="utf-8")
    if p.suffix == ".rt":  # a parameter or a local value would hide a name
        bound = set(re.findall(r"\b([a-z_][a-z_0-9]*)\s*:", text)) | set(re.findall(r"\blet (?:mut )?([a-z_][a-z_0-9]*)", text)) | set(re.findall(r"λ ([a-z_ 0-9]*)\.", text))
        ghost = set()
        for part in re.findall(r"ghost use [^;]*;", text):
            ghost |= set(re.findall(r"[\w◌'-]+", part))
        words[p] = bound | ghost | ({t for t in SPLIT.split(text) if t in changed})
    else:
        words[p] = set(SPLIT.split(text))
clash = {}
taken = collections.Counter(wanted.values())
def is_lemma(name):
    return not kinds[name] & {"abbrev", "unfoldable", "alias", "field"}


given = {n for n in kinds if n not in changed}
for old, new in sorted(changed.items(), key=lambda pair: (is_lemma(pair[0]), pair[0])):  # a definition goes before a lemma
    if new in given or any(old in w and new in w for w in words.values()):
        other = new + ("_lem" if is_lemma(old) or new.endswith("_of") else "_of")
        k = 2
        while other in given or other in taken or any(other in w for w in words.values()):
            other = new + f"_{k}"
            k += 1
        clash[old] = other
        given.add(other)
    else:
        given.add(new)
changed.update(clash)

if LIST:
    for old, new in sorted(changed.items()):
        print(old, new, ",".join(sorted(kinds[old])), "(falls together)" if old in clash else "")
    sys.exit()


def turned(text, in_proof):
    parts = SPLIT.split(text)
    for i, t in enumerate(parts):
        if t in changed:
            before = parts[i - 1] if i else ""
            if in_proof and before.endswith(".") and "field" not in kinds[t] and not (i >= 2 and parts[i - 2][:1].isupper()):
                continue
            parts[i] = changed[t]
    return "".join(parts)


def in_rust(text):
    """Outside strings and byte strings."""
    pieces = re.split(r'(b?"(?:\\.|[^"\\])*")', text)
    return "".join(p if k % 2 else turned(p, False) for k, p in enumerate(pieces))


for p in sources:
    text = p.read_text(encoding="utf-8")
    if p.suffix == ".rt":
        out = in_rust(text)
    else:
        out = turned(text, re.search(r"/proofs/.+/", str(p.relative_to(ROOT))) is not None)
    if out != text:
        p.write_text(out, encoding="utf-8")
for p in files("crates/*/must-fail/*.edit") + files("wrong-answers/*/*.edit"):
    text = p.read_text(encoding="utf-8")
    out = in_rust(text)
    if out != text:
        p.write_text(out, encoding="utf-8")
for p in files("docs/**/*.md") + files("README.md"):
    text = p.read_text(encoding="utf-8")
    out = re.sub(r"`[^`\n]+`", lambda m: turned(m.group(), False), text)
    if out != text:
        p.write_text(out, encoding="utf-8")
print(len(changed), "names,", len(clash), "of them fell together")
