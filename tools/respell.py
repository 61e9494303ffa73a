#!/usr/bin/env python3
"""Brings this repository's own names in specs/ and proofs/ to today's spelling.

usage: python3 tools/respell.py [TOP]     TOP: a checkout that /opt/rattle/port/port.py was run in (default: here)

Definitions, lemmas, fields and local names lose their dashes: words are in snake case (`falls-short` becomes `falls_short`),
and what is a type is in camel case (`Read-as` becomes `ReadAs`). Names of the library, names that Rattle makes (goals, steps),
functions, strings, comments, inputs and outputs stay as they are. It refuses where two names would fall together. Run it once.
"""

import glob
import os
import re
import sys

TOKEN = re.compile(r"[^\s(){}.;,\"@]+")
SIGNATURE = re.compile(r"^\s*(?:(?:abbrev|unfoldable|pub|record|data)\s+)*([^\s(){}:;,.]+)\s*(?:[({].*)?:(?:\s|$)")
KIND = re.compile(r"^\s*(?:pub\s+)?(?:record|data)\s+(?:pub\s+)?([^\s(){}:;,.]+)")
GOAL = re.compile(r"^\s*(?:abbrev )?(?:pub )?(\S+) : (?:.*→ )?goal\.(\S+)")
USE = re.compile(r"^\s*(?:pub |ghost )?use ([^{]*)\.\{(.*)\}")
# where the rule would make two names one, or a name of the library's has another one already
CHOSEN = {
    "hexDigit": "hex_digit_of",
    "hex-digit": "hex_digit_of_digit_glyph",
    "hex-byte": "hex_pair_digit_glyph",
    "isCommand": "is_command_line",
    "kindNamed": "kind_by_name",
    "command-named": "command_named_lem",
    "stays-sound": "stays_sound_lem",
    "sumBy": "sum_by",
    "sumBy-append": "sum_by-append",
    "sumBy-cons": "sum_by-cons",
    "sumBy-push": "sum_by_push",
    "sumBy-set": "sum_by-set",
    "getD-le-sumBy": "get_or-le-sum_by",
    "getD-counting": "get_or-range_with_len",
    "getD-modify": "get_or_modify",
    "getD-modify-other": "get_or_modify_other",
}
# made names that end a path of an answer, as c.loop-i.b-index
MADE = re.compile(r"^(in|if|loop|then|else|match|returns|from|as|type|overflow|bounds|invariant|decreases|slice)[-_]")


def crates(top):
    with open(os.path.join(top, "crates.txt"), encoding="utf-8") as f:
        return {l.split(":")[0].strip() for l in f if ":" in l and not l.startswith("#")}


def lines(path):
    with open(path, encoding="utf-8") as f:
        return f.read().split("\n")


def dashed(word):
    """Whether a name is not in today's spelling: a dash between words, or a capital within a word that begins small."""
    return re.search(r"\w-\w", word) is not None or re.match(r"^[a-z]+[A-Z]\w*$", word) is not None


def own_names(top, own):
    """The names with a dash that this repository gives, and those of them that are types."""
    outside, made, given, kinds = set(), set(), set(), set()
    for path in sources(top, "antt"):
        for l in lines(path):
            if l.lstrip().startswith("--"):
                continue
            m = USE.match(l)
            if m:
                items = [i.strip() for i in m.group(2).split(",")]
                parts = m.group(1).split(".")
                ours = parts[0] == "Rattle" and len(parts) > 1 and parts[1] in own
                for i in items:
                    names = i.split(" as ")
                    if not ours:
                        outside.add(names[0])
                        given.update(names[1:])
                    elif "Goals" in parts or "Given" in parts:
                        made.update(names)
                continue
            m = GOAL.match(l)
            if m:
                made.update(m.groups())
                continue
            m = KIND.match(l)
            if m:
                kinds.add(m.group(1))
            m = SIGNATURE.match(l)
            if m:
                given.add(m.group(1))
                if re.search(r"(?:→|:) Type 0\s*(?:where)?\s*$", l):
                    kinds.add(m.group(1))
            for t in TOKEN.finditer(l):
                if dashed(t.group()) and l[t.start() - 1 : t.start()] != "." and not MADE.match(t.group()):
                    given.add(t.group())
    names = {n for n in given if dashed(n)} - outside - made
    return names, kinds


def respelt(name, kinds):
    if name in CHOSEN:
        return CHOSEN[name]
    if "-" not in name:
        return re.sub(r"(?<=[a-z])([A-Z])", lambda m: "_" + m.group(1).lower(), name)
    words = name.split("-")
    if name in kinds or (name[0].isupper() and not any(w in kinds for w in words)):
        return "".join(w[:1].upper() + w[1:] for w in words)
    return "_".join(words)


def sources(top, ending):
    found = glob.glob(os.path.join(top, "crates", "*", "**", "*." + ending), recursive=True)
    return sorted(p for p in found if "/out/" not in p)


def turned(line, names, comment):
    """The line with its names respelt, its comment and its strings as they were."""
    if line.lstrip().startswith(comment):
        return line
    out, at = [], 0
    for t in TOKEN.finditer(line):
        word = t.group()
        if word.startswith(comment):
            break
        if word not in names:
            continue
        before = line[: t.start()]
        if before.count('"') % 2 or before.endswith("goal."):
            continue
        if before.endswith(".") and MADE.match(word):
            continue
        out.append(line[at : t.start()])
        out.append(names[word])
        at = t.end()
    return re.sub(r"([^\s(){}.;,\"@]+) as \1(?=[,}])", r"\1", "".join(out) + line[at:])


def check(top, names):
    """No two names fall together, and no new name stands in a file already."""
    back = {}
    for old, new in sorted(names.items()):
        if new in back:
            sys.exit(f"respell: {back[new]} and {old} would both be {new}")
        back[new] = old
    for ending in ("antt", "rt"):
        for path in sources(top, ending):
            for n, l in enumerate(lines(path), 1):
                if l.lstrip().startswith(("--", "//")):
                    continue
                for t in TOKEN.finditer(l):
                    if t.group() in back:
                        print(f"look: {os.path.relpath(path, top)}:{n}: {t.group()} stands here already; {back[t.group()]} becomes it too")


def main(argv):
    top = os.path.realpath(argv[0] if argv else ".")
    own = crates(top)
    given, kinds = own_names(top, own)
    names = {n: respelt(n, kinds) for n in given}
    check(top, names)
    changed = 0
    for ending, comment in (("antt", "--"), ("rt", "//"), ("edit", "#")):
        for path in sources(top, ending):
            old = lines(path)
            new = [turned(l, names, comment) for l in old]
            if new != old:
                changed += 1
                with open(path, "w", encoding="utf-8") as f:
                    f.write("\n".join(new))
    for old in sorted(names):
        print(f"{old} -> {names[old]}")
    print(f"respell: {len(names)} names in {changed} files")


main(sys.argv[1:])
