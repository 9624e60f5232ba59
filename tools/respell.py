#!/usr/bin/env python3
"""Spells this repository's own definitions and lemmas as today's Rattle does: words in snake case.

usage: python3 tools/respell.py [--dry]        at the top, once, right after port.py

Renamed are the names that the texts of specs/ and proofs/ declare, wherever they stand: in antt, in the clauses of src/ and between
backticks in comments. Types and modules keep their capitals; a dash after a capitalised part stays. Where two old names would fall
together, the lemma gets `_lem`, and TOGETHER names the definitions. Functions of src/, strings, inputs and outputs keep their names.
"""
import collections
import glob
import os
import re
import sys

# Definitions that would fall together with another definition.
TOGETHER = {
    # a call's row in the table, beside the call itself
    **{n: None for n in """staTsk extTsk terTsk chgPri rotRdq relWai susTsk rsmTsk slpTsk waiTsk wupTsk canWup sigSem waiSem preqSem
       setFlg clrFlg waiFlg polFlg sndMsg rcvMsg prcvMsg getBlk pgetBlk relBlk getTid tskSts semSts flgSts mbxSts mplSts getTim creTsk
       delTsk exdTsk setAbs setRel canAlm almSts""".split()},
    "lookedAt": "looked_at_next",
    "byNumber": "number_order",
    "waits-on": "wait_on",
    "atEnd": "at_input_end",
}
DECLARED = re.compile(r"(?m)^ *(?:\w+ )*?(\S+)(?: \{[^{}\n]*\})* :(?= |$)")
TOKEN = re.compile(r"--[^\n]*|//[^\n]*|\"(?:[^\"\\\n]|\\.)*\"|[^\s(){}.;,@\"«»\[\]&!|:*]+|.", re.S)
# What Rattle makes in a proof that walks the code: these keep their dashes.
MADE = re.compile(r"(Need|returns|loop|if|while)\b|\d")
# What a file takes from a library keeps the library's spelling there.
TAKEN = re.compile(r"(?m)^ *(?:pub |ghost )*use (?!Rattle\.(?!std\b))[\w.]+?\.\{([^}]*)\}")


def snake(name):
    words = re.sub(r"(?<=[a-z0-9])[A-Z]", lambda m: "_" + m[0].lower(), name) if not name[:1].isupper() else name
    return re.sub(r"(?<![A-Z±])-(?=[^-])", "_", words) if not re.match(r"[A-Z]\w*-", words) else words


def texts(top):
    found = []
    for part in ("specs", "proofs", "src"):
        for end in ("antt", "rt"):
            found += glob.glob(os.path.join(top, "crates/*", part, "**", "*." + end), recursive=True)
    return sorted(p for p in found if "/out/" not in p)


def walks(path):
    return re.search(r"/proofs/.*(Proof|Answers|Invariants)\.antt$", path)


def read(path):
    with open(path, encoding="utf-8") as f:
        return f.read()


def old_names(files):
    """Each declared name that is not yet in today's spelling, with the files that declare it."""
    names = collections.defaultdict(set)
    for path, text in files.items():
        if path.endswith(".antt"):
            for m in DECLARED.finditer(text):
                name = m[1]
                if not re.match(r"[\w'?≢±]+([-\w'?≢±]*)$", name) or walks(path) and MADE.match(name):
                    continue
                names[name].add(path)
    return names


def groups_of(new):
    groups = collections.defaultdict(list)
    for o, n in new.items():
        groups[n].append(o)
    return groups


def table(files):
    names = old_names(files)
    new = {}
    groups = collections.defaultdict(set)
    for n in names:
        groups[snake(n)].add(n)
    for to, olds in groups.items():
        for n in [n for n in olds if n in TOGETHER]:
            new[n] = TOGETHER[n] or to + "_row"
            olds = olds - {n}
        rank = lambda n: (not any("/specs/" in p for p in names[n]), "-" in n, n)
        for first in sorted(olds, key=rank)[:1]:
            new[first] = to
        for n in sorted(olds, key=rank)[1:]:
            if any("/specs/" in p for p in names[n]):
                print(f"look: {olds} of specs fall together")
            new[n] = to + "_lem"
    for to, olds in groups_of(new).items():
        if len(olds) > 1:
            print(f"look: {olds} fall together as {to}")
    fns = set()
    for path, text in files.items():
        if path.endswith(".rt"):
            fns |= set(re.findall(r"\b(?:fn|let(?: mut)?) (\w+_\w+)", text)) | set(re.findall(r"\b(\w+_\w+): ", text))
    return {o: n for o, n in new.items() if o != n}, names, fns


def turned(path, text, new, fns):
    out = []
    kept = {n.strip() for m in TAKEN.finditer(text) for n in m[1].split(",")}
    of_source = {f.replace("_", "-"): f for f in fns} if walks(path) else {}
    for m in TOKEN.finditer(text):
        t = m[0]
        if t.startswith(("--", "//")):
            t = re.sub(r"`([^`\s]+)`", lambda q: "`" + new.get(q[1], q[1]) + "`", t)
        elif not t.startswith('"'):
            t = t if t in kept else new.get(t) or of_source.get(t) or t
        out.append(t)
    return "".join(out)


def main():
    top = "."
    files = {p: read(p) for p in texts(top)}
    new, names, fns = table(files)
    # In no file may a new name meet a token that stood there before.
    for path, text in files.items():
        tokens = {m[0] for m in TOKEN.finditer(text)}
        for old in sorted(tokens & set(new)):
            if new[old] in tokens and new.get(new[old], new[old]) == new[old]:
                print(f"look: {path}: {old} meets {new[old]}")
    count = 0
    for path, text in files.items():
        to = turned(path, text, new, fns)
        if to != text:
            count += 1
            if "--dry" not in sys.argv:
                with open(path, "w", encoding="utf-8") as f:
                    f.write(to)
    print(f"respelled {len(new)} names in {count} files")


if __name__ == "__main__":
    main()
