#!/usr/bin/env python3
"""Brings the repository's own names of definitions and lemmas to one spelling: types and facts in upper camel case, every other name in
snake case, and a lemma that would have its definition's name with `_lem` behind it. Run once, at the top, right after port.py: later,
where no Proof.antt is left, it stops, since it would take names of goals for the repository's own.

It takes the names that specs/ and proofs/ declare or bind, and turns them where they stand in .antt, .rt and .edit files, in comments
between backticks or in camel case. Names that a file imports from a library stay, and so do the names of a function's goals in its
Proof.antt.
"""

import collections
import glob
import re
import sys

TOKEN = re.compile(r"[^\s(){}\[\],;.:`\"←λ⌜⌝|]+")
DECLARED = re.compile(r"^\s*(?:(?:pub|abbrev|unfoldable|data|record)\s+)*([^\s:(){}]+)(?: [({].*?[)}])* :(?: |$)")
BOUND = re.compile(r"(?:let ([^\s:=(){}]+) [:=])|(?:[({]((?:[^\s(){}:]+ )+): )|(?:λ ([^.()]+)\.)")
OWN = re.compile(r"^\s*(?:pub )?(?:ghost )?use Rattle\.(?!std\b)\w+\.")
USED = re.compile(r"^\s*(?:pub )?(?:ghost )?use [^{]+\{(.*)\}")


def snake(name):
    s = re.sub(r"([a-z0-9])([A-Z])", r"\1_\2", name).replace("-", "_").replace("′", "'")
    return s.lower() if not name[0].isupper() else s


def turns(name):
    if not name[0].islower():
        return False
    return "-" in name or "′" in name or re.search(r"[a-z0-9][A-Z]", name) is not None


def hand(path):
    return path.endswith("/Proof.antt")


def library(line):
    m = USED.match(line)
    if not m or OWN.match(line):
        return set()
    return {w.strip().split(" as ")[0] for w in m.group(1).split(",")} | {w.strip().split(" as ")[-1] for w in m.group(1).split(",")}


def main():
    antt = sorted(glob.glob("crates/*/specs/**/*.antt", recursive=True) + glob.glob("crates/*/proofs/**/*.antt", recursive=True))
    rest = sorted(glob.glob("crates/*/src/*.rt") + glob.glob("crates/*/must-fail/*.edit"))
    if not any(map(hand, antt)):
        sys.exit("respell: no Proof.antt is left, so the names have been turned already")
    own, libs = collections.defaultdict(set), set()
    for path in antt + rest:
        for line in open(path, encoding="utf-8"):
            libs |= library(line)
    for path in antt:
        for line in open(path, encoding="utf-8"):
            code = line.split("--")[0]
            m = DECLARED.match(code)
            if m and not hand(path):
                own[m.group(1)].add(path)
            for a, b, c in BOUND.findall(code):
                for name in (a + " " + b + " " + c).split():
                    own[name].add(path)
    # names that a `use` renames to
    for path in antt + rest:
        for line in open(path, encoding="utf-8"):
            if OWN.match(line):
                for name in re.findall(r" as ([^\s,}]+)", line):
                    own[name].add(path)
    # a lemma that would have its definition's name gets `_lem`
    taken = {snake(n) for n in own if turns(n) and "-" not in n} | {n for n in own if not turns(n)}
    names = {n: snake(n) + ("_lem" if "-" in n and snake(n) in taken else "") for n in own if turns(n) and n not in libs}
    names |= {n: n + "_lem" for n in own if not turns(n) and any(snake(m) == n and "-" not in m for m in names)}
    both = sorted(n for n in own if turns(n) and n in libs)
    into = collections.defaultdict(set)
    for n, s in names.items():
        into[s].add(n)
        if s in own and s not in names:
            into[s].add(s)
        if s in libs:
            into[s].add("(library) " + s)
    for s, them in sorted(into.items()):
        if len(them) > 1:
            print("fall together:", s, sorted(them))
    if both:
        print("a library's too, left:", " ".join(both))

    def turned(text, keep):
        return TOKEN.sub(lambda m: names[m.group(0)] if m.group(0) in names and m.group(0) not in keep else m.group(0), text)

    for path in antt + rest:
        lines = open(path, encoding="utf-8").read().split("\n")
        mark = "--" if path.endswith(".antt") else "//"
        keep = {m.group(1) for m in map(DECLARED.match, lines) if m} if hand(path) else set()
        out = []
        for line in lines:
            at = line.find(mark) if not path.endswith(".edit") else -1
            if path.endswith(".edit") and not re.match(r"(old|new):", line):
                out.append(line)
                continue
            code, note = (line, "") if at < 0 else (line[:at], line[at:])
            note = re.sub(r"`[^`]*`", lambda m: turned(m.group(0), keep), note)
            note = TOKEN.sub(lambda m: names[m.group(0)] if m.group(0) in names and re.search(r"[a-z][A-Z]", m.group(0)) else m.group(0), note)
            out.append(turned(code, keep) + note)
        new = "\n".join(out)
        if new != "\n".join(lines):
            open(path, "w", encoding="utf-8").write(new)
    print(len(names), "names turned")


main()
