#!/usr/bin/env python3
"""Respells the repository's own definitions, lemmas, fields and local names: words in snake case, facts in camel case.

usage: python3 tools/snake_names.py        at the top of the repository, once

A name from the library, and a name that the toolchain makes, keeps its dash. Names that would fall together stop it before anything is written.
"""

import glob
import re
import sys

WORD = r"[A-Za-z0-9_'ℕ₀-₉⊎]"
TOKEN = re.compile(rf"(?<![\w'ℕ₀-₉-]){WORD}+(?:-{WORD}+)+(?![\w'ℕ₀-₉-])")
DECLARED = re.compile(r"(\s*)(?:abbrev |unfoldable )?(?:pub )?(?:data |record )?([^\s(){}]+)(?: [({][^:]*:.*[)}])? : (.*)")
BOUND = re.compile(rf"\blet ({WORD}+(?:-{WORD}+)+) [:=]")
BINDER = re.compile(r"[({]([^(){}:]+) : ")
LAMBDA = re.compile(r"λ ([^.]+)\. ")
# Facts: a capital at the front, and a type behind. The others with a capital name a step of a call, and keep it.
FACTS = {"All-yes", "First-no", "One-answer", "Zero-is-sound", "Call-law", "Ring-law", "Search-law", "Follows-specification", "Dequeues-nothing", "Dequeues-oldest", "Dequeues-later", "Slot-kept", "Item-kept", "Put-kept", "Check-kept", "Take-kept"}
# Steps of the code as the toolchain names them: what begins so is not the repository's.
MADE = re.compile(r"(if|else|then|match|loop|in|not|bounds|offset|overflow|returns|invariant|decreases|unreachable|index|field)-")
LIBRARY = ("Rattle.std.", "Rattle.core.", "borrow.", "denote.", "Prim.", "lib.", "mathlib.")


def texts(suffix):
    return [p for p in sorted(glob.glob("crates/**/*" + suffix, recursive=True)) if "/out/" not in p]


def lines_of(path):
    with open(path, encoding="utf-8") as f:
        return [l for l in f.read().split("\n") if not l.strip().startswith(("--", "//"))]


def own_names():
    """Names that the repository declares or binds, and those that it imports from the library."""
    own, local, lent = set(), set(), set()
    for path in texts(".antt"):
        for line in lines_of(path):
            if m := re.match(r"\s*(?:pub )?use (\S+?)\.\{(.*)\}", line):
                if m[1].startswith(LIBRARY):
                    lent |= {w.strip() for w in re.split(r",| as ", m[2])}
                continue
            if (m := DECLARED.match(line)) and not m[3].startswith("goal."):
                own.add(m[2])
            local |= set(BOUND.findall(line))
            for names in BINDER.findall(line) + LAMBDA.findall(line):
                local |= set(names.split())
            # what a clause of a definition binds on its left
            if m := re.match(r"\s*([^\s(){}]+)((?: [^=]*)?) =(?: |$)", line):
                local |= {t[0] for t in TOKEN.finditer(m[2]) if not m[2][: t.start()].endswith(".")}
    own = {n for n in own if "-" in n}
    local = {n for n in local if TOKEN.fullmatch(n) and not MADE.match(n) and not n.endswith("-requires")}
    return own, (own | local) - lent, lent


def respelled(name):
    if name in FACTS:
        return "".join(w[0].upper() + w[1:] for w in name.split("-"))
    return name.replace("-", "_")


def main():
    own, names, lent = own_names()
    new = {n: respelled(n) for n in names}
    plain = set()
    for path in texts(".antt"):
        for line in lines_of(path):
            plain |= set(re.findall(rf"{WORD}+", re.sub(TOKEN, " ", line)))
    together = sorted((n, m) for n, m in new.items() if m in plain | lent)
    twice = sorted(n for n, m in new.items() if list(new.values()).count(m) > 1)
    if "--list" in sys.argv:
        print("own:", *sorted(own & names))
        print("local:", *sorted(names - own))
        print("together:", *together)
        print("twice:", *twice)
        return 0
    if twice:
        print("these fall together:", *twice, file=sys.stderr)
        return 1

    def turn(m):
        at = m.string[max(0, m.start() - 2) : m.start()]
        # the value that a branch gave a variable, as the toolchain names it
        if m[0].endswith("-is") and at == "w.":
            return m[0]
        return new.get(m[0], m[0])

    for path in texts(".antt") + texts(".rt"):
        with open(path, encoding="utf-8") as f:
            old = f.read()
        text = TOKEN.sub(turn, old)
        if text != old:
            with open(path, "w", encoding="utf-8") as f:
                f.write(text)
    for path in sorted(glob.glob("docs/*.md")) + ["README.md"]:
        with open(path, encoding="utf-8") as f:
            old = f.read()
        text = re.sub(r"`[^`\n]+`", lambda q: TOKEN.sub(turn, q[0]), old)
        if text != old:
            with open(path, "w", encoding="utf-8") as f:
                f.write(text)
    return 0


if __name__ == "__main__":
    raise SystemExit(main())
