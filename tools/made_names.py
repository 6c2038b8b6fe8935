#!/usr/bin/env python3
"""Respells, in answers and invariants, the names that the toolchain makes: a name of the source in them keeps its underscores.

usage: python3 tools/made_names.py        at the top of the repository, once, after tools/snake_names.py
"""

import glob
import re

TOKEN = re.compile(r"(?<![\w'-])[A-Za-z][\w']*(?:-[\w']+)+(?![\w'-])")
WORDS = {"in_ok", "in_err", "in_default", "overflow_add", "overflow_sub", "overflow_mul", "overflow_cast", "overflow_shl", "overflow_shr", "offset_bounds", "slice_bounds", "deref_mut", "from_residual"}
LIBRARY = ("Rattle.std.", "Rattle.core.", "borrow.", "denote.", "Prim.", "lib.", "mathlib.")


def main():
    for crate in sorted(glob.glob("crates/*/")):
        names = set(WORDS)
        for path in glob.glob(crate + "src/**/*.rt", recursive=True):
            with open(path, encoding="utf-8") as f:
                names |= set(re.findall(r"\b[a-z][a-z0-9]*(?:_[a-z0-9]+)+\b", f.read()))
        turns = [(re.compile(rf"(^|-){re.escape(n.replace('_', '-'))}(?=-|$)"), n) for n in sorted(names, key=lambda n: -len(n))]
        for path in glob.glob(crate + "proofs/*/**/*.antt", recursive=True):
            with open(path, encoding="utf-8") as f:
                old = f.read()
            lent = set()
            for m in re.finditer(r"(?m)^use (\S+?)\.\{(.*)\}", old):
                if m[1].startswith(LIBRARY):
                    lent |= {w.strip() for w in m[2].split(",")}

            def turn(m):
                name = m[0]
                if name in lent:
                    return name
                for pattern, to in turns:
                    name = pattern.sub(rf"\g<1>{to}", name)
                return name

            text = TOKEN.sub(turn, old)
            if text != old:
                with open(path, "w", encoding="utf-8") as f:
                    f.write(text)


if __name__ == "__main__":
    main()
