#!/usr/bin/env python3
"""respell.py: brings the names of definitions and lemmas to one spelling: words in snake case, a dash between two names.

Run once, at the top, after the kit's port.py. Reads the pairs of respell.txt beside it (a path before a pair: in that file alone), and rewrites each
whole token in the .antt files, in the ghost parts of the .rt files, and in the pages. Stops, with nothing written, if a new name stands already in a
file that would get it. A Proof.antt names functions of src/ too, which may be spelled as a definition now is: there that is no clash.
"""
import os
import re
import sys

HERE = os.path.dirname(os.path.realpath(__file__))
TOKEN = re.compile(r"[A-Za-z_][A-Za-z0-9_'ℕ-]*")


def table():
    with open(os.path.join(HERE, "respell.txt")) as f:
        words = [line.split() for line in f if line.strip()]
    return {w[0]: w[1] for w in words if len(w) == 2}, {(w[0], w[1]): w[2] for w in words if len(w) == 3}


def ghost(text, turn):
    """Only `ghost use` lines and clauses of a .rt file: braces after requires or ensures, up to the one that closes them."""
    out, i = [], 0
    for m in re.finditer(r"ghost use [^;]*;|\b(?:requires|ensures)(?: \w+)? \{", text):
        if m.start() < i:
            continue
        out.append(text[i:m.start()])
        end = m.end()
        if m.group(0).endswith("{"):
            depth = 1
            while depth:
                depth += {"{": 1, "}": -1}.get(text[end], 0)
                end += 1
        out.append(turn(text[m.start():end]))
        i = end
    out.append(text[i:])
    return "".join(out)


def main():
    pairs, alone = table()

    def turn(text):
        return TOKEN.sub(lambda m: pairs.get(m.group(0), m.group(0)), text)

    wanted, bad = {}, []
    for top in ("crates", "docs", "."):
        for folder, dirs, files in os.walk(top):
            dirs[:] = [] if top == "." else [d for d in dirs if d != "out"]
            for name in files:
                path = os.path.join(folder, name)
                if not name.endswith((".antt", ".rt", ".md")):
                    continue
                with open(path) as f:
                    old = first = f.read()
                old = TOKEN.sub(lambda m: alone.get((path, m.group(0)), m.group(0)), old)
                if name.endswith(".md"):
                    new = re.sub(r"`[^`\n]+`", lambda m: turn(m.group(0)), old)
                elif name.endswith(".rt"):
                    new = ghost(old, turn)
                else:
                    new = turn(old)
                    words = set(TOKEN.findall(old)) if name != "Proof.antt" else set()
                    bad += [f"{path}: {a} and {b}" for a, b in pairs.items() if a in words and b in words]
                if new != first:
                    wanted[path] = new
    if bad:
        print("\n".join(bad))
        return 1
    for path, new in wanted.items():
        with open(path, "w") as f:
            f.write(new)
    print(f"{len(wanted)} files")
    return 0


sys.exit(main())
