#!/usr/bin/env python3
"""Brings the repository's own names to today's spelling, once, after the porting script: definitions, constructors, fields and
variables in snake case; in a lemma's name a dash joins two names of definitions, and a plain word is added with an underscore.

usage: python3 tools/respell.py        at the top of the repository; rewrites crates/**/*.antt, *.rt and *.edit in place
"""

import collections
import os
import re

WORD = re.compile(r"[A-Za-z_≤≡'₀-₉α-ω][\w'≤≡₀-₉?*+]*(?:-[\w'≤≡₀-₉?*+]+)+")
SIGNATURE = re.compile(r"\s*(?:abbrev |unfoldable )?(?:pub )?(?:abbrev )?(?:data |record )?([^\s(){}.;,]+) :")
IMPORT = re.compile(r"use ([A-Za-z][\w.·]*)\.\{([^}]*)\}")
# Words of the library that lemmas speak of beside the repository's own definitions.
LIBRARY = {"length", "take", "drop", "set", "reverse", "map", "zero", "suc", "some", "none", "true", "false", "cond", "max", "min", "eqb", "ltb", "leb"}
# Names that would fall together with a name of the code, which hides them in clauses.
LEM = set()


OWN = {l.split(":")[0].split()[0] for l in open("crates.txt") if l.split("#")[0].strip()}


def files():
    for folder, dirs, names in os.walk("crates"):
        dirs[:] = sorted(d for d in dirs if d != "out")
        for n in sorted(names):
            if n.endswith((".antt", ".rt", ".edit")):
                yield os.path.join(folder, n)


def is_answer(path):
    return re.search(r"/proofs/.+/(Answers|Invariants|Proof)\.antt$", path)


def is_own(path):
    """A path into the repository's crates, but for what Rattle makes of a function."""
    parts = path.rstrip(".").split(".")
    return parts[0] == "Rattle" and len(parts) > 1 and parts[1] in OWN and parts[-1] not in ("Goals", "Given")


def imports(text):
    own, kit = set(), set()
    for m in IMPORT.finditer(text):
        to = own if is_own(m.group(1)) else kit
        for n in m.group(2).split(","):
            to.update(k.strip() for k in n.strip().split(" as "))
    return own, kit


def snake(name):
    return name.replace("-", "_") + ("_lem" if name in LEM else "")


def lemma(name, known):
    """The name cut into the longest known names and single words: a dash between two known names, else an underscore."""
    parts, out, i = name.split("-"), [], 0
    while i < len(parts):
        for j in range(len(parts), i, -1):
            if "_".join(parts[i:j]) in known:
                out.append(("_".join(parts[i:j]), True))
                break
        else:
            j = i + 1
            out.append((parts[i], False))
        i = j
    text, before = "", False
    for k, (word, is_name) in enumerate(out):
        text += ("" if k == 0 else "-" if before and is_name else "_") + word
        before = is_name
    return text


def hidden_names():
    """The names that a .rt file brings in for clauses and that, in snake case, its own code has too."""
    out = set()
    for p in files():
        if p.endswith(".rt"):
            text = open(p).read()
            code = set()
            for line in text.split("\n"):
                if not re.match(r"\s*(//|ghost use|requires|ensures)", line):
                    code.update(re.findall(r"\b[a-z_]\w*\b", line))
            out |= {n for n in imports(text)[0] if "-" in n and n.replace("-", "_") in code}
    return out


def names():
    """What each of the repository's names with a dash becomes; and which of them are fields."""
    specs, proofs, fields, locals_, kit = set(), set(), set(), set(), set()
    for p in files():
        if not p.endswith(".antt") or is_answer(p):
            continue
        text = open(p).read()
        kit |= imports(text)[1]
        block = None
        for line in text.split("\n"):
            if line and not line.startswith((" ", "--")):
                m = re.match(r"(?:pub )?(record|data) ", line)
                block = m.group(1) if m else None
            m = SIGNATURE.match(line)
            if not m:
                continue
            name = m.group(1)
            if block and line.startswith(" "):
                (fields if block == "record" else locals_).add(name)
            elif line.startswith(" "):
                locals_.add(name)
            else:
                (specs if "/specs/" in p else proofs).add(name)
    known = {n.replace("-", "_") for n in specs | {l for l in locals_ if "-" in l}} | LIBRARY
    hidden = hidden_names()
    table = {}
    for n in specs | proofs | fields | locals_:
        if "-" not in n or n.startswith("◌"):
            continue
        if n in hidden:
            LEM.add(n)
        table[n] = lemma(n, known) if n in proofs and n not in specs | fields | locals_ else snake(n)
    return table, fields, kit


def check(table, everything):
    """No two names fall together."""
    back = collections.defaultdict(set)
    for a, b in table.items():
        back[b].add(a)
    for b, many in sorted(back.items()):
        if len(many) > 1 or (b in everything and b not in many):
            print(f"falls together: {' '.join(sorted(many))} -> {b}{' (stands already)' if b in everything else ''}")


def turn_line(line, table, fields, own, kit, answer, code):
    """One line without its comment."""

    def word(m):
        n = m.group(0)
        before = line[m.start() - 1] if m.start() else " "
        if n in kit and n not in fields:
            return n
        if answer or code:
            if before == ".":
                return table[n] if n in fields else n
            if n in table:
                return table[n] if n in own or n in fields else n
            return snake(n) if n in own else n
        return table.get(n, snake(n))

    return WORD.sub(word, line)


def turn(path, table, fields):
    text = open(path).read()
    own, kit = imports(text)
    answer, code = bool(is_answer(path)), path.endswith((".rt", ".edit"))
    if path.endswith(".edit"):
        own = set(table)
    mark = "//" if path.endswith((".rt", ".edit")) else "--"
    out = []
    for line in text.split("\n"):
        m = re.match(r"(?:ghost )?use ([A-Za-z][\w.·]*)", line)
        if m and not path.endswith(".edit") and not is_own(m.group(1)):
            out.append(line)
            continue
        m = re.match(rf"(.*?)((?:^|\s){mark}.*)?$", line)
        out.append(turn_line(m.group(1), table, fields, own, kit, answer, code) + (m.group(2) or ""))
    new = "\n".join(out)
    if new != text:
        open(path, "w").write(new)


def main():
    table, fields, kit = names()
    everything = set()
    for p in files():
        if p.endswith(".antt"):
            for line in open(p):
                m = SIGNATURE.match(line)
                if m:
                    everything.add(m.group(1))
    check(table, everything)
    for a in sorted(LEM):
        print(f"as a name of the code: {a} -> {table[a]}")
    for p in list(files()):
        turn(p, table, fields)


if __name__ == "__main__":
    main()
