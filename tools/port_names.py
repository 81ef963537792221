#!/usr/bin/env python3
"""Respells this repository's own names of definitions, lemmas, fields and constructors in snake case, after port.py.

usage: python3 tools/port_names.py        at the top of the repository, once

A name that begins in lower case and holds a capital, as `newSize`, becomes `new_size`, in .antt and .rt files and in the
wrong programs (.edit), also within a name that a dash joins, as `at-newSize`. Types, modules, variants and names of src/
(which are in snake case already) stay. Where the new name was taken by a lemma, that lemma gets `_lem` first.
"""
import os
import re
import sys

# file, taken name: the lemma that steps aside
ASIDE = {
    "crates/machine/proofs/locating/locate/Proof.antt": ["in_order"],
    "crates/bench_input/proofs/Laws/Reading.antt": ["at_head", "at_length"],
    "crates/machine_rules/proofs/Renaming/Heads.antt": ["head_as"],
    "crates/machine_rules/proofs/Laws/Earlier.antt": ["past_end"],
    "crates/machine_rules/proofs/Laws/Search.antt": ["past_end"],
    "crates/machine_rules/proofs/Laws/Looks.antt": ["is_found"],
}
EDGE = r"(?<![\w'])%s(?![\w'])"
WORD = re.compile(r"(?<![\w'])[a-z][A-Za-z0-9_']*")
STRING = re.compile(r'b?"(?:[^"\\]|\\.)*"|b\'[^\']*\'')
LEFT = {"getD"}


def snake(word):
    if word in LEFT:
        return "get_or"
    if not re.search(r"[a-z0-9'][A-Z]", word):
        return word
    return re.sub(r"(?<=[a-z0-9'])([A-Z])", lambda m: "_" + m.group(1).lower(), word)


def respell(text, strings):
    out, at = [], 0
    spans = [(m.start(), m.end()) for m in STRING.finditer(text)] if strings else []
    for a, b in spans + [(len(text), len(text))]:
        out.append(WORD.sub(lambda m: snake(m.group(0)), text[at:a]))
        out.append(text[a:b])
        at = b
    return "".join(out)


def main():
    n = 0
    for folder, dirs, files in os.walk("crates"):
        dirs[:] = [d for d in dirs if d != "out"]
        for name in files:
            if not name.endswith((".antt", ".rt", ".edit")):
                continue
            path = os.path.join(folder, name)
            with open(path, encoding="utf-8") as f:
                old = f.read()
            new = old
            for taken in ASIDE.get(path, []):
                new = re.sub(EDGE % taken, taken + "_lem", new)
            new = "".join(respell(l, not name.endswith(".antt")) for l in new.splitlines(keepends=True))
            if new != old:
                n += 1
                with open(path, "w", encoding="utf-8") as f:
                    f.write(new)
    print(f"port_names: {n} files respelled")


if __name__ == "__main__":
    sys.exit(main())
