#!/usr/bin/env python3
"""Brings the repository's own names of definitions and lemmas to snake case, and those of types to camel case.

Run once at the top, right after the kit's own script. It reads specs/ and proofs/ for the names that are declared or
bound there with a dash in them, and respells each as a whole word in .antt files and in the comments, clauses and
ghost items of .rt files. Names of functions of src/, strings, inputs and outputs stay. Goals, which the check names,
keep their dashes.
"""

import collections
import glob
import re

NAME = r"[A-Za-z][A-Za-z0-9_']*(?:-[A-Za-z0-9_']+)*"
LEADS = ("abbrev", "pub", "unfoldable", "record", "data")
# Names that would fall together with another, and names of which the kit's script turned only some places.
OWN = {"At-rest": "IsAtRest", "Node-in": "node_in", "Idle-then": "idle_then"}


def bare(text):
    return re.sub(r"--.*", "", text)


def declared(text):
    """The names that a file of antt declares or binds."""
    for line in text.split("\n"):
        m = re.match(r"\s*(?:(?:abbrev|unfoldable|pub)\s+)*((?:" + NAME + r"\s+)*" + NAME + r")\s+:\s*(.*)", line)
        if m and not re.match(r"(goal|need)\.", m[2]):
            yield from (n for n in m[1].split() if n not in LEADS)
        m = re.match(r"\s*(?:pub\s+)?(?:record|data)\s+(" + NAME + ")", line)
        if m:
            yield m[1]
        for m in re.finditer(r"[({]((?:" + NAME + r"\s+)*" + NAME + r")\s+:", line):
            yield from m[1].split()
        for m in re.finditer(r"(?<![\w'-])(?:let|as)\s+(" + NAME + ")", line):
            yield m[1]


def respelled(name):
    if name[0].isupper():
        parts = name.split("-")
        if all(p[0].isupper() or p[0].islower() for p in parts):
            return "".join(p[0].upper() + p[1:] for p in parts)
    return name.replace("-", "_")


def strings_aside(text, change):
    """Applies a change to the text outside string, byte and character literals."""
    out, at = [], 0
    for m in re.finditer(r'b?"(?:[^"\\]|\\.)*"', text):
        out.append(change(text[at:m.start()]))
        out.append(m[0])
        at = m.end()
    out.append(change(text[at:]))
    return "".join(out)


def main():
    proofs = sorted(glob.glob("crates/*/specs/**/*.antt", recursive=True) + glob.glob("crates/*/proofs/**/*.antt", recursive=True))
    code = sorted(glob.glob("crates/*/src/**/*.rt", recursive=True))
    names, words = set(), collections.Counter()
    for path in proofs:
        text = bare(open(path, encoding="utf-8").read())
        names.update(n for n in declared(text) if "-" in n)
        words.update(re.findall(r"[^\s(){}\[\].,;λ]+", text))
    table = {n: respelled(n) for n in names} | OWN
    meets = collections.defaultdict(list)
    for old, new in table.items():
        meets[new].append(old)
    for new, olds in sorted(meets.items()):
        if len(olds) > 1 or words[new]:
            print("look:", new, "from", *olds, "(already there)" if words[new] else "")
    word = re.compile(r"(?<![\w'-])" + NAME + r"(?![\w'-])")

    def change(text):
        return word.sub(lambda m: table.get(m[0], m[0]), text)

    for path in proofs + code:
        text = open(path, encoding="utf-8").read()
        new = strings_aside(text, change) if path.endswith(".rt") else change(text)
        if new != text:
            open(path, "w", encoding="utf-8").write(new)
    print(len(table), "names respelled")


main()
