#!/usr/bin/env python3
"""Counts the places that docs/DESIGN-PASS.md speaks of, in crates/*/src, and lists them with -l.

What reads like an older language is found by its spelling; a line for each kind, with the pattern. Bodies of the same
shape are found by comparing functions whose names and numbers are replaced by one letter.

    tools/count_places.py [-l] [FOLDER]      FOLDER holds crates/, here if none is given
"""
import collections
import pathlib
import re
import sys

# kind, what, pattern of a line, pattern of lines that do not count
LINES = [
    ("1", "own enums", r"^\s*(pub(\(crate\))? )?enum ", None),
    ("1", "a flag beside a value in a struct or variant", r"\bbool,|: bool[,;]$|pub bool", r"^\s*fn "),
    ("1", "constants that number a kind", r"^\s*const [A-Z_]+: u8 = ", None),
    ("1", "fields and parameters that number or letter a kind",
     r"\b(place|operation|letter|answer|number|due): (u8|char)\b", r"^\s*(//|\(|\|)"),
    ("1", "results that number a refusal or an answer", r"fn \w*(code|number)\w*\(.*-> u(8|16)", None),
    ("1", "places compared by number", r"\bplace == \d", None),
    ("1", "errors passed on or made by hand in a match or an if",
     r"Err\((_|refusal|fault|e)\) => (Err|return|Ok|match|\{)|is_err\(\) \{|None => (return )?Err|(Some|Ok)\(\w+\) = .* else \{",
     None),
    ("1", "0 where there is none", r"Ok\(0\);|unwrap_or\(0\)|(None|_|Ok\(\(\)\)|Ok\(_\)) => (Ok\()?0\b|\{ 0 \}|^\s+0$", None),
    ("3", "loops", r"^\s*('\w+: )?(for|while|loop)\b", None),
    ("3", "loops over an index from 0 or 1 to a length or count", r"^\s*for \w+ in [01]\.\.\w", None),
    ("4", "impls of a conversion, comparison or printing",
     r"^impl.*\b(PartialEq|Eq|Ord|PartialOrd|Clone|Copy|From|TryFrom|Display|Debug|Hash|Default)\b.* for ", None),
    ("4", "functions that convert by hand", r"fn ((\w+_of|numbers|named_place|parse|number|\w+_place|with_answer|code_\w+)\b)(<.*>)?\(",
     r"_of_rank|_of_level"),
    ("4", "functions that print by hand", r"fn (put_\w+|write_\w+|text_of|push_\w+)\(", None),
    ("5", "functions with a requires", r"^\s*requires", None),
    ("6", "a buffer and a place in it", r"out: &mut \[u8\], at: usize", None),
    ("6", "a list and a place in it", r"(order|bytes|list|parents): &\[u\d+\], (at|j|k|left): \w+", None),
    ("7", "functions or traits that stand for one of several functions", r"^\s*(pub )?trait |: impl Fn|F: Fn|dyn ", None),
]

FUNCTION = re.compile(r'^( *)(?:pub(?:\(crate\))? )?(?:extern "C" )?fn (\w+)(?:[^{]|\{[^\n])*?\n?\1?\{\n(.*?)^\1\}', re.S | re.M)
WORDS = {"if", "else", "for", "in", "return", "match", "let", "mut", "as", "while", "self"}


def shape(body):
    body = re.sub(r"//.*", "", body)
    out = []
    for word in re.findall(r"\w+|\S", body):
        if re.match(r"[a-z_]\w*$", word) and word not in WORDS:
            word = "a"
        elif re.match(r"\d", word):
            word = "0"
        out.append(word)
    return " ".join(out)


def main():
    args = sys.argv[1:]
    listed = "-l" in args
    rest = [a for a in args if a != "-l"]
    top = pathlib.Path(rest[0] if rest else pathlib.Path(__file__).resolve().parent.parent)
    sources = sorted((top / "crates").glob("*/src/**/*.rt"))
    texts = {s.relative_to(top / "crates"): s.read_text().split("\n") for s in sources}
    for kind, what, pattern, but in LINES:
        here = re.compile(pattern)
        out = re.compile(but) if but else None
        found = [(n, i + 1, l.strip()) for n, t in texts.items() for i, l in enumerate(t)
                 if here.search(l) and not (out and out.search(l))]
        tests = sum("tests" in str(n) or "_tests" in str(n) or "examples" in str(n) for n, _, _ in found)
        print(f"{kind}  {what}: {len(found)}, of them {tests} in tests")
        if listed:
            for n, i, l in found:
                print(f"     {n}:{i}: {l[:110]}")
    alike = collections.defaultdict(list)
    headed = collections.defaultdict(list)
    for n, t in texts.items():
        for m in FUNCTION.finditer("\n".join(t)):
            s = shape(m.group(3))
            if s.count(" ") >= 8:
                alike[s].append(f"{n} {m.group(2)}")
    groups = [g for g in alike.values() if len(g) > 1]
    print(f"2  bodies of one shape: {len(groups)} groups, {sum(map(len, groups))} functions")
    if listed:
        for g in groups:
            print("     " + ", ".join(g))
    texts_joined = {n: "\n".join(t) for n, t in texts.items()}
    for names in [("plan", "rank"), ("plan", "records"), ("plan", "memory", "records"), ("order", "at"), ("out", "at")]:
        found = [f"{n} {m.group(1)}" for n, t in texts_joined.items()
                 for m in re.finditer(r"fn (\w+)(?:<[^>]*>)?\(([^)]*)\)", t)
                 if all(re.search(rf"\b{x}: ", m.group(2)) for x in names)]
        print(f"5  functions that take {', '.join(names)}: {len(found)}")
        if listed:
            for f in found:
                print("     " + f)


main()
