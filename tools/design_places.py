#!/usr/bin/env python3
"""Lists the places of docs/DESIGN-PASS.md in crates/*/src, point by point: `tools/design_places.py [POINT]`, at the top of a checkout."""
import glob
import re
import subprocess
import sys

FILES = sorted(glob.glob("crates/*/src/**/*.rt", recursive=True))
LINES = [(f, i, l.rstrip("\n")) for f in FILES for i, l in enumerate(open(f, encoding="utf-8"), 1)]


def grep(title, pattern):
    found = [(f, i, l) for f, i, l in LINES if re.search(pattern, l) and not l.lstrip().startswith("//")]
    print(f"-- {title}: {len(found)}   (grep -nE '{pattern}')")
    for f, i, l in found:
        print(f"   {f}:{i}: {l.strip()}")


def functions():
    """Each function's name, its parameters and its clauses."""
    for f in FILES:
        text = open(f, encoding="utf-8").read()
        for m in re.finditer(r"^( *)(?:pub )?(?:extern \"C\" )?fn ([a-z_0-9]+)(.*?)(?:^\1\{|\{$)", text, re.S | re.M):
            yield f, m.group(2), m.group(3)


def facts():
    """Point 5: what stands in the requires of three functions or more, and parameters that come together in as many."""
    names, pairs = {}, {}
    for f, name, head in functions():
        clauses = " ".join(re.findall(r"requires[a-z_ ]*\{(.*?)\}\s*(?=requires|ensures|$)", head, re.S))
        for fact in set(re.findall(r"\b([A-Z][A-Za-z]+)\b|([A-Z_]{4,} ≤ length \w+|length \w+\.\w+ ≡ [A-Z_]{4,})", clauses)):
            fact = fact[0] or fact[1]
            if fact not in ("T",) and not fact.isupper():
                names.setdefault(fact, []).append(f"{f.split('/')[1]}::{name}")
        params = re.findall(r"\b([a-z_]+): ", head.split("requires")[0].split("ensures")[0])
        for i, a in enumerate(params):
            for b in params[i + 1:]:
                pairs.setdefault((a, b), []).append(f"{f.split('/')[1]}::{name}")
    some = {k: v for k, v in names.items() if len(v) > 2}
    print(f"-- facts in the requires of three functions or more: {len(some)}")
    for k, v in sorted(some.items(), key=lambda x: -len(x[1])):
        print(f"   {k}: {len(v)}  {' '.join(v)}")
    many = {k: v for k, v in pairs.items() if len(v) > 4}
    print(f"-- pairs of parameters in five functions or more: {len(many)}")
    for k, v in sorted(many.items(), key=lambda x: -len(x[1])):
        print(f"   {', '.join(k)}: {len(v)}  {' '.join(v)}")


def proofs():
    run = lambda c: subprocess.run(c, shell=True, capture_output=True, text=True).stdout.strip()
    print("-- files of answers:", run("find crates -path '*/proofs/*/Answers.antt' -not -path '*/out/*' | wc -l"))
    print("-- files of invariants:", run("find crates -path '*/proofs/*/Invariants.antt' -not -path '*/out/*' | wc -l"))
    print("-- lines of answers and invariants:", run("find crates -path '*/proofs/*/*' -name '*.antt' -not -path '*/out/*' | xargs cat | wc -l"))
    print("-- lines of lemma files:", run("cat crates/*/proofs/*.antt | wc -l"))


POINTS = {
    "1": [
        ("enums, to be read for the shape of Option or Result", r"^ *(pub )?enum "),
        ("flags that stand beside a value in a struct", r"^ +(pub )?[a-z_]+: bool,$"),
        ("what tests came to, beside a value", r"^ +(pub )?tested: "),
        ("refusals by number", r"unless\(.*, [0-9]+\)|Refused\([0-9]+"),
        ("kinds, codes and choices by number", r"\b(kind|code|which|number): u(8|16)\b"),
        ("matches on such a number", r"^ +[0-9]+ => |(kind|which|number|code) == [0-9]+"),
    ],
    "3": [
        ("loops with a test", r"^ +while "),
        ("loops over indices", r"^ +for [a-z_]+ in [^&]*\.\."),
    ],
    "4": [
        ("casts by `as`", r" as (u8|u16|u32|u64|usize|i32|i64)\b"),
        ("functions that convert", r"fn (wide|wide_word|wide_bits|bits32|signed[0-9]*|join[0-9]*|of|[a-z]+_of|[a-z]+_from|[a-z]+_byte|clamp|from|new|code|minus|larger)\("),
        ("derives", r"#\[derive"),
    ],
    "6": [
        ("arrays as parameters or results, with or without a count beside", r"(: |-> )&?(mut )?\[[A-Za-z0-9]+; [A-Z0-9_]+\]"),
        ("counts beside them", r"\b(n|nc|count|rule_count|mark_count|len): usize"),
    ],
    "7": [("choices of a step by a number or a flag", r"\b(which|other|on|has): (u8|bool)\b|kind: u8")],
}

for point in sys.argv[1:] or ["1", "3", "4", "5", "6", "7", "8"]:
    print(f"== point {point}")
    for title, pattern in POINTS.get(point, []):
        grep(title, pattern)
    if point == "5":
        facts()
    if point == "8":
        proofs()
