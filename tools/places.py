#!/usr/bin/env python3
"""Lists the places in crates/*/src that docs/DESIGN-PASS.md counts, by point: python3 tools/places.py [FOLDER] [-v].

It goes by text: a row is a place to look at. With -v each place is printed, else the counts alone.
"""
import re
import sys
from pathlib import Path

args = [a for a in sys.argv[1:] if a != "-v"]
verbose = "-v" in sys.argv
root = Path(args[0] if args else ".")
sources = {p: p.read_text() for p in sorted(root.glob("crates/*/src/**/*.rt"))}


def name(path):
    return str(path.relative_to(root / "crates"))


def line_of(text, at):
    return text.count("\n", 0, at) + 1


def lines(pattern, skip=lambda path, line: False):
    found = []
    for path, text in sources.items():
        for number, line in enumerate(text.split("\n"), 1):
            if re.search(pattern, line) and not skip(path, line):
                found.append(f"{name(path)}:{number}: {line.strip()}")
    return found


def blocks(text, at):
    """The text between the braces that open at or after a place."""
    start = text.index("{", at)
    depth = 0
    for i in range(start, len(text)):
        depth += {"{": 1, "}": -1}.get(text[i], 0)
        if depth == 0:
            return text[start + 1:i]
    return text[start + 1:]


def functions():
    """Each function: its place, its parameters' text and its body without clauses."""
    for path, text in sources.items():
        for match in re.finditer(r"^( *)(?:pub(?:\([a-z]+\))? )?(?:extern \"C\" )?fn (\w+)", text, re.M):
            depth, i = 0, text.index("(", match.end())
            first = i
            while True:
                depth += {"(": 1, ")": -1}.get(text[i], 0)
                if depth == 0:
                    break
                i += 1
            # The body opens at a brace that ends a line of the function's own depth.
            body = re.compile(r"(?:^" + match.group(1) + r"|[^\n]* )\{$", re.M).search(text, i)
            if body:
                yield f"{name(path)}:{line_of(text, match.start())}: {match.group(2)}", text[first:i], blocks(text, body.end() - 1)


def enums():
    found = []
    for path, text in sources.items():
        for match in re.finditer(r"^(?:pub(?:\([a-z]+\))? )?enum (\w+)", text, re.M):
            inside = re.sub(r"//[^\n]*", "", blocks(text, match.end()))
            inside = re.sub(r"#\[[^\]]*\]", "", inside)
            variants = [v.strip() for v in re.split(r",(?![^{(]*[})])", inside) if v.strip()]
            bare = [v for v in variants if re.fullmatch(r"\w+", v)]
            option = len(variants) == 2 and len(bare) == 1
            nothing = any(re.match(r"NoMessage|Nothing|Nowhere|End$", v) for v in bare)
            result = not match.group(1).endswith("Error") and any(re.fullmatch(r"\w+\(\w*Error\)", v) for v in variants)
            if option or result or (nothing and len(bare) < len(variants)):
                found.append(f"{name(path)}:{line_of(text, match.start())}: {match.group(1)}")
    return found


def twins():
    """Functions whose bodies are one but for types, numbers and the names of constants."""
    seen = {}
    for place, _, body in functions():
        tokens = re.findall(r"\w+|[^\w\s]", re.sub(r"//[^\n]*", "", body))
        if len(tokens) < 12:
            continue
        shape = " ".join(
            "T" if re.fullmatch(r"[ui](?:8|16|32|64|size)", t) else
            "N" if re.fullmatch(r"\d\w*|[A-Z][A-Z0-9_]+", t) else t for t in tokens)
        seen.setdefault(shape, []).append(place)
    return [" = ".join(places) for places in seen.values() if len(places) > 1]


GROUPS = [("form", "itinerary"), ("ids", "states"), ("table", "round_keys", "k1"), ("hop", "info"), ("edition", "path"),
          ("earliest", "latest"), ("station_limit", "table_limit"), ("change", "last"),
          ("timestamp", "exp_time", "cons_ingress", "cons_egress")]


def together(group):
    return [place for place, parameters, _ in functions()
            if all(re.search(r"\b" + p + r":", parameters) for p in group)]


def facts():
    """Facts that the contracts of three functions or more ask for or give, but for equations with the result."""
    seen = {}
    for path, text in sources.items():
        for match in re.finditer(r"^\s*(?:requires|ensures) (?:\w+ )?\{(.*?)\}$", text, re.M | re.S):
            for fact in re.split(r" × ", " ".join(match.group(1).split())):
                fact = fact.strip(" ()")
                if not re.search(r"\bresult\b ≡|\.new ≡|^\w+_bytes result|result\.now ≡", fact):
                    seen.setdefault(fact, []).append(f"{name(path)}:{line_of(text, match.start())}")
    return [f"{fact}: " + ", ".join(places) for fact, places in seen.items() if len(places) > 2]


points = [
    ("1 own enums of the shape of Option or Result", enums()),
    ("1 numbers for kinds: constants", lines(r"^\s*(?:pub )?const [A-Z_0-9]+: u8 = \d", lambda p, l: p.name == "layout.rt")),
    ("1 numbers for kinds: letters in a match", lines(r"^\s*b'.'.*=>")),
    ("1 a number that stands for none", lines(r"//.*\b0 (?:where|for none|for a time|for an empty|after the last)")),
    ("2 twins", twins()),
    ("3 loops written out", lines(r"^\s*(?:while|loop)\b")),
    ("3 `for` over an index", lines(r"^\s*for \w+ in [^ ]*\.\.")),
    ("4 bytes and numbers by division", lines(r"[/*%] 0x1(?:00)?(?:_?0{4})*(?:_0000)?\b|[/*%] 0x100")),
    ("4 conversions and orders by hand", lines(r"fn (?:lesser\w*|edition_of|join\(|first_six|mac_number|\w+_number\((?:error|why|answer|action):)")),
    *[("5 together: " + ", ".join(group), together(group)) for group in GROUPS],
    ("5 a fact in three contracts or more", facts()),
    ("6 buffers of a fixed size", lines(r"let (?:mut )?\w+ = \[+0(?:u8|u16)?;|&mut \[0u?\w*;")),
    ("6 values with a count beside", lines(r"fn \w*value_count\(|^\s*pub count: ")),
    ("7 a switch on which step to run", lines(r"^\s*match (?:kind|name)\b")),
]
for title, places in points:
    print(f"{len(places):4}  {title}")
    if verbose:
        for place in places:
            print(f"        {place}")


def count(pattern):
    files = list(root.glob(pattern))
    return len(files), sum(len(f.read_text().split("\n")) - 1 for f in files)


for title, pattern in [("8 Answers.antt", "crates/*/proofs/**/Answers.antt"), ("8 Invariants.antt", "crates/*/proofs/**/Invariants.antt"),
                       ("8 lemma files", "crates/*/proofs/*.antt")]:
    files, size = count(pattern)
    print(f"{files:4}  {title}, {size} lines")
