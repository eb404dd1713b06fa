#!/usr/bin/env python3
"""Brings the repository's own definitions and lemmas to the spelling of today's Rattle: words in snake case.

usage: python3 tools/respell.py      at the top of the repository, once, after the toolchain's own script

- `macNumber` becomes `mac_number` wherever it stands: in specs/, proofs/, contracts, must-fail edits. What starts with a capital stays.
- `mac-unasked`, a lemma of this repository, becomes `mac_unasked` in each file that declares or imports it. Names that Rattle makes of a
  function's code (behind a point, or of a goal) stay.
- A lemma that would fall together with a definition gets `_lem`.
"""
import collections
import glob
import os
import re

WORD = r"[A-Za-z_][A-Za-z0-9_'\u2080-\u2089-]*"
CAMEL = re.compile(r"(?<![A-Za-z0-9_'-])[a-z][A-Za-z0-9_'-]*")
DECLARED = re.compile(r"^(\s*)((?:(?:abbrev|unfoldable|axiom|pub|data|record|ruleset)\s+)*)([^\s:(){}=|;,\u03bb]+(?:\s+[^\s:(){}=|;,\u03bb]+)*)\s+:\s(.*)$")
# The toolchain's script has spelled these by a name that is no more.
OTHERS = {"get_d_tabulate": "get_or_tabulate", "get_d_map": "get_or_map"}
RECORD = re.compile(r"^(\s*)(?:pub )?record .*where\s*$")
FIELD = re.compile(r"^(\s*)(?:pub )?([^\s:]+(?: [^\s:]+)*) :")
# Spelled like a definition of another crate that the same files speak of, or like one of their own crate.
FALLS = {"goes_on"}


def snake(name):
    name = name.replace("getD", "get_or")
    return re.sub(r"(?<=[a-z0-9])([A-Z])", lambda m: "_" + m.group(1).lower(), name)


def read(path):
    with open(path, encoding="utf-8") as f:
        return f.read()


def declared(text):
    for line in text.split("\n"):
        m = DECLARED.match(line + " ")
        if m and not line.lstrip().startswith("--") and len(m.group(1)) <= 8:
            for name in m.group(3).split():
                yield name, m.group(4)


def fields(text):
    """The fields with a dash that records of this repository declare."""
    depth = None
    for line in text.split("\n"):
        m = RECORD.match(line)
        if m:
            depth = len(m.group(1))
        elif depth is not None and line.strip():
            if len(line) - len(line.lstrip()) <= depth:
                depth = None
            else:
                k = FIELD.match(line)
                if k and len(k.group(1)) == depth + 2:
                    yield from (n for n in k.group(2).split() if "-" in n)


def main():
    specs = sorted(glob.glob("crates/*/specs/**/*.antt", recursive=True))
    lemmas = sorted(f for f in glob.glob("crates/*/proofs/**/*.antt", recursive=True) if os.path.basename(f) != "Proof.antt")
    walks = sorted(f for f in glob.glob("crates/*/proofs/**/Proof.antt", recursive=True))
    own = {os.path.basename(d.rstrip("/")) for d in glob.glob("crates/*/")}

    own_fields = {n: snake(n).replace("-", "_") for f in specs + lemmas for n in fields(read(f))}
    definitions = {snake(n) for f in specs for n, _ in declared(read(f))}
    inner = {snake(n) for f in lemmas for n, _ in declared(read(f)) if "-" not in n}
    taken = definitions | inner

    # what each file of lemmas declares with a dash, by the file's module
    by_module = collections.defaultdict(dict)
    for f in lemmas:
        module = "Rattle." + f[len("crates/") : -len(".antt")].replace("/", ".")
        for name, _ in declared(read(f)):
            new = snake(name).replace("-", "_")
            if "-" in name:
                by_module[module][name] = new + "_lem" if new in taken else new
            elif name in FALLS:
                by_module[module][name] = name + "_lem"

    def turned(path, text):
        names = {}
        module = "Rattle." + path[len("crates/") : -len(".antt")].replace("/", ".") if path.endswith(".antt") else ""
        names.update(by_module.get(module, {}))
        if os.path.basename(path) == "Proof.antt":
            for name, kind in declared(text):
                if "-" in name and not kind.startswith(("tie.", "stated.", "{M")):
                    new = snake(name).replace("-", "_")
                    names[name] = new + "_lem" if new in taken else new
        behind = {}
        for m in re.finditer(r"use (Rattle\.[\w.+]+)\.\{([^}]*)\}", text):
            for part in m.group(2).split(","):
                name = part.split(" as ")[0].strip()
                if name in by_module.get(m.group(1), {}):
                    names[name] = by_module[m.group(1)][name]
        for m in re.finditer(r"use (Rattle\.[\w.+]+) as ([^\s;]+)", text):
            for name, new in by_module.get(m.group(1), {}).items():
                behind[m.group(2) + "." + name] = m.group(2) + "." + new

        def word(m):
            name = m.group(0)
            if name in own_fields:
                return own_fields[name]
            if name in OTHERS:
                return OTHERS[name]
            before = text[: m.start()]
            if before.endswith(".") and not before.endswith(".."):
                k = re.search(WORD + r"\.$", before)
                whole = (k.group(0) if k else ".") + name
                if whole in behind:
                    return behind[whole].split(".", 1)[1]
            elif name in names:
                return names[name]
            return snake(name) if re.search(r"[a-z0-9][A-Z]", name) and "-" not in name else name

        return CAMEL.sub(word, text)

    paths = specs + lemmas + walks + sorted(glob.glob("crates/*/src/**/*.rt", recursive=True)) + sorted(glob.glob("crates/*/must-fail/*.edit"))
    count = 0
    for path in paths:
        text = read(path)
        new = turned(path, text)
        if new != text:
            count += 1
            with open(path, "w", encoding="utf-8") as f:
                f.write(new)
    print(f"respell: {count} files")
    assert own


main()
