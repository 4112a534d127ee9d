#!/usr/bin/env python3
"""Respells this repository's own definitions, constructors, fields and lemmas in snake case.

    tools/respell.py [FOLDER]

It goes by the names that the .antt files of crates/ declare. A name in lower camel case or with dashes gets its words joined by `_`. Types and modules keep their
capitals, names of the library and of what the check generates stay as they are, and so do functions of src/, strings, inputs and outputs. It is run once, right
after the kit's own script; run again, it changes nothing.
"""
import re
import sys
from pathlib import Path

WORD = r"[A-Za-z0-9_'\-₀-₉αβγδℕℤ≡≤<>]"
TOKEN = re.compile(rf"(?<!{WORD})[a-z][A-Za-z0-9_'\-₀-₉]*(?!{WORD})")
SIGNATURE = re.compile(r"^\s*(?:(?:abbrev|unfoldable|pub|opaque)\s+)*((?:[a-z][A-Za-z0-9_'\-₀-₉]*\s+)*[a-z][A-Za-z0-9_'\-₀-₉]*)\s+:\s")
USE = re.compile(r"^(?:pub |ghost )*use\s+([^\s{;]+?)(?:\.\{([^}]*)\})?(?:\s+as\s+(\S+?))?;?\s*$", re.M)
PROOF_WALKS = re.compile(r"proofs/.*/(Proof|Turn|Answers|Invariants)\.antt$")


def snake(name):
    name = re.sub(r"(?<=[a-z0-9])([A-Z])", lambda m: "_" + m.group(1).lower(), name)
    return name.replace("-", "_")


def declared(text):
    names = set()
    for line in text.split("\n"):
        if line.lstrip().startswith("--"):
            continue
        found = SIGNATURE.match(line)
        if found:
            names.update(found.group(1).split())
    return names - {"pub", "abbrev", "unfoldable", "where", "record", "data", "module", "let", "in"}


def foreign(text, crates):
    """The names that a file takes from elsewhere than this repository's crates."""
    names = set()
    for path, inner, _alias in USE.findall(text):
        parts = path.split(".")
        own = len(parts) > 1 and parts[0] == "Rattle" and parts[1] in crates
        generated = parts[-1] in ("Tie", "Statement", "Goals", "Given")
        if (not own or generated) and inner:
            names.update(part.split(" as ")[0].strip() for part in inner.split(","))
    return names


def aliases(text, crates):
    found = set()
    for path, _inner, alias in USE.findall(text):
        parts = path.split(".")
        if alias and len(parts) > 1 and parts[0] == "Rattle" and parts[1] in crates and parts[-1] not in ("Tie", "Goals", "Given"):
            found.add(alias)
    return found


def respell(text, names, skip, own_aliases):
    def turn(found):
        name = found.group()
        if name not in names or name in skip:
            return name
        before = text[: found.start()]
        if before.endswith("."):
            base = re.search(r"([A-Za-z0-9_'\-]+)\.$", before)
            if not (base and (base.group(1) in own_aliases or name in FIELDS)) and not before.endswith("..") and not before.endswith(" ."):
                if not (base is None and name in FIELDS) and not (before.endswith(").") and name in FIELDS):
                    return name
        return names[name]

    return TOKEN.sub(turn, text)


FIELDS = set()

# Names that would fall together: a lemma named as its function gets `_lem`, and a constructor or a field a word more.
APART = {
    "pairSettled": "settled_pair",
    "held-width": "held_width_is",
    "looked-for": "looked_for_below",
    "state-count": "so_many_states",
}


def main():
    root = Path(sys.argv[1] if len(sys.argv) > 1 else ".")
    crates = {line.split(":")[0].split()[0] for line in (root / "crates.txt").read_text().splitlines() if ":" in line and not line.startswith("#")}
    sources = [path for path in sorted((root / "crates").rglob("*.antt")) if "out" not in path.parts]
    texts = {path: path.read_text() for path in sources}
    names = {}
    for path, text in texts.items():
        if PROOF_WALKS.search(str(path)):
            # what a walk by hand declares is named after what the check generates
            continue
        for name in declared(text):
            if snake(name) != name:
                names[name] = snake(name)
            if name in APART:
                names[name] = APART[name]
        for line in text.split("\n"):
            found = re.match(r"^  (?:pub\s+)?([a-z][A-Za-z0-9_'\-₀-₉]*) : ", line)
            if found:
                FIELDS.add(found.group(1))
    # names that fall together
    taken = set().union(*(declared(text) for text in texts.values()))
    by_target = {}
    for name, target in names.items():
        by_target.setdefault(target, set()).add(name)
    for target, group in sorted(by_target.items()):
        dashed = {name for name in group if "-" in name}
        if len(group) == 2 and len(dashed) == 1 and target + "_lem" not in taken:
            names[dashed.pop()] = target + "_lem"
        elif len(group) == 1 and target in taken:
            # the kit's script turned the lemma's name already
            names[target] = target + "_lem"
        elif len(group) > 1:
            print(f"falls together: {sorted(group)}")
    pages = [path for pattern in ("*.md", "docs/*.md", "crates/*/src/**/*.rt", "crates/*/must-fail/*.edit", "crates/*/*.md") for path in sorted(root.glob(pattern))]
    for path in sources + [path for path in pages if path.name not in ("CHANGES.md", "PORT.md")]:
        text = path.read_text()
        turned = respell(text, names, foreign(text, crates), aliases(text, crates))
        if turned != text:
            path.write_text(turned)


main()
