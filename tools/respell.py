#!/usr/bin/env python3
"""Respells this repository's own definitions and lemmas: words joined by _, facts and types in camel case.

usage: python3 tools/respell.py     at the top of the repository, once, after the toolchain's own port script

It collects the names with a dash that specs/ and proofs/ declare (goals, which the checker names, are left
alone) and turns each wherever it stands as a whole name: in code, specs, proofs, must-fail edits and pages.
It stops, and writes nothing, where two names would fall together or a name is a library's too.
"""

import re
import sys
from pathlib import Path

# Names whose plain respelling would fall together with another, or that keep a word of the older library.
OTHERWISE = {"Out-of-range": "IsOutOfRange", "getD-cost-weights": "get_or_cost_weights"}

DECLARED = re.compile(r"\s*(?:(?:abbrev|unfoldable|pub)\s+)*(?:(?:record|data)\s+([^\s:(){}.,;]+)|([^\s:(){}.,;]+)\s*:(.*))")
TOKEN = re.compile(r"[^\s(){}\[\].,;`]+")
IMPORT = re.compile(r"use ([\w.]+)\.\{([^}]*)\}")


def respelled(name):
    if name in OTHERWISE:
        return OTHERWISE[name]
    if name[0].isupper():
        return "".join(w[0].upper() + w[1:] for w in name.split("-"))
    return name.replace("-", "_")


def own_crates():
    return {p.name for p in Path("crates").iterdir() if (p / "src").is_dir()}


def texts():
    for pattern in ("*.antt", "*.rt", "*.edit"):
        yield from (p for p in Path("crates").rglob(pattern) if "out" not in p.parts)
    yield Path("README.md")
    yield from (p for p in Path("docs").glob("*.md") if not p.name.startswith("PORT"))


def main():
    declared, others = set(), set()
    antt = [p for p in Path("crates").rglob("*.antt") if "out" not in p.parts]
    for p in antt:
        for line in p.read_text(encoding="utf-8").splitlines():
            m = DECLARED.match(line)
            if m and not line.lstrip().startswith(("--", "use ", "let ")):
                name = m.group(1) or m.group(2)
                if "-" in name and re.search(r"\w", name) and not (m.group(3) or "").lstrip().startswith("goal."):
                    declared.add(name)
                else:
                    others.add(name)
    own = own_crates()
    bad = []
    for p in antt:
        for m in IMPORT.finditer(p.read_text(encoding="utf-8")):
            parts = m.group(1).split(".")
            if not (parts[0] == "Rattle" and len(parts) > 1 and parts[1] in own):
                for name in re.split(r"[\s,]+", m.group(2)):
                    if name in declared:
                        bad.append(f"{p}: {name} is a library's name too")
    seen = {}
    for name in sorted(declared):
        to = respelled(name)
        if to in seen or to in others:
            bad.append(f"{name} and {seen.get(to, to)} fall together as {to}")
        seen[to] = name
    if bad:
        print("\n".join(bad), file=sys.stderr)
        return 1
    turned = 0
    for p in texts():
        text = p.read_text(encoding="utf-8")
        new = TOKEN.sub(lambda m: respelled(m.group(0)) if m.group(0) in declared else m.group(0), text)
        if new != text:
            p.write_text(new, encoding="utf-8")
            turned += 1
    print(f"respell: {len(declared)} names, {turned} files")
    return 0


if __name__ == "__main__":
    sys.exit(main())
