#!/usr/bin/env python3
"""Respells this repository's own definitions and lemmas as today's Rattle spells names: words in snake case, types and
modules in camel case.

usage: python3 tools/port_names.py [ROOT]      once, at the top, right after port.py

What is renamed: each definition, field, constructor and lemma that a file of specs/ or of proofs/ declares in camel case with a
small first letter, or with a dash. It is renamed wherever its name stands in a .rt, .antt or .edit file, strings apart, and in
backticks in docs/ and README.md. Where two names that one file uses would fall together, the lemma gets `_lem` after its name.
Functions of src/ and exported names keep theirs. What was renamed is printed, a line each.
"""

import os
import re
import sys

# The kinds of frames count as one word each.
WORDS = (("ASnd", "Asnd"), ("PReq", "Preq"), ("PRes", "Pres"), ("SoA", "Soa"), ("SoC", "Soc"), ("EPL", "Epl"))
NAME = re.compile(r"[^\W\d][\w'-]*")
DECLARED = re.compile(r"^\s*(?:(?:abbrev|unfoldable|rec)\s+)?(?:pub\s+)?([^\s:{}()=,]+)(?:\s+\{[^}]*\})*\s*:\s")
KEYWORDS = {"let", "in", "record", "data", "module", "where", "open", "use", "pub"}
STRING = re.compile(r'b?"(?:[^"\\]|\\.)*"')


def snake(name):
    for old, new in WORDS:
        name = name.replace(old, new)
    return re.sub(r"([a-z0-9])([A-Z])", r"\1_\2", name).lower().replace("-", "_")


def files(root, endings):
    for folder, dirs, names in os.walk(os.path.join(root, "crates")):
        dirs[:] = sorted(d for d in dirs if d not in ("out", ".git"))
        for name in sorted(names):
            if name.endswith(endings):
                yield os.path.join(folder, name)


def read(path):
    with open(path, encoding="utf-8") as file:
        return file.read()


def is_own(path, root):
    """Whether the file declares what others cite: it lies in specs/, or in proofs/ itself."""
    parts = os.path.relpath(path, root).split(os.sep)
    return parts[2] == "specs" or parts[2] == "proofs" and len(parts) == 4


def declared(root):
    """The names that are to be respelled, those of specs/ first."""
    found = {}
    for path in files(root, (".antt",)):
        if is_own(path, root):
            in_specs = os.path.relpath(path, root).split(os.sep)[2] == "specs"
            for line in read(path).splitlines():
                match = DECLARED.match(line)
                if match and not line.lstrip().startswith("--"):
                    name = match.group(1)
                    if NAME.fullmatch(name) and name not in KEYWORDS:
                        found[name] = found.get(name, False) or in_specs
    return found


def wants(name):
    return name[0].islower() and bool(re.search(r"-|[a-z0-9][A-Z]", name))


def renames(root):
    found = declared(root)
    users = {}
    for path in files(root, (".antt", ".rt")):
        for name in set(NAME.findall(read(path))):
            users.setdefault(name, set()).add(path)
    out, taken = {}, {}
    # Definitions take their names first; a lemma that would have one that a file has already gets another.
    for name in sorted(found, key=lambda n: (not found[n], wants(n), "-" in n, n)):
        new = snake(name) if wants(name) else name
        while any(users.get(name, set()) & users.get(other, set()) for other in taken.get(new, [])):
            new += "_lem"
        if new != name:
            out[name] = new
        taken.setdefault(new, []).append(name)
    return out


def respell(text, names):
    return NAME.sub(lambda m: names.get(m.group(0), m.group(0)), text)


def outside_strings(text, names):
    out, at = [], 0
    for match in STRING.finditer(text):
        out += [respell(text[at : match.start()], names), match.group(0)]
        at = match.end()
    return "".join(out + [respell(text[at:], names)])


def in_backticks(text, names):
    return re.sub(r"`[^`\n]+`", lambda m: respell(m.group(0), names), text)


def write(path, old, new):
    if old != new:
        with open(path, "w", encoding="utf-8") as file:
            file.write(new)


def main(root):
    names = renames(root)
    for path in files(root, (".antt",)):
        write(path, read(path), respell(read(path), names))
    for path in files(root, (".rt", ".edit")):
        # A dash is a minus sign in Rust, which rustfmt's layout sets between spaces.
        write(path, read(path), "\n".join(outside_strings(line, names) for line in read(path).split("\n")))
    pages = [os.path.join(root, "README.md")] + [os.path.join(root, "docs", p) for p in sorted(os.listdir(os.path.join(root, "docs"))) if p.endswith(".md")]
    for path in pages:
        write(path, read(path), in_backticks(read(path), names))
    for old in sorted(names):
        print(old, names[old])


if __name__ == "__main__":
    main(sys.argv[1] if len(sys.argv) > 1 else ".")
