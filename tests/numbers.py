#!/usr/bin/env python3
"""numbers.py [CRATE..]: changes each number and each value of 01's tables of causes, and looks that each change is refused.

A table is a definition of specs/ that gives an answer its row (`raise_cause (Err QueueFull) = row queue_full []`), or the number of a name
(`queue_full = 9`). The record `CausesTell` of a crate, and `NumbersTell` of `types`, say each row again in 01's figures: these are the pins. Every
row of a crate is changed at once, in a copy: its number, then the number of its values, then its first value, its second and so on. Each
time the prover must refuse the pin of each row; a pin speaks of one row alone, so that it refuses that change by itself too. With no
CRATE all that have tables are tried.

It runs beside the gate (`make numbers`), since it proves each of these crates some four times. It begins with what `rt check` kept of them
(tests/tries.py).
"""
import os
import pathlib
import re
import sys

import tries

ROOT = pathlib.Path(__file__).resolve().parent.parent
ROW = re.compile(r"^(\w+_cause|cause_of) (.+?) = (row .+|cause_of .+)$")
# A table that is another one for its own answers: its pins are that one's too.
ALIAS = re.compile(r"^(\w+_cause) (\w+) = (\w+_cause) \2$", re.M)
NAMED = re.compile(r"^(\w+) = (\d+)$")
PIN = re.compile(r"^  pub (\w+) : (?:\([^)]*\)\s*→ )?(.+?) ≡ (row .+|cause_of .+|\d+)$")


def joined(text):
    """The lines of a file, a definition that goes on over several as one."""
    return re.sub(r"\n {4,}", " ", text).splitlines()


def case_of(pattern):
    """The answer's case in a row's pattern or a pin: its name, with no module and no arguments; of an outcome or an error that has a name
    of its own, with that."""
    names = [word.rpartition(".")[2] for word in re.sub(r"[()]", " ", pattern).split()]
    named = names[0] in ("Ok", "Err") and len(names) > 1 and names[1][0].isupper()
    return " ".join(names[: 2 if named else 1])


def pins(crate):
    """For each row that a pin speaks of, its table and its case: the pin's names. What is said of one error is said of a row of all."""
    found, texts = {}, [path.read_text() for path in sorted((crate / "specs").glob("*.antt"))]
    aliases = {name: table for text in texts for name, _, table in ALIAS.findall(text)}
    for line in (line for text in texts for line in joined(text)):
        match = PIN.match(line)
        if not match:
            continue
        table, _, case = match[2].partition(" ")
        case = case_of(case) if case else ""
        for row in {(name, one) for name in (table, aliases.get(table, table)) for one in (case, case.partition(" ")[0])}:
            found.setdefault(row, []).append(match[1])
    return found


def other_number(said):
    """A row with another number."""
    if said.isdigit():
        return str(int(said) + 80)
    if said.startswith("cause_of"):
        return "row 99 []"
    return re.sub(r"^row [\w.]+", "row 99", said)


def more_values(said):
    """A row with one value more; a name and an error have none of their own."""
    match = re.match(r"^row ([\w.]+) (.+)$", said)
    return f"row {match[1]} (77 ∷ {match[2]})" if match else None


def other_value(place):
    """What changes the value at a place of a row, where it has one."""

    def to_other(said):
        match = re.match(r"^row ([\w.]+) \((.+) ∷ \[\]\)$", said)
        values = match[2].split(" ∷ ") if match else []
        if place >= len(values):
            return None
        values[place] = "77"
        return f"row {match[1]} ({' ∷ '.join(values)} ∷ [])"

    return to_other


CHANGES = [("number", other_number), ("values, one more", more_values)] + [(f"value {k + 1}", other_value(k)) for k in range(8)]


def change(crate, to_other):
    """The crate's texts with every row changed, by their paths in it, and the rows that were changed."""
    texts, changed = {}, []
    for path in sorted((crate / "specs").glob("*.antt")):
        lines = []
        for line in path.read_text().splitlines():
            match = ROW.match(line)
            named = NAMED.match(line) if path.name == "CauseNumbers.antt" else None
            if match and to_other(match[3]):
                line = f"{match[1]} {match[2]} = {to_other(match[3])}"
                changed.append((match[1], case_of(match[2])))
            elif named and to_other(named[2]):
                line = f"{named[1]} = {to_other(named[2])}"
                changed.append((named[1], ""))
            lines.append(line)
        text = "\n".join(lines) + "\n"
        if text != path.read_text():
            for name in ("[]", "◌∷◌"):
                text = with_use(text, "Rattle.std.specs.Prelude", name)
            texts[path.relative_to(crate).as_posix()] = text
    return texts, changed


def with_use(text, module, name):
    """The file with one name more from a module."""
    match = re.search(rf"^use {re.escape(module)}\.\{{(.*)\}}$", text, re.M)
    if not match:
        return text.replace("\nuse ", f"\nuse {module}.{{{name}}}\nuse ", 1)
    names = match[1].split(", ")
    return text if name in names else text.replace(match[0], f"use {module}.{{{', '.join(names + [name])}}}")


def refused_pins(crate, log):
    """The pins that the prover refuses: the fields of a record at which it reports an error."""
    refused = set()
    for file, line, column in re.findall(r"^(?:\./)?(proofs/\S+\.antt):(\d+):(\d+): error", log, re.M):
        text = (crate / file).read_text().splitlines()[int(line) - 1]
        refused.update(re.findall(r"(\w+) = ", text[: int(column)])[-1:])
    return refused


def main():
    os.chdir(ROOT)
    names = sys.argv[1:] or sorted(path.parent.parent.name for path in ROOT.glob("crates/*/specs/CausesTell.antt"))
    unready = [name for name in names if not tries.is_ready(name)]
    if unready:
        print(f"not tried, since `rt check` has not passed there: {', '.join(unready)}")
        return 1
    asked = []
    for name in names:
        for kind, to_other in CHANGES:
            texts, changed = change(ROOT / "crates" / name, to_other)
            if changed:
                asked.append((name, kind, texts, changed))
    tried, missed = 0, []
    logs = tries.tried((name, texts, None) for name, _, texts, _ in asked)
    for (name, kind, _, changed), log in zip(asked, logs):
        crate = ROOT / "crates" / name
        known, refused = pins(crate), refused_pins(crate, log)
        left = [row for row in changed if not any(pin in refused for pin in known.get(row, []))]
        print(f"{name}: {kind}: {len(changed)} changes, {len(left)} not refused", flush=True)
        tried += len(changed)
        missed += [f"{name}: {kind} of {' '.join(row).strip()}" for row in left]
    for line in missed:
        print(f"not refused: {line}")
    print(f"01's numbers: {tried - len(missed)} changes refused, {len(missed)} not")
    return 1 if missed or not tried else 0


if __name__ == "__main__":
    sys.exit(main())
