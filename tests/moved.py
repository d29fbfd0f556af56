"""moved.py OLD NEW [--logs OLDLOG NEWLOG] [--out FILE]: what a change moved, and what stayed. Run this at the repository's root.

OLD and NEW are commits; NEW may be `.`, the files as they are. A commit from before the move to today's Rattle is not compared: its
contracts, definitions and names are spelled otherwise, so that nearly all would count as changed. By name, for each crate:
- the definitions of specs/, compared by their text without comments and layout;
- the contracts of src/, those of public functions and the others apart, compared by their clauses; beside a contract stand the
  definitions that it cites and that changed, so that a promise whose words stayed is seen to say something else;
- the proofs: of each function, and each law of the other files.
What has the same text under the same name in another file has moved. Standard output has the counts, and the names of what
did not stay; FILE has the names of what stayed too. With two logs of the gate it prints after how many seconds each crate was proved.
"""
import argparse
import collections
import io
import itertools
import pathlib
import re
import subprocess
import sys
import tarfile

from sources import bare, declarations, functions

KINDS = ['definitions', 'public contracts', 'other contracts', 'proofs']
# The files of a function's proof.
OF_FUNCTION = ['Answers', 'Invariants', 'Proof']
STATES = ['added', 'changed', 'removed', 'moved', 'stayed']
CITED = re.compile(r'ghost use Rattle\.(\w+)\.specs\.(\w[\w.]*)\.\{([^}]*)\}')
# What stands in the contracts of an older Rattle alone.
OLDER = re.compile(r'ghost use \w+·|^ *(?:requires|ensures) \{ (?:λ \w+\. )?⌜', re.M)
GATE = re.compile(r'^in all (\d+) s, (\d+) s of processor time$', re.M)
WORD = re.compile(r'[^\s(){},.;«»]+')


class Item:
    """A definition, contract or proof: its text, and for a contract the definitions that it cites."""

    def __init__(self, text, cites=()):
        self.text = text
        self.cites = cites


# ---- reading


def files(commit):
    """The files of crates/ at a commit: path and text."""
    if commit == '.':
        for path in sorted(pathlib.Path('crates').rglob('*')):
            # What rt makes lies in out/.
            if path.suffix in ('.rt', '.antt') and path.parts[2] != 'out':
                yield path.as_posix(), path.read_text(encoding='utf-8')
        return
    packed = subprocess.run(['git', 'archive', commit, 'crates'], capture_output=True, check=True).stdout
    with tarfile.open(fileobj=io.BytesIO(packed)) as archive:
        for member in archive:
            if member.name.endswith(('.rt', '.antt')):
                yield member.name, archive.extractfile(member).read().decode()


def cites(imports, clauses):
    """The definitions that the clauses of a contract name, as they are keyed."""
    words = set(WORD.findall(' '.join(clauses)))
    return [key for name, key in imports.items() if name in words]


def contracts(crate, path, text):
    imports = {}
    for owner, module, names in CITED.findall(text):
        for name, _, here in (name.partition(' as ') for name in re.split(r',\s*', names)):
            imports[here or name] = (owner, module.replace('.', '/'), name)
    for function in functions(path, text):
        kind = 'public contracts' if function.public else 'other contracts'
        clauses = [f'requires {clause}' for clause in function.requires] + [f'ensures {clause}' for clause in function.ensures]
        place, _, name = function.name.rpartition('::')
        yield kind, (crate, place, name), Item(' '.join(clauses), cites(imports, clauses))


def proofs(crate, path, text):
    """A function's proof is one, whatever its files are and its laws in front of it; elsewhere each law is."""
    found = declarations(text)
    folder, _, file = path.rpartition('/')
    if file in OF_FUNCTION:
        place, _, name = folder.rpartition('/')
        found = [(name, f'{file}: ' + bare(' '.join(law for _, law in found)))]
    else:
        place = path
    for name, law in found:
        yield 'proofs', (crate, place, name), Item(law)


def items(commit):
    """All definitions, contracts and proofs of a commit: for each kind, by crate, place and name."""
    found = {kind: {} for kind in KINDS}
    for path, text in sorted(files(commit)):
        if path.endswith('.rt') and OLDER.search(text):
            sys.exit(f'{commit} is from before the move to today\'s Rattle ({path}): it is not compared')
        _, crate, folder, rest = path.split('/', 3)
        rest = rest.rsplit('.', 1)[0]
        if folder == 'specs':
            pairs = [('definitions', (crate, rest, name), Item(said)) for name, said in declarations(text)]
        elif folder == 'src':
            pairs = contracts(crate, f'{rest}.rt', text)
        else:
            pairs = proofs(crate, rest, text)
        for kind, key, item in pairs:
            # A function's proof has several files.
            if kind == 'proofs' and key in found[kind]:
                item = Item(f'{found[kind][key].text} {item.text}')
            found[kind][key] = item
    return found


# ---- comparing


def compare(old, new):
    """The state of each item of a kind: added, changed, removed, moved (with its old key), or stayed."""
    states = {key: ('stayed' if old[key].text == new[key].text else 'changed', None) for key in old.keys() & new.keys()}
    gone = collections.defaultdict(list)
    for key in sorted(old.keys() - new.keys()):
        gone[key[2], old[key].text].append(key)
    for key in sorted(new.keys() - old.keys()):
        same = gone[key[2], new[key].text]
        states[key] = ('moved', same.pop(0)) if same else ('added', None)
    states.update((key, ('removed', None)) for keys in gone.values() for key in keys)
    return states


def called(key):
    return '.'.join(part.replace('/', '.') for part in key[1:] if part)


def described(key, state, origin, item, changed):
    """An item's name, with where it came from and which definitions that it cites changed."""
    notes = []
    if state == 'moved':
        crate = '' if origin[0] == key[0] else f'{origin[0]}: '
        notes.append(f'from {crate}{origin[1] or "lib"}')
    if state != 'added' and (cited := [called(one) for one in (item.cites if item else ()) if one in changed]):
        notes.append(f'cites what changed: {", ".join(sorted(cited))}')
    return called(key) + (f' ({"; ".join(notes)})' if notes else '')


def report(old, new, whole):
    """The lines of the report; `whole` has the names of what stayed too."""
    states = {kind: compare(old[kind], new[kind]) for kind in KINDS}
    changed = {key for key, (state, _) in states['definitions'].items() if state in ('added', 'changed')}
    for crate in sorted({key[0] for kind in KINDS for key in states[kind]}):
        lines = []
        for kind in KINDS:
            named = {state: [] for state in STATES}
            for key, (state, origin) in sorted(states[kind].items()):
                if key[0] == crate:
                    named[state].append(described(key, state, origin, new[kind].get(key), changed))
            counts = [f'{len(names)} {state}' for state, names in named.items() if names]
            other = [text for text in named['stayed'] if 'cites what changed' in text]
            if counts and (whole or len(counts) > 1 or not named['stayed'] or other):
                lines.append(f'  {kind}: {", ".join(counts)}')
            for state, names in named.items():
                names = names if whole or state != 'stayed' else other
                if names:
                    lines.append(f'    {state}: {", ".join(names)}')
        if lines:
            yield crate
            yield from lines
    for kind in KINDS:
        counts = collections.Counter(state for state, _ in states[kind].values())
        yield f'all {kind}: ' + ', '.join(f'{counts[state]} {state}' for state in STATES)


# ---- time


def seconds(log):
    """The seconds after which each crate was proved, in a gate's log; and those of the gate, with those of the processors."""
    text = pathlib.Path(log).read_text(encoding='utf-8', errors='replace')
    found = re.findall(r'^seconds (\w+) (\d+)$', text, re.M)
    found += [('gate', *pair) for pair in GATE.findall(text)]
    return {name: pair for name, *pair in found}


def times(before, after):
    yield 'seconds after which each was proved, before and after (of the gate: its time; processor time)'
    for name in sorted(before.keys() | after.keys(), key=lambda name: (name == 'gate', name)):
        pairs = itertools.zip_longest(before.get(name, ()), after.get(name, ()), fillvalue='-')
        yield f'  {name}: ' + '; '.join(f'{was} -> {now}' for was, now in pairs)


def main():
    parser = argparse.ArgumentParser(usage=__doc__.splitlines()[0].rsplit(':', 1)[0])
    parser.add_argument('old')
    parser.add_argument('new')
    parser.add_argument('--logs', nargs=2)
    parser.add_argument('--out')
    asked = parser.parse_args()
    old, new = items(asked.old), items(asked.new)
    timed = list(times(*map(seconds, asked.logs))) if asked.logs else []
    print('\n'.join([*report(old, new, False), *timed]))
    if asked.out:
        text = '\n'.join([*report(old, new, True), *timed])
        pathlib.Path(asked.out).write_text(text + '\n', encoding='utf-8')
    return 0


if __name__ == '__main__':
    sys.exit(main())
