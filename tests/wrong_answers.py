"""Every wrong answer of crates/*/must-fail/ is refused because a fact fails, and every public function has two.

`rt` says of an edit only that its crate is no longer proved. That is so too where a proof file merely no longer fits
the code, and where one wrong function of several hides the others. Run this at the repository's root, once `rt check` has passed in
the crates, as `rt all check` has it: it tries each edit (tests/tries.py), keeps what the prover says in
target/must-fail/CRATE/EDIT.log, and checks that
- each function named by a line `# wrong: MODULE::fn_name -- what is wrong` of an edit is refused at a fact of its own,
  and so is a file of laws that is named so. Where the whole edit does not show it, as the goals of a function are not tried
  while one that it calls is not proved, the lines of that name are tried alone, in EDIT.NAME.log; and of a function once more
  without its answers, in EDIT.NAME.false.log, where the prover has to find that a goal is false;
- any other edit is refused at a fact;
- each public function of each library crate is named in two groups, files wrong_answers_*.edit, of its crate, and a
  crate of theorems has two edits;
- docs/WRONG_ANSWERS.md is what `--table` prints;
- each edit that docs/CLAIMS.md names, CRATE/EDIT, is there, and where it says CRATE/EDIT: WORDS, one of its wrong answers
  begins with these words.
A fact is a goal that an answer or a tactic does not prove, or of which the prover says that the known facts allow values at which it is
false. That an answer names what the wrong code has not is none, and no other error of that answer counts. It prints a line for each that is not shown. With names of crates, or of edits as CRATE/EDIT, it tries only these. That an edit
keeps the names of the goals, which are those of the code's variables and branches, is its author's care.
"""
import pathlib
import re
import sys

import tries
from sources import functions

GROUPS = 'wrong_answers_*.edit'
TABLE = pathlib.Path('docs/WRONG_ANSWERS.md')
CLAIMS = pathlib.Path('docs/CLAIMS.md')
HEAD = """# Wrong answers

Tried in every run of the gate and refused in the proof of the function itself; `python3 tests/wrong_answers.py --table` writes this
file from `crates/*/must-fail/wrong_answers_*.edit`, and docs/CLAIMS.md says which of them show less than a false promise.

| crate | function | wrong answers |
|---|---|---|
"""

WRONG = re.compile(r'^# wrong: (\S+) -- (\S.*)', re.M)
# An edit that a document names, and the words that tell which of its wrong answers is meant.
CITED = re.compile(r'\b(\w+)/(?!(?:src|specs|proofs)\b)(\w+)(?![\w/.])(?:: ([^,;|()`.]+))?')
# An error in a proof, with the lines that belong to it; a function's proof has several files.
ERROR = re.compile(r'^(?:\./)?proofs/(\S+?)(?:/(?:Answers|Invariants|Proof))?\.antt(?::\d+:\d+)?: error: (.*(?:\n  .*)*)', re.M)
# What is said of a function: what was not proved of it, where it has no proof file; or that it is not proved, behind the goals that
# are open. What is said while the check goes on is said again at its end.
FUNCTION = re.compile(r'^fn \w+::(\S+): (.*)')
UNPROVED = re.compile(r'no proof: .*`search` did not prove ')
FALSE = re.compile(r'^note: src/\S+: it is not proved that .* the facts known there allow values at which this goal is false')
GOING_ON = re.compile(r'^(?:so far: |checked ).*\n', re.M)
# Not looked at, since something that it builds on failed.
PASSED_OVER = re.compile(r'was not admitted')
# The goal or the lemma that an error is in, and that its proof names what the wrong code has not.
ANSWER = re.compile(r'(?:`([^`]*)`: )?')
UNFIT = re.compile(r'can be named from here|has no (?:field|`)|is not in scope|exports no|needs a function|`omega` does not read')


class Said:
    """What a log says of each function and file of laws: the errors that were reached, and whether a goal fails for sure."""

    def __init__(self, log):
        log = GOING_ON.sub('', log)
        self.errors = {}
        for place, text in ERROR.findall(log):
            if not PASSED_OVER.search(text):
                self.errors.setdefault(place.replace('/', '::'), []).append(text)
        self.unproved, self.false, named = set(), set(), False
        for line in log.splitlines():
            named = named or bool(FALSE.search(line))
            if function := FUNCTION.match(line):
                if UNPROVED.match(function[2]):
                    self.unproved.add(function[1])
                if named:
                    self.false.add(function[1])
                named = False

    def refuses(self, name):
        """Whether it refuses the function or the file of laws, and at a fact."""
        answers = {}
        for text in self.errors.get(name, []):
            answers.setdefault(ANSWER.match(text)[1], []).append(text.split('\n')[0])
        facts = [texts for texts in answers.values() if not any(map(UNFIT.search, texts))]
        return bool(facts) or name in self.unproved or name in self.false

    def refuses_one(self):
        """Whether it refuses the crate, at facts."""
        return any(self.refuses(name) for name in [*self.errors, *self.unproved, *self.false])


def wrong(edit):
    """The wrong answers that an edit names: the function, and what is wrong."""
    return WRONG.findall(edit.read_text(encoding='utf-8'))


def changed(edit, name=None):
    """The texts of the files that an edit changes, by their paths in the crate; with a name only by the lines of that wrong answer and those
    in front of the first one. None where they do not stand once in these files."""
    crate, path, old, texts, told = edit.parent.parent, None, None, {}, None
    for line in edit.read_text(encoding='utf-8').split('\n'):
        if found := WRONG.match(line):
            told = found[1]
        elif line.startswith('file: '):
            path = line.removeprefix('file: ').strip()
        elif line.startswith('old: '):
            old = line.removeprefix('old: ')
        elif line.startswith('new:') and (name is None or told in (None, name)):
            if path not in texts and crate.joinpath(path).is_file():
                texts[path] = crate.joinpath(path).read_text(encoding='utf-8')
            if texts.get(path, '').count(old) != 1:
                return None
            texts[path] = texts[path].replace(old, line.removeprefix('new:').removeprefix(' '))
    return texts


def label_of(edit):
    return f'{edit.parent.parent.name}/{edit.stem}'


def said_of(asked, without=''):
    """What is said of edits, each with the name of the wrong answer that is tried alone, or None: by both, and kept in target/must-fail.
    `without` names a file of the function's proof that is left out."""
    texts = {one: changed(*one) for one in asked}
    if without:
        for (_, name), found in texts.items():
            found[f'proofs/{name.replace("::", "/")}/{without}'] = None
    ready = [one for one in asked if texts[one]]
    functions_of = {crate: set(all_functions(pathlib.Path('crates', crate, 'src'))) for crate in {edit.parent.parent.name for edit, _ in ready}}
    given = [(edit.parent.parent.name, texts[edit, name], name if name in functions_of[edit.parent.parent.name] else None) for edit, name in ready]
    found = {one: Said('') for one in asked}
    for (edit, name), log in zip(ready, tries.tried(given)):
        path = pathlib.Path('target/must-fail', edit.parent.parent.name, f'{edit.stem}{"." + name.replace("::", ".") if name else ""}{".false" if without else ""}.log')
        path.parent.mkdir(parents=True, exist_ok=True)
        path.write_text(log, encoding='utf-8')
        found[edit, name] = Said(log)
    return found


def answers(edits):
    """The wrong answers that the edits try, each with whether it is refused."""
    whole = said_of([(edit, None) for edit in edits])
    named = [(edit, name) for edit in edits for name, _ in wrong(edit)]
    left = list(dict.fromkeys(one for one in named if not whole[one[0], None].refuses(one[1])))
    alone = said_of(left)
    left = [one for one in left if not alone[one].refuses(one[1])]
    functions_of = {crate: set(all_functions(crate / 'src')) for crate in {edit.parent.parent for edit, _ in left}}
    bare = said_of([one for one in left if changed(*one) and one[1] in functions_of[one[0].parent.parent]], 'Answers.antt')
    shown = set(named) - set(left) | {one for one, said in bare.items() if one[1] in said.false}
    for edit in edits:
        said = whole[edit, None]
        for name, _ in wrong(edit):
            yield f'{label_of(edit)}: {name}', (edit, name) in shown
        if not wrong(edit):
            yield label_of(edit), not edit.match(GROUPS) and said.refuses_one()


def all_functions(source):
    """The names of the functions of a crate's folder src/."""
    for path in sorted(source.rglob('*.rt')):
        yield from (function.name for function in functions(path.relative_to(source).as_posix(), path.read_text(encoding='utf-8')))


def public_functions(source):
    """The names of the public functions of a crate's folder src/."""
    for path in sorted(source.rglob('*.rt')):
        found = functions(path.relative_to(source).as_posix(), path.read_text(encoding='utf-8'))
        yield from (function.name for function in found if function.public)


def gaps(crate):
    """The public functions of a library crate that fewer than two of its groups name."""
    groups = [{name for name, _ in wrong(path)} for path in crate.glob(f'must-fail/{GROUPS}')]
    public = list(public_functions(crate / 'src'))
    if not public and len(list(crate.glob('must-fail/*.edit'))) < 2:
        return [f'{crate.name}: theorems alone, and fewer than two edits']
    if public and not groups:
        return [f'{crate.name}: no group of wrong answers, and {len(public)} public functions']
    few = [name for name in public if sum(name in group for group in groups) < 2]
    return [f'{crate.name}: {name} is not named in two groups' for name in few]


def table():
    """The document: a row for the wrong answers of each function."""
    found = {}
    for edit in sorted(pathlib.Path('crates').glob(f'*/must-fail/{GROUPS}')):
        for name, what in wrong(edit):
            found.setdefault((edit.parent.parent.name, name), []).append(what)
    return HEAD + ''.join(f'| {crate} | `{name}` | {"; ".join(what)} |\n' for (crate, name), what in found.items())


def document_faults():
    """What the documents say that the edits do not."""
    if not TABLE.is_file() or TABLE.read_text(encoding='utf-8') != table():
        yield f'{TABLE} is not what `python3 tests/wrong_answers.py --table` prints'
    for crate, label, words in CITED.findall(CLAIMS.read_text(encoding='utf-8')):
        edit = pathlib.Path('crates', crate, 'must-fail', f'{label}.edit')
        if edit.parent.parent.is_dir() and not edit.is_file():
            yield f'{CLAIMS} names {crate}/{label}, which is not there'
        elif words and edit.is_file() and not any(what.startswith(words.strip()) for _, what in wrong(edit)):
            yield f'{CLAIMS} names {crate}/{label}: {words.strip()}, which it does not try'


def main():
    if sys.argv[1:] == ['--table']:
        print(table(), end='')
        return 0
    edits = sorted(pathlib.Path('crates').glob('*/must-fail/*.edit'))
    if only := sys.argv[1:]:
        edits = [edit for edit in edits if {edit.parent.parent.name, label_of(edit)} & set(only)]
    crates = sorted({edit.parent.parent.name for edit in edits})
    lost = [f'{crate}: not tried, since `rt check` has not passed in it' for crate in crates if not tries.is_ready(crate)]
    lost += [f'{label_of(edit)}: its texts do not stand once each in its files' for edit in edits if not changed(edit)]
    tried = list(answers([edit for edit in edits if tries.is_ready(edit.parent.parent.name)]))
    lost += [f'{name}: not shown to be refused at a fact' for name, shown in tried if not shown]
    if not only:
        libraries = sorted(path.parent.parent for path in pathlib.Path('crates').glob('*/src/lib.rt'))
        lost += [gap for crate in libraries for gap in gaps(crate)]
        lost += document_faults()
    for line in lost:
        print(line)
    print(f'wrong answers: {sum(shown for _, shown in tried)} refused, {len(lost)} not shown')
    return 1 if lost else 0


if __name__ == '__main__':
    sys.exit(main())
