"""That moved.py tells what moved from what stayed: two commits of a small repository, made in a temporary folder, and what it prints."""
import pathlib
import subprocess
import sys
import tempfile

MOVED = pathlib.Path(__file__).resolve().parent / 'moved.py'

OLD = {
    'a/specs/Sizes.antt': """
        -- a comment
        abbrev pub size : ℕ
        size = 4

        abbrev pub kept : ℕ → ℕ
        kept n = n

        module _ (n : ℕ) where
          abbrev pub inner : ℕ
          inner = n

        pub record Fits (n : ℕ) : Type 0 where
          pub small : n ≤ size
    """,
    'a/specs/Gone.antt': """
        abbrev pub gone : ℕ
        gone = 0
    """,
    'a/src/lib.rt': """
        ghost use Rattle.a.specs.Sizes.{size, kept};

        // A comment.
        pub fn fits(n: usize) -> bool
            ensures { result ≡ leb n size }
        {
            n <= 4
        }

        pub fn twice(n: usize) -> usize
            ensures { result ≡ n }
        {
            n
        }

        impl From<usize> for Size {
            ghost from_gives = { λ n s. s.0 ≡ kept n };

            fn from(n: usize) -> Size {
                Size(n)
            }
        }

        fn own(n: usize) -> usize
            requires { n ≤ 4 }
            ensures value { result ≡ kept n }
        {
            n
        }
    """,
    'a/proofs/fits/Answers.antt': """
        use Rattle.a.proofs.fits.Goals as goal

        pub returns : goal.returns
        returns c = search rules
    """,
    'a/proofs/own/Invariants.antt': """
        pub loop-n : ℕ → ℕ
        loop-n n = n
    """,
    'a/proofs/own/Answers.antt': """
        pub returns : goal.returns
        returns c = refl
    """,
    'a/proofs/Laws.antt': """
        pub low : 0 ≤ 1
        low = omega arith

        pub high : 1 ≤ 2
        high = omega arith
    """,
}
# A contract as an older Rattle has it.
OLDER = """
        fn own(n: usize) -> usize
            ensures { λ r. ⌜ r ≡ n ⌝ }
        {
            n
        }
    """
# The text of a file in the second commit, made of the first by replacing texts; or the file that it moved to.
CHANGES = {
    'a/specs/Sizes.antt': [('-- a comment', '-- another'), ('size = 4', 'size = 5'), ('kept n = n', 'kept n =\n            n'), ('(n : ℕ) where\n', '(m n : ℕ) where\n')],
    'a/specs/Gone.antt': 'a/specs/Here.antt',
    'a/src/lib.rt': [('// A comment.\n', ''), ('n <= 4', 'n <= 5'), ('result ≡ n }', 'result ≡ n + n }'), ('n ≤ 4', 'n ≤ 5'), ('λ n s. s.0 ≡ kept n', 'λ m s. s.0 ≡ kept (m + 1)')],
    'a/proofs/fits/Answers.antt': [('search rules', 'search (rules)')],
    'a/proofs/own/Invariants.antt': [('loop-n n = n', 'loop-n n = 1')],
    'a/proofs/own/Answers.antt': [],
    'a/proofs/Laws.antt': [('high', 'upper')],
}
LOGS = [
    'rt: a proved\nseconds a 12\nin all 20 s, 30 s of processor time\n',
    'rt: a proved\nrt: b is kept: an earlier run on this machine proved the same files\nseconds b 7\nseconds a 5\nin all 9 s, 12 s of processor time\n',
]
EXPECTED = """\
a
  definitions: 2 changed, 1 moved, 2 stayed
    changed: Sizes.inner, Sizes.size
    moved: Here.gone (from Gone)
  public contracts: 2 changed, 1 stayed
    changed: twice, SizeFromUsize.from
    stayed: fits (cites what changed: Sizes.size)
  other contracts: 1 changed
    changed: own
  proofs: 1 added, 2 changed, 1 removed, 1 stayed
    added: Laws.upper
    changed: fits, own
    removed: Laws.high
all definitions: 0 added, 2 changed, 0 removed, 1 moved, 2 stayed
all public contracts: 0 added, 2 changed, 0 removed, 0 moved, 1 stayed
all other contracts: 0 added, 1 changed, 0 removed, 0 moved, 0 stayed
all proofs: 1 added, 2 changed, 1 removed, 0 moved, 1 stayed
seconds after which each was proved, before and after (of the gate: its time; processor time)
  a: 12 -> 5
  b: - -> 7
  gate: 20 -> 9; 30 -> 12
"""


def changed(files):
    for path, text in files.items():
        change = CHANGES[path]
        if isinstance(change, str):
            yield change, text
            continue
        for before, after in change:
            assert before in text, before
            text = text.replace(before, after)
        yield path, text


def main():
    with tempfile.TemporaryDirectory() as root:

        def run(*words):
            return subprocess.run(words, cwd=root, capture_output=True, text=True, check=True).stdout

        def commit(files, tag):
            for path in pathlib.Path(root).glob('crates/*/*/**/*.*'):
                path.unlink()
            for path, text in files.items():
                path = pathlib.Path(root, 'crates', path)
                path.parent.mkdir(parents=True, exist_ok=True)
                path.write_text('\n'.join(line[8:] for line in text.split('\n')), encoding='utf-8')
            run('git', 'add', '-A')
            run('git', '-c', 'user.name=a', '-c', 'user.email=a', 'commit', '-qm', tag)
            run('git', 'tag', tag)

        run('git', 'init', '-q')
        commit(OLD, 'old')
        commit(dict(changed(OLD)), 'new')
        for name, log in zip(('old.log', 'new.log'), LOGS):
            pathlib.Path(root, name).write_text(log, encoding='utf-8')
        said = run(sys.executable, str(MOVED), 'old', 'new', '--logs', 'old.log', 'new.log', '--out', 'whole')
        whole = pathlib.Path(root, 'whole').read_text(encoding='utf-8')
        older = dict(OLD, **{'a/src/lib.rt': OLDER})
        commit(older, 'older')
        refused = subprocess.run([sys.executable, str(MOVED), 'older', 'new'], cwd=root, capture_output=True, text=True)
    if said != EXPECTED or 'stayed: Sizes.Fits, Sizes.kept\n' not in whole or 'stayed: Laws.low\n' not in whole:
        print(f'moved.py says\n{said}and its file\n{whole}')
        return 1
    if refused.returncode == 0 or 'older is from before' not in refused.stderr:
        print(f'moved.py compares a commit of an older Rattle: {refused.stdout}{refused.stderr}')
        return 1
    print('moved.py: what moved and what stayed is told apart')
    return 0


if __name__ == '__main__':
    sys.exit(main())
