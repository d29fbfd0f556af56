"""What the prover says of a crate whose text is changed: of a must-fail edit, or of changed numbers.

`rt` says of an edit that it is refused, with the first fault, and keeps no more. A try here is a `rt check` of its own, in a copy of the
crate and of what is built of those below it. It begins with what `rt check` kept of the crate as it is, in crates/NAME/out: so that has
to be made before, by `rt check` in the crate's folder or by `rt all check` at the top. As many tries run side by side as there are
processors. Run what uses this at the repository's root.
"""
import concurrent.futures
import os
import pathlib
import queue
import shutil
import subprocess
import tempfile

CRATES = pathlib.Path('crates')
PARTS = ('src', 'specs', 'proofs')


def listed():
    """The crates of crates.txt, each with all of them that it is built on, in their order there, lowest first."""
    lines = [line.partition(':') for line in pathlib.Path('crates.txt').read_text(encoding='utf-8').splitlines()]
    named = {head.split()[0]: said.split() for head, colon, said in lines if colon and not head.startswith('#')}

    def below(name):
        return {low for direct in named[name] if direct in named for low in (direct, *below(direct))}

    return {name: [low for low in named if low in below(name)] for name in named}


def is_ready(crate):
    """Whether a try of the crate has something to begin with."""
    return CRATES.joinpath(crate, 'out', 'incremental').is_dir()


def linked(one, other):
    """A second name of a file that rt makes, which it replaces and never writes into; a copy where a link cannot be made."""
    try:
        os.link(one, other)
    except OSError:
        shutil.copy2(one, other)


class Room:
    """A copy of the repository's crates, of those that were asked for so far."""

    def __init__(self, top):
        self.top = pathlib.Path(top)
        self.libraries = set()
        self.top.joinpath('crates').mkdir()

    def put(self, crate, kept):
        """Copies a crate as it is, with what rt made of it: its library, or what a check kept."""
        to = self.top / 'crates' / crate
        shutil.rmtree(to, ignore_errors=True)
        for part in PARTS:
            if CRATES.joinpath(crate, part).is_dir():
                shutil.copytree(CRATES / crate / part, to / part)
        made = CRATES / crate / 'out' / kept
        if made.is_dir():
            shutil.copytree(made, to / 'out' / kept, copy_function=linked)
        return to

    def said(self, crate, below, texts, only):
        """What `rt check` says of the crate with these texts in the place of its own, and without the files that have None."""
        for library in below:
            if library not in self.libraries:
                self.put(library, 'rlib')
                self.libraries.add(library)
        self.libraries.discard(crate)
        self.top.joinpath('crates.txt').write_text(''.join(line_of(name) for name in [*below, crate]), encoding='utf-8')
        folder = self.put(crate, 'incremental')
        for path, text in texts.items():
            if text is None:
                folder.joinpath(path).unlink(missing_ok=True)
            else:
                folder.joinpath(path).write_text(text, encoding='utf-8')
        command = [os.environ.get('RT', 'rt'), 'check', '--jobs', '1', *(['--only', f'{crate}::{only}'] if only else [])]
        ran = subprocess.run(command, cwd=folder, stdin=subprocess.DEVNULL, stdout=subprocess.PIPE, stderr=subprocess.STDOUT)
        return ran.stdout.decode(errors='replace')


def line_of(crate):
    """The crate's line of crates.txt."""
    lines = pathlib.Path('crates.txt').read_text(encoding='utf-8').splitlines(keepends=True)
    return next(line for line in lines if line.split(':')[0].split()[:1] == [crate])


def tried(tries):
    """What is said of each of these tries, side by side and in their order: a crate, its changed texts by their paths in it, and the
    function that is looked at, if it is one alone."""
    tries, crates = list(tries), listed()
    number = max(1, min(len(tries), len(os.sched_getaffinity(0))))
    with tempfile.TemporaryDirectory() as folder, concurrent.futures.ThreadPoolExecutor(number) as pool:
        rooms = queue.SimpleQueue()
        for at in range(number):
            top = pathlib.Path(folder, str(at))
            top.mkdir()
            rooms.put(Room(top))

        def one(given):
            crate, texts, only = given
            room = rooms.get()
            try:
                return room.said(crate, crates[crate], texts, only)
            finally:
                rooms.put(room)

        return list(pool.map(one, tries))
