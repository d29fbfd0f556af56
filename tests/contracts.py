"""Every public function of a library crate answers every input: it has no `requires`, and its `ensures` speaks of what it gives
back and of what each parameter that is lent to be changed holds at its end. Run this at the repository's root.

That what is said determines them is not looked at: docs/CLAIMS.md says which definition each equals."""
import pathlib
import re
import sys

from sources import MUTABLE, functions

# The result, and what such a parameter holds at the end, as a clause writes them.
RESULT = re.compile(r'(?<![\w.-])result(?![\w-])')
AT_THE_END = r'(?<![\w.-])(?:{0}|«{0}»)\.new\b'


def faults(function):
    if function.requires:
        yield 'has a requires'
    if not function.ensures:
        yield 'has no ensures'
        return
    if function.result and not any(map(RESULT.search, function.ensures)):
        yield 'has an ensures that does not speak of its result'
    for name, kind in function.parameters:
        if MUTABLE.match(kind) and not re.search(AT_THE_END.format(re.escape(name)), ' '.join(function.ensures)):
            yield f'has an ensures that does not speak of what `{name}` holds at the end'


def main():
    libraries = sorted(lib.parent for lib in pathlib.Path('crates').glob('*/src/lib.rt'))
    count, found = 0, []
    for library in libraries:
        for path in sorted(library.rglob('*.rt')):
            for function in functions(path.relative_to(library).as_posix(), path.read_text(encoding='utf-8')):
                if function.public:
                    count += 1
                    found += [f'{path}: {function.name} {fault}' for fault in faults(function)]
    print('\n'.join(found) or f'{len(libraries)} libraries: every one of {count} public functions answers every input')
    return 1 if found else 0


if __name__ == '__main__':
    sys.exit(main())
