"""The sources as text: the functions of Rattle files with their contracts, and the declarations of antt files."""
import re
import typing

# A block of a type's own functions, or of those that a trait asks of it; and a trait.
IMPL = re.compile(r'^impl(?:<[^{>]*>)? (?:(?P<of>\w+(?:<[^{]*>)?) for )?(?P<owner>\w+).*?^}', re.M | re.S)
TRAIT = re.compile(r'^(?:pub )?trait (\w+).*?^}', re.M | re.S)
# What a trait's function gives, where the trait has a member for it.
GIVES = re.compile(r'^    ghost (\w+)_gives = (?=\{)', re.M)
FUNCTION = re.compile(r'^[ \t]*(pub(?:\(\w+\))? )?(?:const )?(?:extern "C" )?fn (\w+)(?:<(?:[^<>]|<[^<>]*>)*>)?(?=\()', re.M)
RESULT = re.compile(r'\s*(?:->\s*([^{]*?))?\s*(?=\{|\brequires\b|\bensures\b)')
# The type of a parameter that is lent to be changed, with its lifetime or without.
MUTABLE = re.compile(r"&(?:'\w+ )?mut\b")
# The variables of a function that a member is.
LAMBDA = re.compile(r'λ ([^.]+)\. ')
# A clause, with its name where it has one.
CLAUSE = re.compile(r'\s*(requires|ensures)\*? (?:\w+ )?(?=\{)')
CLOSES = {'(': ')', '{': '}'}
# What stands in front of a name that is declared: of a record or of data, or of what has a type.
WORDS = r'(?:(?:pub|abbrev|unfoldable) )*'
TYPE = re.compile(rf'{WORDS}(?:record|data) (\S+)')
TYPED = re.compile(rf'{WORDS}(\S+) :(?: |$)')
MODULE = re.compile(rf'{WORDS}module .*\bwhere$')


class Function(typing.NamedTuple):
    name: str  # MODULE::fn_name, MODULE::Type::fn_name, or MODULE::TypeTrait::fn_name, as rt names them
    public: bool  # so is what a trait asks of a type
    parameters: list  # of each its name and its type; that of `self` is empty, but for what lends it
    result: str
    requires: list
    ensures: list


def bare(text):
    """A text without its layout."""
    return ' '.join(text.split())


def inside(text, at):
    """What the bracket that opens at `at` holds, and the place behind it."""
    depth = 0
    for place in range(at, len(text)):
        depth += (text[place] == text[at]) - (text[place] == CLOSES[text[at]])
        if depth == 0:
            return text[at + 1:place], place + 1
    raise ValueError(f'a bracket is not closed: {text[at:at + 60]}')


def parameters(text):
    """The parameters of a function: names and types."""
    for part in filter(None, map(bare, text.split(','))):
        name, _, kind = part.partition(': ')
        if not kind:
            kind, _, name = part.rpartition(' ') if ' ' in part else (part.rstrip('self'), '', 'self')
        yield name.removeprefix('mut '), kind


def said_of(member, taken):
    """What a trait's member says of a function with these parameters, as a clause has it: it relates them, the result, and what those that
    are lent to be changed hold at the end."""
    changed = [name for name, kind in taken if MUTABLE.match(kind)]
    terms = [f'{name}.old' if name in changed else name for name, _ in taken] + ['result'] + [f'{name}.new' for name in changed]
    names = LAMBDA.match(member)
    if not names:
        return ' '.join([member, *terms])
    bound = names[1].split()
    for name, term in zip(bound, terms):
        member = re.sub(rf"(?<![\w.'·-]){re.escape(name)}(?![\w'·-])", f'«{term}»', member)
    body = member[LAMBDA.match(member).end():].replace('«', '').replace('»', '')
    left = terms[len(bound):]
    return ' '.join([f'({body})', *left]) if left else body


def module_of(path):
    """The parts of a module's name, from its file's path in src/."""
    return [part for part in path.removesuffix('.rt').split('/') if part not in ('lib', 'main', 'mod')]


def owner_of(impl):
    """The name that rt gives to a block's functions: `NmtStateTryFromU8` of `impl TryFrom<u8> for NmtState`."""
    trait = re.sub(r"'\w+", '', impl['of'] or '')
    return impl['owner'] if not trait else ''.join(word[0].upper() + word[1:] for word in re.findall(r'\w+', impl['owner'] + ' ' + trait))


def functions(path, text):
    """The functions of the file `path` of a folder src/. Those that a trait declares are of each type that has it."""
    text = re.sub(r'//[^\n]*', '', text)
    text = TRAIT.sub(lambda trait: re.sub(r'[^\n]', ' ', trait[0]), text)
    owners = [(impl.start(), impl.end(), owner_of(impl), impl['of'], impl[0]) for impl in IMPL.finditer(text)]
    for found in FUNCTION.finditer(text):
        within = [one for one in owners if one[0] <= found.start() < one[1]]
        owner = [name for _, _, name, _, _ in within]
        asked = [block for _, _, _, trait, block in within if trait]
        taken, at = inside(text, found.end())
        result = RESULT.match(text, at)
        at = result.end()
        clauses = {'requires': [], 'ensures': []}
        while clause := CLAUSE.match(text, at):
            said, at = inside(text, clause.end())
            clauses[clause[1]].append(bare(said))
        for gives in (one for block in asked for one in GIVES.finditer(block) if one[1] == found[2]):
            clauses['ensures'].append(said_of(bare(inside(asked[0], gives.end())[0]), list(parameters(taken))))
        name = '::'.join(module_of(path) + owner + [found[2]])
        yield Function(name, found[1] == 'pub ' or bool(asked), list(parameters(taken)), bare(result[1] or ''), **clauses)


def declarations(text):
    """The declarations of an antt file, in their order: the name, and its text without comments, layout and imports. What
    stands in a module without a name has the module's head in front."""
    text = re.sub(r'(^|\s)--(?=\s|$)[^\n]*', r'\1', text)
    heads, found = [], []
    for line in text.split('\n'):
        indent = len(line) - len(line.lstrip())
        words = line.strip()
        if not words or words.startswith('use '):
            continue
        while heads and indent <= heads[-1][0]:
            heads.pop()
        level = heads[-1][0] + 2 if heads else 0
        if indent == level and MODULE.match(words):
            heads.append((indent, words))
        elif indent == level and (named := TYPE.match(words) or TYPED.match(words)):
            found.append((named[1], [head for _, head in heads] + [words]))
        elif found:
            found[-1][1].append(words)
    return [(name, bare(' '.join(lines))) for name, lines in found]
