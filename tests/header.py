"""include/powerlink.h says what the sources say. Run this at the repository's root.

- Every exported function of crates/powerlink_c/src is declared, with the same parameters in the same order, and no other:
  a lent slice is a pointer and a length, an array has its length, what is not `&mut` is const, and pointers are restrict.
- The exported functions are the public ones of crates/powerlink/src, each with the parameters, the result and the contract of the
  one that it calls, and with nothing but that call.
- Every declaration has a comment of its own. Its causes and their order are those of the contract: of a writer, as its
  definition in specs/Given.antt tests them; of loading a table, as its definition in services/specs/Load.antt does; of any
  other call, as ORDERS has them. `octet` goes with those of 4 to 7. What else the comments say is not looked at.
- The functions that make a state have the interface's version, POWERLINK_VERSION, at the end of the name that is linked, any other
  function that has one there a version from 2 to it; each has a `#define` of its name without it.
- Every constant has the value of its source, a `const` or a definition in specs/, and none is without a source; every
  code, cause, outcome and place of a value has its constant.
It prints a line for each fault.
"""
import functools
import pathlib
import re
import sys

from sources import functions

CRATES = pathlib.Path('crates')
HEADER = pathlib.Path('include/powerlink.h')

# ---- the sources


def text_of(*parts):
    return CRATES.joinpath(*parts).read_text(encoding='utf-8')


@functools.cache
def code_of(crate):
    """The Rattle of a crate, without comments."""
    files = sorted(CRATES.joinpath(crate, 'src').rglob('*.rt'))
    return re.sub(r'//[^\n]*', '', '\n'.join(path.read_text(encoding='utf-8') for path in files))


def constant(crate, name):
    """The value of a constant: sums and products of numbers and constants, with casts, or an array of them."""
    code = code_of(crate)
    found = re.search(rf'\bconst {name}: [^=]*= ([^;]+);', code)
    if not found:
        owner = re.search(rf'^(?:pub )?use (\w+)::[^;]*\b{name}\b[^;]*;', code, re.M)
        return constant(owner[1], name)
    if found[1].startswith('['):
        return [value_of(crate, item) for item in found[1].strip('[]').split(',') if item.strip()]
    return value_of(crate, found[1])


def value_of(crate, text):
    numbers = re.sub(r'\b[A-Z]\w*', lambda name: str(constant(crate, name[0])), re.sub(r' as \w+', '', text.strip()))
    return eval(numbers, {'__builtins__': {}})


def equations(text, function):
    """The lines `function CASE .. = VALUE` of a definition by cases: the case without its module, of a Result its outcome or error,
    and the value."""
    return re.findall(rf'^{function} \(?(?:(?:Ok|Err) )?\(?(?:\w+\.)?(\w+)[^=\n]*= (.*)$', text, re.M)


def items(text, left):
    """What a definition lists: the texts between the ∷ of the list that stands after the line `left`."""
    body = re.search(rf'^{left} =\s(.*?)∷ \[\]$', text, re.M | re.S)[1]
    return [' '.join(item.split()) for item in body.split('∷')]


# ---- the constants that the sources ask for


def snake(name):
    return re.sub(r'(?<=[a-z])(?=[A-Z0-9])|(?<=[A-Z])(?=[A-Z][a-z])', '_', name).upper()


# Constants that the sources have under other names.
CONSTANTS = {
    'REPORTER_LEN': ('reporter', 'REPORTER_LEN'),
    'COLLECTOR_LEN': ('collector', 'COLLECTOR_LEN'),
    'SERVICES_LEN': ('services', 'SERVICES_LEN'),
    'ETH_LEN': ('types', 'ETH_LEN'),
    'ENTRY_LEN': ('error_entry', 'ENTRY_LEN'),
    'RECORD_LEN': ('journal_records', 'JOURNAL_RECORD_LEN'),
    'JOURNAL_START_LEN': ('journal_records', 'JOURNAL_START_LEN'),
    'ETH_LEN': ('types', 'ETH_LEN'),
    'ETHER_TYPE': ('types', 'C_DLL_ETHERTYPE_EPL'),
    'MULTICAST_SOC': ('types', 'C_DLL_MULTICAST_SOC'),
    'MULTICAST_PRES': ('types', 'C_DLL_MULTICAST_PRES'),
    'MULTICAST_SOA': ('types', 'C_DLL_MULTICAST_SOA'),
    'MULTICAST_ASND': ('types', 'C_DLL_MULTICAST_ASND'),
    'MAX_CN_NODE': ('types', 'C_ADR_MAX_CN_NODE_ID'),
    'MN_NODE': ('types', 'C_ADR_MN_DEF_NODE_ID'),
    'BROADCAST_NODE': ('types', 'C_ADR_BROADCAST_NODE_ID'),
}

# Tables of codes, with the name of a constant for that of a variant.
CODES = {
    ('Messages', 'message_code'): str.upper,
    ('States', 'state_code'): lambda name: re.sub('^NMT_(CS_)?', '', snake(name)),
    ('RequestedServices', 'requested_code'): snake,
    ('PollFlags', 'priority_code'): lambda name: 'PRIO_' + snake(name).removeprefix('PRIO_'),
    ('Modes', 'mode_code'): snake,
}

# Lists of values: the definition, and what its constants begin with. What all kinds of frames share has no kind.
VALUES = [
    ('c_values/specs/Values.antt', r'soc_numbers f p', 'SOC_'),
    ('c_values/specs/Values.antt', r'preq_numbers f p', 'PREQ_'),
    ('c_values/specs/Values.antt', r'pres_numbers f p', 'PRES_'),
    ('c_values/specs/Values.antt', r'soa_numbers f p', 'SOA_'),
    ('c_values/specs/Values.antt', r'asnd_numbers f p', 'ASND_'),
    ('c_values/specs/Values.antt', r'status_numbers f', 'STATUS_'),
    ('error_entry/specs/Values.antt', r'entry_numbers e', 'ENTRY_'),
    ('powerlink/specs/Reading.antt', r'pl_after \(Ok h\) before', 'PL_'),
]
SHARED = ['MESSAGE_TYPE', 'DESTINATION', 'SOURCE', 'PAYLOAD_START', 'PAYLOAD_LEN']
FIELD_NAMES = {
    'start': 'PAYLOAD_START',
    'len': 'PAYLOAD_LEN',
    'nmt_state': 'STATE',
    'req_service_id': 'REQUESTED_SERVICE',
    'service_id': 'SERVICE',
    'target_node_id': 'TARGET',
    'is_status_entry': 'STATUS_ENTRY',
    'error_code': 'CODE',
    'additional_information': 'INFORMATION',
    'en_flag': 'EN',
    'ec_flag': 'EC',
}


def cause_numbers():
    """The numbers of the causes, by their names in specs/."""
    return {name: int(number) for name, number in re.findall(r'^(\w+) = (\d+)$', text_of('types/specs/CauseNumbers.antt'), re.M)}


def causes():
    """The causes of the sources, whose names in specs/ are the same but for letters' size."""
    yield 'DONE', 0
    in_specs = {name.upper(): number for name, number in cause_numbers().items()}
    for name, number in re.findall(r'^pub const (\w+): u8 = (\d+);$', text_of('types/src/causes.rt'), re.M):
        if in_specs.pop(name.upper(), None) == int(number):
            yield name, int(number)
        else:
            yield f'{name} of types/src/causes.rt, which is not that of types/specs/CauseNumbers.antt', int(number)
    for name, number in in_specs.items():
        yield f'{name} of types/specs/CauseNumbers.antt alone', number


def places():
    for path, left, prefix in VALUES:
        for place, item in enumerate(items(text_of(path), left)):
            if item == '0':
                continue
            named = [name for name in re.findall(r'\.«?(\w+)', item) if not name.isdigit()]
            field = 'message_type' if item.startswith('message_code') else named[-1]
            name = FIELD_NAMES.get(field, field.upper())
            frame = left.endswith(' p')
            yield (name if frame and name in SHARED else prefix + name), place


def lengths():
    for name, (crate, source) in CONSTANTS.items():
        yield name, constant(crate, source)
    for (file, table), named in CODES.items():
        for variant, value in equations(text_of('types', 'specs', f'{file}.antt'), table):
            yield named(variant), int(value, 0)
    request = re.search(r'length \(request_frame .*\) ≡ (\d+)$', text_of('collector/specs/Calls.antt'), re.M)
    yield 'REQUEST_LEN', int(request[1])
    rules = text_of('reporter/specs/Rules.antt')
    front, entry = re.search(r'^answer_length \(suc n\) = (\d+) \+ (\d+) \* suc n$', rules, re.M).groups()
    batch = re.search(r'^batch_length = (\d+)$', rules, re.M)
    yield 'ANSWER_MAX', int(front) + int(entry) * int(batch[1])
    start = items(text_of('journal_records/specs/ReadBack.antt'), 'journal_start')
    yield 'JOURNAL_START', [int(octet) for octet in start]


def services():
    """The twelve services by their names, and their table: what C leaves out at an array's end is 0."""
    ids = [int(octet, 0) for octet in items(text_of('services/specs/Ids.antt'), 'ds301_ids')]
    named = re.findall(r'^pub const (\w+): u8 = (\w+);$', text_of('services/src/lib.rt'), re.M)
    for name, octet in named:
        yield name, int(octet, 0)
    if [int(octet, 0) for _, octet in named] != ids:
        yield 'SERVICES of services/src/lib.rt, which are not those of services/specs/Ids.antt', ids
    table, used = constant('services', 'DS301'), max(ids) + 1
    if len(table) != constant('services', 'SERVICES_LEN') or any(table[used:]):
        yield 'DS301_SERVICES of services/src/ds301.rt, which is not that of services/specs/Ids.antt', ids
    yield 'DS301_SERVICES', table[:used]
    yield 'DS301_SERVICES', [int(octet in ids) for octet in range(used)]


def outcomes():
    for crate in ['reporter', 'collector']:
        for variant, value in re.findall(r'^read_cause \(Ok (\w+)\) = row 0 \((\d+) ∷ \[\]\)$', text_of(crate, 'specs/Rules.antt'), re.M):
            yield snake(variant), int(value)


# ---- the functions of the sources

SCALARS = {'u8': 'uint8_t', 'u16': 'uint16_t', 'u32': 'uint32_t', 'u64': 'uint64_t', 'usize': 'size_t', 'bool': 'bool'}
EXPORTED = re.compile(
    r'^(#\[unsafe\(no_mangle\)\]\s+)?(?:pub(?:\(\w+\))? )?extern "C" fn (\w+)\((.*?)\)\s*->\s*(\w+)\s+ensures \{ (\w+)(?: \((\w+))?',
    re.M | re.S,
)

# The causes of a contract, in the order of their tests (01: "Causes"); those of `deserialize_frame` are said in words.
ORDERS = {
    'WritesTo': [1], 'EthRead': [1], 'PlRead': [1, 4], 'StatusRead': [1, 5], 'FieldRead': [1], 'EntryRead': [1], 'StepRead': [],
    'ReporterMakes': [13], 'ReporterRaises': [8, 23, 9], 'ReporterAnswers': [1, 5], 'ReporterEn': [], 'CollectorMakes': [],
    'CollectorRegisters': [13, 14, 15], 'CollectorFlags': [11], 'CollectorRequests': [11, 1, 5], 'CollectorTakes': [11, 16],
    'JournalRecords': [1, 19], 'JournalWhole': [17, 18], 'ServicesContain': [],
}
# The contracts of the functions that make a state.
MAKERS = {'ReporterMakes', 'CollectorMakes'}
NAMED = {'typed': 4, 'stated': 5, 'served': 6, 'requested': 7}


def load_order():
    """The causes of loading a table, in the order in which its definition names their cases."""
    text = text_of('services/specs/Load.antt')
    rows = {case: value.split()[1] for case, value in equations(text, 'load_cause')}
    tests = ' '.join(re.search(rf'^{name} \w+ = (.*)$', text, re.M)[1] for name in ('load_answer', 'ids_answer'))
    return [cause_numbers()[rows[word]] for word in re.findall(r'\w+', tests) if rows.get(word, '0') != '0']


def order(contract, given):
    """The causes of a contract in their order, or None where the comment says them in words."""
    if contract == 'ServicesLoad':
        return load_order()
    if contract != 'WritesCoded':
        return ORDERS.get(contract)
    body = re.search(rf'^{given} [^\n]*=\n((?: .*\n)+)', text_of('powerlink/specs/Given.antt'), re.M)[1]
    return [1] + [NAMED[word] for word in re.findall(r'\b(typed|stated|served|requested)\b', body)]


def told(comment):
    """The causes that a comment names, and those with which it says that `octet` is written."""
    tests = re.search(r'Tests: ([\d,\s*]+)\.', comment)
    with_octet = re.search(r'`octet`\s+(?:\*\s+)?with ([\d and]+)', comment)
    return ([int(n) for n in re.findall(r'\d+', part[1])] if part else [] for part in (tests, with_octet))


def as_c(name, kind, arrays):
    """The parameters of C for one of Rattle."""
    lent, mutable, inner = re.fullmatch(r'(&?)(mut )?(.+)', kind).groups()
    if not lent:
        return [f'{SCALARS[kind]} {name}']
    const = '' if mutable else 'const '
    inner = arrays.get(inner, inner)
    if inner == '[u8]':
        return [f'{const}uint8_t *restrict {name}', f'size_t {name}_len']
    if array := re.fullmatch(r'\[(\w+); (\w+)\]', inner):
        return [f'{const}{SCALARS[array[1]]} {name}[restrict static {array[2]}]']
    return [f'{const}{SCALARS[inner]} *restrict {name}']


def exported():
    """Each exported function of the sources: its parameters in C and its result, whether its name is kept, its causes, and
    whether it makes a state."""
    arrays = {}
    for crate in ('reporter', 'collector', 'services'):
        for name, length in re.findall(r'^pub type (\w+) = \[u8; (\w+)\];', code_of(crate), re.M):
            arrays[name] = f'[u8; {constant(crate, length)}]'
    for mangled, name, parameters, result, contract, given in EXPORTED.findall(code_of('powerlink_c')):
        found = []
        for parameter in filter(None, (' '.join(part.split()) for part in parameters.split(','))):
            found += as_c(*parameter.split(': ', 1), arrays)
        yield name, (SCALARS[result], found), bool(mangled), order(contract, given), contract in MAKERS


def calls():
    """What an exported function is beside a call of the library's function of its name, under that one's contract."""

    def said(crate):
        source = CRATES / crate / 'src'
        for path in sorted(source.rglob('*.rt')):
            for function in functions(path.relative_to(source).as_posix(), path.read_text(encoding='utf-8')):
                if function.public:
                    yield function.name, function._replace(public=None)

    library, exports = dict(said('powerlink')), dict(said('powerlink_c'))
    for name in sorted(library.keys() ^ exports.keys()):
        yield f'{name} is public in {"powerlink" if name in library else "powerlink_c"} alone'
    for name in sorted(library.keys() & exports.keys()):
        if library[name] != exports[name]:
            yield f'{name} is exported with other parameters, another result or another contract than those of powerlink'
        given = r',\s*'.join(parameter for parameter, _ in exports[name].parameters)
        place, _, called = name.rpartition('::')
        if not re.search(rf'fn {called}\b[^}}]*}}\s*\{{\s*powerlink::{place}::{called}\(\s*{given},?\s*\)\s*\}}', code_of('powerlink_c')):
            yield f'{name} is exported as something else than the call of powerlink with its own parameters'


def versions():
    """The interface's version, as each function that makes a state has it in its name; no other name has a later one."""
    numbers = {name: re.search(r'_v(\d+)$', name) for name, *_ in exported()}
    made = {int(numbers[name][1]) if numbers[name] else None for name, *_, makes in exported() if makes}
    yield from (('VERSION', number) for number in made)
    for number in (int(found[1]) for found in numbers.values() if found):
        if not 2 <= number <= max(filter(None, made), default=0):
            yield 'VERSION', None


# ---- the header


class Header:
    """What the header says: its text, its constants, those that are lengths of arrays, and its functions."""

    def __init__(self, text):
        self.text = text
        self.faults = []
        self.constants = {}
        bare = re.sub(r'/\*.*?\*/', '', text, flags=re.S)
        defined = re.findall(r'^#define POWERLINK_(\w+) (\d\w*|\{.*\})$', bare, re.M)
        counted = re.findall(r'^ +POWERLINK_(\w+) = (\w+),?\s*$', bare, re.M)
        for name, value in defined + counted:
            if name in self.constants:
                self.faults.append(f'POWERLINK_{name} is there twice')
            numbers = [int(number, 0) for number in value.strip('{}').split(',')]
            self.constants[name] = numbers if value[0] == '{' else numbers[0]
        # Whatever is named in another form than those read here, or named anew.
        self.faults += [f'{line.strip()}: not looked at' for line in re.findall(r'^#\s*undef.*$', bare, re.M)]
        # The names that are linked, of functions that go by another.
        self.linked = dict(re.findall(r'^#define (powerlink_\w+) (powerlink_\w+)$', bare, re.M))
        seen = {f'POWERLINK_{name}' for name in self.constants} | {'POWERLINK_H', 'POWERLINK_RESTRICT', 'POWERLINK_ARRAY'}
        seen |= set(self.linked)
        self.used = set(re.findall(r'POWERLINK_ARRAY\(POWERLINK_(\w+)\)', bare))
        declared = re.findall(r'^(\w+) (powerlink_\w+)\(([^;]*)\);', bare, re.M)
        self.functions = {self.linked.get(name, name): (result, self.parameters(inside)) for result, name, inside in declared}
        words = re.findall(r'\bpowerlink_\w+|\bPOWERLINK_\w+', bare, re.I)
        self.faults += [f'{word} is in a form that is not read' for word in words if word not in seen and word not in self.functions]

    def parameters(self, inside):
        """The parameters of a declaration, with the macros as C has them and lengths as numbers."""
        inside = inside.replace('POWERLINK_RESTRICT', 'restrict')
        length = lambda found: f'restrict static {self.constants.get(found[1])}'
        inside = re.sub(r'POWERLINK_ARRAY\(POWERLINK_(\w+)\)', length, inside)
        return [' '.join(part.split()) for part in inside.split(',')]

    def comment(self, name):
        """The comment that ends right before the declaration of a function, by the name that is linked."""
        name = {linked: name for name, linked in self.linked.items()}.get(name, name)
        found = re.search(rf'/\*((?:(?!\*/).)*)\*/\s*\w+ {name}\(', self.text, re.S)
        return found[1] if found else ''


def function_faults(header):
    there = {}
    for name, signature, mangled, causes, _ in exported():
        there[name] = signature
        tests, with_octet = told(header.comment(name))
        if causes is not None and (tests != causes or with_octet != [cause for cause in causes if 4 <= cause <= 7]):
            yield f'the comment of {name} has the causes {tests}, `octet` with {with_octet}; its contract has {causes}'
        other = [word for word, linked in header.linked.items() if linked == name]
        plain = re.sub(r'_v\d+$', '', name)
        if other != ([plain] if plain != name else []):
            yield f'{name} is called by {other or "this name"}'
        if not mangled:
            yield f'{name} is exported without #[unsafe(no_mangle)]'
        if name not in header.functions:
            yield f'{name} is not declared'
        elif header.functions[name] != signature:
            ours, theirs = header.functions[name], signature
            yield f'{name} is declared as {ours[0]} ({", ".join(ours[1])}), and is {theirs[0]} ({", ".join(theirs[1])})'
    for name in header.functions:
        if name not in there:
            yield f'{name} is declared, and not in the sources'
        if not re.search(r'Tests: |Refuses nothing', header.comment(name)):
            yield f'{name} has no comment of its own that names its causes'
        given = any(parameter.endswith(' octet') for parameter in header.functions[name][1])
        if given != ('`octet`' in header.comment(name)):
            yield f'{name} and its comment differ in `octet`'


def constant_faults(header):
    wanted = {}
    for name, value in [*causes(), *versions(), *lengths(), *services(), *places(), *outcomes()]:
        if wanted.setdefault(name, value) != value:
            yield f'POWERLINK_{name} would be {wanted[name]} and {value}'
        if name not in header.constants:
            yield f'POWERLINK_{name} is not there: {value}'
        elif header.constants[name] != value:
            yield f'POWERLINK_{name} is {header.constants[name]}, and in the sources {value}'
    for name in header.constants:
        if name not in wanted and name not in header.used:
            yield f'POWERLINK_{name} has no source'
    for line in (
        '#define POWERLINK_RESTRICT restrict',
        '#define POWERLINK_ARRAY(n) restrict static n',
        '#define POWERLINK_ARRAY(n) n',
        'extern "C" {',
    ):
        if f'\n{line}\n' not in header.text:
            yield f'the header lacks: {line}'


def main():
    header = Header(HEADER.read_text(encoding='utf-8'))
    found = list(dict.fromkeys([*header.faults, *calls(), *function_faults(header), *constant_faults(header)]))
    functions, constants = len(header.functions), len(header.constants)
    print('\n'.join(found) or f'powerlink.h: {functions} functions and {constants} constants are those of the sources')
    return 1 if found else 0


if __name__ == '__main__':
    sys.exit(main())
