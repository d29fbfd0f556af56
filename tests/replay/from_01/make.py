#!/usr/bin/env python3
"""make.py [--check | --long]: writes `records` from reading.txt and writing.txt beside it: the cases written from 01, in the
form of tests/compare/calls/sample.rs. With --check the file must be the same. With --long the cases with payloads above
65,000 octets, which `records` leaves out, go to standard output."""
import re
import struct
import sys
from pathlib import Path

HERE = Path(__file__).parent
# What each octet of a target and of every out-parameter is before a call.
FILL = 0xFC
LONG = 65000

# The calls that write: number, numbers that go in, octets that go in, each in the order of the C function's parameters.
WRITERS = {
    "serialize_soc": (8, "dst src mc ps sec nsec rel", ""),
    "serialize_preq": (9, "dst src ms ea rd pdo size", "payload"),
    "serialize_pres": (10, "dst src state ms en rd pr rs pdo size", "payload"),
    "serialize_soa": (11, "dst src state ea er service node version", ""),
    "serialize_asnd": (12, "dst src service", "payload"),
    "serialize_eth_header": (13, "type", "to from"),
    "serialize_pl_header": (14, "kind dst src", ""),
    "serialize_entry": (15, "status queue mode profile code sec nsec info", ""),
    "serialize_error_field": (16, "", "field"),
    "serialize_status": (17, "en ec pr rs state", "field entries"),
    "new_soc": (18, "mc ps sec nsec rel", "from"),
    "new_preq": (19, "dst ms ea rd pdo", "from to payload"),
    "new_pres": (20, "src state ms en rd pr rs pdo", "from payload"),
    "new_soa": (21, "state ea er service node version", "from"),
    "new_asnd": (22, "dst src service", "from to payload"),
}

# What reading a frame gives: its message type, where its payload begins, and the values from the fifth on.
FRAMES = {
    "soc": (1, 0, "mc ps sec nsec rel"),
    "preq": (3, 24, "ms ea rd pdo size"),
    "pres": (4, 24, "ms en rd pdo size state pr rs"),
    "soa": (5, 0, "ea er service target version state"),
    "asnd": (6, 18, "service"),
}
ENTRY = "status queue mode profile code sec nsec info"

# Numbers that stand in hexadecimal.
HEXADECIMAL = {"state", "service", "code", "type"}


def number(name, text):
    return int(text, 16 if name in HEXADECIMAL else 10)


def octets(text, payload=b""):
    """The octets that tokens write: `0A`, a run `00*41`, or the payload as lent."""
    out = b""
    for token in text.split():
        m = re.fullmatch(r"([0-9A-F]{2})(?:\*(\d+))?", token)
        assert m or token == "payload", token
        out += bytes([int(m[1], 16)]) * int(m[2] or 1) if m else payload
    return out


def fields(words, names):
    """The numbers of words that are exactly these fields, each name followed by its value, in the order of `names`."""
    given = dict(zip(words[::2], words[1::2]))
    assert len(words) == 2 * len(given) and set(given) == set(names.split()), (words, names)
    return [number(name, given[name]) for name in names.split()]


def record(call, target, answer, numbers, values, parts, output):
    """A record: `answer` is the cause, and the octet that 01 returns with the causes from 4 on."""
    parts = [*parts, b"", b"", b""][:3] + [output]
    marks = [30 + 8 * (len(numbers) + len(values))]
    for part in parts:
        marks.append(marks[-1] + len(part))
    cause, octet = (answer + [FILL])[:2]
    head = struct.pack("<6I6B", *marks, target, call, FILL, cause, octet, len(numbers), len(values))
    return head + struct.pack(f"<{len(numbers) + len(values)}Q", *numbers, *values) + b"".join(parts)


def read(call, answer, source, values=(), output=b"", numbers=()):
    return record(call, 0, answer, numbers, values, [source], output)


def refusal(result):
    """The answer of a refusal, or none."""
    words = result.split()
    return [int(w) for w in words[1:]] if words[0] == "refused" else None


def read_frame(frame, result):
    kind, *words = result.split()
    message, start, names = FRAMES[kind]
    length = 0
    if start:
        at = words.index("payload")
        length, shown = int(words[at + 1]), "".join(words[at + 2 :])
        payload = frame[start : start + length]
        assert len(payload) == length
        assert shown == payload[:16].hex().upper() + (".." if length > 16 else ""), result
        words = words[:at]
    destination, source, *rest = fields(words, "dst src " + names)
    values = [message, destination, source, start, length, *rest]
    return [read(1, [0], frame, values + [0] * (16 - len(values)))]


def read_status(payload, result):
    """The front of a StatusResponse, then a step for each of its entries, and one that finds the end."""
    front, *entries = result.split(" entry ")
    words = front.split()[1:]
    field = bytes.fromhex(words[words.index("field") + 1])
    cases = [read(4, [0], payload, fields(words[:-2], "en ec pr rs state"), field)]
    for i, entry in enumerate([e.split() for e in entries] + [None]):
        offset = 14 + 20 * i
        values, following = (fields(entry, ENTRY), offset + 20) if entry else ([], 0)
        cases.append(read(7, [0], payload, values, struct.pack("<Q", following), [offset]))
    return cases


def reading(line):
    m = re.fullmatch(r"(.*?):(.*) => (.+)", line)
    name, source, result = m[1], octets(m[2]), m[3]
    call = next((n for start, n in (("eth", 2), ("pl", 3), ("status", 4)) if name.startswith(start)), 1)
    if refusal(result):
        return [read(call, refusal(result), source)]
    kind, *words = result.split()
    given = dict(zip(words[::2], words[1::2]))
    match kind:
        case "eth":
            return [read(call, [0], source, [], bytes.fromhex(given["dst"] + given["src"] + given["type"]))]
        case "pl":
            return [read(call, [0], source, [int(given[name]) for name in ("type", "dst", "src")])]
        case "status":
            return read_status(source, result)
        case _:
            return read_frame(source, result)


def writing(line, samples):
    m = re.fullmatch(r"(\w+)(.*) target (\d+) => (.+)", line)
    call, given = samples[m[1]]
    words = m[2].split()
    given = given | dict(zip(words[::2], words[1::2]))
    code, names, parts = WRITERS[call]
    payload = bytes(1 + i % 251 for i in range(int(given.get("payload", 0))))
    entries = samples.get("batch", b"")[: 20 * int(given.get("entries", 0)) - int(given.get("cut", 0))]
    lent = {"payload": payload, "entries": entries}
    given.setdefault("size", str(len(payload)))
    numbers = [number(name, given[name]) for name in names.split()]
    parts = [lent[p] if p in lent else bytes.fromhex(given[p]) for p in parts.split()]
    answer, values, output = refusal(m[4]), [], b""
    if not answer:
        length, tokens = re.fullmatch(r"written (\d+): (.+)", m[4]).groups()
        answer, values, output = [0], [int(length)], octets(tokens, payload)
        assert len(output) == int(length), line
    return [record(code, int(m[3]), answer, numbers, values, parts, output)]


def cases(file, make):
    for line in (HERE / file).read_text().splitlines():
        if line and not line.startswith("#"):
            yield from make(line)


def written(line, samples):
    if m := re.fullmatch(r"(\w+) = (\w+) (.+)", line):
        words = m[3].split()
        samples[m[1]] = octets(m[3]) if m[2] == "octets" else (m[2], dict(zip(words[::2], words[1::2])))
        return []
    return writing(line, samples)


def main():
    samples = {}
    records = [*cases("reading.txt", reading), *cases("writing.txt", lambda line: written(line, samples))]
    chosen = [r for r in records if (len(r) > LONG) == ("--long" in sys.argv)]
    data = b"PLC2" + struct.pack("<I", len(chosen)) + b"".join(chosen)
    if "--long" in sys.argv:
        sys.stdout.buffer.write(data)
    elif "--check" not in sys.argv:
        (HERE / "records").write_bytes(data)
    elif data != (HERE / "records").read_bytes():
        sys.exit("from_01: `records` is not what make.py makes of reading.txt and writing.txt")


if __name__ == "__main__":
    main()
