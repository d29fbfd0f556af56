#!/usr/bin/env python3
"""compare.py CAPTURE LINES ANSWERS: what tshark shows of the frames of CAPTURE, as ANSWERS has it (answers.py), is compared, field
by field, with what our readers made of them: LINES, from frames.c. Prints one line of counts; or the first 20 differences, with the frames' octets, and
how many there are, with exit status 1.

One difference is expected, and must be as docs/DIFFERENCES.md has it: EN and EC of a StatusResponse. tshark 4.0.17 was run.

What tshark does not show is left out, and counted:
- bit 6 of the error field's first octet, and its second octet;
- the name of a state that it has none for: 79 h, and 4D h where the source is node 240;
- 2,147,483,647 nanoseconds, which stand for a time without any in tshark;
- of an ASnd's payload, which tshark reads by its service: what an SDO has behind its second octet, the second octet of an
  NMTCommand, and what an IdentResponse's layout skips. There the flags, addresses and names are left out by us.
Bits that only tshark names (FLS, SLS, AN, redundancy) are nobody's here.
Two things take another form there. A section of 46 octets keeps the zeros that end an ASnd's payload (our reader drops them,
as powerlink-rs does): they are held to be zeros. And an error list goes on to the frame's end: ours must be what stands before
the first entry of mode 0, and the rest is counted as behind the list."""
import calendar
import collections
import itertools
import re
import sys
import time

import answers

ASND_FRONT = 18
MONTHS = 'Jan Feb Mar Apr May Jun Jul Aug Sep Oct Nov Dec'.split()
TIME = re.compile(r'(\w{3}) +(\d+), (\d{4}) (\d\d:\d\d:\d\d)(?:\.(-?\d+))? UTC')

ALL = {'ether_type': 'eth.type', 'message_type': 'epl.mtyp', 'destination': 'epl.dest', 'source': 'epl.src'}
NUMBERS = {
    'soc': {'mc': 'epl.soc.mc', 'ps': 'epl.soc.ps', 'relative_time': 'epl.soc.relativetime'},
    'preq': {'ms': 'epl.preq.ms', 'ea': 'epl.preq.ea', 'rd': 'epl.preq.rd', 'pdo_version': 'epl.preq.pdov',
             'size': 'epl.preq.size'},
    'pres': {'ms': 'epl.pres.ms', 'en': 'epl.pres.en', 'rd': 'epl.pres.rd', 'pdo_version': 'epl.pres.pdov',
             'size': 'epl.pres.size', 'state': 'epl.pres.stat', 'pr': 'epl.pres.pr', 'rs': 'epl.pres.rs'},
    'soa': {'ea': 'epl.soa.ea', 'er': 'epl.soa.er', 'requested_service': 'epl.soa.svid', 'target': 'epl.soa.svtg',
            'epl_version': 'epl.soa.eplv', 'state': 'epl.soa.stat'},
    'asnd': {'service': 'epl.asnd.svid'},
    'status': {'service': 'epl.asnd.svid', 'en': 'epl.asnd.sres.en', 'ec': 'epl.asnd.sres.ec', 'pr': 'epl.asnd.sres.pr',
               'rs': 'epl.asnd.sres.rs', 'state': 'epl.asnd.sres.stat'},
}
ENTRY = {'status_entry': 'type.bit15', 'send_to_queue': 'type.bit14', 'mode': 'type.mode', 'profile': 'type.profile',
         'code': 'code', 'information': 'add'}
ERROR_BITS = (0, 1, 2, 3, 4, 5, 7)

# What tshark shows of payloads: as numbers, low octet first (1 to 7 octets of a PReq or PRes among them), and as octets.
PAYLOAD_NUMBERS = ['epl.od.data.uint', 'epl.asnd.nmtrequest.rcid', 'epl.asnd.nmtrequest.rct', 'epl.asnd.nmtcommand.cid'] + [
    'epl.asnd.ires.' + name for name in (
        'state eplver features mtu pollinsize polloutsizes resptime devicetype devicetype.add vendorid productcode revisionno '
        'serialno vendorext1 confdate conftime appswdate appswtime').split()]
PAYLOAD_OCTETS = ['data.data', 'epl.asnd.nmtrequest.rcd', 'epl.asnd.nmtcommand.cdat', 'epl.asnd.ires.vendorext2']
SDO = 'epl.asnd.sdo.seq.'
IDENT_END = 176  # where an IdentResponse ends in its frame

left_out = collections.Counter()


class Unreadable(Exception):
    pass


def number(field):
    return int(field.show, 0)


def octets(field):
    return bytes.fromhex(field.show.replace(':', ''))


def one(shown, name):
    if len(shown[name]) != 1:
        raise Unreadable(f'{name} is shown {len(shown[name])} times')
    return shown[name][0]


def times(field):
    """Seconds, and nanoseconds or None; tshark keeps these in 32 bits with a sign."""
    match = TIME.fullmatch(field.show)
    if match is None:
        raise Unreadable(f'a time is shown as {field.show}')
    month, day, year, clock, fraction = match.groups()
    date = f'{year}-{MONTHS.index(month) + 1}-{day} {clock}'
    seconds = calendar.timegm(time.strptime(date, '%Y-%m-%d %H:%M:%S'))
    return seconds, None if fraction is None else int(fraction) % 2**32


def say_times(field, prefix, ours, theirs):
    seconds, nanoseconds = times(field)
    theirs[prefix + 'seconds'] = str(seconds)
    name = prefix + 'nanoseconds'
    if nanoseconds is None and ours.get(name) == str(2**31 - 1):
        left_out['nanoseconds'] += 1
        ours.pop(name)
    else:
        theirs[name] = str(nanoseconds)


def state_name(field, ours, theirs):
    name = re.fullmatch(r'NMTStatus: (\w+) \(0x[0-9a-f]+\)', field.showname).group(1)
    if name == 'Unknown' and (ours['state'] == str(0x79) or (ours['state'] == str(0x4D) and ours['source'] == '240')):
        left_out['state names'] += 1
        ours.pop('state_name')
    else:
        theirs['state_name'] = re.sub('^NMT_([CM]S_)?', '', name).replace('INITIALIZING', 'INITIALISING')


def payload_octets(shown):
    """Place in the frame and octet, for all that tshark shows of a payload."""
    places = {}

    def put(place, some):
        for i, octet in enumerate(some):
            if places.setdefault(place + i, octet) != octet:
                raise Unreadable(f'two octets are shown at {place + i}')

    for name in PAYLOAD_NUMBERS:
        for field in shown[name]:
            put(int(field.pos), number(field).to_bytes(int(field.size), 'little'))
    for name in PAYLOAD_OCTETS:
        for field in shown[name]:
            some = octets(field)
            if len(some) != int(field.size):
                raise Unreadable(f'{name} is cut')
            put(int(field.pos), some)
    for i, way in enumerate(('receive', 'send')):
        for counter, connection in zip(shown[f'{SDO}{way}.sequence.number'], shown[f'{SDO}{way}.con']):
            put(ASND_FRONT + i, bytes([number(counter) << 2 | number(connection)]))
    return places


def poll_payload(shown, theirs):
    places = payload_octets(shown)
    if sorted(places) != list(range(24, 24 + len(places))):
        raise Unreadable('the payload has gaps')
    theirs['payload'] = bytes(places[place] for place in sorted(places)).hex()


def asnd_payload(shown, ours, theirs, frame):
    """Their payload, where they do not show an octet ours, and zeros that ours drops left aside."""
    places = payload_octets(shown)
    mine = bytes.fromhex(ours['payload'])
    trimmed = len(frame) - 14 == 46
    end = len(frame) if trimmed else ASND_FRONT + len(mine)
    whole = mine + bytes(end - ASND_FRONT - len(mine))
    hidden = [place for place in range(ASND_FRONT, end) if place not in places]
    if not places or max(places) >= len(frame):
        raise Unreadable('no payload is shown, or more than the frame has')
    if len(hidden) > 2 and ours['service'] not in ('1', '5'):
        raise Unreadable(f'{len(hidden)} octets of the payload are not shown')
    left_out['payload octets'] += len(hidden)
    places.update((place, whole[place - ASND_FRONT]) for place in hidden)
    found = bytes(places[place] for place in sorted(places))
    theirs['payload'] = (found.rstrip(b'\0') if trimmed else found).hex()


def error_list(shown, ours, theirs):
    field = bytearray(8)
    for bit in ERROR_BITS:
        field[0] |= number(one(shown, f'epl.asnd.res.seb.bit{bit}')) << bit
    field[2:] = octets(one(shown, 'epl.asnd.res.seb.devicespecific_err'))
    mine = bytearray.fromhex(ours['field'])
    mine[0] &= 0xBF
    mine[1] = 0
    ours['field'] = mine.hex()
    theirs['field'] = field.hex()
    left_out['octets of error fields, whole or in part'] += 2

    front = 'epl.asnd.sres.el.entry.'
    columns = {name: shown[front + theirs_name] for name, theirs_name in ENTRY.items()}
    stamps = shown[front + 'time']
    lengths = {len(column) for column in columns.values()} | {len(stamps)}
    if len(lengths) != 1:
        raise Unreadable('an entry is shown in part')
    modes = [number(field) for field in columns['mode']]
    count = modes.index(0) if 0 in modes else len(modes)
    behind_the_list = len(modes) - count
    theirs['entries'] = str(count)
    for i in range(count):
        for name, column in columns.items():
            theirs[f'entry{i}.{name}'] = str(number(column[i]))
        say_times(stamps[i], f'entry{i}.', ours, theirs)
    return behind_the_list


def exceptions(ours, theirs, frame, counts):
    """EN and EC are bits 5 and 4 for us, and bits 4 and 3 for tshark: both must be so. They leave the comparison."""
    first = frame[ASND_FRONT]
    bits = [str(first >> bit & 1) for bit in (5, 4, 3)]
    mine = [ours.pop('en'), ours.pop('ec')]
    other = [theirs.pop('en'), theirs.pop('ec')]
    if mine != bits[:2] or other != bits[1:]:
        return [f'EN and EC are {mine} for us and {other} for tshark, which docs/DIFFERENCES.md does not have']
    counts['en_ec'] += mine != other
    counts[f'first {first & 0x38:02x}'] += 1
    return []


def differences(kind, ours, shown, frame, counts):
    theirs = {'eth_to': octets(one(shown, 'eth.dst')).hex(), 'eth_from': octets(one(shown, 'eth.src')).hex()}
    found = []
    for name, field in {**ALL, **NUMBERS[kind]}.items():
        theirs[name] = str(number(one(shown, field)))
    theirs['kind'] = ' '.join(name for name in ('soc', 'preq', 'pres', 'soa', 'asnd', 'ainv', 'amni') if shown['epl.' + name])
    ours['kind'] = 'asnd' if kind == 'status' else kind
    if 'state' in NUMBERS[kind]:
        state_name(one(shown, NUMBERS[kind]['state']), ours, theirs)
    if kind == 'soc':
        say_times(one(shown, 'epl.soc.nettime'), '', ours, theirs)
    elif kind in ('preq', 'pres'):
        poll_payload(shown, theirs)
    elif kind == 'asnd':
        asnd_payload(shown, ours, theirs, frame)
    elif kind == 'status':
        counts['behind'] += error_list(shown, ours, theirs)
        found += exceptions(ours, theirs, frame, counts)
    # An IdentResponse that is shorter than its layout is cut off for tshark; nothing else may be.
    if shown['_ws.malformed'] and not (kind == 'asnd' and ours['service'] == '1' and len(frame) < IDENT_END):
        found.append('tshark finds the frame malformed')
    for name in sorted(ours.keys() | theirs.keys()):
        counts[kind] += 1
        if ours.get(name) != theirs.get(name):
            found.append(f'{name} is {ours.get(name)} for us, and {theirs.get(name)} for tshark')
    return found


def frames(capture):
    with open(capture, 'rb') as file:
        file.read(24)
        while head := file.read(16):
            yield file.read(int.from_bytes(head[8:12], 'little'))


def main():
    capture, lines, path = sys.argv[1:]
    version, answered = answers.stored(capture, path)
    with open(lines, encoding='ascii') as file:
        said = [line.split() for line in file]
    octets_of = list(frames(capture))
    if len(said) != len(octets_of):
        sys.exit(f'{len(said)} lines, and {len(octets_of)} frames in the capture')
    counts = collections.Counter()
    of_kind = collections.Counter()
    failures = 0
    decoded = 0
    for words, frame, fields in itertools.zip_longest(said, octets_of, map(answers.shown, answered)):
        if words is None or fields is None:
            sys.exit(f'tshark decodes {"fewer" if fields is None else "more"} frames than the {len(said)} of the capture')
        decoded += 1
        kind = words[1]
        of_kind[kind] += 1
        ours = dict(word.split('=', 1) for word in words[2:] if word != 'turned=1')
        try:
            found = differences(kind, ours, fields, frame, counts)
        except Unreadable as reason:
            found = [f'tshark is not understood: {reason}']
        for difference in found:
            failures += 1
            if failures <= 20:
                print(f'frame {words[0]} ({kind}): {difference}\n  {frame.hex()}')
    for kind in NUMBERS:
        if of_kind[kind] == 0:
            sys.exit(f'no frame of the kind {kind}')
    for first in ('20', '10', '08'):  # the octets that docs/DIFFERENCES.md names
        if counts[f'first {first}'] == 0:
            sys.exit(f'no StatusResponse begins {first}')
    if failures:
        sys.exit(f'tshark {version}: {failures} differences')
    total = sum(counts[kind] for kind in NUMBERS)
    kinds = ', '.join(f'{kind} {counts[kind]} in {of_kind[kind]}' for kind in NUMBERS)
    rest = ', '.join(f'{count} {name}' for name, count in sorted(left_out.items()))
    print(f'tshark {version}: {total} fields of {decoded} frames agree ({kinds}); EN and EC differ in {counts["en_ec"]} of '
          f'{of_kind["status"]} StatusResponses as docs/DIFFERENCES.md has it; not shown: {rest}; '
          f'behind error lists: {counts["behind"]} entries')


if __name__ == '__main__':
    main()
