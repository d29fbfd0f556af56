#!/usr/bin/env python3
"""answers.py store|check CAPTURE FILE: what tshark answers for the frames of CAPTURE. `store` asks it and writes to FILE what
compare.py looks at, so that the comparison runs where there is no tshark; `check` asks it and demands what FILE has.

FILE is compressed text. Its first line has tshark's version and the digest of CAPTURE; then comes a line for each field, with
its name, what is shown, where it stands in the frame and in how many octets, and the name of a state; an empty line ends a frame."""
import collections
import gzip
import hashlib
import itertools
import os
import re
import subprocess
import sys
import tempfile
import typing
import xml.etree.ElementTree as ElementTree

# The fields that are looked at: those named, and all that begin with one of these.
NAMES = {'eth.dst', 'eth.src', 'eth.type', 'data.data', '_ws.malformed'}
FRONTS = ('epl.',)
STATES = {'epl.pres.stat', 'epl.soa.stat', 'epl.asnd.sres.stat'}


class Field(typing.NamedTuple):
    name: str
    show: str
    pos: str
    size: str
    showname: str  # of a state alone


def version():
    said = subprocess.run(['tshark', '--version'], capture_output=True, text=True, check=True).stdout.split('\n')[0]
    return re.search(r'\d+\.\d+\.\d+', said).group()


def digest(capture):
    with open(capture, 'rb') as file:
        return hashlib.sha256(file.read()).hexdigest()


def asked(capture):
    """For each frame the fields that tshark shows, in their order."""
    with tempfile.TemporaryDirectory() as empty, tempfile.TemporaryFile() as errors:  # nobody's preferences
        environment = dict(os.environ, LC_ALL='C', TZ='UTC', WIRESHARK_CONFIG_DIR=empty, HOME=empty)
        command = ['tshark', '-n', '-r', capture, '-T', 'pdml']
        with subprocess.Popen(command, stdout=subprocess.PIPE, stderr=errors, env=environment) as run:
            try:
                for _, element in ElementTree.iterparse(run.stdout):
                    if element.tag == 'packet':
                        yield list(fields(element))
                        element.clear()
            except ElementTree.ParseError:
                run.wait()
        if run.returncode != 0:
            errors.seek(0)
            sys.exit(f'tshark failed: {errors.read().decode()}')


def fields(packet):
    for field in packet.iter():
        name = field.get('name') or ''
        if name in NAMES or name.startswith(FRONTS):
            said = [field.get(key, '') for key in ('show', 'pos', 'size')]
            yield Field(name, *said, field.get('showname', '') if name in STATES else '')


def stored(capture, path):
    """The version of tshark that was asked, and for each frame of the capture its fields."""
    with gzip.open(path, 'rt', encoding='utf-8', newline='\n') as file:
        text = file.read()
    head, _, rest = text.partition('\n')
    said, of = head.split()
    if of != digest(capture):
        sys.exit(f'{path} is of other frames (tests/tshark/run.sh store, where tshark is installed, writes it anew)')
    frames = rest.removesuffix('\n\n').split('\n\n')
    return said, ([Field(*line.split('\t')) for line in frame.split('\n')] for frame in frames)


def shown(frame):
    """The fields of a frame by their names."""
    by_name = collections.defaultdict(list)
    for field in frame:
        by_name[field.name].append(field)
    return by_name


def store(capture, path):
    with open(path, 'wb') as file, gzip.GzipFile(filename='', fileobj=file, mode='wb', mtime=0) as packed:
        packed.write(f'{version()} {digest(capture)}\n'.encode())
        for frame in asked(capture):
            packed.write(''.join('\t'.join(field) + '\n' for field in frame).encode() + b'\n')
    print(f'tshark {version()}: its answers are in {path}')


def check(capture, path):
    was, frames = stored(capture, path)
    count = 0
    for now, then in itertools.zip_longest(asked(capture), frames):
        count += 1
        if now != then:
            sys.exit(f'frame {count}: tshark {version()} does not answer as {path} has it, from tshark {was}')
    print(f'tshark {version()} answers for {count} frames as {path} has it, from tshark {was}')


if __name__ == '__main__':
    {'store': store, 'check': check}[sys.argv[1]](*sys.argv[2:])
