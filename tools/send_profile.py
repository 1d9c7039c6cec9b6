#!/usr/bin/env python3
"""Writes profiles to frostd, and asks for their merge.

usage: tools/send_profile.py [--name NAME] [--label NAME=VALUE].. [--type TYPE] [WHERE] PROFILE..
    PROFILE: a file in pprof's format, as a profiler gives it: packed by gzip, or not
    WHERE: none: the requests go to standard output, for a session of the program:
               tools/send_profile.py cpu.pb | crates/frostd/out/frostd session
           --run [--program PROGRAM]: runs the program itself and prints its answer as stacks
               (PROGRAM: default crates/frostd/out/frostd, made by `rt run`)
           --url HOST:PORT: sends the requests to a server there, which gives each connection a session, and prints
               its answer as stacks (frostd has no server yet; what gives a socket to a session can be one)
    --name NAME: the label __name__ of the series, default: process_cpu
    --label NAME=VALUE: a further label of the series
    --type TYPE: what is merged, as 'process_cpu:cpu:nanoseconds:cpu:nanoseconds:delta'; default: the last sample type
        of the first profile
    --top N: how many stacks are printed, default: 10; --frames N: how many frames of each, default: 8
    --answers: prints the replies as they come instead

Each profile is one write: its bytes are unpacked, spelled in base64 and put into a body of JSON. Then it asks for the
profile types and for the merged stacks of one of them. A type is five texts with ':' between them: the name, the
sample type and unit, and the period's type and unit. ':delta' stands behind them exactly where the profiles have a
duration: such a profile tells what was counted within that time (a CPU profile, say), and one without a duration
tells what there is at one moment (a heap). So both kinds never add up in one merge. frostd knows a type only as it
was written: where an answer has no stacks, GET /profiles/types tells the types that there are.
"""
import argparse
import base64
import gzip
import json
import pathlib
import socket
import subprocess
import sys
import urllib.parse

from program import help_asked, program_of

GZIP = b'\x1f\x8b'


class Faulty(Exception):
    """The file is no profile, or the answer is none."""


# The few fields of profile.proto that name a profile's types: see docs/FORMATS.md.

def varint(data, at):
    """A number in groups of seven bits, the lowest first, and the place behind it."""
    value = shift = 0
    while True:
        if at >= len(data) or shift > 63:
            raise Faulty(f'no number at byte {at}')
        byte = data[at]
        value |= (byte & 127) << shift
        at, shift = at + 1, shift + 7
        if byte < 128:
            return value, at


def fields(data):
    """The fields of a message: each number with its value, or with its bytes."""
    at = 0
    while at < len(data):
        key, at = varint(data, at)
        kind = key & 7
        if kind == 0:
            value, at = varint(data, at)
        elif kind in (1, 2, 5):
            size, at = varint(data, at) if kind == 2 else ({1: 8, 5: 4}[kind], at)
            value, at = data[at:at + size], at + size
        else:
            raise Faulty(f'a field of wire type {kind} before byte {at}')
        if at > len(data):
            raise Faulty('a field runs past the end')
        yield key >> 3, value


def value_type(data, texts):
    """The type and the unit of a ValueType."""
    places = dict(fields(data))
    return texts[places.get(1, 0)], texts[places.get(2, 0)]


class Profile:
    """A profile's bytes, and the selectors of its types without a name."""

    def __init__(self, path):
        data = pathlib.Path(path).read_bytes()
        self.bytes = gzip.decompress(data) if data.startswith(GZIP) else data
        found = list(fields(self.bytes))
        try:
            texts = [value.decode() for number, value in found if number == 6]
            samples = [value_type(value, texts) for number, value in found if number == 1]
            period = next((value_type(value, texts) for number, value in reversed(found) if number == 11), ('', ''))
        except (IndexError, AttributeError, TypeError, UnicodeDecodeError):
            raise Faulty('its types are none') from None
        self.delta = next((value for number, value in reversed(found) if number == 10), 0) != 0
        self.types = [':'.join(sample + period) + (':delta' if self.delta else '') for sample in samples]


def write_of(labels, profile):
    pairs = [{'name': name, 'value': value} for name, value in labels]
    sample = {'rawProfile': base64.b64encode(profile.bytes).decode()}
    body = json.dumps({'series': [{'labels': {'labels': pairs}, 'samples': [sample]}]}, separators=(',', ':')).encode()
    return b'POST /profiles/writeraw HTTP/1.1\r\nContent-Length: %d\r\n\r\n' % len(body) + body


def get(target):
    return f'GET {target} HTTP/1.1\r\n\r\n'.encode()


def requests_of(options):
    """The requests, in order: the writes, the types, the merge."""
    labels = [('__name__', options.name)] + [tuple(label.split('=', 1)) for label in options.label]
    profiles = []
    for path in options.profile:
        try:
            profiles.append(Profile(path))
        except (OSError, EOFError, gzip.BadGzipFile, Faulty) as why:
            sys.exit(f'{path}: {why}')
    kind = options.type
    if kind is None:
        if not profiles[0].types:
            sys.exit(f'{options.profile[0]}: it has no sample type; --type tells one')
        kind = f'{options.name}:{profiles[0].types[-1]}'
    query = get('/profiles/query?query=' + urllib.parse.quote(kind, safe=':'))
    return kind, [write_of(labels, profile) for profile in profiles] + [get('/profiles/types'), query]


# Replies.

def replies_of(output):
    """The status and the object of each reply."""
    replies = []
    while output:
        head, found, rest = output.partition(b'\r\n\r\n')
        sizes = [int(line.split(b':')[1]) for line in head.lower().split(b'\r\n') if line.startswith(b'content-length:')]
        if not found or len(sizes) != 1 or len(rest) < sizes[0]:
            raise Faulty(f'the replies end within one: {output[:200]!r}')
        replies.append((int(head.split(b' ')[1]), json.loads(rest[:sizes[0]])))
        output = rest[sizes[0]:]
    return replies


def run(program, requests):
    done = subprocess.run([program, 'session'], input=b''.join(requests), stdout=subprocess.PIPE)
    if done.returncode != 0:
        raise Faulty(f'the program ended with status {done.returncode}')
    return done.stdout


def send(address, requests):
    """What a server answers, which closes behind the last request."""
    host, _, port = address.removeprefix('http://').rstrip('/').rpartition(':')
    last = requests[-1].replace(b' HTTP/1.1\r\n', b' HTTP/1.1\r\nConnection: close\r\n', 1)
    with socket.create_connection((host or 'localhost', int(port))) as line:
        for request in requests[:-1] + [last]:
            line.sendall(request)
        pieces = iter(lambda: line.recv(65536), b'')
        return b''.join(pieces)


def type_text(kind):
    names = ('name', 'sampleType', 'sampleUnit', 'periodType', 'periodUnit')
    return ':'.join(kind[name] for name in names) + (':delta' if kind['delta'] else '')


def stack_text(frames, most):
    more = len(frames) - most
    return ' < '.join(frames[:most]) + (f' < {more} more' if more > 0 else '')


def print_stacks(kind, replies, options):
    """Prints what was answered: the numbers of the batches, the types, and the stacks with the greatest sums."""
    for status, answer in replies:
        if status != 200:
            print(f'refused with {status}: {json.dumps(answer)}')
        elif 'number' in answer:
            print(f'batch {answer["number"]}')
        elif 'types' in answer:
            print('types: ' + ', '.join(type_text(found) for found in answer['types']))
    status, answer = replies[-1]
    if status != 200 or 'stacks' not in answer:
        return 1
    stacks = sorted(answer['stacks'], key=lambda stack: -abs(int(stack['value'])))
    print(f'{kind}: {answer["total"]} in {len(stacks)} stacks, the leaf first')
    for stack in stacks[:options.top]:
        print(f'{stack["value"]:>20}  {stack_text(stack["frames"], options.frames)}')
    return 0 if all(status == 200 for status, _ in replies) else 1


def options_of(words):
    parser = argparse.ArgumentParser(add_help=False, usage=__doc__.split('usage: ')[1].split('\n')[0])
    parser.add_argument('profile', nargs='+')
    parser.add_argument('--name', default='process_cpu')
    parser.add_argument('--label', action='append', default=[])
    parser.add_argument('--type')
    parser.add_argument('--run', action='store_true')
    parser.add_argument('--program')
    parser.add_argument('--url')
    parser.add_argument('--top', type=int, default=10)
    parser.add_argument('--frames', type=int, default=8)
    parser.add_argument('--answers', action='store_true')
    options = parser.parse_args(words)
    if any('=' not in label for label in options.label):
        parser.error('a label is NAME=VALUE')
    return options


def main():
    words = sys.argv[1:]
    if help_asked(words, __doc__):
        return 0
    options = options_of(words)
    program = program_of(options.program) if options.run or options.program else None
    kind, requests = requests_of(options)
    if program is None and options.url is None:
        sys.stdout.buffer.write(b''.join(requests))
        return 0
    try:
        output = run(program, requests) if program else send(options.url, requests)
        if options.answers:
            sys.stdout.buffer.write(output)
            return 0
        return print_stacks(kind, replies_of(output), options)
    except (OSError, ValueError, Faulty) as why:
        sys.exit(f'no answer: {why}')


if __name__ == '__main__':
    sys.exit(main())
