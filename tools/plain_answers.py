#!/usr/bin/env python3
"""Compares the answers of the program with those of a plain list of rows.

usage: tools/plain_answers.py [PROGRAM [ROUNDS [SEED]]]
       tools/plain_answers.py --stored [--write]
    PROGRAM: default crates/frostd/out/frostd, made by `rt run`; ROUNDS: default 40; SEED: default 1
    --stored says whether the stored run of crates/run_query_cases is one of these sessions with the replies
    that the list of rows gives, and with --write makes it

Each round makes a session of some writes of made profiles (several sample types, stacks and samples,
label sets that differ, empty label values, profiles with and without a duration, values of both signs
whose sums cancel, times at both ends) with queries of each kind between and behind them, runs it, and
computes each reply anew from a list of rows: a filter, and then the distinct values or the sums.
"""
import base64
import functools
import json
import pathlib
import random
import subprocess
import sys
import urllib.parse

ROOT = pathlib.Path(__file__).resolve().parent.parent
sys.path.insert(0, str(ROOT / 'bench'))
import linear  # noqa: E402
from linear import held  # noqa: E402
from program import help_asked, program_of  # noqa: E402

LEAST, MOST = -(1 << 63), (1 << 63) - 1


def varint(n):
    return linear.varint(n & (1 << 64) - 1)


def number(field, n):
    return linear.number(field, n & (1 << 64) - 1)


class Profile:
    """A made profile: its rows, but for the labels of its series, and its bytes."""

    def __init__(self, rng):
        self.types = rng.sample([('cpu', 'nanoseconds'), ('samples', 'count'), ('space', 'bytes')], rng.randint(1, 3))
        self.period_type = rng.choice([('cpu', 'nanoseconds'), ('space', 'bytes')])
        self.nanos = rng.choice([LEAST, MOST, -1, 0, 999_999, 1_000_000, rng.randint(0, 4_000_000), rng.randint(0, 4_000_000)])
        self.duration = rng.choice([0, 0, 1, 30_000_000_000, -5])
        self.period = 10
        frames = ['main', 'work', 'a', 'b', 'ab', '']
        self.samples = []
        for _ in range(rng.randint(0, 6)):
            stack = [rng.choice(frames) for _ in range(rng.randint(0, 3))]
            values = [rng.choice([0, 1, -1, 7, -7, MOST, LEAST]) for _ in self.types]
            tags = {k: rng.choice(['x', 'y', '']) for k in rng.sample(['t', 'u'], rng.randint(0, 2))}
            self.samples.append((stack, values, tags))
        self.frames = frames

    def bytes(self):
        texts = ['']

        def place(text):
            if text not in texts:
                texts.append(text)
            return texts.index(text)

        parts = []
        for kind, unit in self.types:
            parts.append(held(1, number(1, place(kind)) + number(2, place(unit))))
        for stack, values, tags in self.samples:
            locations = b''.join(varint(self.frames.index(frame) + 1) for frame in stack)
            labels = b''.join(held(3, number(1, place(k)) + number(2, place(v))) for k, v in tags.items())
            parts.append(held(2, held(1, locations) + held(2, b''.join(varint(v) for v in values)) + labels))
        for at, frame in enumerate(self.frames, 1):
            parts.append(held(4, number(1, at) + held(4, number(1, at))))
            parts.append(held(5, number(1, at) + number(2, place(frame))))
        tail = [number(9, self.nanos), number(10, self.duration)]
        tail.append(held(11, number(1, place(self.period_type[0])) + number(2, place(self.period_type[1]))) + number(12, self.period))
        return b''.join(parts + [held(6, text.encode()) for text in texts] + tail)

    def rows(self, labels):
        name = labels['__name__']
        kept = {k: v for k, v in labels.items() if k != '__name__' and v != ''}
        for stack, values, tags in self.samples:
            for (kind, unit), value in zip(self.types, values):
                if value != 0:
                    yield {
                        'type': (name, kind, unit) + self.period_type + (self.duration != 0,), 'labels': kept,
                        'timestamp': self.nanos // 1_000_000, 'stack': stack, 'value': value,
                        'sample_labels': {k: v for k, v in tags.items() if v != ''},
                        'period': self.period, 'duration': self.duration,
                    }


def compare_labels(a, b):
    """As maps: at the least name at which they differ, where an absent value is below any."""
    for name in sorted(set(a) | set(b), key=str.encode):
        if a.get(name) != b.get(name):
            if name not in a or (name in b and a[name].encode() < b[name].encode()):
                return -1
            return 1
    return 0


label_key = functools.cmp_to_key(compare_labels)


def pairs(labels):
    return [{'name': k, 'value': labels[k]} for k in sorted(labels, key=str.encode)]


def made_labels(rng):
    labels = {'__name__': rng.choice(['process_cpu', 'memory'])}
    for name in rng.sample(['job', 'env', 'z'], rng.randint(0, 3)):
        labels[name] = rng.choice(['api', 'web', 'dev', ''])
    return labels


def write_of(rng, most=3):
    """A request of some series, and its rows."""
    series, rows = [], []
    for _ in range(rng.randint(0, most)):
        labels = made_labels(rng)
        profiles = [Profile(rng) for _ in range(rng.randint(0, 2))]
        order = list(labels.items())
        rng.shuffle(order)
        series.append({
            'labels': {'labels': [{'name': k, 'value': v} for k, v in order]},
            'samples': [{'rawProfile': base64.b64encode(profile.bytes()).decode()} for profile in profiles],
        })
        for profile in profiles:
            rows += profile.rows(labels)
    body = json.dumps({'series': series}).encode()
    return b'POST /profiles/writeraw HTTP/1.1\r\nContent-Length: %d\r\n\r\n' % len(body) + body, rows


def made_filter(rng, rows):
    """The text of a selector and the test of a row."""
    kind = rng.choice([row['type'] for row in rows]) if rows and rng.random() < 0.8 else ('process_cpu', 'cpu', 'nanoseconds', 'cpu', 'nanoseconds', rng.random() < 0.5)
    matchers = []
    for _ in range(rng.choice([0, 0, 1, 1, 2])):
        matchers.append((rng.choice(['job', 'env', 'z', 'absent', '__name__']), rng.random() < 0.6, rng.choice(['api', 'web', 'dev', '', 'process_cpu'])))
    text = ':'.join(kind[:5]) + (':delta' if kind[5] else '')
    if matchers:
        text += '{' + ','.join(f'{name}{"=" if equal else "!="}"{value}"' for name, equal, value in matchers) + '}'

    def test(row):
        def found(name):
            return row['type'][0] if name == '__name__' else row['labels'].get(name, '')
        return row['type'] == kind and all((found(name) == value) == equal for name, equal, value in matchers)

    return text, test


def distinct(items, key):
    out = []
    for item in sorted(items, key=key):
        if not out or out[-1] != item:
            out.append(item)
    return out


def sums(rows, key):
    found = {}
    for row in rows:
        found[key(row)] = found.get(key(row), 0) + row['value']
    return found


def made_query(rng, rows):
    """A request, and the object of its answer as a function of the rows and the watermark."""
    route = rng.choice(['types', 'labels', 'labels/job/values', 'labels/env/values', 'series', 'query_range', 'query'])
    parameters, tests = [], []
    if route in ('query', 'query_range') or (route != 'types' and rng.random() < 0.6):
        text, test = made_filter(rng, rows)
        parameters.append('query=' + urllib.parse.quote(text, safe=''))
        tests.append(test)
    for name in ('start', 'end'):
        if rng.random() < 0.3:
            bound = rng.choice([LEAST, MOST, -1, 0, 1, 2, 3, -9223372036855, 9223372036854])
            parameters.append(f'{name}={bound}')
            if name == 'start':
                tests.append(lambda row, bound=bound: bound <= row['timestamp'])
            else:
                tests.append(lambda row, bound=bound: row['timestamp'] <= bound)
    target = '/profiles/' + route + ('?' + '&'.join(parameters) if parameters else '')

    def answer(rows, watermark):
        return answer_of(route, [row for row in rows if all(test(row) for test in tests)]) | {'watermark': str(watermark)}

    return f'GET {target} HTTP/1.1\r\n\r\n'.encode(), answer


def answer_of(route, kept):
    """What a route answers over the rows that count."""
    if route == 'types':
        names = ('name', 'sampleType', 'sampleUnit', 'periodType', 'periodUnit', 'delta')
        return {'types': [dict(zip(names, kind)) for kind in distinct([row['type'] for row in kept], lambda kind: kind)]}
    if route == 'labels':
        return {'labelNames': distinct([name for row in kept for name in row['labels']], str.encode)}
    if route.endswith('values'):
        name = route.split('/')[1]
        return {'labelValues': distinct([row['labels'][name] for row in kept if name in row['labels']], str.encode)}
    if route == 'series':
        found = distinct([(row['type'][0], row['labels']) for row in kept], lambda s: (s[0].encode(), label_key(s[1])))
        return {'series': [{'labels': pairs(labels), 'name': name} for name, labels in found]}
    if route == 'query_range':
        series = []
        for labels in distinct([row['labels'] for row in kept], label_key):
            points = sums([row for row in kept if row['labels'] == labels], lambda row: row['timestamp'])
            series.append({'labelset': {'labels': pairs(labels)}, 'samples': [{'timestamp': str(t), 'value': str(points[t])} for t in sorted(points)]})
        return {'series': series}
    stacks = sums(kept, lambda row: tuple(frame.encode() for frame in row['stack']))
    return {
        'stacks': [{'frames': [frame.decode() for frame in stack], 'value': str(stacks[stack])} for stack in sorted(stacks)],
        'total': str(sum(row['value'] for row in kept)),
    }


def reply_of(answer):
    body = json.dumps(answer, sort_keys=True, separators=(',', ':')).encode()
    return b'HTTP/1.1 200 OK\r\nContent-Type: application/json\r\nContent-Length: %d\r\n\r\n' % len(body) + body


def session_of(rng, writes):
    """The requests, and the bytes of their replies."""
    requests, replies, rows, written = [], [], [], 0
    for _ in range(writes):
        request, more = write_of(rng)
        rows += more
        written += 1
        requests.append(request)
        replies.append(reply_of({'number': str(written)}))
        for _ in range(rng.randint(0, 6)):
            request, answer = made_query(rng, rows)
            requests.append(request)
            replies.append(reply_of(answer(rows, written)))
    return requests, replies


def stored(write):
    """Whether the stored run is that of this session, which has more writes than one compaction takes."""
    requests, replies = session_of(random.Random(7), 40)
    same = True
    for name, wanted in (('stdin', b''.join(requests)), ('stdout', b''.join(replies))):
        path = ROOT / 'crates/run_query_cases' / name
        if write:
            path.write_bytes(wanted)
        same = same and path.read_bytes() == wanted
    print(f'{len(requests)} requests:', 'the stored run' if same else 'the stored run is another: run tools/plain_answers.py --stored --write')
    return 0 if same else 1


def main():
    if help_asked(sys.argv[1:], __doc__):
        return 0
    if sys.argv[1:2] == ['--stored']:
        return stored(sys.argv[2:] == ['--write'])
    program = program_of(sys.argv[1] if len(sys.argv) > 1 else None)
    rounds = int(sys.argv[2]) if len(sys.argv) > 2 else 40
    rng = random.Random(int(sys.argv[3]) if len(sys.argv) > 3 else 1)
    compared = 0
    for at in range(rounds):
        requests, replies = session_of(rng, rng.randint(1, 25))
        done = subprocess.run([program, 'session'], input=b''.join(requests), stdout=subprocess.PIPE)
        rest = done.stdout
        for request, reply in zip(requests, replies):
            if not rest.startswith(reply):
                print(f'round {at}: {request!r}\n  wanted {reply!r}\n  found {rest[:len(reply) + 200]!r}')
                return 1
            rest = rest[len(reply):]
        assert rest == b'' and done.returncode == 0, (done.returncode, rest[:200])
        compared += len(requests)
    print(f'{rounds} sessions, {compared} replies, all as a plain list of rows gives them')
    return 0


if __name__ == '__main__':
    sys.exit(main())
