#!/usr/bin/env python3
"""Processor time of one write over the program, as its profile grows.

usage: bench/linear.py [PROGRAM ARGUMENT..]
    PROGRAM: default crates/frostd/out/frostd, made by `rt run`; the word `session` follows the arguments

It writes a CPU profile of the shape that Go gives, of 300 and of 30,000 samples, and bodies of 2 and
of 16 MiB whose profile is one long run: of unknown fields, of messages with a length that runs past
the end, or of packed numbers. The program's start is taken off by a session without requests. The
last line says whether each time grew at most in step with the profile, up to half as much again.
"""
import base64
import pathlib
import resource
import subprocess
import sys

ROOT = pathlib.Path(__file__).resolve().parent.parent
sys.path.insert(0, str(ROOT / 'tools'))
from program import help_asked, program_of  # noqa: E402

MIB = 1 << 20
LEEWAY = 1.5


def varint(n):
    out = bytearray()
    while n > 127:
        out.append(n % 128 + 128)
        n //= 128
    out.append(n)
    return bytes(out)


def number(field, n):
    return varint(field * 8) + varint(n)


def held(field, data):
    return varint(field * 8 + 2) + varint(len(data)) + data


def sample(k):
    """64 frames, by 32 of 40 locations, two values and one label."""
    locations = b''.join(varint(k % 8 + i) for i in range(1, 33))
    values = varint(k + 1) + varint((k + 1) * 10_000_000)
    return held(1, locations) + held(2, values) + held(3, number(1, 5) + number(2, 6 + k % 4))


def location(i):
    """Two lines, the first inlined into the second."""
    lines = held(4, number(1, i) + number(2, 10)) + held(4, number(1, i % 40 + 1) + number(2, 20))
    return number(1, i) + number(2, i % 4 + 1) + number(3, 4096 + i) + lines


def cpu_profile(samples):
    texts = ['', 'samples', 'count', 'cpu', 'nanoseconds', 'worker', 'a', 'b', 'c', 'd']
    texts += [f'main.f{i}' for i in range(1, 41)]
    parts = [held(1, number(1, 1) + number(2, 2)), held(1, number(1, 3) + number(2, 4))]
    parts += [held(2, sample(k)) for k in range(samples)]
    parts += [held(3, number(1, i)) for i in range(1, 5)]
    parts += [held(4, location(i)) for i in range(1, 41)]
    parts += [held(5, number(1, i) + number(2, 9 + i)) for i in range(1, 41)]
    parts += [held(6, text.encode()) for text in texts]
    parts += [number(9, 1_700_000_000_000_000_000), number(10, 30_000_000_000)]
    parts += [held(11, number(1, 3) + number(2, 4)), number(12, 10_000_000)]
    return b''.join(parts)


HEAD = (b'{"series":[{"labels":{"labels":[{"name":"__name__","value":"process_cpu"}]},'
        b'"samples":[{"rawProfile":"')
TAIL = b'"}]}]}'


def write(profile):
    body = HEAD + base64.b64encode(profile) + TAIL
    return b'POST /profiles/writeraw HTTP/1.1\r\nContent-Length: %d\r\n\r\n' % len(body) + body


def room(size):
    """The bytes of a profile in a body of so many bytes."""
    return (size - len(HEAD) - len(TAIL)) // 4 * 3


def run_of(piece, size):
    return piece * (size // len(piece))


def unknown_numbers(size):
    return held(6, b'') + run_of(number(99, 1), size - 2)


def unknown_texts(size):
    return held(6, b'') + run_of(held(99, b''), size - 2)


def labels_past_the_end(size):
    """One sample of labels, the last of which runs past the sample's end."""
    labels = run_of(held(3, number(1, 0)), size - 20)
    return held(2, labels + varint(3 * 8 + 2) + varint(1 << 40))


def lengths_past_the_end(size):
    """Each length claims what is left and more."""
    return run_of(varint(2 * 8 + 2) + varint(1 << 30), size)


def cut_numbers(size):
    """One packed field, whose last number is cut."""
    return held(2, held(2, b'\x01' * (size - 20) + b'\x80'))


def processor_time():
    """The seconds that all ended programs had a processor."""
    used = resource.getrusage(resource.RUSAGE_CHILDREN)
    return used.ru_utime + used.ru_stime


def seconds(program, requests, status=b'200', runs=5):
    """The least of the processor times that so many runs of the program take for these requests."""
    times = []
    for _ in range(runs):
        begin = processor_time()
        done = subprocess.run(program + ['session'], input=requests, stdout=subprocess.PIPE, check=True)
        times.append(processor_time() - begin)
        assert done.stdout.count(b'HTTP/1.1 ' + status) == requests.count(b' HTTP/1.1\r\n'), done.stdout[:400]
    return min(times)


def compare(program, start, name, few, many, factor, status):
    """Prints both times, and tells whether the greater is in step."""
    less = max(seconds(program, write(few), status) - start, 1e-4)
    more = max(seconds(program, write(many), status) - start, 1e-4)
    print(f'{name}: {less:.3f} s and {more:.3f} s, {more / less:.1f} times as long for {factor} times as much', flush=True)
    return more <= less * factor * LEEWAY


def main():
    if help_asked(sys.argv[1:], __doc__):
        return 0
    program = [program_of(*sys.argv[1:2])] + sys.argv[2:]
    start = seconds(program, b'', b'200')
    fine = [compare(program, start, '300 and 30,000 samples', cpu_profile(300), cpu_profile(30_000), 100, b'200')]
    for build, status in ((unknown_numbers, b'200'), (unknown_texts, b'200'), (labels_past_the_end, b'422'),
                          (lengths_past_the_end, b'422'), (cut_numbers, b'422')):
        few, many = build(room(2 * MIB)), build(room(16 * MIB))
        fine.append(compare(program, start, build.__name__.replace('_', ' ') + ', 2 and 16 MiB', few, many, 8, status))
    print('in step' if all(fine) else 'not in step')
    return 0 if all(fine) else 1


if __name__ == '__main__':
    sys.exit(main())
