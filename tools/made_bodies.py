#!/usr/bin/env python3
"""Makes the bodies that `fd_gen` makes, apart from the program, and tells how long they are.

usage: tools/made_bodies.py SEED N [FIRST]
    SEED: of the generator, from 0 to 2^64 - 1; N: how many bodies; FIRST: the number of the first one, default 1

For each body it prints a line with its number, its length in bytes, its SHA-256, and how many samples it has; with
--text the body behind it. The digests of crates/test_made are from here. All is made from the description in
docs/API.md ('Made bodies') and from that of the generator (PCG32, XSH RR, by M. E. O'Neill; a seed of 64 bits is
expanded by the generator that Rust's `seed_from_u64` has).
"""
import base64
import hashlib
import json
import sys

from program import help_asked

MULTIPLIER = 6364136223846793005
SEED_INCREMENT = 11634580027462260723
TEXTS = [b'', b'cpu', b'nanoseconds'] + [b'fn-%d' % function for function in range(50)]


def output(state):
    """The word of a state: xorshift high, and a rotation by the top five bits."""
    word = ((state >> 18) ^ state) >> 27 & 0xffffffff
    turn = state >> 59
    return (word >> turn | word << (32 - turn)) & 0xffffffff


class Pcg32:
    def __init__(self, seed):
        words = []
        for _ in range(4):
            seed = (seed * MULTIPLIER + SEED_INCREMENT) % 2**64
            words.append(output(seed))
        self.increment = (words[2] | words[3] << 32) | 1
        self.state = ((words[0] | words[1] << 32) + self.increment) % 2**64
        self.draw(1)

    def draw(self, end):
        word = output(self.state)
        self.state = (self.state * MULTIPLIER + self.increment) % 2**64
        return word % end


def varint(number):
    groups = bytearray()
    while number >= 128:
        groups.append(128 | number & 127)
        number >>= 7
    return bytes(groups) + bytes([number])


def field(number, value):
    if isinstance(value, int):
        return varint(number << 3) + varint(value)
    return varint(number << 3 | 2) + varint(len(value)) + value


def message(*fields):
    """The fields, each a number and its value: a list for a repeated field, and a 0 that is left out."""
    out = b''
    for number, value in fields:
        for item in value if isinstance(value, list) else [value] if value else []:
            out += field(number, item)
    return out


def profile(k, samples):
    kind = message((1, TEXTS.index(b'cpu')), (2, TEXTS.index(b'nanoseconds')))
    return message(
        (1, [kind]),
        (2, [message((1, [function + 1 for function in stack]), (2, [value])) for stack, value in samples]),
        (4, [message((1, f + 1), (2, 0), (3, 0), (4, [message((1, f + 1), (2, 0))]), (5, 0)) for f in range(50)]),
        (5, [message((1, f + 1), (2, TEXTS.index(b'fn-%d' % f)), (3, 0), (4, 0), (5, 0)) for f in range(50)]),
        (6, TEXTS),
        (9, k * 1_000_000_000),
        (10, 0),
        (11, kind),
        (12, 10_000_000),
    )


def body(rng, k):
    """The body, and its samples."""
    job, production = rng.draw(4), rng.draw(2)
    samples = []
    for _ in range(1 + rng.draw(20)):
        stack = [rng.draw(50) for _ in range(1 + rng.draw(8))]
        samples.append((stack, 1 + rng.draw(1000)))
    labels = [('__name__', 'gen_cpu'), ('job', f'job-{job}')] + [('env', 'prod')] * production
    series = {
        'labels': {'labels': [{'name': name, 'value': value} for name, value in labels]},
        'samples': [{'rawProfile': base64.b64encode(profile(k, samples)).decode()}],
    }
    return json.dumps({'series': [series]}, separators=(',', ':')).encode(), samples


def main():
    words = [word for word in sys.argv[1:] if word != '--text']
    if help_asked(words, __doc__):
        return 0
    if len(words) not in (2, 3) or not all(word.isdigit() for word in words):
        sys.exit(__doc__.split('\n\n')[1])
    rng = Pcg32(int(words[0]))
    first = int(words[2]) if len(words) == 3 else 1
    for k in range(first, first + int(words[1])):
        text, samples = body(rng, k)
        print(k, len(text), hashlib.sha256(text).hexdigest(), len(samples))
        if '--text' in sys.argv:
            print(text.decode())
    return 0


if __name__ == '__main__':
    sys.exit(main())
