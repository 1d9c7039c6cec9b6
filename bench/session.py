#!/usr/bin/env python3
"""Requests, writes and queries per second of processor time, in one session over the proved program.

usage: bench/session.py [PROGRAM]     PROGRAM: default crates/frostd/out/frostd, made by `rt run`

It sends 10,000 and 50,000 requests for the status; then 100, 1,000 and 10,000 writes of one small
profile, and queries of each kind behind them; and prints the rates, and how the time per write and
per row of a merge grows from one size to the next. Last it compares a merge over 16 writes of 2,000
rows, which are one sealed part, with one over 15, which are not sealed. The program's start is taken
off by a session without requests.
"""
import base64
import sys

import linear
from linear import seconds
from program import help_asked, program_of

PROFILE = base64.b64encode(bytes.fromhex(
    '0a0408011002' '12040801100a' '1206080208011014' '2206080122020801' '2206080222020802'
    '2a0408011003' '2a0408021004' '3200' '3203637075' '320b6e616e6f7365636f6e6473'
    '32046d61696e' '3204776f726b' '488094ebdc03' '5a0408011002' '6080ade204')).decode()
BODY = ('{"series":[{"labels":{"labels":[{"name":"__name__","value":"process_cpu"},'
        '{"name":"job","value":"api"}]},"samples":[{"rawProfile":"' + PROFILE + '"}]}]}').encode()
WRITE = b'POST /profiles/writeraw HTTP/1.1\r\nContent-Length: %d\r\n\r\n' % len(BODY) + BODY
TYPE = b'process_cpu:cpu:nanoseconds:cpu:nanoseconds'


def get(target):
    return b'GET ' + target + b' HTTP/1.1\r\n\r\n'


STATUS = get(b'/store/status')
QUERIES = {
    'merge': get(b'/profiles/query?query=' + TYPE),
    'range': get(b'/profiles/query_range?query=' + TYPE),
    'types': get(b'/profiles/types'),
    'labels': get(b'/profiles/labels'),
    'values': get(b'/profiles/labels/job/values'),
    'series': get(b'/profiles/series'),
}


def sealed_over_loose(program):
    """The time per row of a merge over one sealed part, over that over parts that are not sealed."""
    write = linear.write(linear.cpu_profile(1000))
    merge = get(b'/profiles/query?query=' + TYPE + b':delta')
    per_write = {}
    for count in (15, 16):
        writes = seconds(program, write * count)
        per_write[count] = max(seconds(program, write * count + merge * 10_000) - writes, 1e-9) / count
    return per_write[16] / per_write[15]


def main():
    if help_asked(sys.argv[1:], __doc__):
        return
    program = [program_of(sys.argv[1] if len(sys.argv) > 1 else None)]
    start = seconds(program, b'')
    for count in (10000, 50000):
        took = max(seconds(program, STATUS * count) - start, 1e-9)
        print(f'{count} status requests: {count / took:.0f}/s')
    per_write, per_row = {}, {}
    for count in (100, 1000, 10000):
        writes = max(seconds(program, WRITE * count, runs=20) - start, 1e-9)
        per_write[count] = writes / count
        print(f'{count} writes: {count / writes:.0f}/s')
        for name, query in QUERIES.items():
            times = max(4_000_000 // count, 2000)
            took = max(seconds(program, WRITE * count + query * times) - start - writes, 1e-9)
            print(f'  {name}: {times / took:.0f}/s over {2 * count} rows')
            if name == 'merge':
                per_row[count] = took / times / (2 * count)
    for less, more in ((100, 1000), (1000, 10000)):
        print(f'time per write, {more} over {less}: {per_write[more] / per_write[less]:.2f}')
        print(f'time per row of a merge, {more} over {less}: {per_row[more] / per_row[less]:.2f}')
    print(f'time per row of a merge, sealed over not sealed: {sealed_over_loose(program):.2f}')


if __name__ == '__main__':
    main()
