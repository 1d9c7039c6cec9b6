#!/usr/bin/env python3
"""Runs a session over and over, and lets another allocation fail each time.

usage: tools/failing_allocations.py [PROGRAM [WRITES [STEP]]]
    PROGRAM: default crates/frostd/out/frostd, made by `rt run`; WRITES: default 3; STEP: default 1, that
    is, each allocation is tried, and with 7 every seventh

Wants a C compiler (cc) and a dynamically linked program. Each number is tried twice: that one allocation
fails, and all from it on fail. Every reply must be what a plain list of rows gives, or the reply to want of
memory, behind which a write may have been counted or not; the status must be 0, or 7 where what is left is
a front of the last such reply.
"""
import os
import pathlib
import random
import shutil
import subprocess
import sys
import tempfile

ROOT = pathlib.Path(__file__).resolve().parent.parent
sys.path.insert(0, str(ROOT / 'tools'))
from plain_answers import made_query, reply_of, write_of  # noqa: E402
from program import help_asked, program_of  # noqa: E402

BODY = b'{"error":"NoMemory"}'
HEAD = b'HTTP/1.1 503 Service Unavailable\r\nContent-Type: application/json\r\nContent-Length: %d\r\n' % len(BODY)
NO_MEMORY = HEAD + b'\r\n' + BODY
LAST = HEAD + b'Connection: close\r\n\r\n' + BODY


def made_steps(writes):
    """Requests, each with the rows that it writes or the function of its answer."""
    rng, steps, rows = random.Random(5), [], []
    for _ in range(writes):
        request, more = write_of(rng)
        steps.append((request, more, None))
        rows += more
        for _ in range(3):
            request, answer = made_query(rng, rows)
            steps.append((request, [], answer))
    return steps


def after(state, step):
    """The reply to a request, and the rows and the count of batches behind it."""
    rows, count = state
    _, more, answer = step
    if answer is None:
        return reply_of({'number': str(count + 1)}), (rows + more, count + 1)
    return reply_of(answer(rows, count)), state


def fault(steps, output, status):
    """What is wrong with a run, none where all is right."""
    states, rest = [([], 0)], output
    for at, step in enumerate(steps):
        told = [after(state, step) for state in states]
        if rest.startswith(NO_MEMORY):
            rest = rest[len(NO_MEMORY):]
            states = states + [state for _, state in told if state not in states]
            continue
        kept = [(reply, state) for reply, state in told if rest.startswith(reply)]
        if kept:
            rest = rest[len(kept[0][0]):]
            states = [state for _, state in kept]
            continue
        if status == 7 and LAST.startswith(rest):
            return None
        return f'status {status}, request {at}: {rest[:200]!r}'
    return None if rest == b'' and status in (0, 7) else f'status {status} at the end: {rest[:200]!r}'


def main():
    if help_asked(sys.argv[1:], __doc__):
        return 0
    program = program_of(sys.argv[1] if len(sys.argv) > 1 else None)
    if shutil.which('cc') is None:
        sys.exit('there is no C compiler cc; on Debian, `apt-get install gcc` brings one')
    writes = int(sys.argv[2]) if len(sys.argv) > 2 else 3
    stride = int(sys.argv[3]) if len(sys.argv) > 3 else 1
    steps = made_steps(writes)
    requests = b''.join(request for request, _, _ in steps)
    with tempfile.TemporaryDirectory() as folder:
        shim, told = pathlib.Path(folder, 'shim.so'), pathlib.Path(folder, 'count')
        subprocess.run(['cc', '-O1', '-shared', '-fPIC', '-o', shim, ROOT / 'tools/failing_allocations.c', '-ldl'], check=True)

        def run(**settings):
            env = os.environ | {'LD_PRELOAD': str(shim)} | settings
            done = subprocess.run([program, 'session'], input=requests, stdout=subprocess.PIPE, stderr=subprocess.DEVNULL, env=env)
            return fault(steps, done.stdout, done.returncode), done

        wrong, done = run(COUNT_TO=str(told))
        count = int(told.read_text())
        assert wrong is None and done.returncode == 0, wrong
        statuses = {}
        for number in range(0, count, stride):
            for settings in ({}, {'FAIL_ON': '1'}):
                wrong, done = run(FAIL_AT=str(number), **settings)
                if wrong is not None:
                    print(f'allocation {number}{" and all behind it" if settings else ""}: {wrong}')
                    return 1
                statuses[done.returncode] = statuses.get(done.returncode, 0) + 1
    print(f'{len(steps)} requests, {count} allocations; runs by status: {statuses}')
    return 0


if __name__ == '__main__':
    sys.exit(main())
