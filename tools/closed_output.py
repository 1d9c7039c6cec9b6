#!/usr/bin/env python3
"""Shows that a session whose output is closed ends with status 4, and says why.

usage: tools/closed_output.py [PROGRAM]
    PROGRAM: default crates/frostd/out/frostd, made by `rt run`

It runs two sessions over a pipe: one whose reader is gone before the first reply, and one whose reader takes some
bytes and goes, with more replies behind them than a pipe holds. Both must end with status 4 and the line
'frostd: write fault' on the error output.
"""
import os
import subprocess
import sys

from program import help_asked, program_of

REQUEST = b'GET /store/status HTTP/1.1\r\n\r\n'
# Of a reply to it there are more than 64 KiB, which a pipe holds, in so many.
MANY = 2000
WANTED = (4, b'frostd: write fault\n')


def ended(program, requests, taken):
    """The status and the error output of a session whose reader goes after so many bytes."""
    reader, writer = os.pipe()
    run = subprocess.Popen([program, 'session'], stdin=subprocess.PIPE, stdout=writer, stderr=subprocess.PIPE)
    os.close(writer)
    if taken == 0:
        os.close(reader)
    try:
        run.stdin.write(requests[:len(REQUEST)])
        run.stdin.flush()
        if taken:
            os.read(reader, taken)
            os.close(reader)
        run.stdin.write(requests[len(REQUEST):])
        run.stdin.close()
    except BrokenPipeError:
        # The program has ended before it read all of them.
        pass
    said = run.stderr.read()
    return run.wait(), said


def main():
    if help_asked(sys.argv[1:], __doc__):
        return 0
    program = program_of(sys.argv[1] if len(sys.argv) > 1 else None)
    for requests, taken in ((REQUEST, 0), (REQUEST * MANY, 10)):
        found = ended(program, requests, taken)
        if found != WANTED:
            print(f'a closed output ends with {found}, and {WANTED} is wanted')
            return 1
    print('a closed output ends with status 4 and its line')
    return 0


if __name__ == '__main__':
    sys.exit(main())
