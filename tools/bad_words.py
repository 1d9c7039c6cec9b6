#!/usr/bin/env python3
"""Shows that words which name no command end with status 1, and that the program says so.

usage: tools/bad_words.py [PROGRAM]
    PROGRAM: default crates/frostd/out/frostd, made by `rt run`

It runs the program without words, with a word that is none of its own, with one too many, and with a word that is not
UTF-8, which no stored run can hold. Each must end with status 1, the line 'frostd: bad words' on the error output, and
nothing on the output, though a request stands in the input.
"""
import subprocess
import sys

from program import help_asked, program_of

REQUEST = b'GET /store/status HTTP/1.1\r\n\r\n'
WORDS = ([], [b'sesion'], [b'session', b'session'], [b'session', b'\xff'], [b'\xff'])
WANTED = (1, b'', b'frostd: bad words\n')


def ended(program, words):
    """The status, the output and the error output of the program over these words."""
    run = subprocess.run([program.encode(), *words], input=REQUEST, capture_output=True)
    return run.returncode, run.stdout, run.stderr


def main():
    if help_asked(sys.argv[1:], __doc__):
        return 0
    program = program_of(sys.argv[1] if len(sys.argv) > 1 else None)
    for words in WORDS:
        found = ended(program, words)
        if found != WANTED:
            print(f'the words {words} end with {found}, and {WANTED} is wanted')
            return 1
    print('words that name no command end with status 1 and its line')
    return 0


if __name__ == '__main__':
    sys.exit(main())
