#!/usr/bin/env python3
"""Makes the stored run of crates/run_api_examples from the examples of docs/API.md.

usage: tools/api_examples.py [--write]
    without --write it only says whether the stored run is that of the examples

Under the heading 'Examples' of docs/API.md each indented block is one request and its reply: a line
with the method and the target, the further header lines, the body, and a line with the status and the
body of the reply. The text <N*x> stands for N times the character x. The requests are those of one
session, in their order, and the last one ends it.
"""
import re
import sys

from program import ROOT, help_asked

FOLDER = ROOT / 'crates/run_api_examples'
REASONS = {
    200: 'OK', 400: 'Bad Request', 404: 'Not Found', 405: 'Method Not Allowed', 409: 'Conflict',
    411: 'Length Required', 413: 'Content Too Large', 422: 'Unprocessable Content', 503: 'Service Unavailable',
}
HEADER = re.compile(r'[A-Za-z-]+: ')


def blocks(text):
    """The indented blocks behind the heading."""
    behind = text.split('\n## Examples\n', 1)[1].split('\n## ', 1)[0]
    lines = [line[4:] if line.startswith('    ') else '' for line in behind.split('\n')]
    return [block.split('\n') for block in re.split(r'\n{2,}', '\n'.join(lines).strip('\n'))]


def spelled(text):
    return re.sub(r'<(\d+)\*(.)>', lambda m: m[2] * int(m[1]), text).encode()


def request_of(block):
    """The bytes of the request, and whether its headers tell another length than its body has."""
    method, target = block[0].split(' ')
    headers = [line for line in block[1:-1] if HEADER.match(line)]
    bodies = [line for line in block[1:-1] if not HEADER.match(line)]
    assert len(bodies) <= 1, block
    body = spelled(bodies[0]) if bodies else b''
    if method == 'POST' and not any(line.startswith('Content-Length: ') for line in headers):
        headers.append(f'Content-Length: {len(body)}')
    head = '\r\n'.join([f'{method} {target} HTTP/1.1'] + headers) + '\r\n\r\n'
    return head.encode() + body


def reply_of(block, last):
    status, body = block[-1].split(' ', 1)
    head = [f'HTTP/1.1 {status} {REASONS[int(status)]}', 'Content-Type: application/json', f'Content-Length: {len(body)}']
    if status == '405':
        head.append('Allow: ' + ('POST' if block[0].startswith('GET') else 'GET'))
    if last:
        head.append('Connection: close')
    return ('\r\n'.join(head) + '\r\n\r\n' + body).encode()


def main():
    if help_asked(sys.argv[1:], __doc__):
        return 0
    examples = blocks((ROOT / 'docs/API.md').read_text())
    files = {
        'stdin': b''.join(request_of(block) for block in examples),
        'stdout': b''.join(reply_of(block, at == len(examples) - 1) for at, block in enumerate(examples)),
    }
    if '--write' in sys.argv[1:]:
        for name, content in files.items():
            (FOLDER / name).write_bytes(content)
    same = all((FOLDER / name).read_bytes() == content for name, content in files.items())
    print(f'{len(examples)} examples, ' + ('the stored run is theirs' if same else 'the stored run is another: run tools/api_examples.py --write'))
    return 0 if same else 1


if __name__ == '__main__':
    sys.exit(main())
