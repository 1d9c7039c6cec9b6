#!/usr/bin/env python3
"""What a gate or a check costs, by crate: processor seconds and memory of the prover's processes.

usage: tools/gate_cost.py -- COMMAND..     runs COMMAND (`rt ci`, say) and prints a table at its end
       tools/gate_cost.py --table FILE     the table of an earlier run
    a run is kept in gate_cost.json in the folder where the script is called

It looks at the processes named `rattle` below the command twice a second, so a little of each one's end is missed,
and processes of other commands on the machine do not count. Kinds: `edit`, the checks of must-fail edits and the
check that they begin with; `test`, checks with a crate's tests, and `try`, `build`, `check` and so on by the
prover's own verb. What tests and programs take when they run is not among them. Ends with the command's status.
"""
import collections
import json
import os
import subprocess
import sys
import time

from program import help_asked

TICK = os.sysconf('SC_CLK_TCK')
PAGE = os.sysconf('SC_PAGE_SIZE')
# The name of the folder in which rt checks a crate with an edit begins so.
EDIT_FOLDER = 'rt-edit-'


class Process:
    """A process as it stands in /proc."""

    def __init__(self, pid):
        words = open(f'/proc/{pid}/cmdline', encoding='utf-8', errors='replace').read().split('\0')
        stat = open(f'/proc/{pid}/stat', encoding='utf-8', errors='replace').read().rsplit(')', 1)[1].split()
        self.pid, self.parent, self.words = int(pid), int(stat[1]), words
        self.name = os.path.basename(words[0])
        # Its own time, and that of its children that have ended.
        self.seconds = sum(int(ticks) for ticks in stat[11:15]) / TICK
        self.key = f'{pid} {stat[19]}'

    def crate(self):
        return self.words[self.words.index('--crate-name') + 1] if '--crate-name' in self.words else '?'

    def kind(self):
        folder = os.readlink(f'/proc/{self.pid}/cwd')
        if EDIT_FOLDER in folder:
            return 'edit'
        return 'test' if '--test' in self.words else self.words[1]

    def memory(self):
        """MB."""
        return int(open(f'/proc/{self.pid}/statm').read().split()[1]) * PAGE >> 20


def processes():
    """The processes of now by their numbers."""
    found = {}
    for pid in filter(str.isdigit, os.listdir('/proc')):
        try:
            found[int(pid)] = Process(pid)
        except (OSError, IndexError):
            continue
    return found


def ancestors(now, process):
    while process.parent in now:
        process = now[process.parent]
        yield process


def look(seen, top):
    """Adds what the provers below the process of this number took up to now."""
    now = processes()
    took = collections.Counter()
    for process in now.values():
        above = list(ancestors(now, process))
        provers = [one for one in [process] + above if one.name == 'rattle']
        if provers and any(one.pid == top for one in above):
            # What a prover starts counts as the outermost one's.
            took[provers[-1].pid] += process.seconds
    for pid, seconds in took.items():
        try:
            row = seen.setdefault(now[pid].key, {'crate': now[pid].crate(), 'kind': now[pid].kind(), 'seconds': 0, 'memory': 0})
            row.update(seconds=max(row['seconds'], seconds), memory=max(row['memory'], now[pid].memory()))
        except (OSError, IndexError):
            continue


def table(rows):
    """Prints a line for each crate and kind, the dearest first."""
    by = collections.defaultdict(lambda: [0, 0.0, 0])
    for row in rows:
        cell = by[row['crate'], row['kind']]
        cell[0] += 1
        cell[1] += row['seconds']
        cell[2] = max(cell[2], row['memory'])
    print('| crate | kind | processes | processor s | most MB |\n|---|---|---|---|---|')
    for (crate, kind), (count, seconds, memory) in sorted(by.items(), key=lambda item: -item[1][1]):
        print(f'| {crate} | {kind} | {count} | {seconds:.0f} | {memory} |')
    kinds = collections.Counter()
    for row in rows:
        kinds[row['kind']] += row['seconds']
    print('\nin all, processor minutes: ' + ', '.join(f'{kind} {seconds / 60:.1f}' for kind, seconds in kinds.most_common()) + f'; {sum(kinds.values()) / 60:.1f}')


def main():
    words = sys.argv[1:]
    if words[:1] != ['--'] and help_asked(words, __doc__):
        return 0
    if len(words) == 2 and words[0] == '--table':
        table(json.load(open(words[1], encoding='utf-8')))
        return 0
    if len(words) < 2 or words[0] != '--':
        print(__doc__.strip('\n'), file=sys.stderr)
        return 1
    seen, begin = {}, time.time()
    run = subprocess.Popen(words[1:])
    while run.poll() is None:
        look(seen, run.pid)
        time.sleep(0.5)
    with open('gate_cost.json', 'w', encoding='utf-8') as file:
        json.dump(list(seen.values()), file)
    table(list(seen.values()))
    print(f'{(time.time() - begin) / 60:.1f} minutes by the clock')
    return run.returncode


if __name__ == '__main__':
    sys.exit(main())
