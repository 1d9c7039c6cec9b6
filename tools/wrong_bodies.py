#!/usr/bin/env python3
"""Tries the wrong bodies that the gate does not: those in crates/NAME/wrong-bodies/.

usage: tools/wrong_bodies.py NAME..
    NAME: a crate that has a folder wrong-bodies, as crates.txt names it

A wrong body is a file as a must-fail edit is one: a line 'file: src/..', and pairs of lines 'old: TEXT', which stands
once in that file, and 'new: TEXT'. It works on a copy of the repository without what is built, where these edits
stand in the place of the must-fail edits of the crates that are named, and lets `rt must-fail` try them there. Each
must be refused; ends with status 1 where one is not, or cannot be applied or read. One that is refused only because
a proof file names what it took away says little of the contract, and is told too.

The copy begins with what `rt check` has proved on this machine, so run that first. An edit takes 20 to 60 seconds of
a processor. By hand, when the contracts of a crate change.
"""
import pathlib
import re
import shutil
import subprocess
import sys
import tempfile

from program import ROOT, help_asked

NOT_COPIED = shutil.ignore_patterns('.git', 'out', '__pycache__')
# What `rt must-fail` says of an edit, and what that is here.
SAID = {
    'refused': 'refused',
    'NOT REFUSED': 'not refused',
    'BAD EDIT': 'a bad edit',
    'NOT TRIED': 'not tried',
}
# Of an edit that is refused so, the contract tells little: it is to be written with the names that proofs cite.
SAYS_LITTLE = 'only because a proof file names'


def crates_of(names):
    """The folders of these crates. The script ends where one has no wrong bodies."""
    folders = [ROOT / 'crates' / name for name in names]
    for name, folder in zip(names, folders):
        if not list((folder / 'wrong-bodies').glob('*.edit')):
            sys.exit(f'crates/{name}/wrong-bodies has no edits')
    return folders


def copy_of(names, top):
    """A copy in which the wrong bodies of these crates are their must-fail edits, and no others are there."""
    shutil.copytree(ROOT, top, ignore=NOT_COPIED, dirs_exist_ok=True)
    for folder in (top / 'crates').iterdir():
        shutil.rmtree(folder / 'must-fail', ignore_errors=True)
        if folder.name in names:
            (folder / 'wrong-bodies').rename(folder / 'must-fail')


def told(line):
    """The edit that a line of `rt must-fail` speaks of, and what it says, or None."""
    found = re.search(r'must-fail (\w+/[\w.-]+\.edit): (refused|NOT REFUSED|BAD EDIT|NOT TRIED)', line)
    return found and (found[1], SAID[found[2]])


def tried(names, top):
    """What each edit came to, by its name, and the edits whose refusal says little."""
    results, little = {}, []
    run = subprocess.Popen(['rt', 'must-fail', *names], cwd=top, stdout=subprocess.PIPE, stderr=subprocess.STDOUT, text=True, errors='replace')
    for line in run.stdout:
        print(line, end='', flush=True)
        found = told(line)
        if found:
            results[found[0]] = found[1]
            little += [found[0]] * (SAYS_LITTLE in line)
    run.wait()
    return results, little


def main():
    words = sys.argv[1:]
    if help_asked(words, __doc__):
        return 0
    if not words:
        print(__doc__.strip('\n'), file=sys.stderr)
        return 1
    wanted = [f'{folder.name}/{edit.name}' for folder in crates_of(words) for edit in sorted((folder / 'wrong-bodies').glob('*.edit'))]
    with tempfile.TemporaryDirectory(prefix='wrong-bodies-') as room:
        copy_of(words, pathlib.Path(room))
        results, little = tried(words, pathlib.Path(room))
    others = [f'{edit}: {results.get(edit, "not tried")}' for edit in wanted if results.get(edit) != 'refused']
    told_little = [f'{edit}: refused only for a name that a proof file cites' for edit in little]
    print('\n'.join(others + told_little + [f'{len(wanted)} wrong bodies, {len(wanted) - len(others)} refused']))
    return 1 if others else 0


if __name__ == '__main__':
    sys.exit(main())
