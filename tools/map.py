#!/usr/bin/env python3
"""Says whether the map of the crates is true.

usage: tools/map.py [FOLDER]
    FOLDER: the top of a repository, default: this one

crates.txt has its crates under headings ('# == NAME'), lowest first. Each crate of it stands on crates of its own
heading or of one before, has a folder in crates/, and is drawn in the first indented block of
docs/ARCHITECTURE.md, which draws no other; and each folder of crates/ is in crates.txt. Imports of another
crate's proofs/ are counted: there may be fewer than LEFT, and never more. Ends with status 1 where something is
not so.
"""
import pathlib
import re
import sys

from program import ROOT, help_asked

# What is left of imports of another crate's lemmas. It is lowered with each that goes. Two of them are the laws of a store
# that nobody else writes (fd_store, fd_durable): a ghost law of an impl names a lemma, and can call no function.
LEFT = 36


def headings(text):
    """The crates with the place of their heading, from 1, and what each stands on."""
    at, places, uses = 0, {}, {}
    for line in text.split('\n'):
        if line.startswith('# == '):
            at += 1
        row = line.partition('#')[0].strip()
        if row:
            name, _, rest = row.partition(':')
            name = name.split()[0]
            places[name], uses[name] = at, rest.split()
    return places, uses


def drawn(text):
    """The crates of the first indented block."""
    lines = text.split('\n')
    first = next((at for at, line in enumerate(lines) if line.startswith('    ')), len(lines))
    names = set()
    for line in lines[first:]:
        if not line.startswith('    '):
            break
        names.add(line.split()[0])
    return names


def lemmas(root, places):
    """How often the files of a crate import a lemma of another crate's proofs/."""
    count = 0
    for name in places:
        for part in ('src', 'specs', 'proofs'):
            for path in (root / 'crates' / name / part).rglob('*'):
                if path.suffix in ('.rt', '.antt'):
                    found = re.findall(r'\bRattle\.(\w+)\.proofs\b|\b(\w+)::proofs\b', path.read_text())
                    count += sum(1 for a, b in found if (a or b) in places and (a or b) != name)
    return count


def faults_of(root):
    """What is wrong with the map, and a line on what was looked at."""
    places, uses = headings((root / 'crates.txt').read_text())
    shown = drawn((root / 'docs/ARCHITECTURE.md').read_text())
    folders = {path.name for path in (root / 'crates').iterdir() if (path / 'src').is_dir()}
    cited = lemmas(root, places)
    faults = [f'{name} stands under no heading of crates.txt' for name, at in places.items() if at == 0]
    faults += [f'{name} stands on {use}, which comes under a later heading' for name in uses for use in uses[name] if places.get(use, 0) > places[name]]
    faults += [f'{name} is not drawn in docs/ARCHITECTURE.md' for name in places if name not in shown]
    faults += [f'{name} is drawn in docs/ARCHITECTURE.md, and is not in crates.txt' for name in sorted(shown - set(places))]
    faults += [f'{name} has no folder in crates/' for name in places if name not in folders]
    faults += [f'crates/{name} is not in crates.txt' for name in sorted(folders - set(places))]
    if cited > LEFT:
        faults.append(f'{cited} imports of the lemmas of other crates, and there were {LEFT}')
    fewer = f': LEFT in tools/map.py can be {cited}' if cited < LEFT else ''
    return faults, f'{len(places)} crates under {max(places.values(), default=0)} headings, {cited} imports of lemmas of other crates{fewer}'


def main():
    words = sys.argv[1:]
    if help_asked(words, __doc__):
        return 0
    root = pathlib.Path(words[0]) if words else ROOT
    if not (root / 'crates.txt').is_file():
        sys.exit(f'there is no {root}/crates.txt')
    faults, said = faults_of(root)
    print('\n'.join(faults) or said)
    return 1 if faults else 0


if __name__ == '__main__':
    sys.exit(main())
