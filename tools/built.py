#!/usr/bin/env python3
"""Says whether a program of crates.txt is built, and of its sources as they are.

    built.py NAME

Prints the path of the program. If it isn't built, or a source of the crates that it depends on is newer, prints that on standard error
instead; then the status is 1.
"""
import sys
from pathlib import Path

TOP = Path(__file__).resolve().parent.parent


def dependencies():
    """The crates that each crate depends on, by crates.txt."""
    for line in (TOP / 'crates.txt').read_text(encoding='utf-8').splitlines():
        head, _, names = line.partition('#')[0].partition(':')
        if head.strip():
            yield head.split()[0], names.split()


def closure(name):
    """A crate of the repository and all that it depends on."""
    known, found, left = dict(dependencies()), set(), [name]
    while left:
        crate = left.pop()
        if crate in known and crate not in found:
            found.add(crate)
            left += known[crate]
    return found


def main():
    if len(sys.argv) != 2:
        sys.exit(__doc__)
    name = sys.argv[1]
    program = TOP / 'crates' / name / 'out' / name
    if not program.is_file():
        sys.exit(f"{name}: not built")
    built = program.stat().st_mtime
    for crate in closure(name):
        for source in (TOP / 'crates' / crate / 'src').rglob('*.rt'):
            if source.stat().st_mtime > built:
                sys.exit(f"{name}: built before {source.relative_to(TOP)} was changed")
    print(program)


if __name__ == '__main__':
    main()
