#!/usr/bin/env python3
"""Measures what docs/SPEED.md reports, and prints its tables.

    python3 tools/speed.py crates/titan/out/titan [--rounds N]

Each figure is the median of nine runs. The commands of one line run alternately, so that they meet the same disturbances. Times are CPU seconds, user
and system, of all threads; those of the workers are wall-clock seconds. Run it on a machine that has nothing else to do.
"""
import argparse
import os
import statistics
import subprocess
import sys
import tempfile
import time
from pathlib import Path

PROGRAMS = Path(__file__).resolve().parent.parent / "crates" / "ti_rows_of_texts" / "data" / "speed"


def run(command, output=subprocess.DEVNULL):
    """The CPU seconds and the wall-clock seconds that a command takes, and the MiB that it uses."""
    begin = time.monotonic()
    child = subprocess.Popen([str(it) for it in command], cwd=PROGRAMS, stdout=output, stderr=subprocess.DEVNULL)
    _, status, usage = os.wait4(child.pid, 0)
    # (2: the program ran out of fuel)
    if os.waitstatus_to_exitcode(status) not in (0, 2):
        sys.exit(f"speed: {command} failed")
    return usage.ru_utime + usage.ru_stime, time.monotonic() - begin, usage.ru_maxrss // 1024


def medians(commands, rounds, which=0):
    """The medians of the rounds, for each command, of CPU seconds, wall-clock seconds or MiB."""
    runs = [[run(command) for command in commands] for _ in range(rounds)]
    return [statistics.median(it[which] for it in each) for each in zip(*runs)]


def methods():
    """About 0.9 MB of small methods, in titan and in C."""
    titan, c, number, size = [], [], 0, 0
    while size < 900_000:
        body = (f"int a = x + {number}; int b = a * (x - {number * 7 % 101}) + (a << 3); while (a < b) {{ a = a + {number % 9 + 1}; "
                "if (a % 2 == 0) { b = b - a; } else { b = b + 1; } } return a + b * y;")
        text = f"static int f{number}(int x, int y) {{ {body} }}\n"
        titan.append(text)
        c.append(text)
        number, size = number + 1, size + len(text)
    main = "public static single void main(String[] args) { int x = f0(1, 2); println(x); }\n"
    return "class Main {\n" + "".join(titan) + main + "}\n", "".join(c)


def beside_python(titan, rounds):
    print("| Program | titan | CPython | titan / CPython |\n|---|---|---|---|")
    for path in sorted(PROGRAMS.glob("*.py")):
        ours, theirs = medians([[titan, "--fuel", "4000000", f"{path.stem}.ti"], [sys.executable, path.name]], rounds)
        print(f"| {path.stem} | {ours:.2f} s | {theirs:.2f} s | {ours / theirs:.2f} |", flush=True)


def beside_gcc(titan, rounds, folder):
    ours, theirs = methods()
    (folder / "methods.ti").write_text(ours)
    (folder / "methods.c").write_text(theirs)
    commands = [[titan, "--mode", "check", folder / "methods.ti"], [titan, "--mode", "code", folder / "methods.ti"],
                ["gcc", "-fsyntax-only", folder / "methods.c"]]
    print(f"\n{len(ours)} bytes\n| Command | Time |\n|---|---|")
    for name, seconds in zip(("check", "code", "gcc"), medians(commands, rounds)):
        print(f"| {name} | {seconds:.2f} s |", flush=True)


def reports(titan, rounds, folder):
    plain = [titan, "--procs", "4", "--fuel", "400000", "own_fields.ti"]
    trace = folder / "own_fields.trace"
    with open(trace, "wb") as file:
        run([*plain[:-1], "--trace", "own_fields.ti"], file)
    commands = [plain, [*plain[:-1], "--races", "own_fields.ti"], [*plain[:-1], "--trace", "own_fields.ti"],
                [titan, "--mode", "verify", "--against", trace, *plain[1:]]]
    print("\n| Command | Time |\n|---|---|")
    for name, seconds in zip(("run", "races", "trace", "verify"), medians(commands, rounds)):
        print(f"| {name} | {seconds:.2f} s |", flush=True)


def workers(titan, rounds):
    print("\n| Program | 1 | 2 | 4 |\n|---|---|---|---|")
    for name in ("compute", "compute_after_barrier", "barriers", "own_fields"):
        commands = [[titan, "--procs", "4", "--workers", w, "--fuel", "1000000", f"{name}.ti"] for w in (1, 2, 4)]
        print(f"| {name} | " + " | ".join(f"{it:.2f} s" for it in medians(commands, rounds, 1)) + " |", flush=True)


def main():
    parser = argparse.ArgumentParser(description=__doc__, formatter_class=argparse.RawDescriptionHelpFormatter)
    parser.add_argument("titan", type=Path, help="the built titan")
    parser.add_argument("--rounds", type=int, default=9)
    given = parser.parse_args()
    titan = given.titan.resolve()
    with tempfile.TemporaryDirectory() as name:
        beside_python(titan, given.rounds)
        beside_gcc(titan, given.rounds, Path(name))
        reports(titan, given.rounds, Path(name))
        workers(titan, given.rounds)


main()
