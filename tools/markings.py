#!/usr/bin/env python3
"""Makes the table of small programs whose greatest marking is found by a search through all markings.

python3 tools/markings.py TITAN            says where `data/inferred.rows` of ti_rows_of_texts differs from the table that is made now
python3 tools/markings.py TITAN --rows     prints the rows of the table

Each program below has at most six places for the word `single`, at which its text has a sign: `#` before the modifiers of a method, `%` before the name of a method
with a result, and `@` before that of a parameter or a variable. For each choice of signs the text with the word at these, and nothing at the others, is
judged by `titan --mode check`. The marks of the table are those of all accepted texts together, which must be accepted themselves. Where no text is accepted, its
barriers are taken away from behind, until one is: the last one taken away is the first that no marking aligns. Mode infer isn't asked here at all.
"""
import argparse
import re
import subprocess
import sys
import tempfile
from itertools import combinations
from pathlib import Path

TOP = Path(__file__).resolve().parent.parent
ROWS = TOP / "crates" / "ti_rows_of_texts" / "data" / "inferred.rows"
BEGIN = "# ---- found by a search through all markings (tools/markings.py)"
MAIN = "class Main { %s public static single void main(String[] args) { %s } }"
BARRIER = "Ti.barrier();"

# methods beside `main`, and the statements of `main`
PROGRAMS = [
    ("", "int @k = 3; while (k > 0) { Ti.barrier(); k = k - 1; }"),
    ("", "int @k = Ti.thisProc(); while (k > 0) { Ti.barrier(); k = k - 1; }"),
    ("", "int @k = broadcast Ti.thisProc() + 5 from 1; while (k > 0) { Ti.barrier(); k = k - 2; } println(k);"),
    ("", "int @k = 2; int @j = k + Ti.thisProc(); int @i = j; println(i); while (k > 0) { Ti.barrier(); k = k - 1; }"),
    ("", "int @a = 1; int @b = a; int @c = b; c = Ti.thisProc(); while (a > 0) { Ti.barrier(); a = a - 1; }"),
    ("", "int @a = 1; int @b = a; b = Ti.thisProc(); a = b; println(a);"),
    ("", "int @a = 1; if (Ti.thisProc() == 0) { a = 2; } println(a);"),
    ("", "int @a = 1; if (Ti.thisProc() == 0) { a = 2; } if (a > 1) { Ti.barrier(); }"),
    ("", "boolean @b = Ti.numProcs() > 2; if (b) { Ti.barrier(); } else { println(1); }"),
    ("", "int @i = 0; while (true) { if (i > 2) { break; } Ti.barrier(); i = i + 1; }"),
    ("", "int @i = 0; while (i < 9) { if (Ti.thisProc() > i) { break; } i = i + 1; } Ti.barrier();"),
    ("", "int @i = 0; while (i < 9) { if (Ti.thisProc() > i) { break; } Ti.barrier(); i = i + 1; }"),
    ("", "RectDomain<1> @d = [0:3]; foreach (p in d) { Ti.barrier(); }"),
    ("", "RectDomain<1> @d = [0:Ti.thisProc()]; foreach (p in d) { println(1); } Ti.barrier();"),
    ("", "RectDomain<1> @d = [0:Ti.thisProc()]; foreach (p in d) { Ti.barrier(); }"),
    ("", "for (int @i = 0; i < 3; i = i + 1) { Ti.barrier(); }"),
    ("", "int @r = Ti.thisProc(); int @v = broadcast 3 from 0; println(v + r);"),
    ("", "int @r = 0; int @v = broadcast Ti.thisProc() from r; println(v);"),
    ("", "SharedRegion @r = new SharedRegion(); r.delete();"),
    ("", "long @n = 2L; while (n > 0L) { Ti.barrier(); n = n - 1L; }"),
    ("", "Ti.barrier(); int @k = Ti.thisProc(); if (k > 0) { Ti.barrier(); } Ti.barrier();"),
    ("", "int @k = Ti.thisProc(); if (k > 0) { Ti.barrier(); } while (k > 1) { Ti.barrier(); }"),
    ("", "int @k = 1; Ti.barrier(); while (k > 0) { Ti.barrier(); k = k - Ti.thisProc(); } Ti.barrier();"),
    ("#static void f() { Ti.barrier(); }", "f();"),
    ("#static void f() { Ti.barrier(); }", "if (Ti.thisProc() > 0) { f(); }"),
    ("#static void f() { println(1); }", "if (Ti.thisProc() > 0) { f(); }"),
    ("#static void f() { println(1); }", "f();"),
    ("#static void f(int @n) { while (n > 0) { Ti.barrier(); n = n - 1; } }", "f(3);"),
    ("#static void f(int @n) { while (n > 0) { Ti.barrier(); n = n - 1; } }", "f(Ti.thisProc());"),
    ("#static void f(int @n, int @m) { if (n > 0) { Ti.barrier(); } println(m); }", "f(1, Ti.thisProc()); f(2, 3);"),
    ("#static int %f(int @n) { return n + 1; }", "int @k = f(2); if (k > 2) { Ti.barrier(); }"),
    ("#static int %f(int @n) { return n + 1; }", "int @k = f(Ti.thisProc()); println(k);"),
    ("#static int %f(int @n) { return n + 1; }", "int @k = f(Ti.thisProc()); if (k > 2) { Ti.barrier(); }"),
    ("#static int %f() { return Ti.thisProc(); }", "int @k = f(); println(k);"),
    ("#static int %f() { if (Ti.thisProc() > 0) { return 1; } return 2; }", "int @k = f(); println(k);"),
    ("#static int %f() { if (Ti.thisProc() > 0) { return 1; } return 2; }", "int @k = f(); if (k > 1) { Ti.barrier(); }"),
    ("#static int %f() { if (Ti.numProcs() > 1) { return 1; } return 2; }", "int @k = f(); if (k > 1) { Ti.barrier(); }"),
    ("#static void f() { g(); } #static void g() { Ti.barrier(); }", "f();"),
    ("#static void f() { g(); } #static void g() { println(1); }", "if (Ti.thisProc() > 0) { g(); } f();"),
    ("#static void f(int @n) { if (n > 0) { f(n - 1); } }", "f(3);"),
    ("#static void f(int @n) { if (n > 0) { Ti.barrier(); f(n - 1); } }", "f(3);"),
    ("#static void f(int @n) { if (n > 0) { Ti.barrier(); f(n - Ti.thisProc()); } }", "f(3);"),
    ("#static int %f(int @n) { int @k = n; k = k + 1; return k; }", "int @j = f(1); while (j > 0) { Ti.barrier(); j = j - 1; }"),
    ("#static int %f(int @n) { int @k = n; k = k + Ti.thisProc(); return k; }", "int @j = f(1); println(j); Ti.barrier();"),
]


def signs(text):
    return [found.start() for found in re.finditer("[#%@]", text)]


def with_words(text, chosen):
    """The text with the word at the chosen signs, and without the others."""
    return "".join(c if c not in "#%@" else "single " * (i in chosen) for i, c in enumerate(text))


def name_behind(text, at):
    """Where the name stands that the sign speaks of: that of a method behind its modifiers and its result."""
    if text[at] == "#":
        at = re.compile(r"static (?:void|int) %?").match(text, at + 1).end() - 1
    return at + 1


def mark_at(text, at):
    """The mark of a sign, in the text without signs."""
    name = name_behind(text, at)
    column = name - sum(sign < name for sign in signs(text)) + 1
    return (column, "#%@".index(text[at]))


def accepts(titan, folder, text):
    (folder / "a.ti").write_text(text)
    return subprocess.run([titan, "--mode", "check", "a.ti"], cwd=folder, capture_output=True).returncode == 0


def greatest(titan, folder, text):
    """The signs of all accepted texts together, or None where none is accepted."""
    found = signs(text)
    assert len(found) <= 6, text
    accepted = [set(chosen) for n in range(len(found) + 1) for chosen in combinations(found, n) if accepts(titan, folder, with_words(text, chosen))]
    if not accepted:
        return None
    union = set.union(*accepted)
    assert union in accepted, text
    return union


def first_unaligned(titan, folder, text):
    """Where the first barrier stands up to which no text is accepted."""
    places = [found.start() for found in re.finditer(re.escape(BARRIER), text)]
    for count in range(len(places), 0, -1):
        last = places[count - 1]
        less = text[:last] + text[last:].replace(BARRIER, " " * (len(BARRIER) - 1) + ";")
        if greatest(titan, folder, less) is not None:
            return last + len("Ti.") - sum(sign < last for sign in signs(text))
    raise AssertionError(text)


def row(titan, folder, methods, body):
    text = (MAIN % (methods, body)).replace("{  public", "{ public")
    plain = with_words(text, ())
    marks = greatest(titan, folder, text)
    if marks is None:
        column = first_unaligned(titan, folder, text) + PLACE_OF_BARRIER
        return f": --mode infer a.ti <- {plain} => 1 err: a.ti:1:{column}: B1 no marking of single values aligns the collectives\\n"
    lines = "".join(f"1:{column} {('method', 'result', 'variable')[kind]}\\n" for column, kind in sorted(mark_at(text, at) for at in marks))
    return f": --mode infer a.ti <- {plain} => 0" + (f" out: {lines}" if lines else "")


# the place of a barrier is that of its name, counted from 1
PLACE_OF_BARRIER = 1


def main():
    asked = argparse.ArgumentParser(description=__doc__, formatter_class=argparse.RawDescriptionHelpFormatter)
    asked.add_argument("titan")
    asked.add_argument("--rows", action="store_true")
    words = asked.parse_args()
    titan = str(Path(words.titan).resolve())
    with tempfile.TemporaryDirectory() as folder:
        rows = [row(titan, Path(folder), methods, body) for methods, body in PROGRAMS]
    if words.rows:
        print(*rows, sep="\n")
        return 0
    lines = ROWS.read_text().splitlines()
    stored = [line for line in lines[lines.index(BEGIN) + 1 :] if line.startswith(":")]
    wrong = [(old, new) for old, new in zip(stored, rows) if old != new]
    for old, new in wrong:
        print(f"stored: {old}\nsearch: {new}")
    print(f"markings: {len(rows)} programs, {len(stored)} rows, {len(wrong)} differ")
    return int(bool(wrong) or len(stored) != len(rows))


if __name__ == "__main__":
    sys.exit(main())
