#!/usr/bin/env python3
"""Says where a document quotes what no file says.

The texts that documents quote are files below crates/ti_rows_of_texts/data, and what comes of each is a row there, which the gate runs.
A document quotes in four ways:

- ```java examples/hello.ti        a block whose first line names a file holds that file;
  ```java rules/N4.ti 27-28        or these lines of it, or one line. Each such file is run by a row.
- $ titan --procs 4 examples/hello.ti
                                   a block with such lines holds below each of them what the command writes, as a row says: out, then err. The
                                   file behind --against stands in its row, behind ` |`.
- <!-- rows -->                    the table below this line has in each row a text, then the rule that it breaks and the token there, then what
                                   is written instead; rows say that the first is refused so, and that the others come to their end.
- <!-- commands -->                the table below this line has in each row a cause, then commands that have status 3 for it, then some that have
                                   status 0; rows say so.

Each difference is printed with its line, first what the document has and then what it should have. The status is 1 where there is one, else 0.
"""
import argparse
import re
import subprocess
import sys
from itertools import zip_longest
from pathlib import Path

TOP = Path(__file__).resolve().parent.parent
DATA = TOP / "crates" / "ti_rows_of_texts" / "data"
# the column in which the text of a row begins, by what stands around it
COLUMNS = {"whole": 1, "with-main": 1, "with-method": 14, "main": 62, "with-class": 95}
ESCAPES = {"n": "\n", "t": "\t", "r": "\r", "f": "\f", "\\": "\\"}


def unescaped(text):
    """What a row means by its escapes."""
    return re.sub(r"\\(x[0-9a-f]{2}|.)", lambda found: ESCAPES.get(found[1]) or chr(int(found[1][1:], 16)), text)


def read_rows():
    """The rows that ask for a command: what is written, by words, trace and file; frame, status and what is written, by text; and statuses by words."""
    runs, texts, statuses = {}, {}, {}
    for path in sorted(DATA.glob("*.rows")):
        asks, frame = "", ""
        for line in path.read_text().splitlines():
            if line.startswith("ask "):
                asks, frame = line.split()[1:]
            row = re.fullmatch(r":(?: (.*))? <- (.*) => (\d)(?: out: (.*?))?(?: err: (.*))?", line)
            if row is None or asks != "command":
                continue
            words, text, status, out, err = row.groups(default="")
            statuses.setdefault(words.partition(" |")[0], set()).add(status)
            written = unescaped(out) + unescaped(err)
            if frame == "file":
                words, _, trace = words.partition(" |")
                runs[(words, unescaped(trace.removeprefix(" ")), text)] = written
            else:
                texts.setdefault(unescaped(text), []).append((frame, status, written))
    return runs, texts, statuses


def blocks(lines):
    """The fenced blocks of a document: the number of the opening line, what stands behind its fence, and the lines inside."""
    opened = None
    for number, line in enumerate(lines, 1):
        if not line.startswith("```"):
            continue
        if opened is None:
            opened = number
        else:
            yield opened, lines[opened - 1][3:].split(), lines[opened:number - 1]
            opened = None


def compared(number, has, wanted):
    """The first difference between lines behind a line of this number and those that are wanted."""
    for behind, (line, other) in enumerate(zip_longest(has, wanted), 1):
        if line != other:
            shown = ["nothing" if one is None else repr(one) for one in (line, other)]
            yield number + behind, " for ".join(shown)
            return


def quoted(number, words, inside, runs):
    """How a block that names a file differs from it."""
    path = DATA / words[1]
    if not path.is_file():
        yield number, f"no file {words[1]}"
        return
    whole = path.read_text()
    if all(words[1] != text and trace != whole for _, trace, text in runs):
        yield number, f"no row runs {words[1]}, or holds it against a text"
    whole = whole.splitlines()
    if len(words) > 2:
        first, _, last = words[2].partition("-")
        whole = whole[int(first) - 1:int(last or first)]
    yield from compared(number, inside, whole)


def written(words, runs, command):
    """What titan with these words writes: by a row, or by the command where it is run."""
    if command:
        ran = subprocess.run([command, *words], cwd=DATA, capture_output=True, text=True)
        return ran.stdout + ran.stderr
    asked, trace = [*words[:-1], "a.ti"], ""
    if "--against" in asked:
        named = asked.index("--against") + 1
        trace, asked[named] = (DATA / asked[named]).read_text(), "t.tr"
    found = runs.get((" ".join(asked), trace, words[-1]))
    return found and re.sub(r"^a\.ti:", words[-1] + ":", found, flags=re.M)


def commands(number, inside, runs, command):
    """How what stands below the `$ titan` lines of a block differs from what they write."""
    at = [k for k, line in enumerate(inside) if line.startswith("$ titan ")]
    for k, end in zip(at, at[1:] + [len(inside)]):
        wanted = written(inside[k].split()[2:], runs, command)
        if wanted is None:
            yield number + 1 + k, f"no row for {inside[k]}"
        else:
            yield from compared(number + 1 + k, inside[k + 1:end], wanted.splitlines())


def refused(text, rule, token, texts):
    """How a text that a table gives as refused differs from the rows."""
    for frame, status, said in texts.get(text, []):
        place = re.match(r"a\.ti:1:(\d+): (\w+) ", said)
        if status == "1" and place and place[2] == rule:
            begins = int(place[1]) - COLUMNS[frame]
            return None if text[begins:].startswith(token) else f"{rule} isn't at {token}"
    return f"no row that says {rule}"


def tabled(number, line, texts):
    """How a line of a table of texts differs from the rows."""
    cells = [re.findall(r"`([^`]+)`", cell) for cell in line.replace("\\|", "\0").strip("|").split("|")]
    if [len(cell) > 0 for cell in cells[:2]] != [True, True] or len(cells) != 3:
        yield number, "no text, rule and mend"
        return
    (text, *_), (rule, *token), mends = ([code.replace("\0", "|") for code in cell] for cell in cells)
    differs = refused(text, rule, token[0] if token else "", texts)
    if differs:
        yield number, f"{text}: {differs}"
    for mend in mends:
        if all(status != "0" for _, status, _ in texts.get(mend, [])):
            yield number, f"{mend}: no row that says it is accepted"


def ran(words, command):
    """The status of the command with these words, over a program that prints nothing; nothing where the words name a file that isn't here."""
    if "t.tr" in words or "a.ti" in words[:-1]:
        return None
    asked = [*words[:-1], "rules/S1_fixed.ti"] if words[-1:] == ["a.ti"] else words
    return str(subprocess.run([command, *asked], cwd=DATA, capture_output=True, check=False).returncode)


def commanded(number, line, statuses, command):
    """How a line of a table of commands differs from the rows, or from what the commands do."""
    cells = line.strip("|").split("|")
    if len(cells) != 3:
        yield number, "no cause, rejected and accepted commands"
        return
    for cell, status in zip(cells[1:], "30"):
        for words in re.findall(r"`titan ?([^`]*)`", cell):
            if status not in statuses.get(words, ()):
                yield number, f"titan {words}: no row that says status {status}"
            if command and ran(words.split(), command) not in (None, status):
                yield number, f"titan {words}: not status {status}"


def differences(lines, runs, texts, statuses, command):
    """Where a document differs, each with the number of the line."""
    if sum(line.startswith("```") for line in lines) % 2:
        yield len(lines), "a block without end"
    for number, words, inside in blocks(lines):
        if len(words) > 1:
            yield from quoted(number, words, inside, runs)
        yield from commands(number, inside, runs, command)
    heading, what = None, None
    for number, line in enumerate(lines, 1):
        if line in ("<!-- rows -->", "<!-- commands -->"):
            heading, what = number, line
        elif not line.startswith("|"):
            heading = None
        elif heading and number > heading + 2:
            yield from tabled(number, line, texts) if "rows" in what else commanded(number, line, statuses, command)


def main():
    parser = argparse.ArgumentParser(description=__doc__, formatter_class=argparse.RawDescriptionHelpFormatter)
    parser.add_argument("--run", metavar="COMMAND", type=Path, help="run each `$ titan` line by COMMAND, and hold the documents against that")
    command = parser.parse_args().run
    runs, texts, statuses = read_rows()
    documents = sorted([*TOP.glob("*.md"), *TOP.glob("docs/*.md"), *TOP.glob("crates/*/*.md")])
    found = 0
    for path in documents:
        for number, differs in differences(path.read_text().splitlines(), runs, texts, statuses, command and command.resolve()):
            print(f"{path.relative_to(TOP)}:{number}: {differs}")
            found += 1
    print(f"quotes: {len(documents)} documents, {found} differences")
    return 1 if found else 0


sys.exit(main())
