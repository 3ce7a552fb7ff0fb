#!/usr/bin/env python3
"""Replays recorded sessions with titan_lsp: each message of a client, and the messages that the server sends for it.

    sessions.py PROGRAM           prints each session in which the program does something else
    sessions.py --write PROGRAM   records what the program does; read it before you commit it
    sessions.py --check           runs no program: prints methods and errors of the server that no session has, and whether the stored run of
                                  crates/titan_lsp, which `rt ci` replays, isn't the session of that name

The status is 1 if something is printed, else 0. The sessions are in sessions/*.txt, line by line:

    == NAME       begins a session, or without a line `=` a part of others
    @ NAME        here comes a part
    > CONTENT     a message of the client; its header is added
    >> STRING     bytes of the client that are no message, as a JSON string with a character for each byte; before it, how often they are sent
    < CONTENT     a message of the server, for the line before it
    = STATUS TEXT ends a session: the exit status, and what is on standard error
    # TEXT        a comment
"""
import json
import re
import subprocess
import sys
from pathlib import Path

EDITORS = Path(__file__).resolve().parent
CRATES = EDITORS.parent / 'crates'
STORED = 'the stored run of the program'
# errors that no input causes
OUTSIDE = {'a read failed', 'a read was interrupted too often', 'out of memory', 'a write failed', 'too many messages'}


def fail(text):
    sys.exit(f'sessions: {text}')


def framed(content):
    return b'Content-Length: %d\r\n\r\n%s' % (len(content), content)


class Sent:
    """What a client sends at once, and the contents of the messages that the server sends for it."""

    def __init__(self, line):
        mark, _, text = line.partition(' ')
        self.line, self.answers, self.content = line, [], None
        if mark == '>':
            self.content = text.encode()
            self.bytes = framed(self.content)
        else:
            times, string = re.fullmatch(r'(?:(\d+) )?(".*")', text).groups()
            self.bytes = json.loads(string).encode('latin-1') * int(times or 1)


class Session:
    """A session or a part of sessions: its lines are strings, things that are sent, and names of parts."""

    def __init__(self, name, path):
        self.name, self.path, self.lines, self.end = name, path, [], None

    def sent(self, every):
        """All that is sent, in order."""
        for line in self.lines:
            if isinstance(line, Sent):
                yield line
            elif line.startswith('@ '):
                if line[2:] not in every:
                    fail(f'{self.path.name}: no part {line[2:]}')
                yield from every[line[2:]].sent(every)

    def text(self):
        yield f'== {self.name}'
        for line in self.lines:
            if isinstance(line, Sent):
                yield line.line
                yield from (f'< {answer}' for answer in line.answers)
            else:
                yield line
        if self.end is not None:
            yield f'= {self.end}'
        yield ''


def read(path, every):
    """Reads a file; returns the lines before its first session."""
    head, session = [], None
    for at, line in enumerate(path.read_text(encoding='utf-8').splitlines(), 1):
        if line.startswith('== '):
            session = Session(line[3:], path)
            if session.name in every:
                fail(f'{path.name}:{at}: a second session of this name')
            every[session.name] = session
        elif session is None:
            head.append(line)
        elif line.startswith(('> ', '>> ')):
            session.lines.append(Sent(line))
        elif line.startswith('< '):
            session.lines[-1].answers.append(line[2:])
        elif line.startswith('= '):
            session.end = line[2:]
        elif line.startswith(('@ ', '#')):
            session.lines.append(line)
        elif line:
            fail(f'{path.name}:{at}: no line of a session')
    return head


def contents(out):
    """The contents of the messages that a server wrote."""
    while out:
        found = re.match(rb'Content-Length: (\d+)\r\n\r\n', out)
        if not found:
            fail(f'the server wrote {out[:80]}')
        end = found.end() + int(found[1])
        yield out[found.end():end].decode('utf-8')
        out = out[end:]


def run(program, data):
    done = subprocess.run([program], input=data, capture_output=True, timeout=60)
    return list(contents(done.stdout)), f'{done.returncode} {done.stderr.decode("utf-8", "replace").strip()}'.strip()


def replay(program, session, every):
    """What a program does in a session: the messages for each line, by running it on the lines up to there, and how it ends."""
    data, answers = b'', []
    before, end = run(program, data)
    for sent in session.sent(every):
        data += sent.bytes
        written, end = run(program, data)
        if written[:len(before)] != before:
            fail(f'{session.path.name}: {session.name}: the answers change')
        answers.append(written[len(before):])
        before = written
    return answers, end


def stored(every):
    """The files of the stored run, as the session has them."""
    lines = list(every[STORED].sent(every))
    yield CRATES / 'titan_lsp/stdin', b''.join(line.bytes for line in lines)
    yield CRATES / 'titan_lsp/stdout', b''.join(framed(answer.encode()) for line in lines for answer in line.answers)


def missing(every):
    """Methods and errors of the server that no session has."""
    def strings(path, pattern):
        return set(re.findall(pattern, (CRATES / path).read_text(encoding='utf-8')))

    sessions = [session for session in every.values() if session.end is not None]
    sent = [line for session in sessions for line in session.sent(every)]
    asked = b'\n'.join(line.content for line in sent if line.content is not None).decode('utf-8', 'replace')
    answered = '\n'.join(answer for line in sent for answer in line.answers)
    ends = '\n'.join(session.end for session in sessions)
    for method in sorted(strings('ti_lsp/src/decoding.rt', r'"([\w/$]+)" => ')):
        if f'"method":"{method}"' not in asked:
            yield f'no session has the method {method}'
    for code in sorted(strings('ti_lsp/src/response.rt', r'=> (-\d+),')):
        if f'"code":{code}' not in answered:
            yield f'no session has the error {code}'
    for text in sorted(strings('ti_lsp_frames/src/error.rt', r'#\[error\("([^"{]*?)(?:: \{0\})?"\)\]') - OUTSIDE):
        if text not in ends:
            yield f'no session ends with: {text}'


def check(every):
    found = list(missing(every))
    for path, data in stored(every):
        if path.read_bytes() != data:
            found.append(f"{path.relative_to(EDITORS.parent)} isn't the session {STORED}")
    return found


def compare(program, every):
    found = []
    for session in every.values():
        if session.end is None:
            continue
        answers, end = replay(program, session, every)
        for sent, now in zip(session.sent(every), answers):
            if now != sent.answers:
                found.append(f'{session.path.name}: {session.name}\n  {sent.line[:200]}')
                found += [f'  - {answer}' for answer in sent.answers] + [f'  + {answer}' for answer in now]
        if end != session.end:
            found.append(f'{session.path.name}: {session.name}\n  - = {session.end}\n  + = {end}')
    return found


def write(program, every, heads):
    known = {}
    for session in every.values():
        if session.end is None:
            continue
        answers, session.end = replay(program, session, every)
        for sent, now in zip(session.sent(every), answers):
            if known.setdefault(id(sent), now) != now:
                fail(f'{session.path.name}: {session.name}: a part is answered otherwise than elsewhere: {sent.line[:80]}')
            sent.answers = now
    for path, head in heads.items():
        lines = head + [line for session in every.values() if session.path == path for line in session.text()]
        path.write_text('\n'.join(lines), encoding='utf-8')
    for path, data in stored(every):
        path.write_bytes(data)


def main():
    words = sys.argv[1:]
    every = {}
    heads = {path: read(path, every) for path in sorted((EDITORS / 'sessions').glob('*.txt'))}
    if words == ['--check']:
        found = check(every)
    elif len(words) == 1 and not words[0].startswith('-'):
        found = compare(words[0], every)
        print(f'{sum(session.end is not None for session in every.values())} sessions')
    elif len(words) == 2 and words[0] == '--write':
        write(words[1], every, heads)
        found = []
    else:
        sys.exit(__doc__)
    for text in found:
        print(text)
    sys.exit(bool(found))


if __name__ == '__main__':
    main()
