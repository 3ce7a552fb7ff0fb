#!/usr/bin/env python3
"""Writes the words and patterns by which the files of editors/ highlight programs, from the definition of the lexical grammar.

    python3 tools/editors.py          writes them
    python3 tools/editors.py --check  prints each file that isn't what it would write; the status is 1 where there is one, else 0

They are between two lines that say `tools/editors.py: begin` and `tools/editors.py: end`; the rest of each file is written by hand.
Read are, below crates/:

- ti_syntax/specs/Tokens.antt: the reserved words (`word_of`), the operators and punctuation marks (`sign_of`);
- ti_syntax/specs/Tokenizing.antt: which bytes names, escapes and suffixes of numbers have, and the dimensions;
- ti_syntax/specs/Spelling: the names that mean something in one place of the grammar, such as `in`, and are ordinary names elsewhere;
- ti_lang/specs/Typing/BuiltIn.antt: the members of domains, grids and regions.

GROUPS and PLACES say how each word is highlighted. The script ends with an error if a word of the sources has no group, if a group has
a word that the sources don't have, or if it can't find a definition.
"""
import html
import json
import re
import sys
from pathlib import Path

TOP = Path(__file__).resolve().parent.parent
CRATES = TOP / 'crates'
EDITORS = TOP / 'editors'

# the reserved words, by the group that highlights them
GROUPS = {
    'control': 'break continue else for foreach if return while',
    'declaration': 'class',
    'modifier': 'final private protected public static',
    'qualifier': 'local single',
    'type': 'boolean Domain int long Point RectDomain SharedRegion String void',
    'operation': 'broadcast new',
    'literal': 'false null true',
    'receiver': 'this',
    'library': 'println System Ti',
}
# the names that are recognized only in one place, by what stands before them there
PLACES = {'foreach': 'in', 'broadcast': 'from', 'Ti': 'barrier numProcs thisProc', 'System': 'out'}

# the scopes of TextMate grammars
SCOPES = {
    'control': 'keyword.control',
    'declaration': 'storage.type.class',
    'modifier': 'storage.modifier',
    'qualifier': 'storage.modifier.qualifier',
    'type': 'storage.type',
    'operation': 'keyword.operator.word',
    'literal': 'constant.language',
    'receiver': 'variable.language.this',
    'library': 'support.function.library',
    'place': 'keyword.operator.word.place',
    'member': 'support.function.member',
    'method': 'entity.name.function',
    'class-name': 'entity.name.type.class',
    'dimension': 'constant.numeric.dimension',
    'number': 'constant.numeric.integer',
    'escape': 'constant.character.escape',
    'sign': 'keyword.operator',
    'mark': 'punctuation',
    'error': 'invalid.illegal',
}
MARKS = '()[]{};,.:'


# ---- the sources

def fail(text):
    sys.exit(f'editors: {text}')


def read(path):
    if not path.is_file():
        fail(f'no file {path.relative_to(TOP)}')
    return path.read_text(encoding='utf-8')


def found(pattern, *paths):
    """All that the group of a pattern matches in some files; at least one."""
    words = [word for path in paths for word in re.findall(pattern, read(path), re.M)]
    if not words:
        fail(f'nothing matches {pattern} in {", ".join(str(path.relative_to(TOP)) for path in paths) or "no file"}')
    return words


def bytes_of(name, path):
    """The bytes with which a definition compares its argument `b`, as characters."""
    body = found(rf'^{name} b =((?:.*\n)(?: +.*\n)*)', path)[0]
    return [chr(int(byte)) for byte in re.findall(r'\bb == (\d+)', body)]


def grouped(groups, words, what):
    """The words of each group; they have to be those of the sources."""
    sorted_groups = {name: sorted(text.split(), key=str.lower) for name, text in groups.items()}
    listed = [word for group in sorted_groups.values() for word in group]
    for word in sorted(set(listed) ^ set(words)):
        fail(f'{what}: {word} ' + ('has no group' if word in words else "isn't in the sources"))
    if len(listed) > len(set(listed)):
        fail(f'{what}: a word is in two groups')
    return sorted_groups


class Grammar:
    """The lexical grammar, and the words that depend on their place."""

    def __init__(self):
        tokens = CRATES / 'ti_syntax/specs/Tokens.antt'
        tokenizing = CRATES / 'ti_syntax/specs/Tokenizing.antt'
        reserved = found(r'^word_of k\.\w+ = Some \(codes "(\w+)"\)$', tokens)
        self.groups = grouped(GROUPS, reserved, 'reserved words')
        placed = found(r'k\.Name \(codes "(\w+)"\)', *sorted((CRATES / 'ti_syntax/specs/Spelling').glob('*.antt')))
        self.places = grouped(PLACES, placed, 'names with a place')
        for word in sorted(set(PLACES) - set(reserved)):
            fail(f"names with a place: {word} isn't reserved")
        self.members = sorted(found(r'bytes_eq name \(codes "(\w+)"\)', CRATES / 'ti_lang/specs/Typing/BuiltIn.antt'))
        signs = found(r'^sign_of k\.\w+ = Some \(codes "(.+)"\)$', tokens)
        if not set(MARKS) < set(signs):
            fail('punctuation marks: not all are signs')
        self.signs = sorted(set(signs) - set(MARKS), key=lambda sign: (-len(sign), sign))
        # what a name can begin with and go on with, as the inside of a set of characters
        found(r'^begins_name b = (is_ascii_alphabetic) b ', tokenizing)
        found(r'^is_name_byte b = (begins_name b \|\| is_ascii_digit b)$', tokenizing)
        self.name_signs = sorted(bytes_of('begins_name', tokenizing))
        self.first = 'A-Za-z' + ''.join(self.name_signs)
        self.more = 'A-Za-z0-9' + ''.join(self.name_signs)
        self.suffix = ''.join(bytes_of('is_long_letter', tokenizing))
        self.escapes = ''.join(bytes_of('escaped', tokenizing))
        self.dimensions = found(r'^  dimension : \(n : ℕ\).* 1 ≤ n → n ≤ (\d) ', tokenizing)[0]
        begins = set(''.join(signs)) | set(self.name_signs) | {'"'}
        # printable characters that begin no token
        self.stray = ''.join(char for char in map(chr, range(33, 127)) if not char.isalnum() and char not in begins)


# ---- what is written

def vim_set(chars):
    """The inside of a set of characters in a pattern of Vim."""
    return re.sub(r'[\\\]^-]', r'\\\g<0>', chars)


def vim(g):
    """Commands `syn` of Vim. An item that is defined later goes first; keywords go before all others."""
    name = f'[{g.first}][{g.more}]*'
    codes = ','.join(str(ord(sign)) for sign in g.name_signs)

    def any_of(words):
        return '(' + '|'.join(words) + ')>'

    yield f'syn iskeyword 48-57,65-90,97-122,{codes}'
    for group, words in g.groups.items():
        yield f'syn keyword titan{group.capitalize()} {" ".join(words)}'
    yield rf'syn match titanMethod "\v<{name}(\_s*\()@="'
    yield rf'syn match titanClassName "\v(<class\_s+)@<={name}"'
    yield rf'syn match titanMember "\v(\.\_s*)@<={any_of(g.members)}(\_s*\()@="'
    for word in ('Ti', 'System'):
        yield rf'syn match titanLibrary "\v(<{word}\_s*\.\_s*)@<={any_of(g.places[word])}"'
    yield rf'syn match titanPlace "\v(<foreach\_s*\(\_s*{name}\_s+)@<={any_of(g.places["foreach"])}"'
    # behind an operand, so not the operand itself, which may have this name
    behind = rf'(<broadcast\_s+)@<!(<broadcast>\_[^;]*([{g.more}]\_s+|[)\]]\_s*))@<='
    yield rf'syn match titanPlace "\v{behind}{any_of(g.places["broadcast"])}"'
    yield rf'syn match titanNumber "\v<\d+[{g.suffix}]?"'
    yield rf'syn match titanError "\v<0\d+[{g.suffix}]?"'
    yield rf'syn match titanDimension "\v<[1-{g.dimensions}]d>"'
    yield rf'syn match titanError "[{vim_set(g.stray)}]\|[^\x00-\x7f]"'
    yield r'syn match titanWrongEscape contained +\\.+'
    yield rf'syn match titanEscape contained +\\[{vim_set(g.escapes)}]+'


def lisp_string(text):
    return '"' + text.replace('\\', '\\\\').replace('"', '\\"') + '"'


def emacs(g):
    """Constants of Emacs Lisp."""
    def constant(name, words, text):
        yield f"(defconst titan--{name}"
        yield "  '(" + ' '.join(map(lisp_string, words)) + ')'
        yield f'  {lisp_string(text)})'

    for group, words in g.groups.items():
        yield from constant(group, words, f'Reserved words: {group}.')
    for word, words in g.places.items():
        yield from constant('after-' + word.lower(), words, f'Names that mean something after `{word}\'.')
    yield from constant('member', g.members, 'Members of domains, grids and regions.')
    yield f'(defconst titan--name {lisp_string(f"[{g.first}][{g.more}]*")}'
    yield '  "Pattern of a name or a reserved word.")'
    yield f'(defconst titan--wrong-number {lisp_string(chr(92) + "_<0[0-9]+[" + g.suffix + "]?")}'
    yield '  "Pattern of digits that are no number.")'
    yield f'(defconst titan--number {lisp_string(chr(92) + "_<[0-9]+[" + g.suffix + "]?")}'
    yield '  "Pattern of a number.")'
    yield f'(defconst titan--dimension {lisp_string(chr(92) + "_<[1-" + g.dimensions + "]d" + chr(92) + "_>")}'
    yield '  "Pattern of a dimension.")'
    yield f'(defconst titan--stray {lisp_string("[" + g.stray + "[:nonascii:]]")}'
    yield '  "Pattern of a character that begins no token.")'
    yield f"(defconst titan--name-signs '({' '.join('?' + chr(92) + sign for sign in g.name_signs)})"
    yield '  "Characters of names that are neither letters nor digits.")'


def textmate(g):
    """Rules of a TextMate grammar, each on a line. Every token is matched, so a rule begins where the token before it ended."""
    name = f'[{g.first}][{g.more}]*'
    last = f'(?![{g.more}])'

    def scope(group):
        return {'name': SCOPES[group] + '.titan'}

    def any_of(words):
        return '(' + '|'.join(words) + ')' + last

    def escaped(chars):
        return re.sub(r'[][\\^$.|?*+(){}]', r'\\\g<0>', chars)

    def match(pattern, *groups):
        """A rule for a pattern, with the group of each of its parts; without parts, that of the whole."""
        if len(groups) == 1 and isinstance(groups[0], dict):
            return {'match': pattern, 'captures': {str(at): scope(group) for at, group in groups[0].items()}}
        return {'match': pattern, **scope(groups[0])}

    rules = {
        'words': [match(any_of(words), group) for group, words in g.groups.items()],
        'places': [
            match(rf'(foreach)\s*(\()\s*({name})\s+{any_of(g.places["foreach"])}', {1: 'control', 2: 'mark', 4: 'place'}),
            match(rf'(Ti)\s*(\.)\s*{any_of(g.places["Ti"])}', {1: 'library', 2: 'mark', 3: 'library'}),
            match(rf'(System)\s*(\.)\s*{any_of(g.places["System"])}', {1: 'library', 2: 'mark', 3: 'library'}),
            match(rf'(\.)\s*{any_of(g.members)}(?=\s*\()', {1: 'mark', 2: 'member'}),
            match(r'(class)\s+(' + name + ')', {1: 'declaration', 2: 'class-name'}),
            {
                'begin': '(broadcast)' + last,
                'beginCaptures': {'1': scope('operation')},
                # behind an operand, so not the operand itself, which may have this name
                'end': rf'(?:^|(?<=[)\]])|(?<=[{g.more})\]]\s)|(?<=\s\s))(?<!broadcast\s){any_of(g.places["broadcast"])}|(?=;)',
                'endCaptures': {'1': scope('place')},
                'patterns': [{'include': '$self'}],
            },
        ],
        'names': [match(rf'({name})(?=\s*\()', 'method'), {'match': name}],
        'numbers': [
            match(rf'[1-{g.dimensions}]d{last}', 'dimension'),
            match(rf'0[0-9]+[{g.suffix}]?', 'error'),
            match(rf'[0-9]+[{g.suffix}]?', 'number'),
        ],
        'escapes': [match(rf'\\[{escaped(g.escapes)}]', 'escape'), match(r'\\.', 'error')],
        'signs': [match('|'.join(map(escaped, g.signs)), 'sign'), match(f'[{escaped(MARKS)}]', 'mark')],
        'stray': [match(r'[^\s]', 'error')],
    }
    for key, patterns in rules.items():
        yield f'    {json.dumps(key)}: {{"patterns": ['
        for at, rule in enumerate(patterns):
            yield '      ' + json.dumps(rule) + (',' if at + 1 < len(patterns) else '')
        yield '    ]},'


def kate(g):
    """Lists of words and rules of Kate. The first rule that matches goes first."""
    name = f'[{g.first}][{g.more}]*'
    last = f'(?![{g.more}])'

    def rule(group, pattern):
        return f'      <RegExpr attribute="{group}" context="#stay" String="{html.escape(pattern)}"/>'

    for group, words in g.groups.items():
        yield f'    <list name="{group}">' + ''.join(f'<item>{word}</item>' for word in words) + '</list>'
    yield '    <contexts>'
    yield '    <context name="program" attribute="normal" lineEndContext="#stay">'
    for group in g.groups:
        yield f'      <keyword attribute="{group}" context="#stay" String="{group}"/>'
    yield rule('dimension', f'[1-{g.dimensions}]d{last}')
    yield rule('method', rf'{name}(?=\s*\()')
    yield rule('normal', name)
    yield rule('error', f'0[0-9]+[{g.suffix}]?')
    yield rule('number', f'[0-9]+[{g.suffix}]?')
    yield '      <DetectChar attribute="string" context="string" char="&quot;"/>'
    yield '      <Detect2Chars attribute="comment" context="line comment" char="/" char1="/"/>'
    yield '      <Detect2Chars attribute="comment" context="comment" char="/" char1="*" beginRegion="comment"/>'
    yield '      <DetectChar attribute="normal" context="#stay" char="{" beginRegion="block"/>'
    yield '      <DetectChar attribute="normal" context="#stay" char="}" endRegion="block"/>'
    yield rule('error', '[' + re.sub(r'[\\\]^-]', r'\\\g<0>', g.stray) + r']|[^\x00-\x7f]')
    yield '    </context>'
    yield '    <context name="string" attribute="string" lineEndContext="#pop">'
    yield rule('escape', '\\\\[' + re.sub(r'[\\\]^-]', r'\\\g<0>', g.escapes) + ']')
    yield rule('error', r'\\.')
    yield '      <DetectChar attribute="string" context="#pop" char="&quot;"/>'
    yield '    </context>'


FILES = {
    'vim/syntax/titan.vim': vim,
    'emacs/titan-mode.el': emacs,
    'vscode/syntaxes/titan.tmLanguage.json': textmate,
    'kate/titan.xml': kate,
}


def written(path, part):
    """The text of a file with its generated part."""
    lines = read(path).splitlines()
    marks = [[at for at, line in enumerate(lines) if f'tools/editors.py: {word}' in line] for word in ('begin', 'end')]
    if [len(at) for at in marks] != [1, 1] or marks[0] >= marks[1]:
        fail(f'{path.relative_to(TOP)}: no single generated part')
    lines[marks[0][0] + 1:marks[1][0]] = part
    return '\n'.join(lines) + '\n'


def main():
    if sys.argv[1:] not in ([], ['--check']):
        sys.exit(__doc__)
    grammar = Grammar()
    stale = False
    for name, make in FILES.items():
        path = EDITORS / name
        text = written(path, list(make(grammar)))
        if text == read(path):
            continue
        if sys.argv[1:]:
            print(f'editors: {path.relative_to(TOP)} is stale: run tools/editors.py')
            stale = True
        else:
            path.write_text(text, encoding='utf-8')
    sys.exit(stale)


if __name__ == '__main__':
    main()
