#!/usr/bin/env python3
"""Lists in docs/BELIEVED.md the definitions that the contract of the top call reaches.

Without an argument it writes the page; with --check it fails if the page isn't what it would write.

The contract is that of `titan_top` in ti_top. Three things are followed from it, until nothing new is reached:

- modules of `specs/`: those that a contract imports (`ghost use`), and those that such a module imports (`use`);
- types of `src/`: those in the signature of the call, those in the fields or variants of such a type, and those that a module
  imports (`declared`). What contracts see of a type may be set by an `impl Model`, its view; the view is searched in all
  files of the type's crate, and what it imports is followed;
- traits of `src/`: those that bound a parameter of the call, with their ghost members and the contracts of their methods.

An item is read as `rt fmt` lays it out: it ends at the first line that begins with a brace or with `);`, or on its first line.
"""
import os
import re
import sys
import textwrap
from collections import namedtuple
from functools import lru_cache

TOP = os.path.dirname(os.path.dirname(os.path.abspath(__file__)))
PAGE = os.path.join(TOP, 'docs', 'BELIEVED.md')

# a type or a trait: its crate, the path of its file below src/, and its name
Item = namedtuple('Item', 'crate file name')

DECLARES = r'^(?:pub(?:\(\w+\))? )?(?:struct|enum|trait|type) '
GHOST_USE = re.compile(r'Rattle\.(\w+)\.specs\.([\w.]+?)(?:\.\{(.*)\})?(?: as (\w+))?;?$')

HEAD = """# What must be believed

A contract says no more than its definitions do. These are the {modules} modules of `specs/`, of {all}, that the
contract of the top call reaches, `titan_top` in `crates/ti_top/src/command.rt`. They state everything
that is claimed about a run of titan, apart from definitions in the standard library of the kit. All
other modules of `specs/` state contracts between crates; the prover has checked these against the
clauses of the top call, and nobody has to believe them.

**{lowering} of the {modules} need no belief either:** the modules of ti_lower and ti_lower_expr, and what only they
import, marked \\* below. They say which code a program gets (`program_code`), and are listed because
clauses name that code. The clause `follows` of `RunsCode` says of the same code that it follows the
program; so a reader may take `program_code` for any code that does.

The order is that of reading: no module comes before one that it imports. The last one, `Clauses` of
ti_top, is what the call promises, so one may as well begin there and look up what it imports.
[PROMISES.md](PROMISES.md) paraphrases it.

For each crate the page also lists the types of `src/` of which these definitions and the result of the
call speak; among them the *views*, types of which contracts don't see the fields but the value that an
`impl Model` gives them; and the *traits* that bound parameters of the call, with the ghost members
by which contracts speak of such an argument.

`tools/believed.py` makes this page from the sources, with the first sentence of each module's first
comment, and `.ci/run` fails if the page is stale.
"""


# ---- the tree

def crate_path(crate, *parts):
    return os.path.join(TOP, 'crates', crate, *parts)


def read(path):
    with open(path, encoding='utf-8') as file:
        return file.read()


@lru_cache(None)
def source(crate, file):
    """The text of a file of src/, without comments."""
    return re.sub(r'//.*', '', read(crate_path(crate, 'src', file)))


@lru_cache(None)
def files_below(crate, folder, ending):
    """The files of a folder of a crate, as paths below it."""
    start = crate_path(crate, folder)
    found = [os.path.relpath(os.path.join(at, name), start) for at, _, names in os.walk(start) for name in names]
    return sorted(file for file in found if file.endswith(ending))


@lru_cache(None)
def crates():
    """The crates of crates.txt, each after those that it depends on, and what each depends on."""
    below = {}
    for line in read(os.path.join(TOP, 'crates.txt')).splitlines():
        name, _, deps = line.split('#')[0].partition(':')
        if name.split():
            below[name.split()[0]] = deps.split()
    order = []

    def visit(name):
        if name in below and name not in order:
            for dep in reversed(below[name]):
                visit(dep)
            order.append(name)

    for name in below:
        visit(name)
    return {name: below[name] for name in order}


# ---- items of src/ and the names that they use

def item_text(crate, file, pattern):
    """The text of the item of a file whose first line a pattern matches, or None."""
    lines = source(crate, file).splitlines()
    for first, line in enumerate(lines):
        if re.match(pattern, line):
            if re.search(r'[;}]\s*$', line):
                return line
            last = next(n for n in range(first + 1, len(lines)) if re.match(r'[{}]|\);', lines[n]))
            return '\n'.join(lines[first:last + 1])
    return None


@lru_cache(None)
def declarations(crate, name):
    """The types and traits of this name in a crate."""
    pattern = re.compile(DECLARES + name + r'\b', re.M)
    return [Item(crate, file, name) for file in files_below(crate, 'src', '.rt') if pattern.search(source(crate, file))]


def in_module(items, path):
    """Those of some items whose file is that of a module path, or below it, where there are such; else all."""
    folder = '/'.join(path)
    inside = [item for item in items if re.match(re.escape(folder) + r'(\.rt|/)', item.file)]
    return inside or items


def use_tree(text, front=()):
    """The names that the tree of a Rust `use` brings into scope, each with its path."""
    text = text.strip()
    group = re.match(r'(?:([\w:]+)::)?\{(.*)\}$', text, re.S)
    if group:
        front = front + tuple(group[1].split('::')) if group[1] else front
        for part in re.findall(r'[\w:]*\{[^}]*\}|[^,{}]+', group[2]):
            if part.strip():
                yield from use_tree(part, front)
        return
    path, _, alias = text.partition(' as ')
    path = front + tuple(path.split('::'))
    if path[-1] == 'self':
        path = path[:-1]
    yield alias or path[-1], path


@lru_cache(None)
def rust_names(crate, file):
    """What the Rust `use` lines of a file bring into scope."""
    found = {}
    for text in re.findall(r'^(?:pub(?:\([^)]*\))? )?use ([^;]+);', source(crate, file), re.M):
        found.update(use_tree(text))
    if '*' in found:
        sys.exit(f'believed: {crate}/{file} imports all of a module: its types have to be named')
    return found


def resolve(crate, file, path):
    """The type or trait of the repository that a Rust path in a file names, or None."""
    name = path[-1]
    if len(path) == 1 and Item(crate, file, name) in declarations(crate, name):
        return Item(crate, file, name)
    path = rust_names(crate, file).get(path[0], (path[0],)) + path[1:]
    home, rest = (crate, path[1:-1]) if path[0] in ('crate', 'super', 'self') else (path[0], path[1:-1])
    if home not in crates() or len(path) < 2:
        return None
    # a crate may pass on the types of one below it
    for place in [home, *crates()[home]]:
        found = in_module(declarations(place, path[-1]), rest) if place in crates() else []
        if len(found) > 1:
            sys.exit(f'believed: {"::".join(path)} in {crate}/{file} may be any of {found}')
        if found:
            return found[0]
    return None


def types_in(crate, file, text):
    """The types and traits of the repository that the text of an item names."""
    for path in re.findall(r'(?<![\w.])(?:\w+::)*[A-Z]\w*', text):
        found = resolve(crate, file, tuple(path.split('::')))
        if found:
            yield found


# ---- imports of definitions

def imported(line):
    """What an import of `specs/` names: (crate, path, names), or None where it is of the kit, or of what the prover derives of a type."""
    found = GHOST_USE.search(line.strip())
    if not found and any(f'Rattle.{crate}.' in line for crate in crates()):
        sys.exit(f'believed: what is imported here? {line.strip()}')
    if not found or found[1] not in crates():
        return None
    crate, path, group, alias = found.groups()
    if path.startswith('contracts.'):
        return None
    names = [part.split(' as ')[-1].strip() for part in group.split(',')] if group else [alias or path.split('.')[-1]]
    return crate, path, names


def is_named(name, text):
    """Whether a text uses a name; of an operator with places for operands, whether it has its parts."""
    return all(re.search(r'(?<!\w)' + re.escape(part) + r'(?!\w)', text) for part in name.split('◌') if part)


def imports_of_item(crate, file, text):
    """The imports of `specs/` that the text of an item uses: those inside it, and those of its file that it names."""
    for line in re.findall(r'^\s+ghost use .*$', text, re.M):
        yield imported(line)
    for line in re.findall(r'^ghost use .*$', source(crate, file), re.M):
        found = imported(line)
        if found and any(is_named(name, text) for name in found[2]):
            yield found


def imports_of_module(crate, path):
    text = read(crate_path(crate, 'specs', path.replace('.', '/') + '.antt'))
    return [imported(line) for line in text.splitlines() if re.match(r'\s*(?:pub )?use ', line)]


def module_of(crate, path):
    """The module that an import names: the longest prefix of its path that is a file."""
    parts = path.split('.')
    for n in range(len(parts), 0, -1):
        if os.path.exists(crate_path(crate, 'specs', *parts[:n]) + '.antt'):
            return crate, '.'.join(parts[:n])
    sys.exit(f'believed: no module {crate} {path}')


def declared_item(crate, path):
    """The type or trait that an import below `declared` names; None for one of constants."""
    *folder, name = [part for part in path.split('.') if part != 'TheVariants']
    if name == 'TheConstants':
        return None
    found = in_module(declarations(crate, name), folder)
    if len(found) != 1:
        sys.exit(f'believed: declared.{path} of {crate} may be any of {found}')
    return found[0]


# ---- what the contract reaches

def views_of(item):
    """The files and texts of the `impl Model` of a type."""
    pattern = r'impl(?:<.*>)? Model for ((?:\w+::)*' + item.name + r')\b'
    for file in files_below(item.crate, 'src', '.rt'):
        text = item_text(item.crate, file, pattern)
        if text and resolve(item.crate, file, tuple(re.match(pattern, text)[1].split('::'))) in (item, None):
            yield file, text


class Reach:
    """All that the contract of the top call reaches, but for what only some modules lead to.

    `modules` is in reading order; `views` gives the file of a type's view, `traits` the ghost members of a trait.
    """

    def __init__(self, without=()):
        self.modules, self.types, self.views, self.traits = [], set(), {}, {}
        self.without = without
        self.seen = set()
        for file in files_below('ti_top', 'src', '.rt'):
            signature = item_text('ti_top', file, r'pub fn titan_top\b')
            if signature:
                self.follow_item('ti_top', file, signature)

    def follow_imports(self, imports):
        for found in imports:
            if found is None:
                continue
            crate, path, _ = found
            if path.startswith('declared.'):
                item = declared_item(crate, path[len('declared.'):])
                if item:
                    self.visit_item(item)
            else:
                self.visit_module(module_of(crate, path))

    def follow_item(self, crate, file, text):
        self.follow_imports(imports_of_item(crate, file, text))
        for item in types_in(crate, file, text):
            self.visit_item(item)

    def visit_item(self, item):
        if item in self.seen:
            return
        self.seen.add(item)
        text = item_text(item.crate, item.file, DECLARES + item.name + r'\b')
        self.follow_item(item.crate, item.file, text)
        if re.match(r'(pub )?trait', text):
            self.traits[item] = re.findall(r'^\s+ghost (\w+):', text, re.M)
            return
        self.types.add(item)
        for file, view in views_of(item):
            self.views[item] = file
            self.follow_imports(imports_of_item(item.crate, file, view))

    def visit_module(self, module):
        if module not in self.seen and module not in self.without:
            self.seen.add(module)
            self.follow_imports(imports_of_module(*module))
            self.modules.append(module)


# ---- the page

def first_sentence(module):
    """The first sentence of a module's first comment."""
    crate, path = module
    words = []
    for line in read(crate_path(crate, 'specs', path.replace('.', '/') + '.antt')).splitlines():
        if line.startswith('--'):
            words.append(line.lstrip('- ').rstrip())
        elif words:
            break
    sentence = re.split(r'(?<=[.;])\s', ' '.join(words).strip())[0].rstrip('.;:')
    return (sentence[:1].upper() + sentence[1:]).replace('|', '\\|')


def wrapped(text):
    """The paragraphs of a text, in lines of at most 100 columns."""
    fill = lambda words: textwrap.fill(words, 100, break_long_words=False, break_on_hyphens=False)
    return '\n\n'.join(fill(' '.join(it.split())) for it in text.split('\n\n'))


def listed(names):
    return ', '.join(f'`{name}`' for name in names)


def source_link(crate, file):
    return f'[{file}](../crates/{crate}/src/{file})'


def lines_on_items(crate, reached):
    """The lines on the types, views and traits of a crate."""
    types = sorted({item.name for item in reached.types if item.crate == crate})
    if types:
        yield f'Types: {listed(types)}.'
    views = sorted((item.name, file) for item, file in reached.views.items() if item.crate == crate)
    if views:
        yield 'Views: ' + ', '.join(f'`{name}` ({source_link(crate, file)})' for name, file in views) + '.'
    for item, members in sorted(reached.traits.items()):
        if item.crate == crate:
            ghosts = f'with the ghost members {listed(members)}' if len(members) > 1 else (
                f'with the ghost member {listed(members)}' if members else 'without a ghost member')
            yield f'Trait: `{item.name}` ({source_link(crate, item.file)}), {ghosts}.'


def table(modules, lowering):
    lines = ['| Module | About |', '|---|---|']
    for module in modules:
        crate, path = module
        star = ' \\*' if module in lowering else ''
        file = path.replace('.', '/')
        lines.append(f'| [{path}](../crates/{crate}/specs/{file}.antt){star} | {first_sentence(module)} |')
    return '\n'.join(lines)


def page():
    reached = Reach()
    needed = Reach(without={module for module in reached.modules if module[0] in ('ti_lower', 'ti_lower_expr')})
    lowering = set(reached.modules) - set(needed.modules)
    everything = sum(file != 'Lib.antt' for crate in crates() for file in files_below(crate, 'specs', '.antt'))
    title, _, prose = HEAD.format(modules=len(reached.modules), all=everything, lowering=len(lowering)).strip().partition('\n\n')
    text = f'{title}\n\n{wrapped(prose)}\n'
    for crate in crates():
        parts = [wrapped(line) for line in lines_on_items(crate, reached)]
        modules = [module for module in reached.modules if module[0] == crate]
        if modules:
            parts.append(table(modules, lowering))
        if parts:
            text += f'\n## {crate}\n\n' + '\n\n'.join(parts) + '\n'
    return text


def main():
    if sys.argv[1:] not in ([], ['--check']):
        sys.exit('usage: tools/believed.py [--check]')
    made = page()
    if not sys.argv[1:]:
        with open(PAGE, 'w', encoding='utf-8') as file:
            file.write(made)
    elif read(PAGE) != made:
        sys.exit('docs/BELIEVED.md is stale: run python3 tools/believed.py')


main()
