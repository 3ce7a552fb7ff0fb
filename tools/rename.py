#!/usr/bin/env python3
"""Renames identifiers in all crates by tables, the names that the prover derives from them included.

    rename.py check TABLE..       says what the tables would change, and what to look at; writes nothing
    rename.py apply TABLE..       renames, and moves files and folders
    rename.py uses WORD [GLOB..]  lists the lines of code that have a word

A table has a row a line, its fields separated by a tab; a line that begins with # is a comment. All rows are applied in one pass over
the tree as it is, so each speaks of names as they are now; where two rows rename the same place, the first does. Strings stay, and in
comments and documents only what is in backticks changes. The rows:

    type CRATE OLD NEW            a struct, enum, trait, alias or constant, in each file that declares or imports it
    def CRATE OLD NEW             a definition of specs/ or a lemma of proofs/, likewise
    variant CRATE ENUM OLD NEW    a variant: `Enum::Old`, imports of the logic, and `-Old` in names that the prover derives
    module CRATE PATH NEW         the module src/PATH.rt, with its folder and its proofs
    file CRATE PATH NEW           a file of specs/ or proofs/, such as specs/Mirrors/Walks, without its ending
    fn CRATE MODULE OLD NEW       a free function: its calls, imports and proofs
    method CRATE MODULE TYPE OLD NEW [GLOB,..]
                                  a method: `.old(` in its crate and in files that match; only there, if the first glob begins with !
    param CRATE MODULE FN OLD NEW a parameter or local variable of a function, and of its proofs
    word GLOB,.. PATTERN NEW      a word in the code of files that match: `old`, `.old`, `-old`, `old(`, `::old`, `old::`, `old:`, `old.`
    mv OLD NEW                    a file or folder

Names are resolved by the imports of each file. What can't be told apart so is reported, and left alone.
"""
import fnmatch
import os
import re
import shutil
import sys

TOP = os.path.dirname(os.path.dirname(os.path.abspath(__file__)))
WORD = r"[A-Za-z_][A-Za-z0-9_]*"
BEGIN, END = r"(?<![A-Za-z0-9_])", r"(?![A-Za-z0-9_])"
# traits whose name follows that of a type in the path of an impl
TRAITS = """Drop Copy Clone Debug Display PartialEq Eq Ord PartialOrd Hash Default Model From Iterator Deref DerefMut TheVariants TheImpl
Error Kept Source Sink Gate""".split()


# ---- where code is


def code_in_string(text, start, end):
    """The spans of a string's names in braces: a format string cites variables."""
    return [(start + m.start(1), start + m.end(1)) for m in re.finditer(r"\{(" + WORD + r")(:[^}]*)?\}", text[start:end])]


def string_end(text, start):
    """Where the string that begins here ends."""
    at = start + 1
    while at < len(text) and text[at] != '"':
        at += 2 if text[at] == "\\" else 1
    return min(at + 1, len(text))


def mask_of(path, text):
    """A letter for each character: c for code, b in backticks of a comment or document, a dot elsewhere."""
    if path.endswith(".md"):
        mask = ["."] * len(text)
        for m in re.finditer(r"`[^`\n]+`", text):
            mask[m.start():m.end()] = "b" * (m.end() - m.start())
        return "".join(mask)
    rust, logic = path.endswith((".rt", ".edit")), path.endswith(".antt")
    mask = ["c"] * len(text)
    at = 0
    while at < len(text):
        two = text[at:at + 2]
        char = re.match(r"'(\\.[^']*|[^'\\])'", text[at:at + 12]) if rust and text[at] == "'" else None
        if (rust and two == "//") or (logic and two == "--" and (at == 0 or text[at - 1] in " \n\t")):
            end = text.find("\n", at)
            end = len(text) if end < 0 else end
            mask[at:end] = "." * (end - at)
            for m in re.finditer(r"`[^`]+`", text[at:end]):
                mask[at + m.start():at + m.end()] = "b" * (m.end() - m.start())
        elif rust and text[at] == '"':
            end = string_end(text, at)
            mask[at:end] = "." * (end - at)
            for a, b in code_in_string(text, at, end):
                mask[a:b] = "c" * (b - a)
        elif char:
            end = at + char.end()
            mask[at:end] = "." * (end - at)
        else:
            end = at + 1
        at = end
    return "".join(mask)


def expand(tree):
    """The paths of a Rust use tree, each a list of names."""
    tree = re.sub(r"//[^\n]*", "", tree).strip()
    m = re.match(r"^([^{]*)\{(.*)\}$", tree, re.S)
    if not m:
        return [[x.strip() for x in tree.split("::")]] if tree else []
    prefix = [x.strip() for x in m.group(1).split("::") if x.strip()]
    items, depth, item = [], 0, ""
    for char in m.group(2):
        if char == "," and depth == 0:
            items.append(item)
            item = ""
        else:
            depth += (char == "{") - (char == "}")
            item += char
    items.append(item)
    return [prefix + path for item in items if item.strip() for path in expand(item.strip())]


class Tree:
    """The files of the repository, with what they import."""

    def __init__(self, root):
        self.root = root
        self.files, self.masks = {}, {}
        self.known_imports, self.known_sources, self.known_paths = {}, {}, None
        for base, folders, names in os.walk(root):
            folders[:] = [it for it in folders if it not in (".git", "out")]
            for name in names:
                path = os.path.relpath(os.path.join(base, name), root)
                code = path.startswith("crates/") and name.endswith((".rt", ".antt", ".edit"))
                if code or name == "README.md" or path.startswith("docs/") and name.endswith(".md"):
                    with open(os.path.join(root, path), encoding="utf-8") as file:
                        self.files[path] = file.read()
                    self.masks[path] = mask_of(path, self.files[path])

    def has(self, path):
        return os.path.exists(os.path.join(self.root, path))

    @staticmethod
    def crate(path):
        return path.split("/")[1] if path.startswith("crates/") else ""

    def code(self, crate=None):
        """The paths of the files of code, of one crate or of all."""
        return [it for it in self.files if not it.endswith(".md") and (crate is None or self.crate(it) == crate)]

    def proofs(self):
        return [it for it in self.code() if it.endswith(".antt") and "/proofs/" in it]

    def folders(self, crate):
        for base, folders, _ in os.walk(os.path.join(self.root, "crates", crate)):
            folders[:] = [it for it in folders if it != "out"]
            for folder in folders:
                yield os.path.relpath(os.path.join(base, folder), self.root)

    def is_module(self, crate, name):
        return any(it.startswith(f"crates/{crate}/src/") and it.endswith(f"/{name}.rt") for it in self.files)

    def imports(self, path):
        """Each import of a file: crate, path below it, name, alias."""
        if path not in self.known_imports:
            text, found = self.files[path], []
            for m in re.finditer(r"use\s+Rattle\.([a-z_0-9]+)\.([^\s{;]+?)(?:\.\{([^}]*)\}|\s+as\s+(\S+?)|)\s*(?:;|\n|$)", text):
                crate, below, names, alias = m.groups()
                if names is None:
                    found.append((crate, below, None, alias))
                    continue
                for item in filter(None, map(str.strip, names.split(","))):
                    name, _, alias = item.partition(" as ")
                    found.append((crate, below, name.strip(), alias.strip() or None))
            if path.endswith(".rt"):
                for m in re.finditer(r"(?<!ghost )\buse\s+([^;]+);", text):
                    for parts in expand(m.group(1)):
                        name, _, alias = parts[-1].partition(" as ")
                        found.append((parts[0], ".".join(parts[1:-1]), name.strip(), alias.strip() or None))
            self.known_imports[path] = found
        return self.known_imports[path]

    def paths(self, crate):
        """Each path of the logic that begins with a crate's name: file, place, text."""
        if self.known_paths is None:
            self.known_paths = {}
            for path in self.code():
                for m in re.finditer(r"Rattle\.([a-z_0-9]+)\.[A-Za-z0-9_.+-]+(?:\.\{[^}]*\})?", self.files[path]):
                    self.known_paths.setdefault(m.group(1), []).append((path, m.start(), m.group(0)))
        return self.known_paths.get(crate, [])

    def sources(self, path):
        """The source files that have the function whose proofs a file has."""
        if path not in self.known_sources:
            m = re.match(r"(crates/[^/]+)/proofs/(.*)$", path)
            *parts, name = m.group(2).split("/")[:-1] or [""]
            found = set()
            while parts and not found:
                found |= {f"{m.group(1)}/src/{'/'.join(parts)}.rt"} & self.files.keys()
                parts.pop()
            declares = re.compile(r"\bfn\s+" + re.escape(name.lstrip("+")) + END)
            if name and not any(declares.search(self.files[it]) for it in found):
                sources = [it for it in self.code(self.crate(path)) if it.endswith(".rt")]
                found = {it for it in sources if declares.search(self.files[it])} or found
            self.known_sources[path] = found
        return self.known_sources[path]


# ---- rows


class Renaming:
    """The rules that rows give: for each file, what is to be replaced by what."""

    def __init__(self, tree):
        self.tree = tree
        self.rules = {path: [] for path in tree.files}
        self.moves, self.problems, self.row = [], [], ""

    def rule(self, path, where, new):
        """Where is a pattern or the span of one place."""
        self.rules[path].append((where, new, self.row))

    def at(self, path, found, new, group=1):
        for m in found:
            self.rule(path, m.span(group), new)

    def report(self, text):
        self.problems.append(f"{self.row}: {text}")

    def resolve(self, path, crate, old):
        """Whether a file imports this name of this crate, and what else of that name it imports."""
        mine, other = False, []
        inside = self.tree.crate(path) == crate
        for origin, below, name, alias in self.tree.imports(path):
            if old in (below or "").split(".") and origin == crate:
                mine = True
            if name != old and (name is None or alias != old):
                continue
            own = origin == crate or inside and (origin in ("crate", "super", "self") or self.tree.is_module(crate, origin))
            if own and name == old:
                mine = True
            elif alias == old or alias is None or not own:
                other.append(f"{origin}.{below}.{name}" + (f" as {alias}" if alias else ""))
        return mine, other

    def declares(self, path, old):
        text = self.tree.files[path]
        if path.endswith(".rt"):
            return re.search(r"\b(struct|enum|trait|type|const|union)\s+" + re.escape(old) + END, text)
        prefix = r"(?m)^(abbrev |pub |abbrev pub |record |data |pub record |pub data |unfold |)*(record |data |)"
        return path.endswith(".antt") and "/specs/" in path and re.search(prefix + re.escape(old) + r"\b\s*(:|\n|$| )", text)

    def cites(self, path, crate, old):
        """Whether a source file of the crate cites the name by a path."""
        text = self.tree.files[path]
        return re.search("::" + re.escape(old) + END, text) or re.search(
            r"Rattle\." + crate + r"\.[^\s{;]*\." + re.escape(old) + END, text)

    def type(self, crate, old, new):
        word = re.compile(BEGIN + re.escape(old) + END)
        declaring = [it for it in self.tree.code(crate) if self.declares(it, old)]
        if not declaring:
            self.report(f"no definition of {old} in {crate}")
        for path, text in self.tree.files.items():
            if old not in text:
                continue
            inside = self.tree.crate(path) == crate
            if path.endswith((".md", ".edit")):
                if inside:
                    self.rule(path, word, new)
                continue
            mine, other = self.resolve(path, crate, old)
            mine = mine or path in declaring
            if inside and path.endswith(".rt") and not other and not mine:
                mine = self.cites(path, crate, old)
                if not mine and word.search(text):
                    self.report(f"{path} has {old} without an import (left alone)")
            if mine and other:
                self.report(f"{path} has {old} also of {other}: give word rows for this file")
            elif mine:
                self.rule(path, word, new)
        self.type_in_paths(crate, old, new)

    define = type

    def type_in_paths(self, crate, old, new):
        """A type's name in paths of the logic and in folders of proofs, also with the name of a trait after it."""
        traits = "|".join(sorted(TRAITS, key=len, reverse=True))
        part = re.compile(r"(?<=\.)" + re.escape(old) + r"(?=((?:" + traits + r")?)(?:\.|$))")
        for path, start, text in self.tree.paths(crate):
            for m in part.finditer(text) if old in text else ():
                self.rule(path, (start + m.start(), start + m.end()), new)
        for folder in list(self.tree.folders(crate)):
            name, above = os.path.basename(folder), os.path.dirname(folder)
            rest = name[len(old):]
            if name.startswith(old) and "/proofs/" in folder and (rest == "" or rest.startswith("The") or rest in TRAITS):
                self.moves.append((folder, f"{above}/{new}{rest}"))

    def module(self, crate, path, new):
        *above, old = path.split("/")
        for kind, ending in (("src", ".rt"), ("src", ""), ("proofs", "")):
            place = f"crates/{crate}/{kind}/{path}{ending}"
            if self.tree.has(place):
                self.moves.append((place, "/".join([f"crates/{crate}/{kind}", *above, new]) + ending))
            elif ending:
                self.report(f"no {place}")
        dotted = re.escape("".join(f"{it}." for it in above))
        part = re.compile(r"Rattle\." + crate + r"\.(?:specs\.declared|specs\.contracts|proofs|src)\." + dotted + "("
                          + re.escape(old) + r")(?=\.|\s|$|\{)")
        self.in_paths(crate, part, new)
        for file, text in self.tree.files.items():
            inside = self.tree.crate(file) == crate
            if file.endswith(".md") and inside:
                self.at(file, re.finditer(BEGIN + "(" + re.escape(old) + r")\.rt", text), new)
            elif file.endswith(".edit") and inside:
                self.at(file, re.finditer(r"src/" + "".join(f"{it}/" for it in above) + "(" + old + r")\.rt", text), new)
            elif file.endswith(".rt") and inside:
                self.at(file, re.finditer(BEGIN + "(" + re.escape(old) + r")(?=::)", text), new)
                self.at(file, re.finditer(r"\bmod\s+(" + re.escape(old) + r")\s*[;{]", text), new)
            elif file.endswith(".rt"):
                self.at(file, re.finditer(BEGIN + crate + r"::(" + re.escape(old) + r")(?=::)", text), new)

    def file(self, crate, path, new):
        *above, old = path.split("/")
        place, goal = f"crates/{crate}/{path}", "/".join([f"crates/{crate}", *above, new])
        if self.tree.has(place + ".antt"):
            self.moves.append((place + ".antt", goal + ".antt"))
        else:
            self.report(f"no {place}.antt")
        if self.tree.has(place):
            self.moves.append((place, goal))
        dotted = re.escape("".join(f"{it}." for it in above))
        self.in_paths(crate, re.compile(r"Rattle\." + crate + r"\." + dotted + "(" + re.escape(old) + r")(?=\.|\s|$|\{)"), new)

    def in_paths(self, crate, part, new):
        for path, start, text in self.tree.paths(crate):
            m = part.match(text)
            if m:
                self.rule(path, (start + m.start(1), start + m.end(1)), new)

    def variant(self, crate, enum, old, new):
        for path in self.tree.code():
            text = self.tree.files[path]
            if old not in text:
                continue
            if path.endswith((".rt", ".edit")):
                self.variant_in_rust(path, crate, enum, old, new)
            self.variant_in_logic(path, crate, enum, old, new)
        cited = re.compile(BEGIN + re.escape(enum) + "::" + re.escape(old) + END)
        for path in self.tree.proofs():
            if any(cited.search(self.tree.files[it]) for it in self.tree.sources(path)):
                self.rule(path, re.compile(r"(?<=-)" + re.escape(old) + END), new)

    def variant_in_rust(self, path, crate, enum, old, new):
        text, inside = self.tree.files[path], self.tree.crate(path) == crate
        name, mine = enum, inside
        if path.endswith(".rt"):
            mine = inside or self.resolve(path, crate, enum)[0]
            for origin, _, imported, alias in self.tree.imports(path):
                if imported == enum and alias and (origin == crate or inside):
                    name = alias
        if mine:
            self.at(path, re.finditer(BEGIN + re.escape(name) + r"::(" + re.escape(old) + ")" + END, text), new)
        declared = re.search(r"\benum\s+" + re.escape(enum) + r"\b[^{]*\{", text)
        if inside and declared:
            depth, end = 1, declared.end()
            while depth and end < len(text):
                depth += (text[end] == "{") - (text[end] == "}")
                end += 1
            for m in re.finditer(r"(?m)^\s*(" + re.escape(old) + r")\s*(?:[,({]|$)", text[declared.end():end]):
                self.rule(path, (declared.end() + m.start(1), declared.end() + m.end(1)), new)
            self.at(path, re.finditer(r"Self::(" + re.escape(old) + ")" + END, text), new)

    def variant_in_logic(self, path, crate, enum, old, new):
        imported, elsewhere = False, []
        for origin, below, name, alias in self.tree.imports(path):
            if origin == crate and (below.endswith(f"{enum}.TheVariants") or below.endswith(f".{enum}") and name == old):
                imported = imported or name == old and not alias
                if name is None and alias:
                    found = re.finditer(BEGIN + re.escape(alias) + r"\.(" + re.escape(old) + ")" + END, self.tree.files[path])
                    self.at(path, found, new)
            elif name == old:
                elsewhere.append(f"{origin}.{below}")
        if imported and elsewhere:
            self.report(f"{path} has {old} also of {elsewhere}")
        elif imported and path.endswith(".antt"):
            self.rule(path, re.compile(BEGIN + re.escape(old) + END), new)
        elif imported:
            self.rule(path, re.compile(r"(?<![A-Za-z0-9_:])" + re.escape(old) + END + r"(?!::)"), new)

    def fn(self, crate, module, old, new):
        home = self.home(crate, module, old)
        if not home:
            return
        base, users = module.split("/")[-1], set()
        word = re.compile(BEGIN + re.escape(old) + END)
        call = re.compile(r"(?<![A-Za-z0-9_.])" + re.escape(old) + r"(?=\s*(\(|::<|[,;}\]]|\s+as\b|<|\)))")
        for path in self.tree.code():
            if not path.endswith((".rt", ".edit")) or not word.search(self.tree.files[path]):
                continue
            text, mine = self.tree.files[path], path == home or self.imports_fn(path, crate, base, old)
            if path.endswith(".rt"):
                found = list(re.finditer(BEGIN + re.escape(base) + r"::(" + re.escape(old) + ")" + END, text))
                self.at(path, found, new)
                users |= {path} if found else set()
            if mine:
                users.add(path)
                self.rule(path, call, new)
                if re.search(r"\blet (mut )?" + re.escape(old) + r"\b|\b" + re.escape(old) + r":", text):
                    self.report(f"{path}: {old} may also be a variable, parameter or field there")
        self.goal_parts(users, old, new)
        self.move_proofs(f"crates/{crate}/proofs/{module}", old, new)
        self.contract_paths(crate, module, old, new)

    def home(self, crate, module, old):
        home = f"crates/{crate}/src/{module}.rt"
        if re.search(r"\bfn\s+" + re.escape(old) + END, self.tree.files.get(home, "")):
            return home
        self.report(f"no fn {old} in {home}")
        return None

    def imports_fn(self, path, crate, base, old):
        inside, library = self.tree.crate(path) == crate, path.endswith("lib.rt")
        if path.endswith(".edit"):
            return inside
        for origin, below, name, _ in self.tree.imports(path):
            own = origin == crate or inside and origin in ("crate", "super", "self", base)
            last = below.split(".")[-1] if below else ""
            if name == old and own and not (inside and last and last != base and origin == "crate" and not library):
                return True
        return bool(inside and library and re.search(re.escape(base) + r"::(\{[^}]*\b)?" + re.escape(old) + END, self.tree.files[path]))

    def method(self, crate, module, kind, old, new, globs=""):
        home = self.home(crate, module, old)
        if not home:
            return
        after, users = r"(?=\s*(\(|::<|<|\)|,))", set()
        call = r"(?<=\.)|(?<=" + re.escape(kind) + "::)"
        at_home = re.compile(r"(?:" + call + r"|(?<=\bfn )|(?<=Self::))" + re.escape(old) + after)
        elsewhere = re.compile(r"(?:" + call + ")" + re.escape(old) + after)
        wanted = [it for it in globs.lstrip("!").split(",") if it]
        for path in self.tree.code():
            text = self.tree.files[path]
            if not path.endswith((".rt", ".edit")) or old not in text:
                continue
            inside = self.tree.crate(path) == crate and not globs.startswith("!")
            if not inside and not any(fnmatch.fnmatch(path, it) for it in wanted):
                continue
            if path != home and re.search(r"(?<=\bfn )" + re.escape(old) + END, text):
                self.report(f"{path} defines a fn {old} of its own (left alone)")
            pattern = at_home if path == home else elsewhere
            if pattern.search(text):
                users.add(path)
                self.rule(path, pattern, new)
        self.goal_parts(users, old, new)
        self.move_proofs(f"crates/{crate}/proofs/{module}/{kind}", old, new)
        for folder in list(self.tree.folders(crate)):
            if folder.startswith(f"crates/{crate}/proofs/{module}/") and os.path.basename(folder) in (old, "+" + old):
                self.moves.append((folder, folder[:-len(old)] + new))
        self.contract_paths(crate, module, old, new)

    def goal_parts(self, users, old, new):
        """Parts of the names that the prover derives, in proofs of functions of these files."""
        part = re.compile(r"(?:(?<=-)|(?<=\bc\.)|(?<=\bgoal\.)|(?<=\bat\.))" + re.escape(old) + END
                          + r"|(?<![A-Za-z0-9_.-])" + re.escape(old) + r"(?=-)")
        for path in self.tree.proofs():
            if old in self.tree.files[path] and self.tree.sources(path) & users:
                self.rule(path, part, new)

    def move_proofs(self, folder, old, new):
        for name in (old, "+" + old):
            if self.tree.has(f"{folder}/{name}"):
                self.moves.append((f"{folder}/{name}", f"{folder}/{name[:-len(old)]}{new}"))

    def contract_paths(self, crate, module, old, new):
        dotted = re.escape(module.replace("/", "."))
        kind = r"\.(?:[A-Z][A-Za-z0-9]*\.)?"
        below = re.compile(r"Rattle\." + crate + r"\.(?:specs\.contracts|specs\.declared|proofs)\." + dotted + kind + r"\+?("
                           + re.escape(old) + r")(?=\.|\s|$)")
        among = re.compile(r"Rattle\." + crate + r"\.specs\.contracts\." + dotted + kind + r"\{([^}]*)\}")
        word = re.compile(BEGIN + re.escape(old) + END)
        for path, start, text in self.tree.paths(crate):
            m = below.match(text)
            if m:
                self.rule(path, (start + m.start(1), start + m.end(1)), new)
            m = among.match(text)
            if m and word.search(m.group(1)):
                self.rule(path, word, new)

    def param(self, crate, module, fn, old, new):
        path = f"crates/{crate}/src/{module}.rt"
        text, found = self.tree.files.get(path, ""), False
        word = re.compile(r"(?<![A-Za-z0-9_:])(?<![A-Za-z0-9_)\]?]\.)" + re.escape(old) + END + r"(?!\s*::)")
        for m in re.finditer(r"(?m)^( *)(?:pub(?:\([a-z]+\))? )?(?:ghost )?(?:const )?fn " + re.escape(fn) + END, text):
            end = re.search(r"(?m)^" + m.group(1) + r"\}", text[m.end():])
            body = text[m.end():m.end() + end.end() if end else len(text)]
            for k in word.finditer(body):
                self.rule(path, (m.end() + k.start(), m.end() + k.end()), new)
                found = True
            for k in re.finditer(r"[{,]\s*(" + re.escape(old) + r")\s*[,}]", body):
                if re.search(r"[A-Z]\w*\s*\{[^{}]*$", body[:k.start(1)]):
                    self.report(f"{path}: {old} as a field's short form? {body[max(0, k.start() - 40):k.end() + 10]!r}")
        if not found:
            self.report("nothing matches")
        part = re.compile(r"(?:(?<=c\.args\.)|(?<=-)|(?<=\bc\.)|(?<=goal\.))" + re.escape(old) + END
                          + r"|(?<![A-Za-z0-9_.-])" + re.escape(old) + r"(?=-)")
        for it in self.tree.proofs():
            if re.match(r"crates/" + crate + r"/proofs/.*/\+?" + re.escape(fn) + "/[^/]+$", it) and path in self.tree.sources(it):
                self.rule(it, part, new)

    def word(self, globs, pattern, new):
        m = re.match(r"^(\.|::|-|fn )?(" + WORD + r")(\(|::|:|\.)?$", pattern)
        if not m:
            self.report(f"pattern {pattern}")
            return
        before, old, after = m.groups()
        ends = {None: "", "(": r"(?=\s*(\(|::<))", ":": r"(?=\s*:(?!:))"}
        rule = re.compile((r"(?<=" + re.escape(before) + ")" if before else BEGIN) + re.escape(old) + END
                          + (ends[after] if after in ends else r"(?=\s*" + re.escape(after) + ")"))
        matching = [it for it in self.tree.files if any(fnmatch.fnmatch(it, glob) for glob in globs.split(","))]
        matching = [it for it in matching if rule.search(self.tree.files[it])]
        if not matching:
            self.report("nothing matches")
        for path in matching:
            self.rule(path, rule, new)

    def mv(self, old, new):
        self.moves.append((old, new))

    def load(self, tables):
        kinds = {"def": self.define, **{it: getattr(self, it) for it in "type variant module file fn method param word mv".split()}}
        for table in tables:
            with open(table, encoding="utf-8") as lines:
                for number, line in enumerate(lines, 1):
                    kind, *fields = [it.strip() for it in line.rstrip("\n").split("\t")]
                    if not kind or kind.startswith("#"):
                        continue
                    self.row = f"{os.path.basename(table)}:{number} {kind} {' '.join(fields)}"
                    try:
                        kinds[kind](*fields)
                    except (KeyError, TypeError) as why:
                        self.report(f"not a row: {why}")

    def library_names(self, path):
        """The spans of names of the kit that have a hyphen: no part of them is ours."""
        text, spans = self.tree.files[path], []
        if path.endswith(".antt"):
            for origin, _, name, _ in self.tree.imports(path):
                if name and "-" in name and not self.tree.has(f"crates/{origin}"):
                    spans += [m.span() for m in re.finditer(r"(?<![A-Za-z0-9_-])" + re.escape(name) + r"(?![A-Za-z0-9_-])", text)]
        return spans

    def rewritten(self, path):
        """A file's text after all rules, and the number of places that change."""
        text, mask, kit, chosen = self.tree.files[path], self.tree.masks[path], self.library_names(path), {}
        for where, new, row in self.rules[path]:
            exact = isinstance(where, tuple)
            for span in [where] if exact else [m.span() for m in where.finditer(text)]:
                if mask[span[0]] == "." and not (exact and path.endswith((".md", ".edit"))):
                    continue
                if any(a <= span[0] and span[1] <= b for a, b in kit):
                    continue
                if chosen.setdefault(span, (new, row))[0] != new:
                    line = text.count("\n", 0, span[0]) + 1
                    self.problems.append(f"{path}:{line}: {text[slice(*span)]} to {chosen[span][0]} ({chosen[span][1]}), not {new} ({row})")
        out, last = [], 0
        for (start, end), (new, _) in sorted(chosen.items()):
            if start >= last:
                out += [text[last:start], new]
                last = end
        return "".join(out) + text[last:], len(chosen)


def move(root, moves):
    """Moves files and folders, the deepest first, so that folders move later with what is in them."""
    for old, new in sorted(set(moves), key=lambda it: -it[0].count("/")):
        old, new = os.path.join(root, old), os.path.join(root, new)
        if not os.path.exists(old):
            print("gone:", old)
        elif os.path.isdir(old) and os.path.isdir(new):
            print("exists:", new)
        else:
            os.makedirs(os.path.dirname(new), exist_ok=True)
            shutil.move(old, new)


def list_uses(tree, word, globs):
    for path, text in sorted(tree.files.items()):
        if globs and not any(fnmatch.fnmatch(path, it) for it in globs):
            continue
        lines = {text.count("\n", 0, m.start()) for m in re.finditer(BEGIN + re.escape(word) + END, text) if tree.masks[path][m.start()] != "."}
        for line in sorted(lines):
            print(f"{path}:{line + 1}: {text.splitlines()[line].strip()}")


def main(arguments):
    if len(arguments) < 2 or arguments[0] not in ("check", "apply", "uses"):
        sys.exit(__doc__)
    command, *rest = arguments
    tree = Tree(TOP)
    if command == "uses":
        list_uses(tree, rest[0], rest[1:])
        return
    renaming = Renaming(tree)
    renaming.load(rest)
    after = {path: renaming.rewritten(path) for path in tree.files}
    changed = [path for path in after if after[path][0] != tree.files[path]]
    for problem in renaming.problems:
        print(problem)
    print(f"{sum(it[1] for it in after.values())} places in {len(changed)} files, {len(set(renaming.moves))} moves")
    if command == "apply":
        for path in changed:
            with open(os.path.join(TOP, path), "w", encoding="utf-8") as file:
                file.write(after[path][0])
        move(TOP, renaming.moves)


if __name__ == "__main__":
    main(sys.argv[1:])
