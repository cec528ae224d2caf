"""Which definitions some clauses reach, found by following names.

From the clauses on each name that a definition uses is followed: through imports, modules, constructors, and the types and
constants that the code declares. A name that is bound where it stands (a variable, a field, a pattern) is not followed.
"""
import glob
import os
import re
from collections import namedtuple

ROOT = os.path.dirname(os.path.dirname(os.path.realpath(__file__)))

# ---- what a file says

NAME = r"(?:◌\S+◌|[^\s(){}\[\];,:=.]+)"
HEAD = re.compile(r"^((?:abbrev |pub |unfoldable )*)(record |data )?(" + NAME + r")(?= )")
IMPORT = re.compile(r"^\s*(?:ghost )?(pub )?use ([\w.]+?)(?:\.\{(.*)\}| as (\w+))?;?\s*$")
WORD = re.compile(r'"(?:[^"\\]|\\.)*"|[(){}\[\];,]|[^\s(){}\[\];,"]+')
OPENING, CLOSING = "([{", ")]}"
IS_NAME = re.compile(r"^[^\W\d][\w'\-]*$")

# key: crate, file, name; bound: the modules around it, as one text; around: the lines of each, which others share
Definition = namedtuple("Definition", "key comment lines bound around")


def read(path):
    with open(path, encoding="utf-8") as file:
        return file.read().split("\n")


def words_of(text):
    return WORD.findall(text)


class Scope:
    """Where a name that a file uses is defined: by its imports, its modules and its own definitions."""

    def __init__(self):
        self.names = {}  # a name: (module, the name there)
        self.modules = {}  # a name: a module
        self.reexports = {}
        self.operators = {}  # a part of an operator: its name

    def add(self, public, module, listed, alias):
        if listed is None:
            self.modules[alias or module.split(".")[-1]] = module
            return
        for item in listed.split(","):
            there, _, here = item.strip().partition(" as ")
            if not there:
                continue
            here = here or there
            self.names[here] = (module, there)
            if public:
                self.reexports[here] = (module, there)
            if "◌" in here:
                for part in here.split("◌"):
                    if part:
                        self.operators[part] = here


def indent_of(line):
    return len(line) - len(line.lstrip(" "))


class File:
    """The definitions of one file of specs/."""

    def __init__(self, crate, name, path):
        self.crate, self.name, self.path = crate, name, path
        self.scope, self.definitions, self.inside, self.head = Scope(), {}, {}, ""
        self.parse(read(path))

    def parse(self, lines):
        comment, modules, current, header = [], [], None, None
        for number, line in enumerate(lines):
            text = line.strip()
            if header is not None:  # the head of a module goes on to its `where`
                header[1].append(text)
                header = None if text.split(" ")[-1] == "where" else header
                continue
            if not text:
                comment = []
                continue
            if text.startswith("--"):
                if not text.startswith("-- ----"):
                    comment.append(text)
                continue
            imported = IMPORT.match(line)
            if imported:
                if not self.head and not self.scope.names and not self.scope.modules:
                    self.head = sentence(comment)
                self.scope.add(*imported.groups())
                comment = []
                continue
            while modules and indent_of(line) <= modules[-1][0] and not text.startswith((")", "}")):
                modules.pop()
            if text.startswith("module "):
                modules.append((indent_of(line), [text]))
                comment, current = [], None
                header = None if text.split(" ")[-1] == "where" else modules[-1]
                continue
            base = modules[-1][0] + 2 if modules else 0
            if indent_of(line) == base:
                head = HEAD.match(text)
                if head and (head.group(2) or text[head.end():].startswith(" :")):
                    current = self.begin(head, comment, [said for _, said in modules])
                    comment = []
            if current is None or text.startswith(("infix", "unfolding ")):
                comment = []
                continue
            inner = comment if current.lines else []
            current.lines.extend([" " * (indent_of(line) - base) + said for said in inner] + [line[base:]])
            comment = []

    def begin(self, head, comment, modules):
        name = head.group(3)
        bound = " ".join(line for said in modules for line in said)
        made = Definition((self.crate, self.name, name), list(comment), [], bound, modules)
        self.definitions[name] = made
        if "◌" in name:
            for part in name.split("◌"):
                if part:
                    self.scope.operators[part] = name
        return made

    def finish(self):
        """Which names are constructors of which definition."""
        for made in self.definitions.values():
            head = HEAD.match(made.lines[0])
            if head.group(2) == "data ":
                for line in made.lines[1:]:
                    if indent_of(line) == 2 and not line.lstrip().startswith("--"):
                        for name in line.split(" : ")[0].split():
                            self.inside[name] = made.key[2]


def sentence(lines):
    """Comment lines as one text."""
    return " ".join(re.sub(r"^-- ?", "", line).strip() for line in lines).strip()


# ---- which names a definition uses

def bound_before(words, at):
    """The names of a binder `(a b : ..` that begins behind a bracket, and whether it is one."""
    found = []
    while at < len(words) and IS_NAME.match(words[at]):
        found.append(words[at])
        at += 1
    return found if found and at < len(words) and words[at] == ":" else []


def uses(words, bound, is_known):
    """The names that are used and not bound where they stand; `a.b` is one name."""
    found, stack = [], [set(bound)]
    at = 0
    while at < len(words):
        word = words[at]
        if word[0] in OPENING and len(word) == 1:
            for name in bound_before(words, at + 1):
                stack[-1].add(name)
            stack.append(set())
            if word == "[":
                bind_pattern(words, at + 1, stack, is_known)
        elif word[0] in CLOSING and len(word) == 1:
            if len(stack) > 1:
                stack.pop()
        elif word == "|":
            bind_pattern(words, at + 1, stack, is_known)
        elif word == "λ":
            at += 1
            while at < len(words) and not words[at].endswith("."):
                if IS_NAME.match(words[at]) and (at == 0 or words[at - 1] != ":"):
                    stack[-1].add(words[at])
                at += 1
            if at < len(words):
                stack[-1].add(words[at].rstrip("."))
        elif word == "let":
            depth = 0
            while at + 1 < len(words) and not (depth == 0 and words[at + 1] in ("=", ":")):
                at += 1
                depth += (words[at] in OPENING) - (words[at] in CLOSING)
                if IS_NAME.match(words[at]):
                    stack[-1].add(words[at])
        elif word in ("elim", "as", "in", "record", "search", "grind", "rw", "simp", "omega"):
            pass
        elif at + 1 < len(words) and words[at + 1] == "=" and words[at - 1] in ("{", ";") and at > 0:
            pass  # a field or an implicit argument that is given
        else:
            name = word.rstrip(".") if word != "." else word
            first = name.split(".")[0]
            if name and not any(first in names for names in stack):
                found.append(name)
        at += 1
    return found


def bind_pattern(words, at, stack, is_known):
    """A case `p ↦ e`: the small names of the pattern are bound."""
    names, depth = [], 0
    while at < len(words):
        if words[at] == "↦" and depth == 0:
            stack[-1].update(name for name in names if not is_known(name))
            return
        depth += (words[at] in OPENING) - (words[at] in CLOSING)
        if depth < 0 or (words[at] == "|" and depth == 0):
            return
        if IS_NAME.match(words[at]):
            names.append(words[at])
        at += 1


def binders(words):
    """The names that a head binds: `(a b : T)` and `{a : T}` at its own level."""
    found, depth = [], 0
    for at, word in enumerate(words):
        if word in OPENING:
            if depth == 0:
                found += bound_before(words, at + 1)
            depth += 1
        elif word in CLOSING:
            depth -= 1
    return found


def grouped(lines, level):
    """The items of a body: each begins at this level."""
    items = []
    for line in lines:
        if line.lstrip().startswith("--"):
            continue
        if indent_of(line) <= level or not items:
            items.append([line])
        else:
            items[-1].append(line)
    return [" ".join(item) for item in items]


def names_in(made, is_known):
    """All names that a definition uses."""
    module = words_of(re.sub(r"\bmodule _ |\bwhere\b", "", made.bound)) if made.bound else []
    outer = set(binders(module))
    found = uses(module, (), is_known) if module else []
    head = HEAD.match(made.lines[0])
    kind = (head.group(2) or "").strip()
    if kind:
        end = next((at for at, line in enumerate(made.lines) if line.rstrip().endswith("where")), 0)
        first = words_of(" ".join(made.lines[:end + 1])[head.end():])
        if first and first[-1] == "where":
            first.pop()
        bound = outer | set(binders(first))
        found += uses(first, outer, is_known)
        for item in grouped(made.lines[end + 1:], 2):
            name, _, text = item.strip().partition(" : ")
            found += uses(words_of(text), bound, is_known)
            if kind == "record":
                bound.add(name.removeprefix("pub ").strip())
        return found
    items = grouped(made.lines, 0)
    signature, equations = items[0], joined_equations(items[1:], made.key[2])
    found += uses(words_of(signature[head.end():].strip().removeprefix(":")), outer, is_known)
    for equation in equations:
        left, right = split_equation(words_of(equation))
        patterns = [word for word in left if IS_NAME.match(word)]
        found += [word for word in patterns if is_known(word)]
        found += [word for word in left if "." in word and word != "."]
        found += uses(right, outer | {word for word in patterns if not is_known(word)}, is_known)
    return found


def joined_equations(items, name):
    """A line that closes a bracket at the level of the equations belongs to the equation before it."""
    out = []
    for item in items:
        if out and item.strip()[:1] in ")]}":
            out[-1] += " " + item
        else:
            out.append(item)
    return out


def split_equation(words):
    """What stands before and behind the first `=` of an equation that is in no bracket, without its first name."""
    depth = 0
    for at, word in enumerate(words):
        depth += (word in OPENING) - (word in CLOSING)
        if word == "=" and depth == 0:
            return words[1:at], words[at + 1:]
    return [], words


# ---- what the code declares

class Code:
    """The types, constants, traits and functions of the crates' sources."""

    def __init__(self):
        self.types, self.clauses, self.traits, self.scopes, self.uses, self.texts = {}, {}, {}, {}, {}, {}
        for path in sorted(glob.glob(os.path.join(ROOT, "crates", "*", "src", "**", "*.rt"), recursive=True)):
            parts = os.path.relpath(path, os.path.join(ROOT, "crates")).split(os.sep)
            self.read_file(parts[0], "/".join(parts[2:]), path)

    def read_file(self, crate, file, path):
        lines = read(path)
        key, scope, imported = (crate, file), Scope(), {}
        self.texts[key] = lines
        comment, at = [], 0
        while at < len(lines):
            line = lines[at]
            if line.startswith("ghost use") or line.startswith("    ghost use"):
                match = IMPORT.match(line)
                if match:
                    scope.add(*match.groups())
            elif re.match(r"^(pub )?use ", line):
                for name in re.findall(r"[A-Z]\w*", line):
                    imported[name] = re.match(r"^(?:pub )?use (\w+)", line).group(1)
            elif line.startswith("///"):
                comment.append(line[3:].strip())
            item = re.match(r"^(?:pub(?:\(crate\))? )?(struct|enum|const|static|trait|fn) (\w+)", line)
            if item:
                at = self.read_item(key, item, lines, at, " ".join(comment))
            if not line.startswith(("///", "#[")):
                comment = []
            at += 1
        self.scopes[key], self.uses[key] = scope, imported

    def read_item(self, key, item, lines, at, comment):
        kind, name = item.groups()
        end = at
        if kind in ("struct", "enum", "trait") and not lines[at].rstrip().endswith(";"):
            while end < len(lines) and not lines[end].startswith("}"):
                end += 1
        elif kind == "fn":
            while end < len(lines) and lines[end] not in ("{", "}") and not re.search(r"\{\}?$", lines[end]):
                end += 1
        text = lines[at:end + 1]
        if kind == "trait":
            self.traits.setdefault((key[0], name), (key, text))
        elif kind == "fn":
            self.clauses.setdefault((key[0], name), []).append((key, text))
        else:
            self.types.setdefault((key[0], name), (key, text, comment))
        return at if kind == "fn" else end


# ---- what is reached

class Reached:
    """Follows names from some clauses on, but not into the crates that are passed over, and not into definitions that are fixed
    by laws: in the place of such a one these laws are followed, each given by its crate, its name and the name of a clause."""

    def __init__(self, files, code, passed_over=(), fixed=None):
        self.files, self.code, self.passed_over, self.fixed = files, code, passed_over, fixed or {}
        self.found, self.types, self.missing, self.by_laws = {}, {}, [], set()
        self.queue = []

    def module_file(self, module):
        parts = module.split(".")
        if parts[0] != "Rattle" or len(parts) < 4 or parts[2] != "specs":
            return None
        return (parts[1], ".".join(parts[3:]))

    def cite(self, module, name, whence):
        """A name of a module is used."""
        key = self.module_file(module)
        if key is None or key[0] in self.passed_over or not os.path.isdir(os.path.join(ROOT, "crates", key[0])):
            return
        crate, rest = key
        if rest == "declared" or rest.startswith("declared."):
            self.cite_declared(crate, rest.split(".")[1:], name, whence)
            return
        file = self.files.get(key)
        if file is None:
            self.missing.append(f"{whence}: no file {crate}/specs/{rest}.antt")
            return
        if name in file.definitions:
            self.reach(file, name)
        elif name in file.inside:
            self.reach(file, file.inside[name])
        elif name in file.scope.reexports:
            self.cite(*file.scope.reexports[name], whence)
        else:
            self.missing.append(f"{whence}: {name} is no definition of {crate}/specs/{rest}.antt")

    def cite_declared(self, crate, path, name, whence):
        if path and path[-1] == "TheConstants":
            self.reach_type(crate, name, whence)
        elif path and path[-1] in ("TheVariants", "TheFields"):
            self.reach_type(crate, path[-2], whence)
        else:
            self.reach_type(crate, path[-1] if path and path[-1][:1].isupper() else name, whence)

    def reach_type(self, crate, name, whence):
        if (crate, name) in self.types:
            return
        if (crate, name) not in self.code.types:
            self.missing.append(f"{whence}: {crate} declares no {name}")
            return
        key, text, _ = self.code.types[crate, name]
        self.types[crate, name] = key
        imported = self.code.uses[key]
        for word in re.findall(r"\b[A-Z]\w*", re.sub(r"//.*", "", "\n".join(text))):
            home = imported.get(word, crate)
            home = crate if home in ("crate", "self", "super") else home
            if word != name and (home, word) in self.code.types:
                self.reach_type(home, word, whence)

    def reach(self, file, name):
        key = (file.crate, file.name, name)
        if key in self.fixed:
            self.follow_laws(key)
        elif key not in self.found:
            self.found[key] = file.definitions[name]
            self.queue.append((file, file.definitions[name]))

    def follow_laws(self, key):
        """What the laws say that fix a definition."""
        if key not in self.by_laws:
            self.by_laws.add(key)
            for crate, law, clause in self.fixed[key]:
                if not self.begin_at_call(crate, law, clause=clause):
                    self.missing.append(f"{'/'.join(key)}: no law {crate}::laws::{law}")

    def follow(self, scope, names, whence, file=None):
        for name in names:
            if file and name in file.definitions:
                self.reach(file, name)
                continue
            if file and name in file.inside:
                self.reach(file, file.inside[name])
                continue
            if name in scope.names:
                self.cite(*scope.names[name], whence)
                continue
            if name in scope.operators:
                there = scope.operators[name]
                if file and there in file.definitions:
                    self.reach(file, there)
                elif there in scope.names:
                    self.cite(*scope.names[there], whence)
                continue
            first, _, rest = name.partition(".")
            if first in scope.modules and rest:
                self.cite(scope.modules[first], rest.split(".")[0], whence)
            elif rest and first != name:
                self.follow(scope, [first], whence, file)

    def go(self):
        while self.queue:
            file, made = self.queue.pop()
            known = lambda name, file=file: self.is_constructor(file, name)
            self.follow(file.scope, names_in(made, known), "/".join(made.key), file)

    def is_constructor(self, file, name):
        """Whether a name in a pattern is a constructor or a module's, and no variable."""
        if name in file.inside:
            return True
        if name in file.scope.names:
            module, there = file.scope.names[name]
            return there[:1].isupper() or "◌" in there
        return False

    def begin_at_clauses(self, key, text, named=None):
        """The clauses of a function or a trait, or the one of this name."""
        scope = self.code.scopes[key]
        plain = "\n".join(re.sub(r"^\s*//.*", "", line) for line in text)
        for clause in clauses_of(plain, named):
            self.follow(scope, uses(words_of(clause), (), lambda name: False), f"{key[0]}/src/{key[1]}")

    def begin_at_call(self, crate, name, file=None, clause=None):
        for key, text in self.code.clauses.get((crate, name), []):
            if file is None or key[1] == file:
                self.begin_at_clauses(key, text, clause)
                for word in re.findall(r"\b[A-Z]\w*\b", "\n".join(text)):
                    home = self.code.uses[key].get(word)
                    if (home, word) in self.code.traits:
                        self.begin_at_clauses(*self.code.traits[home, word])
                return True
        return False

    def begin_at_definition(self, crate, name):
        for file in self.files.values():
            if file.crate == crate and name in file.definitions:
                self.reach(file, name)
                return True
        return False


def clauses_of(text, named=None):
    """What stands in the braces of the clauses and ghost members of an item, or of its clause of this name."""
    found, name = [], r"(?:\w+\s+)?" if named is None else named + r"\s+"
    for match in re.finditer(r"(?:requires|ensures)\s+" + name + r"\{|ghost \w+\s*(?::|=)\s*\{", text):
        depth, at = 1, match.end()
        while at < len(text) and depth:
            depth += (text[at] == "{") - (text[at] == "}")
            at += 1
        found.append(text[match.end():at - 1])
    return found


# ---- all files

def all_files():
    found = {}
    for path in sorted(glob.glob(os.path.join(ROOT, "crates", "*", "specs", "**", "*.antt"), recursive=True)):
        parts = os.path.relpath(path, os.path.join(ROOT, "crates")).split(os.sep)
        name = ".".join(parts[2:])[:-5]
        if name.split(".")[-1] != "Lib":
            found[parts[0], name] = File(parts[0], name, path)
    for file in found.values():
        file.finish()
    return found


def in_order(files, keys, crates):
    """Files, the lowest crates first, and each behind those that it uses."""
    order, begun = [], set()

    def visit(key):
        if key in begun or key not in files:
            return
        begun.add(key)
        scope = files[key].scope
        for module in [module for module, _ in scope.names.values()] + list(scope.modules.values()):
            parts = module.split(".")
            if len(parts) >= 4 and parts[0] == "Rattle" and parts[3] != "declared":
                visit((parts[1], ".".join(parts[3:])))
        if key in keys:
            order.append(key)

    for key in sorted(keys, key=lambda key: (crates.index(key[0]) if key[0] in crates else len(crates), key)):
        visit(key)
    return order
