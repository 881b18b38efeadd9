"""The definitions of `specs/`, the types and traits of the code, and which of them each one names."""

import functools
import pathlib
import re

ROOT = pathlib.Path(__file__).resolve().parent.parent.parent
CRATES = ROOT / "crates"

IMPORT = re.compile(r"^ *(?:ghost |pub )?use Rattle\.([\w.]+)\.\{([^}]*)\};?$", re.M)
ALIAS = re.compile(r"^ *(?:ghost |pub )?use Rattle\.([\w.]+) as (\w+);?$", re.M)
RUST_IMPORT = re.compile(r"^(?:pub )?use ([^;]+);", re.M)
DEFINITION = re.compile(r"^(?:(?:abbrev|unfoldable|pub|record|data)\s+)+(\S+)", re.M)
CONSTANT = re.compile(r"^(?:abbrev|unfoldable) pub (\S+) : (ℕ|List ℕ)\n\1 = (\S[^\n]*)$")
DERIVED = re.compile(r"^ *#\[(?:derive|repr|error)\(.*\n", re.M)


class Definition:
    """A definition of `specs/`, or a type or a trait of the code."""

    def __init__(self, file, name, line, text, comment):
        self.file = file
        self.name = name
        self.line = line
        self.text = text
        self.comment = comment
        self.lines = sum(1 for row in text.splitlines() if not row.strip().startswith(("--", "//")))
        self.is_code = file.suffix == ".rt"
        self.crate = file.relative_to(CRATES).parts[0]
        self.key = file, name

    def constant(self):
        """Its value, if it is a number or a list of numbers, else None."""
        found = CONSTANT.match(self.text)
        return found and found.group(3)


class Module:
    """A file of `specs/`: its definitions, its head comment, and what it imports."""

    def __init__(self, file):
        self.file = file
        text = file.read_text()
        self.imports = imports_of(text)
        self.head = comment_of(text.split("\nuse ", 1)[0]) if text.startswith("--") else ""
        self.definitions = {}
        self.parts = {}
        for block in re.finditer(r"(?:^[^\n]*\S[^\n]*\n?)+", text, re.M):
            self.add(block.group(), text.count("\n", 0, block.start()) + 1)

    def add(self, block, line):
        rows = [row for row in block.splitlines() if not row.startswith(("use ", "pub use "))]
        fixity = [row for row in rows if row.startswith("infix")]
        body = [row for row in rows if not row.startswith("infix")]
        found = DEFINITION.search("\n".join(body))
        if not found or found.group().startswith("pub mod"):
            return
        at = next(i for i, row in enumerate(block.splitlines()) if DEFINITION.match(row))
        comment = comment_of("\n".join(body))
        while body[0].startswith("--"):
            body.pop(0)
        definition = Definition(self.file, found.group(1), line + at, "\n".join(fixity + body), comment)
        self.definitions[definition.name] = definition
        if re.match(r"(?:pub )?data ", "\n".join(body)):
            self.parts.update({part: definition for part in re.findall(r"^  (\S+) :", definition.text, re.M)})


def name_of(file):
    """The name of the module that a file of `specs/` is."""
    return ".".join(file.relative_to(CRATES).with_suffix("").parts)


def comment_of(text):
    """The comment lines at the front of the text, as one line."""
    rows = []
    for row in text.splitlines():
        if not row.startswith("--"):
            break
        rows.append(row[2:].strip())
    return " ".join(rows)


def imports_of(text):
    """What each name means that the text imports: a module and a name there, or for a module its name here."""
    found = {here: (module, here) for module, here in ALIAS.findall(text)}
    for module, names in IMPORT.findall(text):
        for name in names.split(","):
            there, _, here = name.strip().partition(" as ")
            if there:
                found[here or there] = (module, there)
    return found


def words_of(text):
    """The words of a definition that may be names of others: neither comments, fields of values, nor what it binds."""
    text = re.sub(r"--[^\n]*|//[^\n]*", "", text)
    text = re.sub(r"\bdo\b", "do >>=", text)
    text = re.sub(r"(?<=[\w')])\.[\w-]+", "", text)
    text = re.sub(r"([{;]|^ +)\s*[\w-]+ = ", r"\1 ", text, flags=re.M)
    text = re.sub(r"^  (?:  )?(?:pub )?[\w'-]+ : ", "", text, flags=re.M)
    bound = set()
    for names in re.findall(r"[({]([\w' -]+) : ", text) + re.findall(r"λ ([\w' -]+)\.", text):
        bound.update(names.split())
    words = [word.rstrip(".") for word in re.findall(r"[^\s(){}\[\],;]+", text)]
    return [word for word in words if word not in bound]


class Book:
    """All modules of `specs/`, and the types and traits of the code."""

    def __init__(self):
        self.modules = {}
        self.types = {}
        self.words = {}
        for file in sorted(CRATES.glob("*/specs/**/*.antt")):
            self.modules[name_of(file)] = Module(file)

    def type_of(self, crate, name):
        """The type, the struct or the trait of that name in a crate."""
        if (crate, name) not in self.types:
            self.types[crate, name] = find_type(crate, name)
        return self.types[crate, name]

    def find(self, module, name):
        """The definition that a name of a module means, or None if it isn't of this repository."""
        if module.startswith("std.") or module not in self.modules:
            parts = module.split(".")
            if parts[2:3] == ["declared"] and parts[-1] != "TheConstants" and (CRATES / parts[0]).is_dir():
                return self.type_of(parts[0], [part for part in parts[3:] if part != "TheVariants"][-1])
            self.words.setdefault(module, set()).add(name)
            return None
        here = self.modules[module]
        for names in here.definitions, here.parts:
            if name in names:
                return names[name]
        if name in here.imports:
            return self.find(*here.imports[name])
        raise SystemExit(f"{module} has no {name}")

    def named_in(self, words, module, imports):
        """The definitions that some words mean where these are imported, in the order of the words."""
        names = dict(imports)
        if module:
            names.update({name: (module, name) for name in self.modules[module].definitions})
            names.update({name: (module, name) for name in self.modules[module].parts})
        operators = {name: [part for part in name.split("◌") if part] for name in names if "◌" in name}
        present = set(words)
        found = {}
        for word in words:
            here = [word] if word in names else []
            here += [name for name, parts in operators.items() if parts[0] == word and present.issuperset(parts)]
            for definition in filter(None, (self.find(*names[name]) for name in here)):
                found[definition.key] = definition
        return list(found.values())

    @functools.cache
    def named_by(self, definition):
        """The definitions that a definition names itself, in their order there."""
        if not definition.is_code:
            module = name_of(definition.file)
            found = self.named_in(words_of(definition.text), module, self.modules[module].imports)
        elif "trait " in definition.text:
            found = self.named_in(words_of(definition.text), None, imports_of(definition.file.read_text()))
        else:
            found = self.types_in(definition)
        return [other for other in found if other.key != definition.key]

    def types_in(self, definition):
        """The types of this repository that the fields of a type have."""
        text = re.sub(r"//[^\n]*|^    [A-Z]\w*", "", definition.text, flags=re.M)
        uses = RUST_IMPORT.findall(definition.file.read_text())
        found = []
        for word in dict.fromkeys(re.findall(r"\b[A-Z]\w+", text)):
            crates = [re.match(r"\w+", use).group() for use in uses if re.search(rf"\b{word}\b", use)]
            for crate in [definition.crate] + crates:
                if (CRATES / crate).is_dir() and has_type(crate, word):
                    found.append(self.type_of(crate, word))
                    break
        return found

    def used(self, file, texts):
        """The imported names that texts of a file use: for each its module, its name there, and its definition."""
        words = set().union(*map(words_of, texts))
        imports = imports_of(file.read_text())
        return {here: place + (self.find(*place),) for here, place in imports.items() if here in words}

    def below(self, roots, known):
        """The definitions that the roots stand on, in order of their first mention, without those that are known."""
        found = {}
        stack = list(reversed(roots))
        while stack:
            definition = stack.pop()
            if definition.key not in known and definition.key not in found:
                found[definition.key] = definition
                stack.extend(reversed(self.named_by(definition)))
        return found

    def contract(self, file, function, clauses):
        """The clauses of these names, or all, of a function's contract, and the definitions that they name."""
        text = (CRATES / file).read_text()
        start = re.search(rf"^pub fn {function}\b", text, re.M).start()
        contract = text[start:text.index("\n{", start)]
        kept = [clause for clause in re.split(r"(?=^    ensures )", contract, flags=re.M)[1:]
                if not clauses or clause.split()[1] in clauses]
        words = words_of("".join(clause.split("{", 1)[1] for clause in kept))
        return "".join(kept).rstrip(), self.named_in(words, None, imports_of(text))


def has_type(crate, name):
    """Whether the crate has a struct or an enum of that name."""
    return find_rows(crate, rf"pub(?:\([a-z]+\))? (?:struct|enum) {name}\b") is not None


@functools.cache
def find_rows(crate, pattern):
    """The file of a crate with a line that begins like the pattern, its lines, and the index of that line."""
    for file in sorted((CRATES / crate / "src").glob("**/*.rt")):
        rows = file.read_text().splitlines()
        for number, row in enumerate(rows):
            if re.match(pattern, row):
                return file, rows, number
    return None


def find_type(crate, name):
    """The struct, the enum or the trait of that name in the sources of the crate, with its documentation."""
    place = find_rows(crate, rf"pub(?:\([a-z]+\))? (?:struct|enum|trait) {name}\b")
    if not place:
        raise SystemExit(f"{crate} has no type {name}")
    file, rows, number = place
    comment = []
    at = number - 1
    while rows[at].startswith(("///", "#[")):
        if rows[at].startswith("///"):
            comment.insert(0, rows[at][3:].strip())
        at -= 1
    end = number
    while not rows[number].endswith(";") and rows[end] != "}":
        end += 1
    first = " ".join(comment).split("  ")[0]
    return Definition(file, name, number + 1, DERIVED.sub("", "\n".join(rows[number:end + 1]) + "\n").rstrip(), first)
