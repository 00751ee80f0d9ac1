"""Follows names from a contract down: reads the definitions of specs/ and the types of src/, and says what each names.
Layout is that of `rt fmt`. Names are found as words, so a name that only looks like one that is brought in counts too."""

from collections import namedtuple
from pathlib import Path
import re

NAME = r"[A-Za-z_][\w']*"
BEGINS = re.compile(rf"\s*(?:(?:abbrev|unfoldable)(?: pub)? ({NAME}) :|(?:pub )?(?:record|data) ({NAME})|(?<!\s)pub ({NAME}) :)")
IMPORT = re.compile(r"(?:ghost )?use Rattle\.(\w+)\.specs\.([\w.]+?)(?:\.\{(.*)\})?(?: as (\w+))?;?$")
RUST_IMPORT = re.compile(r"(?:pub )?use ([\w:]+)::(?:\{(.*)\}|(\w+)(?: as \w+)?);$")
TYPE = r"(?m)^pub (?:struct|enum|trait) {}\b"

# what is named: a definition of specs/, a type or a constant of src/, or something of the standard library
Named = namedtuple("Named", "kind crate module name")
# a public call: the file in which it stands, what it is called, and its parameters with its clauses
Call = namedtuple("Call", "source name text")


class Missing(Exception):
    """A name that leads nowhere."""


def bring_in(line, names, modules):
    """Notes what a `use` of definitions brings in: names, each with where it stands, or a module under a name."""
    found = IMPORT.match(line)
    if not found:
        return
    crate, module, listed, other = found.groups()
    if listed is None:
        modules[other or module.split(".")[-1]] = (crate, module)
        return
    for item in listed.split(","):
        there, _, here = item.strip().partition(" as ")
        names[here or there] = (crate, module, there)


def first_doc(text, item):
    found = re.search(rf"(?m)((?:^ *///.*\n)+)(?:^ *#\[.*\n)*{item}", text)
    return " ".join(line.strip()[3:].strip() for line in found[1].splitlines()) if found else ""


class Definitions:
    """A file of definitions: the text and the comment of each, and the comment at its head."""

    def __init__(self, crate, module):
        self.crate, self.module, self.file = crate, module, specs_file(crate, module)
        self.names, self.modules = {}, {}
        self.head, self.texts, self.docs, self.home = "", {}, {}, {}
        self.around = ""
        comment, name = [], None
        for line in self.file.read_text().splitlines():
            bare = line.strip()
            if bare.startswith("--"):
                comment.append(bare[2:].strip())
                continue
            if not bare and not self.texts:
                self.head = self.head or " ".join(comment)
            if bare.startswith("use "):
                bring_in(bare, self.names, self.modules)
            elif bare:
                name = self.take(line, name, " ".join(comment))
            comment = []

    def take(self, line, name, comment):
        """Reads one line of a definition, and answers the name of the one that it belongs to. What stands around several
        definitions belongs to each of them."""
        if line.startswith("module "):
            self.around = line + "\n"
            return None
        found = BEGINS.match(line)
        if found:
            name = next(filter(None, found.groups()))
            self.texts.setdefault(name, self.around if line.startswith(" ") else "")
            self.home[name] = name
            if comment:
                self.docs[name] = comment
        if name:
            self.texts[name] += line.partition("--")[0] + "\n"
            part = re.match(rf"\s+(?:pub )?({NAME}) :", line)
            if part:
                self.home.setdefault(part[1], name)
        return name


def on_one_line(text):
    """The text of a file of src/ with each `use` on a line of its own."""
    return re.sub(r"(?m)^((?:pub )?use [\w:]+::\{)\n([^}]*)\};$", lambda found: found[1] + " ".join(found[2].split()).rstrip(",") + "};", text)


class Source:
    """A file of src/: what it brings in, its types, and its public calls."""

    def __init__(self, crate, module):
        self.crate, self.module, self.file = crate, module, source_file(crate, module)
        self.text = self.file.read_text()
        self.names, self.modules, self.types = {}, {}, {}
        for line in map(str.strip, on_one_line(self.text).splitlines()):
            bring_in(line, self.names, self.modules)
            found = RUST_IMPORT.match(line)
            for item in (found[2] or found[3]).split(",") if found else []:
                there, _, here = item.strip().partition(" as ")
                self.types[here or there] = (found[1].split("::"), there)

    def head(self):
        return " ".join(line[3:].strip() for line in self.text.splitlines() if line.startswith("//!") and line[3:].strip())

    def doc(self, name):
        return first_doc(self.text, rf"pub (?:struct|enum|trait|const) {name}\b")

    def has(self, name):
        return re.search(TYPE.format(name), self.text) is not None

    def item(self, name):
        """The text of a type or trait, without its comments."""
        found = re.search(TYPE.format(name) + r"[^;{]*(?:;|\{[^\n]*\}$|\{(?s:.*?)^\})", self.text)
        return re.sub(r"(?m)//.*$", "", found[0]) if found else ""

    def model(self, name):
        """How contracts see a type, where they see it as something else."""
        found = re.search(rf"(?m)^impl(?:<[^>]*>)? Model for {name}\b(?s:.*?)^\}}", self.text)
        return found[0] if found else ""

    def calls(self):
        """Each function: the type or trait to which it belongs, with `impl` or `trait`, or nothing; whether it is `pub`;
        its name; and its parameters and clauses."""
        owner, lines = None, iter(self.text.splitlines())
        for line in lines:
            block = re.match(r"(?:pub )?(impl|trait)\b(?:<[^>]*>)?\s*(?:([\w:<>, ']+?) for )?(\w+)", line)
            if block:
                owner = (block[3], block[1] == "trait" or bool(block[2]))
            elif line.startswith("}"):
                owner = None
            found = re.match(r"\s*(pub )?fn (\w+)", line)
            if found:
                text = [line]
                while not text[-1].endswith((";", "{", "{}")) and (more := next(lines, None)) is not None:
                    text.append(more)
                yield owner, bool(found[1]), found[2], "\n".join(text)


def specs_file(crate, module):
    return Path(f"crates/{crate}/specs/{module.replace('.', '/')}.antt")


def source_file(crate, module):
    return Path(f"crates/{crate}/src/{module}.rt")


class Repository:
    """All definitions and types, read as they are asked for."""

    def __init__(self):
        self.crates, self.files, self.sources, self.found = {}, {}, {}, {}
        for line in Path("crates.txt").read_text().splitlines():
            name, _, below = line.partition("#")[0].partition(":")
            if name.strip():
                self.crates[name.split()[0]] = below.split()

    def modules(self, crate):
        """The modules of definitions that a crate lists, but for those below specs/inner."""
        lib = specs_file(crate, "Lib")
        listed = re.findall(r"(?m)^pub mod (\w+)", lib.read_text()) if lib.is_file() else []
        return [module for module in listed if module != "inner"]

    def definitions(self, crate, module):
        if (crate, module) not in self.files:
            lib = specs_file(crate, "Lib")
            other = re.search(rf"(?m)^pub use Rattle\.(\w+)\.specs\.({module})$", lib.read_text()) if lib.is_file() else None
            if specs_file(crate, module).is_file():
                self.files[crate, module] = Definitions(crate, module)
            elif other:
                self.files[crate, module] = self.definitions(other[1], other[2])
            else:
                raise Missing(f"{specs_file(crate, module)} is not there")
        return self.files[crate, module]

    def source(self, crate, module):
        if (crate, module) not in self.sources:
            if not source_file(crate, module).is_file():
                raise Missing(f"{source_file(crate, module)} is not there")
            self.sources[crate, module] = Source(crate, module)
        return self.sources[crate, module]

    def named(self, crate, module, name):
        """What a name of a module is."""
        if crate not in self.crates:
            return Named("library", crate, module, name)
        if module.startswith("declared."):
            *path, last = module.split(".")[1:]
            if last == "TheVariants":
                *path, last = path
            return Named("type", crate, "/".join(path), name if last == "TheConstants" else last)
        file = self.definitions(crate, module)
        if name not in file.home:
            raise Missing(f"{file.file} does not define {name}")
        return Named("definition", file.crate, file.module, file.home[name])

    def type_of(self, source, name):
        """The type of this repository that a name of a source file is, if it is one."""
        if source.has(name):
            return Named("type", source.crate, source.module, name)
        path, there = source.types.get(name, ([""], name))
        if path[0] == "crate" and source_file(source.crate, "/".join(path[1:])).is_file():
            return self.type_of(self.source(source.crate, "/".join(path[1:])), there)
        if path[0] in self.crates:
            return self.exported(path[0], there)
        return None

    def exported(self, crate, name):
        lib = self.source(crate, "lib")
        path, there = lib.types.get(name, ([""], name))
        if path[0] in self.crates:
            return self.exported(path[0], there)
        module = "/".join(part for part in path if part != "crate")
        return self.type_of(self.source(crate, module), there) if module else None

    def words(self, text, file):
        """What a text names of what its file brings in."""
        for before, word in re.findall(rf"(?:({NAME})\.)?({NAME})", re.sub(r'"[^"\n]*"', "", text)):
            if before in file.modules:
                yield self.named(*file.modules[before], word)
            elif before in file.names:
                yield self.named(*file.names[before])
            elif not before and word in file.names:
                yield self.named(*file.names[word])

    def types(self, text, source):
        found = (self.type_of(source, word) for word in re.findall(NAME, text))
        return [named for named in found if named]

    def below(self, named):
        """What a definition or a type names, each once, in the order of its text."""
        if named not in self.found:
            self.found[named] = [other for other in dict.fromkeys(self.names_below(named)) if other != named]
        return self.found[named]

    def names_below(self, named):
        if named.kind == "definition":
            file = self.definitions(named.crate, named.module)
            text = file.texts[named.name]
            yield from self.words(text, file)
            for word in re.findall(rf"(?<![\w.']){NAME}", re.sub(r'"[^"\n]*"', "", text)):
                if word in file.texts:
                    yield Named(*named[:3], word)
        elif named.kind == "type":
            source = self.source(named.crate, named.module)
            value = re.search(r"ghost Value = \{(.*?)\};", source.model(named.name) or "", re.S)
            if value:
                yield from self.words(value[1], source)
            else:
                yield from self.words(source.item(named.name), source)
                yield from self.types(source.item(named.name), source)

    def roots(self, call):
        """What the clauses of a call name, and how they see the types of what it takes and answers."""
        yield from self.words(call.text, call.source)
        for named in self.types(call.text, call.source):
            yield named
            source = self.source(named.crate, named.module)
            yield from self.words(source.model(named.name), source)

    def reach(self, roots):
        """All that roots lead to, with how many steps away it is, nearest first."""
        steps = {root: 0 for root in roots}
        queue = list(steps)
        for named in queue:
            for other in self.below(named):
                if other not in steps:
                    steps[other] = steps[named] + 1
                    queue.append(other)
        return steps

    def public_calls(self, crate):
        """The calls of a crate that other crates can see, and whose contracts say something."""
        if not source_file(crate, "lib").is_file():
            return
        lib = self.source(crate, "lib")
        folder = Path(f"crates/{crate}/src")
        for file in sorted(folder.rglob("*.rt")):
            source = self.source(crate, str(file.relative_to(folder).with_suffix("")))
            open_module = re.search(rf"(?m)^pub mod {source.module}\b", lib.text)
            for owner, is_public, name, text in source.calls():
                listed = (owner[0] if owner else name) in lib.types
                if not (listed or open_module) or not re.search(r"\b(?:ensures|requires)\b", text):
                    continue
                if is_public or owner and owner[1]:
                    path = [*([] if listed else [source.module]), *(owner[:1] if owner else []), name]
                    yield Call(source, "::".join(path), f"{text} {owner[0] if owner else ''}")
