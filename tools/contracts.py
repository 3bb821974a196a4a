"""The contracts of the sources, the definitions that they cite, and what comments say of both."""
import functools
import glob
import os
import re
from collections import namedtuple

from sources import ROOT

# A definition, by its file's path and the line where it begins.
Definition = namedtuple("Definition", "place name text")
# A function that others may call: the names of its clauses, what they cite, the types it handles.
Function = namedtuple("Function", "path line name is_pub clauses cites types")
# A word of a definition. A dot joins a module and its word, or a value and its field.
WORD = re.compile(r"[^\s(){}\[\],;λ\"]+")
USE = r"^[ \t]*(?:ghost |pub )*use\s+([^\s{};]+?)(?:\.\{([^}]*)\})?(?:\s+as\s+(\S+?))?\s*;?[ \t]*$"
IMPORT, TOP = re.compile(USE, re.M), re.compile(r"^ghost use [^;]*;", re.M)
KINDS = r"(?:(?:pub|abbrev|unfoldable|opaque)\s+)*"
HEAD = re.compile(KINDS + r"(?:(record|data)\s+([^\s:({]+)|([^\s:=({]+)\s*:(?=\s|$))")
FUNCTION = re.compile(r"^( *)([\w() ]*)\bfn\s+(\w+)", re.M)
CLAUSE = re.compile(r"\b(requires|ensures|ghost)\b([^{;]*)\{|[;{]")
BLOCK = re.compile(r"^(?:pub )?(?:impl|trait)\b[^{;]*\{", re.M)
MODEL = re.compile(r"^impl\b[^{;]*\bModel for (\w+)[^{;]*\{|^pub trait (\w+)[^{;]*\{", re.M)


@functools.cache
def raw(path):
    with open(f"{ROOT}/{path}", encoding="utf-8") as file:
        return file.read()


@functools.cache
def bare(path):
    """A file without its comments and the insides of its quotes, and with as many lines."""
    comment = "//" if path.endswith(".rt") else "--"
    apart = re.compile(comment + r"[^\n]*|\"(?:\\.|[^\"\\])*\"|b?'(?:\\[^']*|[^'\\\n])'", re.S)
    return apart.sub(lambda it: re.sub(r"[^\n]", " ", it[0]), raw(path))


def files(pattern):
    found = glob.glob(f"{ROOT}/crates/{pattern}", recursive=True)
    return sorted(os.path.relpath(it, ROOT) for it in found)


def said(path, line=None):
    """The first sentence of the comment above a line, or of a file's own."""
    if line:
        lines = "\n".join(["", *raw(path).split("\n")[max(line - 50, 0) : line - 1]])
        found = re.search(r"((?:\n *(?:///|--).*)*)(?:\n *(?:#\[|ghost ).*)*\Z", lines)
    else:
        found = re.match(r"((?:(?://!|--).*\n)*)", raw(path))
    text = re.sub(r"(?m)^ *(?://[/!]|--) ?", "", found[1]).strip()
    return re.sub(r"\s+", " ", re.split(r"\n\s*\n|:$|(?<=[.])\s+(?=[^a-z])", text)[0].rstrip("."))


def imports_of(text):
    """What each name means by the imports: a path of modules, and a word last."""
    names = {}
    for path, words, alias in IMPORT.findall(text):
        for word in filter(None, map(str.strip, words.split(","))):
            word, _, other = word.partition(" as ")
            names[other.strip() or word.strip()] = f"{path}.{word.strip()}"
        if not words:
            names[alias or path.rsplit(".", 1)[-1]] = path
    return names


def cited(text, names, module="", found=()):
    """The paths of the words that an import, or the file itself, names."""
    for word in WORD.findall(text):
        head, dot, tail = word.partition(".")
        if word in names or head in names:
            yield names.get(word) or names[head] + (dot + tail if tail else "")
        elif head in found:
            yield f"{module}.{head}"


class Spec:
    """A file of specs/. `found` has its definitions by name, and by constructors of its data."""

    def __init__(self, path):
        self.path, self.found, text = path, {}, bare(path)
        self.module = path[:-5].replace("/", ".").replace("crates", "Rattle", 1)
        self.names, here, is_data = imports_of(text), None, False
        for number, line in enumerate(text.split("\n"), 1):
            head = None if line[:1].isspace() else HEAD.match(line)
            if IMPORT.match(line) or line.startswith(("use ", "pub mod", "mod ")):
                here = None
            elif head:
                is_data = head[1] == "data"
                here = Definition((path, number), head[2] or head[3], [])
                self.found[here.name] = here
            elif here and is_data and (found := re.match(r"\s+(?:pub )?([^\s:|]+)\s*:", line)):
                self.found.setdefault(found[1], here)
            if here and line.strip():
                here.text.append(line)


def closed(text, head):
    """The text of the block whose head this is."""
    depth, at = 1, head.end()
    while depth:
        depth += {"{": 1, "}": -1}.get(text[at], 0)
        at += 1
    return text[head.end() : at]


def within(text, block):
    """What each name means in a block of a source, or in none; and the text of the block."""
    inside = closed(text, block) if block else ""
    return imports_of("\n".join([*TOP.findall(text), inside])), inside


@functools.cache
def functions():
    """The functions of all sources that others may call."""
    return [it for path in files("*/src/**/*.rt") for it in functions_of(path, bare(path))]


def functions_of(path, text):
    blocks = [*BLOCK.finditer(text)]
    for found in FUNCTION.finditer(text):
        block = [it for it in blocks if it.start() < found.start()][-1] if found[1] else None
        head, clauses, inside = block[0] if block else "", [], []
        if "pub" not in found[2] and not re.match(r".* for |(?:pub )?trait", head):
            continue
        here = CLAUSE.search(text, found.end())
        types = text[found.end() : here.start()] + head.rpartition(" for ")[2]
        while here[1]:
            inside.append(closed(text, here))
            clauses += [here[2].strip()] if here[1] == "ensures" else []
            here = CLAUSE.search(text, here.end() + len(inside[-1]))
        line, names = text.count("\n", 0, found.start(2)) + 1, within(text, block)[0]
        plain = functools.reduce(lambda it, _: re.sub(r"<[^<>]*>", "", it), range(4), head)
        owner = re.findall(r"\w+", re.split(r"(?<!:):(?!:)|\bwhere\b", plain)[0])[-1:]
        name = "::".join([*owner, found[3]])
        types, cites = re.findall(r"\b[A-Z]\w+", types), [*cited(" ".join(inside), names)]
        is_pub = "pub fn" in found[0] or "trait" in head
        yield Function(path, line, name, is_pub, clauses, cites, types)


@functools.cache
def specs():
    return {it.module: it for it in map(Spec, files("*/specs/**/*.antt"))}


@functools.cache
def models():
    """By each type or trait, the paths that its model or its members cite."""
    found = {}
    for path in files("*/src/**/*.rt"):
        for it in MODEL.finditer(bare(path)):
            names, inside = within(bare(path), it)
            for part in re.finditer(r"ghost Value = \{" if it[1] else r"ghost \w+: \{", inside):
                found.setdefault(it[1] or it[2], []).extend(cited(closed(inside, part), names))
    return found


@functools.cache
def believed(name):
    """The functions of this name; the definitions on which their contracts rest, in order; and the
    places of those that a contract or another file names."""
    found = [it for it in functions() if f"::{it.name}".endswith(f"::{name}")]
    modelled = (models().get(kind, ()) for it in found for kind in it.types)
    left = [(path, None) for paths in (*(it.cites for it in found), *modelled) for path in paths]
    seen, named = {}, set()
    while left:
        path, source = left.pop()
        parts = path.split(".")
        cuts = (it for it in range(len(parts) - 1, 2, -1) if ".".join(parts[:it]) in specs())
        cut = next(cuts, len(parts))
        spec = specs().get(".".join(parts[:cut]))
        it = next((spec.found[word] for word in parts[cut:] if word in spec.found), None)
        if it and spec is not source:
            named.add(it.place)
        if it and it.place not in seen:
            seen[it.place] = it
            cites = cited("\n".join(it.text), spec.names, spec.module, spec.found)
            left += ((path, spec) for path in cites)
    return found, [seen[it] for it in sorted(seen)], named
