"""What the crates below a crate show of themselves, as far as it can come to it: read from the sources alone.

A crate shows its public items with their clauses, and its definitions. It shows no body, no private item and no private
field. Of a type all of whose fields are private it doesn't show either how they are read as the value that clauses see. So
a change inside a crate changes nothing here.

A crate can come to what its sources and definitions name or import, and from there to what stands in that, and so on; to a
method by its name and its type. That may be more than a check of the crate looks at, but not less.
"""
import functools
import hashlib
import os
import re

import places  # noqa: F401
from dev.crates import TOP, lowest_first

# What may hold braces and words that are none: comments, and what stands in quotes.
QUOTED = r'b?"(?:\\.|[^"\\])*"|b?\'(?:\\(?:x[0-9a-fA-F]{2}|u\{[^}]*\}|.)|[^\'\\\n])\''
COMMENT = r"//[^\n]*|/\*.*?\*/"
UNREAD = re.compile(rf"({QUOTED})|{COMMENT}", re.S)
BLANK = re.compile(rf"(?:\s+|{COMMENT})*", re.S)
MARK = re.compile(rf"{COMMENT}|{QUOTED}|[(){{}}\[\];]", re.S)
BRACE = re.compile(rf"{COMMENT}|{QUOTED}|[{{}}]", re.S)
HEAD = re.compile(r"(pub\b(?:\s*\([^)]*\))?\s*)?((?:(?:const|unsafe)\s+)*(?:fn|impl|trait)\b"
                  r"|(?:ghost|use|mod|struct|enum|const|static|type)\b)")
STATEMENTS = ("ghost", "use", "const", "static", "type")
# What an item is that begins with no such word, which everybody comes to.
UNKNOWN = "unknown"
CLAUSE = re.compile(r"\b(?:requires|ensures|ghost)\b[^;{}]*$")
OPENED, CLOSED = ("(", "[", "{"), (")", "]", "}")
WORD = re.compile(r"\w+")
# A name of a definition: what stands between blanks, brackets, points and the places of arguments.
NAME = re.compile(r"[^\s(){}\[\],;.:◌]+")
IMPORT = re.compile(r"(?m)^[ \t]*(pub )?(?:ghost )?use (Rattle\.[^\s{};]+?)(?:\.\{([^}]*)\}| as (\w+));?[ \t]*$")
# The definitions that the toolchain makes of a type which a source declares.
OF_A_TYPE = re.compile(r"\.declared\..*?(\w+)(?:\.TheVariants|\.TheInside)?$")
DEFINED = re.compile(r"(?m)^ *(?:(?:abbrev|unfoldable|opaque|pub|record|data) )*([^\s:({]+) (?=[({:]|.*:)")


class Item:
    """What a crate shows in one place: the words that have to be come to before it is, its text, and where that leads."""

    def __init__(self, needs, text, words):
        self.needs, self.text, self.words = frozenset(needs), text, frozenset(words)


class Part:
    """An item of a source: its keyword, its text without a body, and where its body begins and ends."""

    def __init__(self, is_public, word, text, body):
        self.is_public, self.word, self.text, self.body = is_public, word, text, body

    def name(self):
        return WORD.findall(self.text.partition(self.word + " ")[2])[0]


class Imports:
    """The definitions that a file imports: where a name leads, and for which module a word stands."""

    def __init__(self, text):
        self.names, self.modules, self.passed_on = {}, {}, []
        for public, path, listed, module in IMPORT.findall(text):
            declared = OF_A_TYPE.search(path)
            if module and not declared:
                self.modules[module] = path
            for one in [module] if module else listed.split(","):
                name, _, local = one.strip().partition(" as ")
                to = declared[1] if declared else f"{path}.{name}"
                if not module or declared:
                    self.add(local or name, to)
                if public:
                    self.passed_on.append((local or name, to))

    def add(self, name, to):
        for part in NAME.findall(name):
            self.names.setdefault(part, set()).add(to)

    def of(self, text):
        """Where a text leads that stands in the file."""
        words = set(NAME.findall(text))
        found = {to for word in words & self.names.keys() for to in self.names[word]}
        for word in words & self.modules.keys():
            found.update(f"{self.modules[word]}.{name}" for name in re.findall(rf"(?<![\w.]){word}\.({NAME.pattern})", text))
        return found


# == sources

def plain(text):
    """A text of a source without its comments, and with one blank wherever some stand."""
    return " ".join(UNREAD.sub(lambda found: found[1] or " ", text).split())


def end_of_block(text, at):
    """Where the bracket that stands at `at` is closed."""
    depth = 0
    for mark in (BRACE if text[at] == "{" else MARK).finditer(text, at):
        depth += (mark[0] in OPENED) - (mark[0] in CLOSED)
        if depth == 0:
            return mark.end()
    return len(text)


def body_of(text, at, word):
    """Where the body of the item begins whose text goes on at `at`, and where it ends. One without a body ends where it would
    begin. The braces of a statement are no body, nor are those that hold a clause."""
    begun, depth = at, 0
    for mark in MARK.finditer(text, at):
        if mark.start() < begun:
            continue
        if mark[0] == "{" and depth == 0:
            end = end_of_block(text, mark.start())
            if word not in STATEMENTS and not (word == "fn" and CLAUSE.search(text, begun, mark.start())):
                return mark.start(), end
            begun = end
        elif mark[0] == ";" and depth == 0:
            return mark.end(), mark.end()
        else:
            depth += (mark[0] in OPENED) - (mark[0] in CLOSED)
    return len(text), len(text)


def parts_of(text, at, end):
    """The items of a source between two places, but for those that are only for tests."""
    found = []
    while True:
        at, attributes = BLANK.match(text, at).end(), []
        while text.startswith("#", at):
            closed = end_of_block(text, text.index("[", at))
            attributes.append(plain(text[at:closed]))
            at = BLANK.match(text, closed).end()
        if at >= end:
            return found
        head = HEAD.match(text, at, end)
        word = head[2].split()[-1] if head else UNKNOWN
        body, ends = body_of(text, head.end() if head else at, word)
        is_tested = any(re.search(r"\btest\b", it) for it in attributes)
        if word == "mod" and body < ends and not is_tested:
            found += parts_of(text, body + 1, ends - 1)
        elif not is_tested:
            derived = [it for it in attributes if "derive" in it]
            is_public = head is None or bool(head[1]) and "(" not in head[1]
            # That a body may change what it was given is not shown.
            shown = re.sub(r"([(,] ?)mut (?=\w+ ?:|self\b)", r"\1", plain(text[at:body]))
            found.append(Part(is_public, word, " ".join(derived + [shown]), (body, ends)))
        at = ends


def members(text, part):
    """The items in the braces of a trait or an impl."""
    found = parts_of(text, part.body[0] + 1, part.body[1] - 1)
    return [it for it in found if it.word != "use" and not it.text.startswith("ghost use")]


def public_fields(text):
    """The public ones of a struct's fields, which stand between brackets."""
    fields, depth, begun = [], 0, 1
    for at, char in enumerate(text):
        depth += char in "([{<"
        depth -= char in ")]}" or char == ">" and text[at - 1] != "-"
        if depth == 0 or depth == 1 and char == ",":
            fields.append(text[begun:at].strip())
            begun = at + 1
    return [it for it in fields if re.match(r"(?:#\[.*\] )*pub\b(?! ?\()", it)]


def of_struct(text, part):
    """What a struct shows, and whether it has a public field."""
    front, fields = part.text, plain(text[slice(*part.body)])
    at = front.find("(", front.index("struct "))
    if not fields and at >= 0:
        front, fields = front[:at], front[at:]
    fields = public_fields(fields)
    return " ".join([front, *fields]), bool(fields)


def implemented(text):
    """The trait of an impl, or None, and its type: their names."""
    front = re.sub(r"<(?:[^<>]|<(?:[^<>]|<[^<>]*>)*>)*>", "", text.replace("->", "")).partition(" where ")[0]
    trait, _, of_type = front.partition("impl")[2].rpartition(" for ")
    return WORD.findall(trait)[-1] if trait else None, WORD.findall(of_type.replace("'", " "))[-1]


def of_source(text, types):
    """What a source shows, in a crate that declares these types."""
    imports, found, parts = Imports(text), [], parts_of(text, 0, len(text))
    opened = {part.name() for part in parts if part.word == "struct" and of_struct(text, part)[1]}

    def add(needs, *texts):
        shown = " ".join(texts)
        found.append(Item(needs, shown, set(WORD.findall(shown)) | imports.of(shown)))

    for part in parts:
        if part.word == "impl":
            trait, of_type = implemented(part.text)
            if trait is None:
                for it in members(text, part):
                    if it.is_public:
                        add({of_type, it.name()}, part.text, it.text)
            else:
                is_hidden = trait == "Model" and of_type not in opened
                shown = [it.text for it in members(text, part) if not (is_hidden and it.name() in ("view", "invariant"))]
                add({of_type if of_type in types else trait}, part.text, *shown)
        elif part.is_public and part.word == "struct":
            add({part.name()}, of_struct(text, part)[0])
        elif part.is_public and part.word == "trait":
            add({part.name()}, part.text, *[it.text for it in members(text, part)])
        elif part.is_public and part.word == "use":
            for name, other in re.findall(r"(\w+) as (\w+)", part.text):
                add({other}, f"{name} as {other}")
        elif part.word == UNKNOWN:
            add({UNKNOWN}, part.text, plain(text[slice(*part.body)]))
        elif part.is_public and part.word in ("enum", "const", "static", "type", "fn"):
            add({part.name()}, part.text, plain(text[slice(*part.body)]) if part.word == "enum" else "")
    return found


# == definitions

def chunks_of(text):
    """The definitions of a file, each with its equations, without comments and imports."""
    lines = [line for line in text.split("\n") if not re.match(r"\s*--|(?:pub )?(?:use|mod) ", line)]
    found = []
    for chunk in re.split(r"\n\s*\n", "\n".join(lines)):
        if found and (chunk[:1] == " " or not DEFINED.match(chunk)):
            found[-1] += "\n" + chunk
        elif chunk.strip():
            found.append(chunk.strip("\n"))
    return found


def of_definitions(text, module):
    """What a file of definitions shows, which is the module of that name."""
    imports, chunks = Imports(text), chunks_of(text)
    named = [(set(DEFINED.findall(chunk)), chunk) for chunk in chunks]
    for name in {name for names, _ in named for name in names}:
        imports.add(name, f"{module}.{name}")
    found = [Item({f"{module}.{name}"}, chunk, imports.of(chunk)) for names, chunk in named for name in names]
    return found + [Item({f"{module}.{name}"}, "", {to}) for name, to in imports.passed_on]


# == crates

def texts_in(crate, part, ending):
    """The texts below a folder of a crate, each with its name there, without the ending."""
    found, folder = [], os.path.join(TOP, "crates", crate, part)
    for at, folders, names in os.walk(folder):
        folders.sort()
        for name in sorted(names):
            if name.endswith(ending):
                path = os.path.join(at, name)
                with open(path, encoding="utf-8") as file:
                    found.append((os.path.relpath(path, folder)[:-len(ending)], file.read()))
    return found


@functools.lru_cache(maxsize=None)
def shown_by(crate):
    """All that a crate shows."""
    sources = [text for _, text in texts_in(crate, "src", ".rt")]
    types = {name for text in sources for name in re.findall(r"\b(?:struct|enum)\s+(\w+)", text)}
    found = [item for text in sources for item in of_source(text, types)]
    for name, text in texts_in(crate, "specs", ".antt"):
        found += of_definitions(text, f"Rattle.{crate}.specs.{name.replace(os.sep, '.')}")
    return found


def begun_by(crate):
    """The words from which a crate can come to what others show."""
    found = {UNKNOWN}
    for _, text in texts_in(crate, "src", ".rt"):
        imports = Imports(text)
        found |= set(WORD.findall(UNREAD.sub(" ", text))) | imports.of(text)
    for _, text in texts_in(crate, "specs", ".antt"):
        found |= Imports(text).of(text)
    return found


def reached(words, items):
    """The items that these words lead to."""
    by_need = {}
    for item in items:
        for need in item.needs:
            by_need.setdefault(need, []).append(item)
    seen, due, found = set(words), list(words), {}
    while due:
        for item in by_need.get(due.pop(), ()):
            if item.needs <= seen and id(item) not in found:
                found[id(item)] = item
                due += item.words - seen
                seen |= item.words
    return found.values()


def shown_below(crate, below):
    """What the crates below show, as far as the crate can come to it, in one sum."""
    items = [item for it in lowest_first(below, crate)[:-1] for item in shown_by(it)]
    texts = sorted({item.text for item in reached(begun_by(crate), items)})
    return hashlib.sha256("\n\n".join(texts).encode()).hexdigest()
