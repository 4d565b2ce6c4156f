"""Finds the functions of a crate's code, and makes mutants of them.

A mutant that is made changes one word: a flag, a variant, a text, a test, a comparison, a field, a number or an argument. A variant or a
field gives way to its neighbour with the same contents, a text to the empty one. A proof by hand then names what took the word's place.
These ten operators make some 190 mutants, of functions that have no other. More gain little: 38 kinds reached 491 of 1,170, and the others
need words of their own. `rt plant` doesn't edit a body: it tries bodies that give up, and calls of the function itself."""

import collections
import functools
import glob
import os
import re
from dataclasses import dataclass

TOKEN = re.compile(
    r"""//[^\n]*|b?"(?:\\.|[^"\\])*"|b?'(?:\\.|[^'\\])'|'[a-z_]\w*|\w+|::|->|=>|==|!=|<<|>>|<=|>=|&&|\|\||\.\.=?|[-+*/%&|^]=|\S"""
)
IMPL = re.compile(r"impl(?:<(.*?)>)? (?:(.*) for )?([^ ].*?) \{$|(?:pub(?:\(\w+\))? )?trait (\w+)")
FN = re.compile(r"( {4})?(?:pub(?:\(\w+\))? )?fn (\w+)")
DECLARED = re.compile(r"(?m)^(?:pub(?:\(\w+\))? )?(enum|struct) (\w+)[^\n]*\{\n((?:.*\n)*?)\}")
ITEM = re.compile(r"(?m)^ {4}(?:pub(?:\(\w+\))? )?(\w+)(.*),$")


# What is replaced in a file, and where.
Change = collections.namedtuple("Change", "path at old new")
# What takes the place of a variant, by its enum and its name, and of a field: it has the same contents or type. And the number of each
# variant in its enum.
Declared = collections.namedtuple("Declared", "variants fields numbers")


class Bad(Exception):
    """A mutant that shows nothing, and why."""


@dataclass
class Function:
    """A function, as a check names it below the crate, and where its body is in its file."""

    name: str
    path: str
    start: int
    body: str
    head: str
    is_specified: bool
    # With its attributes, unless it is a trait's: where that begins, and the text.
    begin: int
    text: str

    @functools.cached_property
    def types(self):
        """The types of its parameters that need no more than a word."""
        return dict(re.findall(r"(\w+): (&str|bool)(?=[,)])", self.head))

    @functools.cached_property
    def tokens(self):
        return [it for it in TOKEN.finditer(self.body) if not it[0].startswith("//")]

    def find(self, words):
        """The token that words begin with, where they occur once, and their number."""
        sought, own = TOKEN.findall(words), [it[0] for it in self.tokens]
        found = [it for it in range(len(own)) if own[it : it + len(sought)] == sought]
        if len(found) != 1:
            raise Bad(f"{words} occurs {len(found)} times in {self.name}, not once")
        return found[0], len(sought)


def text_of(file):
    with open(file, encoding="utf-8") as it:
        return it.read()


def sources(folder):
    """The files of a crate's code."""
    files = sorted(glob.glob(f"{folder}/src/**/*.rt", recursive=True))
    return {os.path.relpath(it, folder): text_of(it) for it in files if not it.endswith("tests.rt")}


def name_of(type_, parameters):
    """A type as a part of a name, as `RefStr` for `&str`."""
    words = re.findall(r"'\w+|\w+|&|\[|\(", type_ if "<" in type_ else type_.split("::")[-1])
    signs = {"&": "Ref", "[": "Slice", "(": "Tuple2"}
    return "".join(signs.get(it, it[0].upper() + it[1:]) for it in words if it[0] != "'" and it not in parameters)


def owner_of(impl, module, homes):
    """What a function of an impl or of a trait is named by: the type's module, or that of the file if the impl is a trait's or of some of a
    generic type's alone."""
    bounds, trait, type_, own = impl.groups()
    parameters = re.findall(r"\w+", re.sub(r":[^,]*|'\w+", "", bounds or ""))
    if own or trait:
        return module + (own or name_of(type_, parameters) + name_of(trait, parameters)) + "::"
    first, *others = (it.replace("&", "ref") for it in re.findall(r"&|(?<!')\b\w+", type_))
    others = [] if all(it in parameters for it in others) else others
    return f"{module if others else homes.get(first, module)}{'+'.join([first, *others])}::"


def functions(folder):
    """The functions of a crate that have a body, each by its name."""
    found, files = {}, sources(folder)
    module = {path: re.sub(r"^(lib|main)::$", "", path[4:-3].replace("/", "::") + "::") for path in files}
    homes = {it[2]: module[path] for path, text in files.items() for it in DECLARED.finditer(text)}
    for path, text in files.items():
        lines, at, owner, impl, head, above = text.split("\n"), 0, "", None, None, 0
        for line in lines:
            if begun := IMPL.match(line):
                owner, impl = owner_of(begun, module[path], homes), begun
            elif line == "}" and head is None:
                owner, impl = "", None
            elif head is None and (fn := FN.match(line)) and bool(fn[1]) == bool(owner):
                head = (fn[1] or "", f"{owner or module[path]}{fn[2]}", at, above)
                body = at + len(line) + 1 if line.endswith(" {") else 0
            elif head and not body and (line == f"{head[0]}{{" or re.match(rf"{head[0]}\).* \{{$", line)):
                body = at + len(line) + 1
            if head and (line == f"{head[0]}}}" or not body and line.endswith(";")):
                if body:
                    signature, contract, _ = re.split(r"(\n +ensures|$)", text[head[2] : body], maxsplit=1)
                    whole = "" if impl and (impl[2] or impl[4]) else text[head[3] : at + len(line) + 1]
                    is_specified = bool(impl and impl[2] or contract)
                    found[head[1]] = Function(head[1], path, body, text[body : max(body, at - 1)], signature, is_specified, head[3], whole)
                head = None
            at += len(line) + 1
            above = above if line.lstrip().startswith("#[") else at
    return found


def neighbour(names, at):
    """What takes the place of a name: of the first, the third and so on the next one, and else the one before."""
    return names[at + 1] if at % 2 == 0 and at + 1 < len(names) else names[at - 1]


def declared(folder):
    """What a crate and those beside it declare, its own first. Of a field that two structs have, the type isn't known."""
    found, fields = Declared({}, {}, {}), collections.defaultdict(list)
    for crate in sorted(glob.glob(f"{folder}/../*"), key=lambda it: os.path.realpath(it) != os.path.realpath(folder)):
        for kind, type_, items in (it.groups() for text in sources(crate).values() for it in DECLARED.finditer(text)):
            alike = collections.defaultdict(list)
            for place, (name, contents) in enumerate(ITEM.findall(items)):
                alike[contents].append(name)
                found.numbers.setdefault((type_, name), place)
            for names, at, name in ((names, at, name) for names in alike.values() for at, name in enumerate(names)):
                other = neighbour(names, at)
                if kind == "struct":
                    fields[name].append(other)
                elif name != other:
                    found.variants.setdefault((type_, name), other)
    found.fields.update({name: others[0] for name, others in fields.items() if len(others) == 1 and others[0] != name})
    return found


def swapping(*pairs, before=""):
    """An operator that puts each word of pairs in the place of the other, where this is behind it."""
    other = {old: new for it in pairs for old, new in (it.split(), it.split()[::-1])}
    return lambda words, at, *_: other.get(words[at]) if words[at + 1].startswith(before) else None


def variant(words, at, names, _):
    return names.variants.get((words[at - 2], words[at])) if words[at - 1] == "::" else None


def emptied(words, at, *_):
    return '""' if words[at].startswith('"') and words[at] != '""' else None


def affirmed(words, at, *_):
    # (behind a name, a `!` is a macro's)
    return "" if words[at] == "!" and not re.match(r"(?!(?:if|while|match|return|in)$)[a-z]", words[at - 1]) else None


def field(words, at, names, _):
    return names.fields.get(words[at]) if words[at - 1] == "." and words[at + 1] != "(" else None


def number(words, at, *_):
    return str(int(words[at]) + 1) if words[at].isdecimal() and words[at - 1] != "." else None


def argument(words, at, _, types):
    """An argument that is a text is emptied, and one that is a flag is negated."""
    changed = {"&str": '""', "bool": f"!{words[at]}"}.get(types.get(words[at]))
    return changed if words[at - 1] in ("(", ",") and words[at + 1] in (")", ",") else None


def renamed(function, at, new, names):
    """How a proof by hand names what is replaced from a token on, and how what takes its place, for words of another variant or function."""
    for place, it in enumerate(TOKEN.findall(new)[: len(function.tokens) - at], at):
        old, enum = function.tokens[place][0], function.tokens[place - 2][0]
        if (enum, it) in names.numbers:
            yield f"{enum}-{old}".lower(), f"{enum}-{it}".lower()
            yield f"{old} {names.numbers.get((enum, old))}", f"{it} {names.numbers[enum, it]}"
        elif it.startswith("step_"):
            yield from ((old, it), (old.removeprefix("step_"), it.removeprefix("step_")))


def replaced(function, at, number, new, names, folder):
    """The changes of a function where a number of tokens are replaced, and of its proof by hand, which names them."""
    tokens, path = function.tokens[at : at + number], f"proofs/{function.name.replace('::', '/')}/Proof.antt"
    start, end = tokens[0].start(), tokens[-1].end()
    changes = [Change(function.path, function.start + start, function.body[start:end], new)]
    if os.path.exists(f"{folder}/{path}"):
        for old, other in renamed(function, at, new, names):
            places = re.finditer(rf"(?<![\w-]){re.escape(old)}(?![\w-])", text_of(f"{folder}/{path}"))
            changes += [Change(path, it.start(), old, other) for it in places if old != other]
    return changes


# What a program changes in a function, the first of these that it has.
TESTS = ("is_some is_none", "is_ok is_err", "any all", "split_first split_last")
OPERATORS = (swapping("true false"), variant, emptied, swapping(*TESTS, before="("), affirmed, swapping("== !="), field, number)
OPERATORS += (swapping("< <=", "> >="), argument)


def is_code(body, at):
    """Whether a place is in no pattern, where another one might match nothing new, and in no type's arguments."""
    before, after = body[:at].rpartition("\n")[2], body[at:].partition("\n")[0]
    _, macro, test = before.rpartition("matches!(")
    is_pattern = "=>" in after or macro and test.count("(") >= test.count(")") or re.search(r"\blet [^=]*$|^ *\|", before)
    return not is_pattern and (body[at] not in "<>" or before.endswith(" "))


def made(function, names, folder):
    """The changes that a program makes of a function, the first operator's before the others', and the last place before the others."""
    words = ["", *(it[0] for it in function.tokens), ""]
    for operator in OPERATORS:
        for at in range(len(words) - 2, 0, -1):
            new = operator(words, at, names, function.types)
            if new is not None and is_code(function.body, function.tokens[at - 1].start()):
                yield replaced(function, at - 1, 1, new, names, folder)
