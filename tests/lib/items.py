"""Reads the items of a source that others may use, and the examples in their doc comments.

An example is code, `gives` and what it prints, or `fails with` and an error; or a block of code, in whose last line what its last
expression prints is in a comment."""

import re
from dataclasses import dataclass

from blocks import split_spans

BETWEEN = ("gives", "fails with")
BLOCK = re.compile(r"^```\n(.*?); // (.*?)\n```$", re.M | re.S)
# The first line of an item, without its indentation; and of an impl of a trait.
ITEM = re.compile(r"(pub |)(fn|struct|enum|trait|type|const|impl|macro_rules!)(?:<.*?>)? ?(\w+)(?!.* for )")
IMPL_OF_TRAIT = re.compile(r"()(impl)(?:<(?:[^<>]|<[^<>]*>)*>)? (\w+).* for ")


@dataclass
class Item:
    """An item: its first word, its name, its lines (a function's without its body) and the first one's number, its doc comment, and the
    items in it."""

    kind: str
    name: str
    lines: list
    line: int
    doc: str
    inner: list

    @property
    def is_of_trait(self):
        return self.kind == "impl" and " for " in self.lines[0]


def doc_above(lines, at):
    """The doc comment above a line, whatever attributes are between."""
    doc = []
    while at and re.match(r"\s*(///|#\[)", lines[at - 1]):
        at -= 1
        if match := re.match(r"\s*/// ?(.*)", lines[at]):
            doc.insert(0, match[1])
    return "\n".join(doc)


def end_of(lines, at, indent, kind):
    """The place behind the last line of an item, or of a function's contract."""
    for end, line in enumerate(lines[at:], at):
        if line in (f"{indent}}}", f"{indent}{{}}") or line.endswith((";", "{}")) and (kind == "fn" or end == at):
            return end + 1
        if kind == "fn" and (line == f"{indent}{{" or line.endswith(" {") and (end == at or line.startswith(f"{indent})"))):
            return end + 1
    return len(lines)


def items(lines, indent="", within="", first=1):
    """The items at this indentation that others may use, with impls of any trait."""
    found = []
    for at, line in enumerate(lines):
        text = line.removeprefix(indent)
        match = (ITEM.match(text) or IMPL_OF_TRAIT.match(text)) if line.startswith(indent) else None
        if not match or "#[doc(hidden)]" in lines[max(at - 2, 0) : at] or within in ("trait", "of trait") and match[2] != "fn":
            continue
        if match[1] or within in ("trait", "of trait") or match[2] == "impl" or match[2] == "macro_rules!" and lines[at - 1] == "#[macro_export]":
            part = lines[at : end_of(lines, at, indent, match[2])]
            item = Item(match[2], match[3], part, first + at, doc_above(lines, at), [])
            if item.kind in ("impl", "trait"):
                item.inner = items(part, "    ", "of trait" if item.is_of_trait else item.kind, item.line)
            found.append(item)
    return found


def public_calls(text):
    """The public calls of a source: functions, also of types and traits, and macros."""
    for it in items(text.split("\n")):
        if it.kind in ("fn", "macro_rules!"):
            yield it
        elif not it.is_of_trait:
            yield from it.inner


def examples(doc):
    """The examples of a doc comment: the code, the word between, and what comes of it."""
    blocks = [("{ " + code.replace("\n", " ") + " }", "gives", says) for code, says in BLOCK.findall(doc)]
    parts = split_spans(BLOCK.sub("", doc).replace("\n", " "))
    said = zip(parts[1::2], (it.strip() for it in parts[2::2]), parts[3::2])
    return [*blocks, *(it for it in said if it[1] in BETWEEN)]
