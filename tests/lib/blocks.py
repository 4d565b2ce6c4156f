"""Reads pages: their blocks of code, tables and texts; and blocks of Rust as statements with the comments after them."""

import itertools
import math
import re
from dataclasses import dataclass

from repository import read

ITEM_WORDS = ("use ", "pub ", "fn ", "struct ", "enum ", "impl ", "impl<", "trait ", "const ", "mod ", "#[")
# A list's item, a heading or a quotation: its text begins behind the mark.
MARK = re.compile(r"\s*(?:[-*] |\d+\. |#+ |> )")
# A comment right above further code is of the statement before it only where it is a statement of SQL.
PRINTED = re.compile(r"(SELECT|INSERT INTO|UPDATE|DELETE FROM) ")
# What goes on with the code behind a `}`.
GOES_ON = re.compile(r"\s*([.?;,)]|else\b)")
TOKEN = re.compile(r"""//[^\n]*|"(?:[^"\\]|\\.)*"|'(?:[^'\\\n]|\\(?:.|u\{[0-9a-f]+\}))'|[()\[\]{};]|\n|[^\n]""", re.S)


@dataclass
class Block:
    """A block of code: the page and line where it begins, the word after its fence, and its lines."""

    page: str
    line: int
    language: str
    is_fenced: bool
    lines: list

    @property
    def text(self):
        return "\n".join(self.lines) + "\n"

    @property
    def place(self):
        return f"{self.page}:{self.line}"


@dataclass
class Table:
    """A table: the code in the text before it, its head, and its rows, each with its line."""

    page: str
    line: int
    before: list
    head: list
    rows: list


@dataclass
class Statement:
    """A statement: the line of the page where it begins, its code, the line where it ends, and what the comment after it says, if there
    is one."""

    line: int
    code: str
    end: int
    says: str = ""

    @property
    def is_item(self):
        return self.code.startswith(ITEM_WORDS)


def split_spans(text):
    """The text split at its code, as Markdown reads it: what is no code, and code, in turn."""
    parts = re.split(r"(?<!`)(`+)(?!`)(.+?)(?<!`)\1(?!`)", text)
    code = [it[1:-1] if re.fullmatch(r" .*\S.* ", it) else it for it in parts[2::3]]
    return [it for pair in zip(parts[::3], [*code, ""]) for it in pair][:-1]


def code_spans(text):
    return split_spans(text)[1::2]


def cells(row):
    """The cells of a table's row, where a `|` in a text has a backslash before it."""
    return [it.strip().replace("\\|", "|") for it in re.split(r"(?<!\\)\|", row.strip())[1:-1]]


def marked(text, test, wanted=True):
    """The text with only what is in sections that are marked as run by this test, or in the others; the lines of the rest are empty.
    A line `<!-- TEST -->` marks what follows, to the next heading of the second level."""
    found, is_marked = [], False
    for line in text.split("\n"):
        is_marked = line == f"<!-- {test} -->" or is_marked and not line.startswith("## ")
        found.append(line if is_marked == wanted else "")
    return "\n".join(found)


class Page:
    """The blocks and the tables of a page, in their order; and its paragraphs, items and headings, each with its first line."""

    def __init__(self, name, text):
        self.name, self.parts, self.texts, self.paragraph, self.is_list = name, [], [], [], False
        # the paragraph before a table, and the next line's place
        self.last, self.lines, self.at = "", text.split("\n"), 0
        while self.at < len(self.lines):
            self.read(self.lines[self.at])

    def read(self, line):
        """Reads a block, a table, or a line of other text."""
        self.at += 1
        if fence := re.match(r"\s*(```+)(\w*)\s*$", line):
            self.add(Block(self.name, self.at + 1, fence[2] or "text", True, self.take(lambda it: it.strip() != fence[1])))
            self.at += 1  # behind the other fence
        elif re.match(r"    \S", line) and not self.is_list and not self.paragraph:
            number, lines = self.at, [line, *self.take(re.compile(r"    |\s*$").match)]
            self.add(Block(self.name, number, "text", False, [it[4:] for it in lines]))
        elif line.startswith("|"):
            number, rows = self.at, self.take(lambda it: it.startswith("|"))
            self.add(Table(self.name, number, code_spans(self.last), cells(line), [*enumerate(map(cells, rows[1:]), number + 2)]))
        else:
            self.read_prose(line)

    def take(self, belongs):
        """The next lines, up to one that doesn't belong to them."""
        taken = [*itertools.takewhile(belongs, self.lines[self.at :])]
        self.at += len(taken)
        return taken

    def add(self, part):
        # (blank lines behind a block are none of it)
        while isinstance(part, Block) and part.lines and not part.lines[-1].strip():
            part.lines.pop()
        self.parts.append(part)
        self.last = ""

    def read_prose(self, line):
        if not line.strip() or line.startswith("<!--"):
            self.paragraph = []
            return
        mark = MARK.match(line)
        self.is_list = bool(re.match(r"\s*([-*]|\d+\.) ", line)) or self.is_list and line.startswith(" ")
        if mark or not self.paragraph:
            self.texts.append((self.at, line[mark.end() if mark else 0 :]))
        else:
            self.texts[-1] = (self.texts[-1][0], f"{self.texts[-1][1]} {line}")
        self.paragraph.append(line)
        self.last = " ".join(self.paragraph)


def tables(page, heading):
    """The tables of a page of the repository below a heading of the second level."""
    section = read(page).partition(f"\n## {heading}\n")[2].partition("\n## ")[0]
    return [it for it in Page(page, section).parts if isinstance(it, Table)]


def depth_of(token):
    """How much deeper what follows is inside of brackets."""
    return (token in "([{") - (token in ")]}") if len(token) == 1 else 0


def split_statements(text, line):
    """The statements of a text of Rust, and the comments between them by their lines."""
    found, notes, code, depth, begin = [], {}, "", 0, line
    for match in TOKEN.finditer(text):
        token = match[0]
        if not code.strip():
            begin = line
        if not token.startswith("//"):
            depth += depth_of(token)
            code += token
        elif not code.strip():
            notes[line] = token[2:].strip()
        goes_on = token == "}" and (code.lstrip().startswith(("let ", "use ")) or GOES_ON.match(text, match.end()))
        if depth == 0 and token in (";", "}") and not goes_on:
            found.append(Statement(begin, code.strip(), line))
            code = ""
        line += token.count("\n")
    if code.strip():
        found.append(Statement(begin, code.strip(), line))
    return found, notes


def statements(block):
    """The statements of a block of Rust, each with the comment after it: on the line where it ends, or on the lines right below, unless
    code follows that the comment may be of."""
    found, notes = split_statements(block.text, block.line)
    for it, following in itertools.zip_longest(found, found[1:]):
        begin = following.line if following else math.inf
        below = [*map(notes.get, itertools.takewhile(notes.__contains__, itertools.count(it.end + 1)))]
        if it.end in notes and begin > it.end:
            it.says = notes[it.end]
        elif below and (begin > it.end + len(below) + 1 or begin > it.end and PRINTED.match(below[0])):
            it.says = " ".join(below)
    return found


def without_texts(code):
    """The code without what is in texts and comments."""
    return "".join('""' if it.startswith('"') else "" if it.startswith("//") else it for it in TOKEN.findall(code))


def imports(code, before=""):
    """What a `use` brings in, by its name; what ends in `*` by its whole path."""
    code = code.removesuffix(";").strip()
    if inside := re.fullmatch(r"(.*?)\{(.*)\}", code, re.S):
        found = {}
        for part in split_commas(inside[2]):
            found |= imports(part, before + inside[1].strip())
        return found
    path = before + code
    name = path if path.endswith("*") else path.split(" as ")[-1].split("::")[-1].strip()
    return {name: path} if code else {}


def split_commas(text):
    """The parts of a text between commas outside of brackets."""
    parts, depth = [""], 0
    for token in TOKEN.findall(text):
        depth += depth_of(token)
        if token == "," and depth == 0:
            parts.append("")
        else:
            parts[-1] += token
    return [it.strip() for it in parts if it.strip()]
