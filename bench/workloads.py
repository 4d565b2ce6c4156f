"""What is measured, and what is aimed at.

An amount of a workload is a pair: so many turns on an input that is so many times as large as the one that is counted."""
import os
import subprocess
from dataclasses import dataclass
from functools import partial
from typing import Callable, Optional

STATEMENTS = f"{os.path.dirname(os.path.realpath(__file__))}/statements"


@dataclass
class Calls:
    """Turns of one step of the library's programs: how many in all, of which a fiftieth is counted, the greatest ratio aimed at, and the
    text, so many times as large, if the step reads one; else ten times the input are ten times the turns, and how many times as much these
    may take. The ratio is that of two programs, which may print other texts. What is of no crate is counted for each byte."""

    name: str
    step: str
    count: int
    aim: float
    text: Optional[Callable[[int], str]] = None
    growth: float = 10.5
    # Of which program of ours something is measured, beside which one of the crate, and above which limit.
    ours: str = "library"
    crate: Optional[str] = "calls"
    memory: float = 1.0
    prints_same: bool = True
    is_test: bool = False

    limit = None

    def __post_init__(self):
        self.unit = "turn" if self.crate else "byte"
        self.whole, self.counted = (self.count, 1), (self.count // 50, 1)
        self.tenfold = (self.count // 50, 10) if self.text else (self.count // 50 * 10, 1)

    def difference(self, amount):
        """Two amounts, whose difference it is: the other makes one turn on the same text, and prints what that made."""
        turns, times = amount
        return (turns + 1, times), (1, times)

    def words(self, turns, program):
        return [self.step if self.ours == "library" else f"{program}_{self.step}", str(turns)]

    def input(self, times):
        return self.text(times).encode() if self.text else b""

    def units(self, turns, text):
        return turns if self.crate else turns * len(text)

    def is_right(self, printed):
        """A test of fragments goes through the whole text: one whose name begins with `has_` answers false there, another true."""
        return not self.is_test or int(printed.readline()) == (0 if self.step.startswith("has_") else self.count)


@dataclass
class Lines(Calls):
    """Lines of a kind of `statements`: how many in all, of which a tenth is counted."""

    ours: str = "sqlb"
    crate: str = "lines"
    limit = "limit"

    def __post_init__(self):
        self.unit, self.whole, self.counted, self.tenfold = "line", (1, 10), (1, 1), (1, 10)

    def difference(self, amount):
        """Two amounts, whose difference it is: the other reads nothing."""
        return amount, (1, 0)

    def words(self, _turns, _program):
        return []

    def input(self, times):
        words = [STATEMENTS, self.step, str(self.count // 10 * times)]
        return subprocess.run(words, stdout=subprocess.PIPE, check=True).stdout if times else b""

    def units(self, _turns, text):
        return text.count(b"\n")


# Steps by types, beside the same statements by the builder, and by parameters, beside the same by `Value`s. Of those that the crate
# doesn't have, the aim is the greatest number of instructions for a byte.
Typed = partial(Calls, ours="typed", crate="built", memory=1.15)
Bound = partial(Typed, prints_same=False)
Own = partial(Calls, crate=None)
Tests = partial(Own, is_test=True)
# What sorts takes a little more than ten times the instructions for ten times of it. The C library has room at hand for copies of a few
# texts, which it hasn't for ten times as many.
Sorted = Copied = partial(Calls, growth=14)


def lines(kind, count=1_000_000, name="a statement with {count:,} `{kind}` lines", aim=0.55, memory=1.0):
    return Lines(name.format(kind=kind, count=count), kind, count, aim, memory=memory)


LINES = [
    lines("mixed", 100_000, "{count:,} mixed statements", aim=0.18),
    lines("short", 100_000, "{count:,} statements of ten short lines", aim=0.28),
    lines("tiny", 500_000, "{count:,} statements of two short lines"),
    lines("restart", 100_000, "{count:,} statements of seven lines, with two conditions"),
    lines("long", 5_000, "{count:,} statements of ten lines, eight of them of 950 bytes"),
    lines("conditions", 2_000, "{count:,} statements with all fifty conditions"),
    *(lines(kind) for kind in ("field", "set_field", "group_by", "order_asc", "select", "values", "set", "set_str", "union")),
    lines("wide", 20_000, "a statement with {count:,} `values` lines of 100 values"),
    lines("join", aim=0.3, memory=0.6),
    lines("on", aim=0.6),
    lines("join_on", 500_000, "a statement with {count:,} `join` lines, each with an `on` line"),
    lines("on_alone", name="a statement with {count:,} `on` lines and no join"),
    lines("or_where", aim=0.65, memory=1.7),
    lines("or_where_eq", aim=0.45, memory=1.7),
    lines("or_where_like", memory=1.7),
    lines("fields", 10_000_000, "a `fields` line of {count:,} fields"),
    *(lines(kind, name="an `and_where_{kind}` line of {count:,} values") for kind in ("in", "in_quoted")),
    lines("text", 200_000, "a `set` line of 20 MB, ASCII"),
    lines("text_not_ascii", 200_000, "a `set` line of 20 MB, not ASCII"),
    lines("text_str", 200_000, "a `set_str` line of 20 MB, ASCII"),
    lines("text_quotes", 200_000, "a `set_str` line of 20 MB, full of quotes"),
]

TITLE = "Harry Potter and the Philosopher's Stone"
TEMPLATES = {
    "bind": "title = ? AND price > 100 OR sold = TRUE",
    "binds": "title = ? AND price > ? OR sold = ?",
    "bind_num": "title = $1 AND price > 100 OR name = $1",
    "bind_nums": "title = $1 AND price > $2 OR sold = $3",
    "bind_name": "title = :title: AND price > 100 OR name = :title:",
    "bind_names": "title = :title: AND price > :least: OR sold = :sold:",
}
ARGUMENTS = {"wide": "an i128 above 64 bits", "narrow": "a small i128", "u64": "an u64", "some": "a `Some(u64)`"}
ARGUMENTS |= {"whole": "a `Literal::Whole`", "bool": "a bool", "none": "a `None`"}
QUOTINGS = ("esc", "quote", "baquote", "brquote", "dquote")
PLACEHOLDERS = {"binds": "?", "bind_num": "$1", "bind_nums": "$1", "bind_name": ":title:", "bind_names": ":title:"}
PLAIN = " AND the_first_column = the_second_column OR another_column IS NOT NULL AND "


def filled(text, end):
    """The text again and again, to nearly 4 KB, and then its end."""
    return text * ((4096 - len(end)) // len(text)) + end


def repeated(text):
    return lambda times: text * times


def named(template, names="title least sold"):
    """What a call that binds several values reads: a line with a name for each, and the template."""
    return lambda times: f"{names}\n{template * times}"


def template(call, text):
    return named(text) if call in ("binds", "bind_nums", "bind_names") else repeated(text)


def numbered(count, name, placeholder):
    """As many names and placeholders, each with its number, of as many digits."""

    def text(times):
        numbers = [f"{number:07}" for number in range(1, count * times + 1)]
        return "\n".join(" ".join(it.format(number) for number in numbers) for it in (name, placeholder))

    return text


NAMES = numbered(1_000, "n{}", "")


def numbered_few(count):
    """So many names, and the placeholders of their numbers again and again."""
    numbers = range(1, count + 1)
    names, placeholders = " ".join("x" * count), "".join(f"${it}, " for it in numbers)
    return lambda times: f"{names}\n{placeholders * times}"


# Names that begin with these bytes and have seven digits behind them collide in std's `HashMap`, whose seed is fixed.
COLLIDING = "sltgzdusqyrawqsbxl4ePHbk0"


def colons(name, text):
    """A line with a name of so many colons and a letter, and as many colons again and again."""
    return lambda times: f"{':' * name}x\n{':' * text * times}"


CALLS = [
    Calls("a SELECT with a join and three conditions", "select", 100_000, 0.3),
    Calls("a SELECT of a subquery, with two others in it", "nested", 100_000, 0.4),
    Calls("an UPDATE", "update", 100_000, 0.3),
    Calls("an UPDATE by a restarted builder, to a kept text", "restart", 100_000, 0.3),
    Calls("an INSERT of 100 rows", "insert", 5_000, 0.1, repeated("x" * 100)),
    Calls("an empty SELECT of the builder", "built_none", 100_000, 1.0),
    Calls("a list of 100 `or_where`", "or_where", 5_000, 1.6, repeated("x" * 100)),
    *(Calls(f"`{macro}!`", macro, 200_000, 0.25) for macro in ("name", "qname", "baname", "brname", "dname")),
    *(Calls(f"`{call}`, 40 bytes", call, 500_000, 0.55, repeated(TITLE)) for call in QUOTINGS),
    Calls("`quote`, 4 KB with a quote in each 64 bytes", "quote", 20_000, 0.55, repeated(("x" * 63 + "'") * 64)),
    Calls("`quote`, 4 KB without a quote", "quote", 20_000, 0.55, repeated("x" * 4096)),
    Calls("`quote`, 4 KB of quotes", "quote", 2_000, 0.55, repeated("'" * 4096)),
    Calls("`quote`, 40 bytes with a quote in each two", "quote", 200_000, 1.0, repeated("'x" * 20)),
    Calls("`set_str`, 40 bytes with a quote in each two", "set_str", 200_000, 1.0, repeated("'x" * 20)),
    Calls("`esc` of an empty text", "esc", 500_000, 1.5),
    Calls("`SqlName::safe` of 4 KB", "safe", 5_000, 1.0, repeated("n" * 4096)),
    # the crate's `dquote` escapes nothing
    *(Calls(f"`{call}`, 1 MB, ASCII", call, 100, 1.6 if call == "dquote" else 0.9, repeated("x" * 1_000_000)) for call in QUOTINGS),
    Calls("`quote`, 1 MB, not ASCII", "quote", 100, 0.9, repeated("é" * 500_000)),
    Calls("`quote`, 1 MB of quotes", "quote", 100, 0.9, repeated("'" * 1_000_000)),
    *(Calls(f"`{call}`, 40 bytes", call, 200_000, 0.55, template(call, it)) for call, it in TEMPLATES.items()),
    Calls("`binds` of 5", "binds", 200_000, 1.0, lambda times: f"a b c d e\n{'?, ?, ?, ?, ?, ' * times}"),
    *(Calls(f"`bind_nums` of {count}", "bind_nums", 200_000, 1.0, numbered_few(count)) for count in (2, 5)),
    Calls("three `bind` in a chain, 40 bytes", "bind_chain", 100_000, 0.55, repeated(TEMPLATES["binds"])),
    *(Calls(f"`{call}`, 4 KB", call, 5_000, 0.75, template(call, filled(it + PLAIN, "a = b"))) for call, it in TEMPLATES.items()),
    Calls("`bind_num`, 4 KB among other numbers", "bind_num", 5_000, 0.75, repeated(filled("($2, $30, $4), ", "($1)"))),
    Calls("`bind_name`, 4 KB among other names", "bind_name", 5_000, 0.75, repeated(filled("(:name:, :sold:), ", "(:title:)"))),
    Calls("`bind_name`, 4 KB among other colons", "bind_name", 5_000, 0.75, repeated(filled("('12:30:59'), ", "(:title:)"))),
    *(
        Calls(f"`{call}`, 100,000 placeholders side by side", call, 50, 0.9, template(call, placeholder * 100_000))
        for call, placeholder in PLACEHOLDERS.items()
    ),
    Calls("`bind_nums` of 100,000 arguments", "bind_nums", 50, 0.9, numbered(100_000, "n{}", "${}")),
    Calls("`bind_names` of a map of 1,000 names", "bind_names", 50, 0.9, numbered(1_000, "n{}", ":n{}:")),
    Sorted("`bind_names` of 1,000 pairs", "bind_pairs", 50, 0.9, numbered(1_000, "n{}", ":n{}:")),
    Sorted("`bind_names` of 1,000 pairs, one placeholder", "bind_pairs", 500, 0.9, lambda times: f"{NAMES(times)}:n0000001:"),
    Sorted("`bind_names` of 1,000 pairs that collide", "bind_pairs", 50, 0.9, numbered(1_000, f"{COLLIDING}{{}}", f":{COLLIDING}{{}}:")),
    *(
        Calls(f"`bind_name` of {count:,} colons in 100,000 colons", "bind_only", 50, 0.9, colons(count, 100_000))
        for count in (10, 100, 1_000)
    ),
    *(Calls(f"`sql_arg` of {what}", f"arg_{step}", 200_000, 1.0) for step, what in ARGUMENTS.items()),
    *(Calls(f"IN of 1,000 {of}", f"in_{of}", 500, 1.0, repeated("x" * 1_000)) for of in ("u8", "u32", "i64", "i128")),
    Calls("`clone` of a SELECT of 6,000 items", "clone", 500, 0.9, repeated("x" * 1_000)),
    *(
        (Calls if count > 100 else Copied)(
            f"`clone` of a SELECT of {count:,} conditions", "clone_conditions", turns, 1.0, repeated("x" * count)
        )
        for count, turns in ((1, 100_000), (10, 50_000), (10_000, 100))
    ),
    # the crate keeps conditions in one text, so there is no aim
    *(
        Copied(f"`clone` of a SELECT of {count:,} ORs", "clone_ors", turns, 1_000, repeated("x" * count))
        for count, turns in ((1, 100_000), (3, 100_000), (10, 50_000), (1_000, 1_000))
    ),
]

TYPED = [
    Typed("a SELECT with five filters", "search", 100_000, 1.15),
    Typed("an UPDATE of three fields", "update", 100_000, 1.15),
    Typed("an INSERT of 100 rows of mixed values", "insert", 5_000, 1.15, repeated("x" * 100)),
    Typed("an INSERT of 100 rows of five values by `Row`", "rows", 5_000, 0.8, repeated("x" * 100)),
    Typed("an INSERT of 100 rows of five values by `Literal`", "literals", 5_000, 1.0, repeated("x" * 100)),
    # (so many turns that the end, where the texts are freed, counts for nothing)
    Typed("IN of 1,000 texts", "in", 10_000, 1.0, repeated("x" * 1_000)),
    Typed("`any` of 100 in `all`, over a text by hand", "any", 5_000, 1.2, repeated("x" * 100)),
    Typed("an empty SELECT", "none", 100_000, 1.1),
    Typed("a SELECT of one field", "field", 100_000, 1.1),
    Typed("a DELETE", "delete", 100_000, 1.1),
]

BOUND = [
    Bound("a SELECT with five conditions", "bound_search", 100_000, 1.0),
    Bound("an INSERT of 100 rows of five values", "bound_rows", 5_000, 1.0, repeated("x" * 100)),
    Bound("IN of 1,000", "bound_in", 500, 1.0, repeated("x" * 1_000)),
]

CONDITION = "(price > 100 AND title LIKE 'it''s%') OR CASE WHEN a THEN b ELSE c END = 3 AND cost BETWEEN 1 AND 2 OR "
LONGER = ("is_balanced", "has_clause_word", "is_operand", "violation", "has_dangling")
TESTS = {"is_closed": 20, "has_semicolon": 20, **dict.fromkeys(LONGER, 30)}

KINDS = {"symbols": "+=<>,|&^", "brackets": "(((())))", "quotes": "'it''s'\"a\""}
# How many times a test's aim is that on these kinds of text, whose tokens are short.
ON_KINDS = {"symbols": 1.5, "brackets": 1.8, "quotes": 1.8}

OWN = [
    *(Tests(f"`{test}`", test, 5_000, aim, repeated(f"({CONDITION * 40}a = b)")) for test, aim in TESTS.items()),
    Tests("`stands_apart`", "stands_apart", 5_000, 30, repeated(filled(TEMPLATES["binds"] + PLAIN, "a = b"))),
    *(
        Tests(f"`{test}` on {kind}", test, 5_000, ON_KINDS[kind] * aim, repeated(text * 500))
        for test, aim in TESTS.items()
        for kind, text in KINDS.items()
    ),
    Tests("`has_backslash`", "has_backslash", 5_000, 1, repeated("x" * 4096)),
    Own("`escape_like`", "escape_like", 5_000, 8, repeated("x" * 4096)),
    Own("`escape_like` of wildcards", "escape_like", 5_000, 30, repeated("100%_" * 800)),
]

# The workloads of the picture, by the beginnings of their names.
PICTURED = (
    *("100,000 mixed", "100,000 statements of ten", "2,000 statements with all", "a statement with 1,000,000 `field`"),
    *("a statement with 1,000,000 `or_where` ", "a `set_str` line of 20 MB, ASCII", "a SELECT with a join", "an INSERT of 100 rows"),
    *("`quote`, 40 bytes", "`bind_names`, 40 bytes"),
)
