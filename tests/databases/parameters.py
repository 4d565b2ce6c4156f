#!/usr/bin/python3
"""Runs statements by types with hostile texts as values beside them, by each database's own protocol, and compares what they find.

parameters.rt.txt makes the statements, with `?1`, `$1` and `?`, and their values in order. Every text is bound in each
argument that takes a value: both sides of each condition, masks of LIKE, lists, bounds, rows, `set`, RETURNING, HAVING, ON, GROUP BY,
ORDER BY, LIMIT and OFFSET, fields, holes of templates, and queries in queries. A statement's text has to be the same for all of them, and
the values of `?` those of the numbers in their order. Then SQLite (by Python's sqlite3), PostgreSQL (by libpq's PQexecParams, in the
binary format, and as texts), MariaDB with its defaults (by prepared statements of its C library) and the kit's `sqlite` run each, and
have to find or store just what is meant.

Some is otherwise, and counted: a text with a zero byte is refused by PostgreSQL, and cut there by libpq where it goes as a text; SQLite's
LIKE reads masks and texts up to their first zero byte; and MariaDB compares two values by the collation of the client's character set,
without case. A text in LIMIT is refused, or its digits at the front say how many rows there are. What the kit's SQL doesn't have, it
refuses."""

import collections
import functools
import itertools
import operator
import re
import sys

sys.path.append(f"{sys.path[0]}/../lib")
from blocks import code_spans
from bound import COMPARED, EMPTY, OF_TEXT, TEXTS, ZERO, Bound, came, kept, masks, of_kit, prepare, show, values_of
from built import arms, written
from connections import attempt, each, found_rows, head
from hostile import pattern
from tally import Tally


@functools.cache
def ids(texts, condition, text):
    """The rows of the table of texts that a condition finds."""
    return [(b"%d" % at,) for at, it in enumerate(texts) if CONDITIONS[condition](it, text)]


# The calls, with what each finds of a text and of the rows that have it.
OF_TEXTS = ("limit", "or_where", "on", "on_eq", "having", "tables", "union", "condition of a template")
CALLS = {
    **dict.fromkeys(("set", "values", "statement of a template"), lambda text, rows: []),
    **dict.fromkeys(("row", "delete", "field", "operand of a template"), lambda text, rows: [(text.encode(),)]),
    **dict.fromkeys(("count", "group_by"), lambda text, rows: [(b"3",)]),
    **dict.fromkeys(OF_TEXTS, lambda text, rows: rows),
    "union_all": lambda text, rows: rows * 2,
    # the first of all
    "order_asc": lambda text, rows: [(b"0",)],
}
# What is in the table `one` behind some.
LEAVES = {
    "set": lambda text: kept(text, 2),
    **dict.fromkeys(("row", "values", "statement of a template"), lambda text: kept(text, 4)),
    "delete": lambda text: [EMPTY[0], EMPTY[2]],
}
MASKS = ("containing", "starting_with", "ending_with")
CONDITIONS = {
    **COMPARED,
    **dict.fromkeys(("not in_values", "not between"), operator.ne),
    "any of two": lambda it, text: it < "'" or it > text,
    **masks(*(f"like_mask of {it}" for it in MASKS)),
}
NAMES = [*CALLS, *CONDITIONS, *(it + OF_TEXT for it in CONDITIONS)]
# What the kit's SQL takes no value in.
NOT_IN_KIT = ("group_by", "order_asc")
# Conditions on the text that compare it with another value.
BY_ORDER = ("between", "between, the other", "not_between", "not_between, the other", "any of two")
# The most values that PostgreSQL and MariaDB take. Debian's SQLite takes more.
MOST = 65_535
# Statements with one value, and the rows of `one` that each database finds. Then texts with numbers, made positional with the values
# 2 and 3: how many values these give. Of MariaDB: how many placeholders it takes, and what it finds if they are as many.
BOUND, POSITIONAL = ([*found_rows("Parameters", number)] for number in (1, 2))
# What may come of a statement.
CAME = ("same", "cut", "collated", "other", "refused")
# What is right, or known to come.
KNOWN = CAME[:3]


class Statement(Bound):
    """What the program makes of a call and a text."""

    @property
    def changes(self):
        return self.name in LEAVES

    @property
    def is_masked(self):
        return any(it in self.name for it in MASKS)

    def finds(self, texts, _product):
        """The rows that are meant to be found, and what is to be in the table `one` then."""
        rows = ids(texts, "eq", self.text)
        if self.name in CALLS:
            return CALLS[self.name](self.text, rows), LEAVES.get(self.name, lambda _: EMPTY)(self.text)
        condition = self.name.removesuffix(OF_TEXT)
        if self.name == condition:
            return ids(texts, condition, self.text), EMPTY
        return rows if CONDITIONS[condition](self.text, self.text) else [], EMPTY

    def otherwise(self, db, found, texts):
        """`cut` is what SQLite's LIKE finds of a zero byte, and `collated` of two values on MariaDB."""
        if db.product == "MariaDB" and self.name.endswith(OF_TEXT) and self.name.removesuffix(OF_TEXT) in BY_ORDER:
            return "collated"
        return "cut" if db.product == "SQLite" and self.is_masked and sorted(found) == sorted(self.cut(texts)) else "other"

    def cut(self, texts):
        """What SQLite's LIKE finds, which reads a mask and a text up to a zero byte."""
        until = lambda text: text.split(ZERO)[0]
        matches = lambda text: bool(pattern(until(self.values[-1])).fullmatch(until(text))) != self.name.startswith("not")
        if self.name.endswith(OF_TEXT):
            return ids(texts, "eq", self.text) if matches(self.text) else []
        return [(b"%d" % at,) for at, it in enumerate(texts) if matches(it)]


def made():
    """All statements of all texts, and those of POSITIONAL with their values."""
    several, shapes = [*itertools.product(TEXTS, NAMES)], ((len(TEXTS) * len(NAMES), 7), (len(POSITIONAL), 3))
    numbered = [f"SELECT id FROM one WHERE {it}" for it, *_ in POSITIONAL]
    statements, positional = written("parameters", ("sql_typed", "sqlite"), shapes, NAMES, TEXTS, numbered)
    statements = [Statement(name, text, *it) for (text, name), it in zip(several, statements)]
    return statements, [(text, values_of(ordered)) for text, _, ordered in positional]


def check(statements, tally):
    """That the texts of a call are the same for all values, and that the values of `?` are those of the numbers."""
    tally.expect("what only the program has", arms("parameters", "conditions") - {*NAMES}, set())
    texts = collections.defaultdict(set)
    for it in statements:
        texts[it.name].add((it.question, it.dollar, it.positional))
        for printed in (it.dollar, it.question):
            numbers = [int(number) - 1 for number in re.findall(r"[$?](\d+)", printed)]
            is_same = [it.values[number] for number in numbers] == it.ordered and re.sub(r"[$?]\d+", "?", printed) == it.positional
            if not is_same or {*numbers} != {*range(len(it.values))}:
                tally.fail(it.name, f"{printed} {it.values} is not {it.positional} {it.ordered}")
    for name, several in texts.items():
        tally.expect(f"{name}: how many texts of the statement there are", len(several), 1)
    zeros, backslashes = (sum(sign in it for it in TEXTS) for sign in (ZERO, "\\"))
    print(f"{len(TEXTS)} texts, {zeros} with a zero byte and {backslashes} with a backslash, in {len(NAMES)} statements\n")


def takes(db, count, *how):
    """Whether a statement takes so many values, in a list."""
    numbers = range(1, count + 1)
    holes = ", ".join(db.placeholder.replace("1", f"{it}") for it in numbers)
    return attempt(db.run_with, f"SELECT id FROM one WHERE id IN ({holes})", [*numbers], *how) == [(b"1",), (b"2",), (b"3",)]


def found_with(db, statement, values):
    """The rows that a statement finds, as the tables have them."""
    rows = attempt(db.run_with, statement, values)
    return "error" if rows is None else ", ".join(it[0].decode() for it in rows) or "nothing"


def check_bound(db, tally):
    """Compares what each of BOUND finds."""
    for statement, value, *finds in BOUND:
        [text] = code_spans(value)
        found = found_with(db, statement.replace("?", db.placeholder), [int(text) if value.startswith("the number") else text])
        tally.expect(f"{db.name}: {statement} with {value}", found, finds[db.number])


def check_limit(db, tally):
    """Gives how many texts a database refuses in LIMIT. Of each other one it has to take the number at the front for that of the rows."""
    found = {text: found_with(db, f"SELECT id FROM one ORDER BY id LIMIT {db.placeholder}", [text]) for text in TEXTS}
    for text, rows in found.items():
        if rows != "error":
            wanted = ", ".join("123"[: int(re.match("[0-9]*", text)[0] or 0)]) or "nothing"
            tally.expect(f"{db.name}: LIMIT by {text!r}", rows, wanted)
    return sum(rows == "error" for rows in found.values())


def check_positional(db, positional, tally):
    """Compares what MariaDB makes of each of POSITIONAL: how many values it takes, and what it finds if these are so many."""
    for (statement, gives, wanted, finds), (text, values) in zip(POSITIONAL, positional):
        taken = attempt(db.takes, text, otherwise="error")
        found = found_with(db, text, values) if taken == len(values) else "–"
        tally.expect(f"{db.name}: {statement} with {text}", (f"{len(values)}", f"{taken}", found), (gives, wanted.split(",")[0], finds))


def measure(db, statements, positional, limited, tally):
    """Runs the statements on a database."""
    texts = prepare(db)
    check_bound(db, tally)
    limited.append(f"{check_limit(db, tally)} of {db.name}")
    if db.product == "MariaDB":
        check_positional(db, positional, tally)
    for way, how in {", binary": (), ", as texts": (False,)}.items() if db.product == "PostgreSQL" else [("", ())]:
        # PostgreSQL refuses a zero byte, and libpq cuts a text there
        with_zero = {"PostgreSQL, binary": ("refused",), "PostgreSQL, as texts": CAME}.get(db.product + way, KNOWN)
        results = [(it, came(db, lambda it: it.run(db, *how), it, texts)) for it in statements]
        show(db.name + way, results, CAME, lambda it, result, is_zero: result in (with_zero if is_zero else KNOWN), tally)
        most = [takes(db, it, *how) for it in (MOST, MOST + 1)]
        tally.expect(f"{db.name}: whether it takes {MOST} values, and one more", most, [True, db.product == "SQLite"])


def main():
    tally, limited = Tally("parameters"), []
    statements, positional = made()
    check(statements, tally)
    head("database", "texts", "statements", "as meant", "LIKE to a zero byte", "without case", "otherwise", "refused")
    each(tally, lambda db: measure(db, statements, positional, limited, tally))
    results = [(it, of_kit(it, *it.kit)) for it in statements]
    is_right = lambda it, result, _: result == ("refused" if it.is_masked or it.name in NOT_IN_KIT else "same")
    show("the kit's sqlite", results, CAME, is_right, tally)
    refused = {it.name for it, result in results if result == "refused"}
    print(f"\nThe kit's sqlite refuses: {', '.join(it for it in NAMES if it in refused)}")
    print(f"How many texts are refused in LIMIT: {', '.join(limited)}\n")
    return tally.end()


sys.exit(main())
