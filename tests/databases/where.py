#!/usr/bin/python3
"""Runs random WHEREs of groups on databases, and compares the rows that come back with those that the groups mean.

Each statement is made by sqlb, which has to be built: groups of conditions of every kind (comparisons, NULLs, LIKE, IN of values, of texts
and of queries, BETWEEN, their NOT forms, and conditions of their own with OR, AND, NOT and CASE in them), by `and_where` and `or_where`.
What the groups mean is computed here, in three-valued logic: a row is found where the AND of the groups, each the OR of its conditions, is
true. The table has every row of small values and NULLs. The arguments are how many statements are made and a seed."""

import functools
import itertools
import operator
import random
import sys
from dataclasses import dataclass, field, replace
from typing import Callable

sys.path.append(f"{sys.path[0]}/../lib")
from built import printed
from connections import attempt, each
from hostile import asked, is_like, quoted
from tally import Tally

NUMBERS, TEXTS = (None, 0, 1, 2), (None, "", "a", "ab", "b'a", "a%b")
COLUMNS = ("a", "b", "c")
ROWS = [dict(zip((*COLUMNS, "d"), it)) for it in itertools.product(NUMBERS, NUMBERS, NUMBERS, TEXTS)]
# The comparisons, by the calls' endings.
SIGNED = {it.__name__: it for it in (operator.eq, operator.ne, operator.gt, operator.ge, operator.lt, operator.le)}
SIGNS = dict(zip(SIGNED, ("=", "<>", ">", ">=", "<", "<=")))
# The calls of LIKE, and the mask of each.
MASKS = {"like": "{}", "like_left": "{}%", "like_right": "%{}", "like_any": "%{}%"}
# A truth is 1, 0, or between them where it is unknown. So AND is the minimum, OR the maximum, and NOT is 1 minus it.
UNKNOWN = 0.5


def compared(sign, x, y):
    return UNKNOWN if x is None or y is None else SIGNED[sign](x, y)


def is_in(x, values):
    return max((compared("eq", x, it) for it in values), default=0)


@dataclass
class Condition:
    """A condition: the ending of its call with the arguments, its text, its truth for a row, and the texts that are quoted in it."""

    call: str
    arguments: list
    text: str
    truth: Callable[[dict], float]
    texts: list = field(default_factory=list)


class Maker:
    """Makes conditions and statements by chance."""

    def __init__(self, chance):
        self.chance = chance

    def number(self):
        """A number as it is written, and its value for a row: a column, a constant or NULL."""
        if self.chance.random() < 0.4:
            return self.column()
        value = self.chance.choice(NUMBERS)
        return "NULL" if value is None else str(value), lambda row: value

    def column(self):
        name = self.chance.choice(COLUMNS)
        return name, lambda row: row[name]

    def text(self):
        return self.chance.choice(["", "a", "b", "ab", "b'a", "a_", "%b", "'"])

    def comparison(self):
        sign, (left, x), (right, y) = self.chance.choice([*SIGNS]), self.column(), self.number()
        return Condition(f"_{sign}", [left, right], f"{left} {SIGNS[sign]} {right}", lambda row: compared(sign, x(row), y(row)))

    def null(self):
        name, is_not = self.chance.choice((*COLUMNS, "d")), self.chance.random() < 0.5
        call, words = ("_is_not_null", "IS NOT NULL") if is_not else ("_is_null", "IS NULL")
        return Condition(call, [name], f"{name} {words}", lambda row: (row[name] is None) != is_not)

    def either(self, call, name, arguments, words, truth, texts=()):
        """A condition, or its NOT form."""
        no, word, fits = ("_not", "NOT ", lambda row: 1 - truth(row)) if self.chance.random() < 0.4 else ("", "", truth)
        return Condition(f"{no}_{call}", [name, *arguments], f"{name} {word}{words}", fits, [*texts])

    def like(self):
        call, part = self.chance.choice([*MASKS]), self.text()
        mask = MASKS[call].format(part)
        truth = lambda row: UNKNOWN if row["d"] is None else is_like(row["d"], mask)
        return self.either(call, "d", [part], f"LIKE {quoted(mask)}", truth, [mask])

    def some(self, make):
        return [make() for _ in range(self.chance.randint(1, 3))]

    def listed(self):
        (name, value), items = self.column(), self.some(self.number)
        truth = lambda row: is_in(value(row), [it[1](row) for it in items])
        written = [it[0] for it in items]
        return self.either("in", name, written, f"IN ({', '.join(written)})", truth)

    def listed_texts(self):
        items = self.some(self.text)
        return self.either("in_quoted", "d", items, f"IN ({', '.join(map(quoted, items))})", lambda row: is_in(row["d"], items), items)

    def between(self):
        (name, value), (least, x), (most, y) = self.column(), self.number(), self.number()
        truth = lambda row: min(compared("ge", value(row), x(row)), compared("le", value(row), y(row)))
        return self.either("between", name, [least, most], f"BETWEEN {least} AND {most}", truth)

    def nested(self):
        """An IN of a query, whose rows its own groups give."""
        (name, value), (selected, found) = self.column(), self.column()
        groups = self.groups(2, self.plain)
        query = f"SELECT {selected} FROM w WHERE {where_text(groups)}"
        values = functools.cache(lambda: [found(row) for row in ROWS if where_truth(groups, row) == 1])
        truth = lambda row: is_in(value(row), values())
        return self.either("in_query", name, [query], f"IN ({query})", truth, texts_of(itertools.chain(*groups)))

    def plain(self):
        return self.chance.choice((self.comparison, self.null, self.like, self.listed, self.listed_texts, self.between))()

    def own(self, depth=2):
        """A condition of its own, with OR, AND, NOT and CASE."""
        if depth == 0:
            return self.plain()
        one, other, third = (self.own(depth - 1) for _ in range(3))
        kind = self.chance.randrange(5)
        result = self.chance.randrange(2) if kind == 4 else None
        case = f"CASE WHEN {one.text} THEN {other.text} ELSE {third.text} END"
        text, of, truth = (
            (f"{one.text} OR {other.text}", (one, other), lambda row: max(one.truth(row), other.truth(row))),
            (f"({one.text}) AND ({other.text})", (one, other), lambda row: min(one.truth(row), other.truth(row))),
            (f"NOT ({one.text})", (one,), lambda row: 1 - one.truth(row)),
            (case, (one, other, third), lambda row: (other if one.truth(row) == 1 else third).truth(row)),
            (f"CASE WHEN {one.text} THEN 1 ELSE 0 END = {result}", (one,), lambda row: (one.truth(row) == 1) == result),
        )[kind]
        return Condition("", [], text, truth, texts_of(of))

    def raw(self):
        made = self.own()
        return replace(made, call="", arguments=[made.text])

    def condition(self):
        kind = self.chance.random()
        return self.raw() if kind < 0.3 else self.nested() if kind < 0.4 else self.plain()

    def groups(self, most, make):
        return [[make() for _ in range(self.chance.randint(1, 3))] for _ in range(self.chance.randint(1, most))]


def texts_of(conditions):
    """The texts that are quoted in these."""
    return [text for it in conditions for text in it.texts]


def where_text(groups):
    """The groups as they are written here for a nested query, each in brackets."""
    return " AND ".join(f"({' OR '.join(f'({it.text})' for it in group)})" for group in groups)


def where_truth(groups, row):
    return min(max(it.truth(row) for it in group) for group in groups)


def where_lines(groups):
    """The lines of sqlb that add these groups."""
    for group in groups:
        for number, it in enumerate(group):
            yield "\t".join([f"{'or' if number else 'and'}_where{it.call}", *it.arguments])


def lines(groups):
    """The lines of sqlb that ask for the numbers of the rows that these groups find."""
    return "\n".join(["select_from\tw", "field\tid", *where_lines(groups), "order_asc\tid", "sql\n"])


def prepare(db):
    shown = lambda value: "NULL" if value is None else db.text_of(value) if isinstance(value, str) else str(value)
    rows = (", ".join(map(shown, (number, *row.values()))) for number, row in enumerate(ROWS))
    db.make("w", f"id INTEGER, a INTEGER, b INTEGER, c INTEGER, d {db.column}", *(f"({it})" for it in rows))


def measure(db, statements, wanted, tally):
    """Counts the statements that found the rows that are wanted, and prints each other one."""
    # (a mask's backslashes are no matter here: there are none)
    prepare(db)
    before = tally.passed
    for statement, numbers in zip(statements, wanted):
        found = attempt(lambda: [int(it[0]) for it in db.run(statement)], otherwise="refused: {}")
        tally.count(found == numbers, f"{db.name}: {statement}\n  wanted {numbers}\n  found  {found}")
    print(f"{db.name}: {tally.passed - before} of {len(statements)} statements found the rows that their groups mean", flush=True)


def main():
    count, seed = asked(5000, 41)
    maker = Maker(random.Random(seed))
    all_groups = [maker.groups(3, maker.condition) for _ in range(count)]
    wanted = [[number for number, row in enumerate(ROWS) if where_truth(groups, row) == 1] for groups in all_groups]
    statements = printed([*map(lines, all_groups)])
    some = sum(bool(it) and len(it) < len(ROWS) for it in wanted)
    print(f"{count} statements over {len(ROWS)} rows, of which {some} find some of the rows and not all")
    tally = Tally("where")
    each(tally, lambda db: measure(db, statements, wanted, tally))
    return tally.end()


if __name__ == "__main__":
    sys.exit(main())
