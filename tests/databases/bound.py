"""Statements with hostile texts as values beside them, what comes of them on a database and by the kit's `sqlite`, and conditions."""

import collections
import operator

from connections import as_bytes, attempt, row
from hostile import CHARACTERS, PIECES, all_of, attacks

END_OF_VALUE, END_OF_ROW, ZERO = "\x1f", "\x1d", "\0"
# Attacks, texts of few characters, backslashes among them, pieces of hostile texts, long ones, and some with zero bytes.
LONG = [it * 1000 for it in ("'", "\\", "é", "%", "';")]
ZEROS = [*all_of("\0'a", 3), "\0'; DROP TABLE one; --", "a\0\\'", "%\0_"]
TEXTS = tuple(dict.fromkeys([*attacks(), *all_of(CHARACTERS, 2), *PIECES, *LONG, *ZEROS]))
# The rows of the table `one`.
EMPTY = [(b"1", None), (b"2", None), (b"3", None)]
# Conditions on a text, with those that fit. They are also on another text in place of a column.
COMPARED = {
    **{it.__name__: it for it in (operator.eq, operator.ne, operator.gt, operator.ge, operator.lt, operator.le)},
    "in_values": lambda it, text: it in (text, "b"),
    "not_in_values": lambda it, text: it not in (text, "b"),
    "between": lambda it, text: text <= it <= "b",
    "between, the other": lambda it, text: "'" <= it <= text,
    "not_between": lambda it, text: not text <= it <= "b",
    "not_between, the other": lambda it, text: not "'" <= it <= text,
    **dict.fromkeys(("eq_or_null", "all", "any", "not ne", "in_query"), operator.eq),
    "not_in_query": operator.ne,
}
OF_TEXT = ", of the text"


def masks(*names):
    """Conditions by masks of these names, which find what contains a text, and what begins and ends with it, each with its NOT."""
    found = {}
    for name, fits in zip(names, (str.__contains__, str.startswith, str.endswith)):
        found |= {name: fits, f"not_{name}": lambda it, text, fits=fits: not fits(it, text)}
    return found


def kept(text, number):
    """The table `one` with this text in this row, or in a new one."""
    return sorted([*(it for it in EMPTY if it[0] != b"%d" % number), (b"%d" % number, text.encode())])


def values_of(parts):
    """Values as the program writes them."""
    return [None if it == "-" else int(it[1:]) if it[0] == "n" else it[1:] for it in parts.split(END_OF_VALUE)[:-1]]


def rows_of(rows):
    """Rows as the program writes them, as those of a connection."""
    return as_bytes(values_of(row) for row in rows.split(END_OF_ROW)[:-1])


class Bound:
    """A statement with a text as a value, in each style of placeholders, and what the kit found and left of it. Another class says what it
    `finds` and leaves in the table `one`, and whether it changes that."""

    changes = False

    def __init__(self, name, text, question, dollar, positional, values, ordered, *kit):
        self.name, self.text, self.kit = name, text, kit
        self.question, self.dollar, self.positional = question, dollar, positional
        self.values, self.ordered = values_of(values), values_of(ordered)

    def run(self, db, *how):
        styles = {"?1": (self.question, self.values), "$1": (self.dollar, self.values), "?": (self.positional, self.ordered)}
        return db.run_with(*styles[db.placeholder], *how)

    def otherwise(self, db, found, texts):
        """What came of it where it didn't find what is meant."""
        return "other"


def prepare(db):
    """Makes the table of texts, as many as the database stores, and the table `one`. Gives the texts."""
    texts = tuple(it for it in TEXTS if db.product != "PostgreSQL" or ZERO not in it)
    db.make("one", f"id INTEGER PRIMARY KEY, x {db.column}")
    db.fill()
    db.make_texts("texts", texts)
    return texts


def came(db, run, statement, texts):
    """What came of a statement."""
    rows, left = statement.finds(texts, db.product)
    found, now = attempt(run, statement), EMPTY
    if found is None:
        return "refused"
    if statement.changes:
        now = db.run("SELECT id, x FROM one ORDER BY id")
        db.fill()
    return "same" if sorted(found) == sorted(rows) and now == left else statement.otherwise(db, found, texts)


def of_kit(statement, found, left):
    """What came of a statement by the kit's `sqlite`, as the program wrote it."""
    rows, wanted = statement.finds(TEXTS, "kit")
    if found == "refused":
        return "refused"
    return "same" if sorted(rows_of(found)) == sorted(rows) and rows_of(left) == wanted else "other"


def show(name, results, columns, is_right, tally):
    """Prints what came of statements, those with a zero byte apart. Each has to be right."""
    for what, is_zero in (("without a zero byte", False), ("with one", True)):
        some = [(it, result) for it, result in results if (ZERO in it.text) == is_zero]
        counts = collections.Counter(result for _, result in some)
        row(name, what, len(some), *(counts[it] for it in columns))
        wrong = [(result, it.name, it.text) for it, result in some if not is_right(it, result, is_zero)]
        tally.expect(f"{name}: statements {what} that found otherwise", wrong[:5], [])
