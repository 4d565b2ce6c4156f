#!/usr/bin/python3
"""Runs statements that databases read otherwise than a user may think, and what to write instead, and compares what each finds.

The tables of docs/reference/databases.md say what each finds on SQLite, PostgreSQL and MariaDB: the statements of the tables "Not what
was meant" of docs/reference/readings.md, most with one to write instead, and some others. Templates are bound as docs/SECURITY.md says,
with an empty text and with PROBES, and what is stored is looked at: where it isn't the text each time, the template's placeholder is no
text of its own there. LIKES has what LIKE finds of characters that it doesn't tell apart, of long masks, and behind a zero byte."""

import itertools
import sys

sys.path.append(f"{sys.path[0]}/../lib")
from blocks import code_spans, tables
from connections import attempt, each, found_rows
from hostile import quoted
from tally import Tally

MEANT = "docs/reference/readings.md"
# What the column `a` has: its type, that of a database's texts if it is empty, and the values of the first three rows.
COLUMNS = {"numbers": ("INTEGER", "1", "2", "60"), "texts": ("", "'x1'", "'y'", "'x3'"), "large numbers": ("NUMERIC(20)", "1", "18446744073709551615", "5")}
# What a statement finds where it doesn't run, and where it finds no row.
REFUSED, NOTHING = "error", "nothing"
# The texts that templates are bound with. The first of them that isn't stored as it is shows that the placeholder is no text of its own.
# Nothing shows it where it is one, and nothing has to where the template doesn't run with an empty text.
PROBES = ("", "it's", "a\\nb", "🙂")
TRIED, NO_TEXT, EMPTY = "all stored", "doesn't run", "the empty text"
# What LIKE finds otherwise than it is meant, of a text and a mask, or of both of so many bytes.
REPLACED = "\ufffe\uffff\ufffd"
ALIKE = {(f"a{it}b", f"a{other}%"): "1" for it, other in itertools.permutations(REPLACED, 2)}
LIKES = ({**ALIKE, 50_001: REFUSED, ("a\0b", "%b%"): NOTHING}, {("a\0b", "%b%"): "not stored"}, {})


def prepare(db, column):
    """Makes the tables anew: `t` with this in its column `a`, whose last row has a NULL in it, `u` and `v`."""
    kind, one, other, third = COLUMNS[column]
    rows = f"(1, {one}, 10, 7), (2, {other}, 20, 7), (3, {third}, 30, 8), (4, NULL, 40, 8)"
    db.make("t", f"id INTEGER, a {kind or db.column}, b INTEGER, owner INTEGER", rows)
    db.make("u", "id INTEGER, b INTEGER", "(1, 1), (2, 2)")
    db.make("v", "id INTEGER, b INTEGER", "(1, 1), (5, 5)")


def finding(db, statement):
    """What a statement finds."""
    rows = attempt(db.run, statement)
    if rows is None:
        return REFUSED
    return f"rows: {len(rows)}" if "UNION" in statement else ", ".join(sorted(it[0].decode() for it in rows)) or NOTHING


def showing(db, template):
    """The first of PROBES that isn't stored as it is by a template, as the table has it."""
    for text in PROBES:
        db.run("UPDATE t SET a = NULL")
        is_run = attempt(db.run, template.format(quoted(text))) is not None
        found = db.run("SELECT a FROM t WHERE id = 1")[0][0] if is_run else None
        if found != text.encode():
            return f"`{text}`" if text else NO_TEXT if found is None else EMPTY
    return TRIED


def on_like(db):
    """Statements that store a text and find it by a mask, and whether it is found."""
    cases = [(f"a{it}b", f"a{other}%", it == other) for it, other in itertools.product(REPLACED, repeat=2)]
    cases += [("a" * 50_000, "a" * 50_000, True), ("a" * 50_001, "a" * 50_001, True), ("a\0b", "%b%", True)]
    for text, mask, fits in cases:
        prepare(db, "texts")
        is_stored = attempt(db.run, f"UPDATE t SET a = {db.text_of(text)} WHERE id = 1") is not None
        found = finding(db, f"SELECT id FROM t WHERE a LIKE '{mask}' ESCAPE '!' AND id = 1") if is_stored else "not stored"
        yield (text, mask) if len(text) < 10 else len(text), found, "1" if fits else NOTHING


def measure(db, tally):
    """Compares what each statement finds, each template shows and each mask finds."""
    db.set(db.standard)
    for statement, column, *finds in found_rows("Readings"):
        prepare(db, column)
        tally.expect(f"{db.name}: {statement}", finding(db, statement), finds[db.number])
    prepare(db, "texts")
    for template, *shown in found_rows("Templates with empty texts"):
        tally.expect(f"{db.name}: {template!r} is shown by", showing(db, template), shown[db.number])
    wrong = {what: found for what, found, wanted in on_like(db) if found != wanted}
    tally.expect(f"{db.name}: LIKE finds otherwise than it is meant", wrong, LIKES[db.number])


def main():
    tally = Tally("readings")
    meant = {code_spans(row[table.head.index("prints")])[0] for table in tables(MEANT, "Not what was meant") for _, row in table.rows}
    tally.expect(f"statements of {MEANT} that are not measured", meant - {it for it, *_ in found_rows("Readings")}, set())
    each(tally, lambda db: measure(db, tally))
    return tally.end()


sys.exit(main())
