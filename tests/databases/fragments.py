#!/usr/bin/python3
"""Puts fragments with words that begin a clause in some databases into statements, by the builder and by types, and runs both.

A table of docs/reference/databases.md says what comes of each fragment by the builder, which tests none, over all places: a statement that
makes a table, writes a file, reads another table, or has a further clause. By types each is refused in each place but for those that are
let in, so no table and no file is made, and no other table read. Of HARMLESS, whose words are in brackets, quotes or names, each is printed
by types."""

import os
import sys

sys.path.append(f"{sys.path[0]}/../lib")
from built import written
from connections import attempt, each, found_rows
from tally import Tally

PLACES = 13
# A file in the server's folder, in whose place this is.
FOLDER, FILE = "FOLDER", "written"
# Of each hostile fragment what comes of it on each database, and whether types refuse it.
FRAGMENTS = {text: (finds, by_types) for text, *finds, by_types in found_rows("Words of some databases")}
LET_IN = [text for text, (_, by_types) in FRAGMENTS.items() if by_types == "let in"]
HARMLESS = ("a", "(SELECT max(b) FROM secrets)", "substring('abc' FROM 1 FOR 2)", "'a INTO evil'", "t.a", "(a) /* INTO */", "a + into_b")
# What a statement may do, in the order in which it is looked for.
CAME = WRITES, MAKES, READS, RUNS, REFUSED = "writes a file", "makes a table", "finds other rows", "runs", "refused"


def prepare(db):
    db.make("t", "a INTEGER, b INTEGER", "(1, 1), (2, 2)")
    db.make("u", "c INTEGER", "(1)")
    db.make("secrets", "b INTEGER", "(1), (42)")
    db.run("DROP TABLE IF EXISTS evil")


def found(db, statement):
    """The rows that a statement finds, or None where the database refuses it."""
    prepare(db)
    rows = attempt(db.run, statement)
    return rows and sorted(map(repr, rows))


def done(db, statement, harmless):
    """What a statement does that the same with a harmless fragment doesn't."""
    rows = found(db, statement.replace(FOLDER, db.folder))
    if rows is None:
        return REFUSED
    if os.path.exists(path := f"{db.folder}/{FILE}"):
        os.remove(path)
        return WRITES
    if attempt(db.run, "SELECT 1 FROM evil") is not None:
        return MAKES
    return RUNS if rows == found(db, harmless) else READS


def measure(db, made, tally):
    """Compares what comes of each hostile fragment by the builder, over all places, and by types."""
    for text, (finds, _) in FRAGMENTS.items():
        built, typed = made[text]
        harmless = made["true" if "true" in text else "a"][0]
        by_builder = {done(db, *it) for it in zip(built, harmless)}
        by_types = {done(db, *it) for it in zip(typed, harmless) if it[0] != REFUSED}
        tally.expect(f"{db.name}: by types {text!r} is run", by_types, by_builder if text in LET_IN else set())
        tally.expect(f"{db.name}: by the builder {text!r}", next(it for it in CAME if it in by_builder), finds[db.number])


def main():
    tally, texts = Tally("fragments"), [*FRAGMENTS, *HARMLESS, "true"]
    [parts] = written("fragments", ["sql_typed"], [(len(texts), 2 * PLACES)], texts)
    # of each fragment its statements by the builder, and those by types
    made = {text: (it[:PLACES], it[PLACES:]) for text, it in zip(texts, parts)}
    for text in (it for it in FRAGMENTS if it not in LET_IN):
        tally.expect(f"by types {text!r} is", {*made[text][1]}, {REFUSED})
    for text in (*HARMLESS, *LET_IN):
        tally.expect(f"by types {text!r} is refused", REFUSED in made[text][1], False)
    before = tally.passed
    each(tally, lambda db: measure(db, made, tally))
    tally.count(tally.passed > before, "no database was measured")
    return tally.end()


sys.exit(main())
