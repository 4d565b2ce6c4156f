#!/usr/bin/python3
"""Stores texts with control characters by each way to run a file of statements, and compares what is stored.

Each text is a literal of a script, with its quotes doubled. The script goes to a database's command-line program on standard input, as a
file and as an argument, and to a library, where no program reads it. The table that is printed counts the texts that were stored as they
are. Each has to be, but that the ways of LOSING drop a carriage return before a line feed. Each text with a carriage return is also
written without one in a literal, by `char(13)` or the like, and has then to be stored as it is."""

import contextlib
import functools
import sqlite3
import sys
import tempfile

sys.path.append(f"{sys.path[0]}/../lib")
from connections import attempt, each, head, row
from hostile import quoted
from tally import Tally

CR, LF = "\r", "\n"
# The other control characters but the zero byte, and some that a program may take for a line's end or drop.
CONTROLS = [chr(it) for it in (*range(1, 9), 11, 12, *range(14, 32), 127, 0x85, 0x2028, 0xFEFF)]
# Lines that are commands of a program where they are not inside of a text.
COMMANDS = (".quit", "\\q", "\\! exit", "quit", "go", "/", "delimiter //", "# a", "-- a", "source /none", ":x", ":'x'", "#!a", ";")


def around(text):
    """The text alone, at each place of others, and twice."""
    return [text, f"a{text}b", f"{text}a", f"a{text}", text * 2, f"a{text}{LF}{text}b", f"'{text}'"]


TEXTS = {
    "CR LF": [*around(CR + LF), CR + CR + LF],
    "CR without LF": [it for it in around(CR) if CR + LF not in it],
    "LF": around(LF),
    "TAB": around("\t"),
    "another control character": [text for it in CONTROLS for text in around(it)],
    "a line like a command": [text for it in COMMANDS for text in (f"{LF}{it}{LF}", f"{LF}{it};{LF}", f"a;{LF}{it}")],
}
# The ways to run a script by a program, by the words behind those that start it.
FILE, SCRIPT = "FILE", "SCRIPT"
WAYS = {
    "SQLite": {"sqlite3 < file": [], "sqlite3 '.read file'": [f".read {FILE}"], "sqlite3, in an argument": [SCRIPT]},
    "PostgreSQL": {"psql < file": [], "psql -f file": ["-f", FILE], "psql -c": ["-c", SCRIPT]},
    "MariaDB": {"mariadb < file": [], "mariadb -e 'source file'": ["-e", f"source {FILE}"], "mariadb -e": ["-e", SCRIPT]},
}
# The ways that lose a carriage return before a line feed, and change no other text.
LOSING = ("sqlite3 < file", "sqlite3 '.read file'", "mariadb < file", "mariadb -e 'source file'")
# Where the backslash is a character like any other.
SETUP = {"MariaDB": "SET SESSION sql_mode = CONCAT(@@sql_mode, ',NO_BACKSLASH_ESCAPES');\n"}
# How a text is written without a carriage return in a literal.
NUMBERED = {"SQLite": "{} || char(13) || {}", "PostgreSQL": "{} || chr(13) || {}", "MariaDB": "CONCAT({}, char(13), {})"}


def numbered(product, text):
    """An expression for the text, without a carriage return in a literal."""
    return functools.reduce(NUMBERED[product].format, map(quoted, text.split(CR)))


def by_program(db, path, words, script):
    """Runs a script by the command-line program, on its standard input if no word has it or the file. Gives what the program says."""
    with open(path, "w", encoding="utf-8", newline="") as it:
        it.write(script)
    words = [script if it == SCRIPT else it.replace(FILE, path) for it in words]
    return db.command(*words, script="" if words else script).stderr.decode(errors="replace")


def by_python(path, script):
    with contextlib.closing(sqlite3.connect(path)) as db:
        db.executescript(script)


def ways(db, path):
    """The ways to run a script, by their names."""
    yield from ((name, functools.partial(by_program, db, path, words)) for name, words in WAYS[db.product].items())
    if db.product == "SQLite":
        yield "Python's `executescript`", functools.partial(by_python, db.path)
    yield "its C library", functools.partial(attempt, db.run, otherwise="{}")


def stored(db, run, setup, expressions):
    """What is stored by a script of these expressions, each in a row; where none is, what the program said."""
    db.run("DELETE FROM stored")
    said = run(setup + "".join(f"INSERT INTO stored VALUES ({number}, {it});{LF}" for number, it in enumerate(expressions)))
    rows = {int(number): text.decode(errors="replace") for number, text in db.run("SELECT id, x FROM stored")}
    return [rows.get(number, said) for number in range(len(expressions))]


def measure(db, folder, tally):
    """Prints a line of the table for each way."""
    db.set(db.standard)
    db.make("stored", f"id INTEGER, x {db.column}")
    for name, run in ways(db, f"{folder}/script.sql"):
        cells, setup = [], SETUP.get(db.product, "")
        for what, texts in TEXTS.items():
            found = stored(db, run, setup, [*map(quoted, texts)])
            wanted = [it.replace(CR + LF, LF) if name in LOSING else it for it in texts]
            tally.expect(f"{db.name}: {name}: texts with {what}", found, wanted)
            cells.append(f"{sum(map(str.__eq__, found, texts))} of {len(texts)}")
            if what.startswith("CR"):
                found = stored(db, run, setup, [numbered(db.product, it) for it in texts])
                tally.expect(f"{db.name}: {name}: the same by numbers", found, texts)
        row(db.name.split(",")[0], name, *cells)


def main():
    tally = Tally("programs")
    head("database", "way", *TEXTS)
    with tempfile.TemporaryDirectory(prefix="programs-") as folder:
        each(tally, lambda db: measure(db, folder, tally))
    return tally.end()


sys.exit(main())
