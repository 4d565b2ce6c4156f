#!/usr/bin/python3
"""Runs the readers of crates/database_readers beside the lexers of SQLite, PostgreSQL and MariaDB, and compares what each is in behind a
text.

Behind a text a lexer is outside of everything (in a word or number, or behind a sign), or in a string of a kind, a name between quotes, a
comment or the like. SQLite says so by the token that it doesn't recognize, where a control character follows the text in a statement that
takes any tokens; PostgreSQL's own lexer, by the Python module pglast, by the tokens, or by what isn't ended. MariaDB parses a statement that
ends the string or the like behind the text and goes on, and refuses it with one more bracket. Each text of few characters is tried, so also
what a quote behind each of them begins, and longer ones. Texts with a token that is refused before their end show nothing, nor do those in
which a reader is lost, nor on MariaDB those that no SELECT has; they are counted. The arguments are how many longer texts are made and a
seed."""

import collections
import ctypes
import itertools
import random
import re
import sys

sys.path.append(f"{sys.path[0]}/../lib")
from built import written
from connections import Maria, Sqlite, attempt, each
from hostile import all_of, asked
from tally import Tally

try:
    from pglast.parser import ParseError, scan
except ImportError:
    scan = None

CONTROL = b"\x01"
# Every text of up to four of the first of these is tried, for each database, and longer ones are made of all.
CHARACTERS = {"SQLite": "'x-/*\n$:a[", "PostgreSQL": "'e-/*\n$a\\&", "MariaDB": "'x-/*\n #\"\\"}
PIECES = [
    *"'\"`[]-/*$xXeEuUbN&0119afg_.+;:#@?(\\ \n\r\t\f=,",
    *("--", "/*", "*/", "$$", "$a$", "$ab$", "$e", "x'", "E'", "u&'", "U&\"", "''", "\\'", "0x1F", "1.5", "1e+5", "a.b", "$a(", "::"),
    *("'\n'", "' \r\n'", "é", "日", "\ufeff", "🙂"),
]
# What the states are in, by their numbers in specs/SqliteReader.antt; in all others outside.
SQLITE = {5: "x'", 7: "--", 9: "/*", 10: "/*", 11: "'", 13: '"', 15: "`", 17: "[", 22: "("}
# The kinds of strings of specs/PostgresReader.antt, and what nests or has a tag.
STRINGS, NESTED = ("'", "e'", "u&'", "x'"), ("/*", "/*", "/*", "", "$", "$")
# The states of specs/MysqlReader.antt likewise, and what ends each on MariaDB: a number of two digits may be in bits, and two letters not.
MARIA = {10: "--", 1: "/*", 42: "/*", 77: "/*", 303: "/*", 98: "x'", 33: None}
MARIA |= {ord(it) + more: it for it in "'\"`" for more in (0, 512)}
ENDS = {"": "", "--": "z\n", "/*": "*/", "'": "zz'", '"': 'zz"', "`": "zz`", "x'": "00'"}
# What precedes a text on MariaDB, and what goes on behind it: one more column, an operand, arguments, a name.
FRONTS, TAILS = ("SELECT ", "SELECT 1 ", "SELECT 1,"), (",7", "7", "(7)", "z,7")
# pglast's lexer ends a string where a comment follows it. PostgreSQL's goes on with it behind a line's end.
COMMENT_IN_GAP = re.compile(r"'[ \t\f\n\r]*--[^\n\r]*[\n\r]")


def of_postgres(state):
    if state < 16:
        return {5: "--", 6: '"', 15: None}.get(state, "")
    if state < 48:
        kind, place = divmod(state - 16, 8)
        return STRINGS[kind] if place < 2 else "--" if place == 6 else ""
    return NESTED[(state - 48) % 8]


def read_by_sqlite(db, text):
    """What SQLite is in behind a text, or None where it refuses a token in it."""

    def answer(end):
        made, statement = ctypes.c_void_p(), b"CREATE VIRTUAL TABLE v USING none(" + text.encode() + end
        db.lib.sqlite3_prepare_v2(db.db, statement, len(statement), ctypes.byref(made), None)
        return db.lib.sqlite3_errmsg(db.db)

    refused = re.fullmatch(rb'unrecognized token: "(.*)"', answer(CONTROL), re.DOTALL)
    if refused:
        token = refused[1].decode(errors="replace")
        if not token.endswith("\x01"):
            return None
        return "" if token == "\x01" else "x'" if token[:2] in ("x'", "X'") else "(" if token[0] in "$@:#" else token[0]
    if answer(CONTROL) != b"incomplete input":
        return None
    return "--" if answer(b"\n" + CONTROL) == b'unrecognized token: "\x01"' else "/*"


def read_by_postgres(text):
    """What PostgreSQL is in behind a text, or None where it refuses a token in it."""
    try:
        tokens = scan(text)
    except UnicodeDecodeError:  # of a message that is cut off
        return None
    except ParseError as why:
        what, _, token = why.args[0].partition(' at or near "')
        if what == "unterminated quoted string":
            return re.match(r"e'|u&'|'", token.lower())[0]
        ends = {"/* comment": "/*", "dollar-quoted string": "$", "quoted identifier": '"'}
        ends |= {"bit string literal": "x'", "hexadecimal string literal": "x'"}
        return ends.get(what.removeprefix("unterminated "))
    return "--" if tokens and tokens[-1].name == "SQL_COMMENT" and tokens[-1].end == len(text) - 1 else ""


def read_by_maria(db, text):
    """What MariaDB is in behind a text, or None where no statement shows it."""
    parses = lambda statement: "SQL syntax" not in f"{attempt(db.takes, statement, otherwise='{}')}"
    shows = lambda statement: parses(statement) and not parses(f"{statement})")
    around = [*itertools.product(FRONTS, TAILS)]
    return next((what for what, end in ENDS.items() if any(shows(front + text + end + tail) for front, tail in around)), None)


def compare(name, read, meant, states, tally):
    """Counts the texts behind which the lexer is in what the reader says, and prints each other one."""
    counts = collections.Counter()
    for text, state in states.items():
        found, wanted = read(text), meant(state)
        if found is None or wanted is None:
            counts["not compared"] += 1
        else:
            counts[found or "outside"] += 1
            tally.count(found == wanted, f"{name}: {text!r} ends in {found!r}, by the reader in {wanted!r} ({state})")
    shown = ", ".join(f"{count} {what}" for what, count in counts.most_common())
    print(f"{name}: {counts.total() - counts['not compared']} of {counts.total()} texts were compared: {shown}", flush=True)


def states_of(all_texts):
    """Of each database, for each setting that its reader tells apart, the states behind its texts."""
    texts = [*dict.fromkeys(itertools.chain(*all_texts.values()))]
    [made] = written("lexed", ["database_readers"], [(len(texts), 4)], texts)
    # the parts that lexed.rt.txt writes of a text
    parts, found = {"SQLite": [0], "PostgreSQL": [1], "MariaDB": [2, 3]}, dict(zip(texts, made))
    return {product: [{text: int(found[text][it]) for text in all_texts[product]} for it in parts[product]] for product in parts}


def measure(db, states, tally):
    """Compares SQLite, or MariaDB by its settings, with the readers."""
    read, meant = {"SQLite": (read_by_sqlite, SQLITE), "MariaDB": (read_by_maria, MARIA)}[db.product]
    for setting, some in zip(db.settings, states[db.product]):
        db.set(setting)
        compare(db.name, lambda text: read(db, text), lambda state: meant.get(state, ""), some, tally)


def main():
    count, seed = asked(200000, 52)
    chance = random.Random(seed)
    longer = ["".join(chance.choices(PIECES, k=chance.randint(1, 12))) for _ in range(count)]
    # MariaDB parses dozens of statements for each text
    most = {"MariaDB": count // 4}
    all_texts = {name: [*dict.fromkeys([*all_of(it, 4), *longer[: most.get(name, count)]])] for name, it in CHARACTERS.items()}
    tally = Tally("lexed")
    states = states_of(all_texts)
    each(tally, lambda db: measure(db, states, tally), (Sqlite, Maria))
    if scan:
        read = lambda text: None if COMMENT_IN_GAP.search(text) else read_by_postgres(text)
        compare("PostgreSQL's lexer", read, of_postgres, states["PostgreSQL"][0], tally)
    else:
        print("SKIPPED: PostgreSQL: there is no Python module pglast")
    return tally.end()


sys.exit(main())
