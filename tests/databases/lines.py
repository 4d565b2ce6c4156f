#!/usr/bin/python3
"""Runs the lines of SQL that a service writes, and templates and clauses with hostile texts in each argument, on real databases.

lines.rt.txt makes both by types. Each line has to find or leave the same rows on all databases that have such SQL. The others have to
refuse it, but for what OTHERWISE names. Each text goes into each hole of each template, and into each argument of an upsert, WITH, INSERT
of a query, INTERSECT, EXCEPT, EXISTS and a lock that takes a value, as a `Value` and as a parameter: the statement has to be the text below
with the text's literal or a placeholder for each `?`, and to find and store just what is meant. MariaDB is measured with
NO_BACKSLASH_ESCAPES for `Value`s, and with its defaults for parameters. A text with a zero byte may be refused, and MariaDB's lower() goes
beyond ASCII."""

import itertools
import sys

sys.path.append(f"{sys.path[0]}/../lib")
from blocks import code_spans, tables
from bound import EMPTY, TEXTS, Bound, came, kept, of_kit, prepare, rows_of, show
from built import arms, written
from connections import as_bytes, attempt, each, head, row
from hostile import quoted
from tally import Tally

# A shop, with what a database calls a type and how it quotes a name.
SHOP = """
CREATE TABLE books (id INTEGER PRIMARY KEY, title {text}, author {text}, price DECIMAL(10, 2), published DATE, subtitle {text}, data {json}, {order} INTEGER);
CREATE TABLE prices (id INTEGER, price DECIMAL(10, 2));
CREATE TABLE old (id INTEGER, title {text});
INSERT INTO books VALUES (1, 'It''s 50% off', 'Ann', 19.99, '2024-01-31', NULL, '{{"kind": "it''s"}}', 2);
INSERT INTO books VALUES (2, 'Жар-птица 🙂', 'Bob', 25.50, '2024-02-29', 'b', '{{"kind": "b"}}', 1);
INSERT INTO books VALUES (3, 'SEA', 'Ann', NULL, NULL, 'c', NULL, 3);
INSERT INTO prices VALUES (3, 5.25);
"""
KIT = "kit"
# Of each line the databases that have it, what it finds there, a query, and what that finds behind it.
LINES = {name: (databases.split(", "), *others) for _, (name, databases, *others) in tables("tests/rows/lines.md", "Lines")[0].rows}
# What a database finds of a line that it reads otherwise: a date is a number to SQLite's CAST, and a text in double quotes one to MariaDB.
OTHERWISE = {("bound dates", "SQLite"): "1; 2", ("keywords", "MariaDB"): "nothing"}


def lower(text):
    return "".join(it.lower() if it.isascii() else it for it in text)


def by(fits):
    """What finds the rows of the texts that fit."""
    return lambda texts, text, low: as_bytes((number,) for number, it in enumerate(texts) if fits(it, text, low))


# What statements find.
same, other = by(lambda it, text, low: it == text), by(lambda it, text, low: it != text)
within, alike = by(lambda it, text, low: text in it), by(lambda it, text, low: low(it) == low(text))
same_or_b = by(lambda it, text, low: it == text or text == "b")
first = lambda texts, text, low: as_bytes([(texts.index(text),)]) if text in texts else []
given = lambda texts, text, low: as_bytes([(text,)])
none = lambda texts, text, low: []
# What they leave in the table `one`.
unchanged, second, fourth = lambda text: EMPTY, lambda text: kept(text, 2), lambda text: kept(text, 4)
TWO, FOUR = "INSERT INTO one (id, x) VALUES (2, ?)", "INSERT INTO one (id, x) VALUES (4, ?)"
THOSE = "SELECT id FROM texts WHERE x = ?"
OF_ONE = "EXISTS (SELECT one.id FROM one WHERE (one.id = 1) AND (texts.x = ?));"
EXCLUDED = "ON CONFLICT (id) DO UPDATE SET x = excluded.x;"
BEHIND = f"WITH u AS (SELECT x FROM texts WHERE x = ?) INSERT INTO one (id, x) SELECT 2, x FROM u WHERE x = ? {EXCLUDED}"
IN_BOTH = "(id IN (SELECT id FROM u)) AND (id IN (SELECT id FROM v))"
BOTH = f"WITH u AS ({THOSE}), v AS ({THOSE}) SELECT id FROM texts WHERE (x = ?) AND {IN_BOTH};"
# The statements of lines.rt.txt, with what each finds, and what it leaves.
TEMPLATES = {
    "instr": ("SELECT id FROM texts WHERE instr(x, ?) > 0;", within, unchanged),
    "strpos": ("SELECT id FROM texts WHERE strpos(x, ?) > 0;", within, unchanged),
    "lower": ("SELECT id FROM texts WHERE lower(x) = lower(?);", alike, unchanged),
    "a template in a template": ("SELECT id FROM texts WHERE lower(x) = (lower(?));", alike, unchanged),
    "case": ("SELECT id FROM texts WHERE CASE WHEN (x = ?) THEN ? ELSE 'b' END = ?;", same_or_b, unchanged),
    "order": ("SELECT id FROM texts ORDER BY CASE WHEN x = ? THEN 0 ELSE 1 END, id LIMIT 1;", first, unchanged),
    "set": ("UPDATE one SET x = COALESCE(?, x) WHERE id = 2;", none, second),
    "WITH": (f"WITH u AS ({THOSE}) SELECT id FROM u;", same, unchanged),
    "update": (f"{TWO} ON CONFLICT (id) DO UPDATE SET x = ?;", none, second),
    "returning": (f"{TWO} ON CONFLICT (id) DO UPDATE SET x = ? RETURNING x;", given, second),
    "second set": (f"{TWO} ON CONFLICT (id) DO UPDATE SET id = 2, x = ? RETURNING ?;", given, second),
    "excluded": (f"{TWO} {EXCLUDED}", none, second),
    "nothing": (f"{TWO} ON CONFLICT (id) DO NOTHING;", none, unchanged),
    "new row": (f"{FOUR} ON CONFLICT DO NOTHING RETURNING x;", given, fourth),
    "duplicate key": (f"{TWO} ON DUPLICATE KEY UPDATE x = ?, x = ?;", none, second),
    "inserted": (f"{TWO} ON DUPLICATE KEY UPDATE id = 2, x = VALUES(x) RETURNING x;", given, second),
    "rows of a query": ("INSERT INTO one (id, x) SELECT 4, x FROM texts WHERE x = ?;", none, fourth),
    "rows in conflict": ("INSERT INTO one (id, x) SELECT 2, x FROM texts WHERE x = ? ON CONFLICT (id) DO UPDATE SET x = ?;", none, second),
    "two WITH": (BOTH, same, unchanged),
    "rows behind WITH": (BEHIND, none, second),
    "INTERSECT": (f"{THOSE} INTERSECT {THOSE};", same, unchanged),
    "EXCEPT": ("SELECT id FROM texts EXCEPT SELECT id FROM texts WHERE x <> ?;", same, unchanged),
    "lock": (f"{THOSE} FOR UPDATE SKIP LOCKED;", same, unchanged),
    "EXISTS": (f"SELECT id FROM texts WHERE {OF_ONE}", same, unchanged),
    "NOT EXISTS": (f"SELECT id FROM texts WHERE NOT {OF_ONE}", other, unchanged),
}
# What a database doesn't have.
LACKS = {
    "SQLite": ("strpos", "DUPLICATE", "LOCKED"),
    "PostgreSQL": ("instr", "DUPLICATE"),
    "MariaDB": ("strpos", "CONFLICT"),
    KIT: ("strpos", "DUPLICATE", "LOCKED", "?) INSERT"),
}


class Attack(Bound):
    """A template with a text in each hole, as the program makes it, and what the kit's `sqlite` found and left of both."""

    def __init__(self, name, text, value, kit_value, left_value, *bound):
        super().__init__(name, text, *bound)
        self.template, self.value = TEMPLATES[name][0], value
        self.changes = "INTO one" in self.template or "UPDATE one" in self.template
        self.kit = {"as values": (kit_value, left_value), "as parameters": self.kit}

    def finds(self, texts, product):
        """The rows that are meant to be found, and what is to be in the table `one` then."""
        _, finds, leaves = TEMPLATES[self.name]
        return finds(texts, self.text, str.lower if product == "MariaDB" else lower), leaves(self.text)

    def is_lacking(self, product):
        return any(it in self.template for it in LACKS[product])


def made():
    """The lines, and the templates with each text."""
    attacks, shop = [*itertools.product(TEXTS, TEMPLATES)], SHOP.format(text="TEXT", json="TEXT", order='"order"')
    shapes = (len(LINES), 6), (len(attacks), 10)
    of_lines, of_attacks = written("lines", ("sql_typed", "sqlite"), shapes, LINES, [shop], TEMPLATES, TEXTS)
    lines = [Bound(name, "", *it) for name, it in zip(LINES, of_lines)]
    return lines, [Attack(name, text, *it) for (text, name), it in zip(attacks, of_attacks)]


def check(attacks, tally):
    """That the statements are the templates with literals or placeholders in their holes."""
    tally.expect("what only the program has", arms("lines") - {*LINES, *TEMPLATES}, set())
    for it in attacks:
        first, *others = it.template.split("?")
        numbered = lambda sign: first + "".join(f"{sign}{number}{part}" for number, part in enumerate(others, 1))
        wanted = [quoted(it.text).join([first, *others]), numbered("?"), numbered("$"), it.template]
        if [it.value, it.question, it.dollar, it.positional] != wanted or not it.values == it.ordered == [it.text] * len(others):
            tally.fail(it.template, f"{it.text!r} gives {it.value!r}, {it.question!r}, {it.values!r}")
    tally.count(attacks, "no attacks")


def came_of_line(db, line):
    """What came of a line: `same`, `refused`, `otherwise` as it is known, or what differs."""
    _, finds, query, left = LINES[line.name]
    for table in ("books", "prices", "old"):
        db.run(f"DROP TABLE IF EXISTS {table}")
    json = {"PostgreSQL": "JSONB", "MariaDB": "JSON"}.get(db.product, "TEXT")
    db.run(SHOP.format(text=db.column, json=json, order="`order`" if db.product == "MariaDB" else '"order"'))
    rows = attempt(line.run, db) if line.values else attempt(db.run, line.question)
    if rows is None:
        return "refused"
    found = shown(rows)
    behind = shown(db.run(code_spans(query)[0])) if query else ""
    if is_found(finds, found) and behind == left:
        return "same"
    return "otherwise" if found == OTHERWISE.get((line.name, db.product)) else f"{found} {behind}"


def shown(rows):
    """Rows as the table has them."""
    return "; ".join(", ".join("NULL" if it is None else it.decode() for it in row) for row in rows) or "nothing"


def is_found(finds, found):
    return found == finds or finds == "one of 1, 2 and 3" and found in ("1", "2", "3")


def show_attacks(name, product, results, tally):
    """Prints what came of the templates. Those that the product lacks have to be refused."""
    had = [(it, result) for it, result in results if not it.is_lacking(product)]
    show(name, had, ("same", "other", "refused"), lambda it, result, is_zero: result == "same" or is_zero and result == "refused", tally)
    lacking = {result for it, result in results if it.is_lacking(product)}
    tally.expect(f"{name}: what comes of templates that it doesn't have", lacking, {"refused"})


def measure(db, lines, attacks, results, tally):
    """Runs all on a database, by its settings in turn."""
    results[db.product] = {it.name: came_of_line(db, it) for it in lines}
    db.run("BEGIN; DELETE FROM books WHERE id <= 3")
    tally.expect(f"{db.name}: the books in a transaction that deletes all", db.run("SELECT id FROM books"), [])
    db.run("ROLLBACK")
    texts = prepare(db)
    show_attacks(f"{db.name}, as parameters", db.product, [(it, came(db, lambda it: it.run(db), it, texts)) for it in attacks], tally)
    db.set(db.standard)
    show_attacks(f"{db.name}, as values", db.product, [(it, came(db, lambda it: db.run(it.value), it, texts)) for it in attacks], tally)


def show_lines(lines, results, tally):
    """Prints and judges what came of the lines."""
    print()
    head("line", *results)
    for line in lines:
        row(line.name, *(found[line.name][:40] for found in results.values()))
        for product, found in results.items():
            wanted = "same" if product in LINES[line.name][0] else "otherwise" if (line.name, product) in OTHERWISE else "refused"
            tally.expect(f"{line.name} on {product}: {line.question}", found[line.name], wanted)


def line_of_kit(line):
    """What the kit's `sqlite` found of a line; what it leaves isn't looked at."""
    [found] = line.kit
    found = found if found == "refused" else shown(rows_of(found))
    return "same" if is_found(LINES[line.name][1], found) else found


def main():
    tally, results = Tally("lines"), {}
    lines, attacks = made()
    check(attacks, tally)
    head("database", "texts", "statements", "as meant", "otherwise", "refused")
    each(tally, lambda db: measure(db, lines, attacks, results, tally))
    for way in ("as values", "as parameters"):
        show_attacks(f"the kit's sqlite, {way}", KIT, [(it, of_kit(it, *it.kit[way])) for it in attacks], tally)
    results[KIT] = {it.name: line_of_kit(it) for it in lines}
    show_lines(lines, results, tally)
    return tally.end()


sys.exit(main())
