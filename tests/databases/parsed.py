#!/usr/bin/python3
"""Parses random statements of sqlb by PostgreSQL's own parser, which needs no server, and compares them with what is meant.

Each statement is a SELECT, UPDATE, DELETE or INSERT with hostile texts: in every kind of condition, in conditions of their own with OR,
AND, NOT, BETWEEN, CASE and nested queries, in values and in fields. It is also written by hand, without its WHERE. It has to be one
statement; its string constants are the texts; its WHERE is the AND of its groups, each the OR of its conditions, as each condition is
parsed alone (AND and OR flattened); its other clauses are those of the statement by hand; and the kinds of its tokens are those of the
same statement with empty texts. First corrupted statements are parsed, each of which one of these comparisons has to refuse.

The parser is the Python module pglast. sqlb has to be built. The arguments are how many statements are made and a seed."""

import itertools
import json
import random
import sys
from dataclasses import dataclass, field

sys.path.append(f"{sys.path[0]}/../lib")
from built import printed
from hostile import asked, fits_line, mixed, quoted, texts
from tally import Tally
from where import Condition, Maker, texts_of, where_lines

try:
    from pglast.parser import ParseError, parse_sql_json, scan
except ImportError as why:
    print(f"SKIPPED: PostgreSQL's parser: {why}")
    sys.exit(1)

# How many statements are made at once.
BATCH = 5000
# Conditions that PostgreSQL reads otherwise than most, and their string constants.
SPECIAL = {
    "a = 1 /* /* ' */ ' */": [],
    "b = 2 /* OR ' */": [],
    "d = $$it's$$": ["it's"],
    "d = $a$ $$ ' $a$": [" $$ ' "],
    "d = E'\\''": ["'"],
    "d = U&'\\0027'": ["'"],
    'w."a""\'b" IS NULL': [],
    "d = '\\'": ["\\"],
    "a OPERATOR(pg_catalog.=) ANY (ARRAY[1, 2])": [],
}
JOINS = {"left": "LEFT ", "left_outer": "LEFT OUTER ", "right": "RIGHT ", "right_outer": "RIGHT OUTER ", "inner": "INNER ", "cross": "CROSS "}


@dataclass
class Written:
    """A statement as lines of sqlb and by hand, without its WHERE; the groups of its WHERE, and the texts that are quoted in it."""

    lines: list
    text: str = ""
    texts: list = field(default_factory=list)
    groups: list = field(default_factory=list)

    def add(self, text, *lines, texts=()):
        self.text += text
        self.lines += lines
        self.texts += texts

    def put(self, words, call, written, behind=""):
        """Adds words and what a call takes: its text, and the texts that are quoted in it."""
        text, texts = written
        self.add(f"{words}{text}{behind}", f"{call}\t{text}", texts=texts)

    def listed(self, call, parts):
        """Adds parts, each by its call, with commas between them."""
        for number, it in enumerate(parts):
            self.put(", " if number else "", call, it)

    def where(self, groups):
        self.add("", *where_lines(groups), texts=texts_of(itertools.chain(*groups)))
        self.groups = groups

    def all_lines(self):
        return "\n".join([*self.lines, "sql\n"])


class StatementMaker(Maker):
    """Makes statements by chance, and gives them these texts."""

    def __init__(self, chance, all_texts):
        super().__init__(chance)
        self.all_texts = all_texts

    def text(self):
        return next(self.all_texts)

    def plain(self):
        if self.chance.random() < 0.1:
            text, constants = self.chance.choice([*SPECIAL.items()])
            return Condition("", [text], text, None, constants)
        return super().plain()

    def toss(self):
        return self.chance.random() < 0.5

    def some_groups(self):
        return [] if self.chance.random() < 0.1 else self.groups(3, self.condition)

    def value(self):
        """A value as it is written, and the texts that are quoted in it."""
        kind, text = self.chance.randrange(4), self.text()
        if kind == 0:
            return self.number()[0], []
        if kind < 3:
            return ("" if kind == 1 else "d || ") + quoted(text), [text]
        condition, texts = self.written_condition()
        return f"CASE WHEN {condition} THEN {quoted(text)} END", [*texts, text]

    def written_condition(self):
        """A condition as it is written, and the texts that are quoted in it."""
        condition = self.condition()
        return condition.text, condition.texts

    def query(self):
        """A query as it is written, and the texts that are quoted in it."""
        (value, texts), (condition, more) = self.value(), self.written_condition()
        return f"SELECT {value} FROM w WHERE {condition}", [*texts, *more]

    def statement(self):
        return self.chance.choice((self.select, self.select, self.update, self.delete, self.insert))()

    def select(self):
        made = Written(["select_from\tw"])
        made.add(*("SELECT DISTINCT ", "distinct") if self.toss() else ("SELECT ",))
        fields = [self.value() for _ in range(self.chance.randrange(3))]
        made.listed("field", fields)
        if not fields:
            made.add("COUNT(a) AS n", "count_as\ta\tn") if self.toss() else made.add("*")
        made.add(" FROM w")
        for _ in range(self.chance.randrange(2)):
            made.add(", w AS x", "and_table\tw AS x")
        for number in range(self.chance.choice((0, 0, 1, 2))):
            self.join(made, f"v{number}")
        made.where(self.some_groups())
        if self.toss():
            made.add(" GROUP BY ")
            made.listed("group_by", [self.value() for _ in range(self.chance.randint(1, 2))])
            if self.toss():
                made.put(" HAVING ", "having", self.written_condition())
        unions = self.chance.choice((0, 0, 0, 1, 2))
        for _ in range(unions):
            query, names = self.query(), self.chance.choice(((" UNION ", "union"), (" UNION ALL ", "union_all")))
            made.put(*names, query)
        if not unions and self.toss():
            value, (word, call) = self.value(), self.chance.choice((("", "order_asc"), (" DESC", "order_desc")))
            made.put(" ORDER BY ", call, value, word)
        if self.toss():
            made.add(" LIMIT 5 OFFSET 6", "limit\t5", "offset\t6")
        return made

    def join(self, made, table):
        call, words = self.chance.choice([*JOINS.items()])
        if call != "cross" and self.chance.random() < 0.2:
            made.add(f" NATURAL {words}JOIN {table}", "natural", call, f"join\t{table}")
        else:
            made.add(f" {words}JOIN {table}", call, f"join\t{table}")
            if call != "cross":
                made.put(" ON ", "on", self.written_condition())

    def update(self):
        made = Written(["update_table\tw"], "UPDATE w SET ")
        for number in range(self.chance.randint(1, 3)):
            made.add(", " if number else "")
            if self.toss():
                text = self.text()
                made.add(f"d = {quoted(text)}", f"set_str\td\t{text}", texts=[text])
            else:
                made.put("a = ", "set\ta", self.value())
        return self.changing(made)

    def delete(self):
        return self.changing(Written(["delete_from\tw"], "DELETE FROM w"))

    def changing(self, made):
        made.where(self.some_groups())
        return self.returning(made)

    def returning(self, made):
        if self.toss():
            made.put(" RETURNING ", "returning", self.value())
        return made

    def insert(self):
        made = Written(["insert_into\tw", "fields\ta\td"], "INSERT INTO w (a, d) ")
        if self.toss():
            made.put("", "select", self.query())
        else:
            for number in range(self.chance.randint(1, 3)):
                (one, texts), (other, more) = self.value(), self.value()
                made.add(f"{', ' if number else 'VALUES '}({one}, {other})", f"values\t{one}\t{other}", texts=[*texts, *more])
        return self.returning(made)


# ---- parse trees


def parsed(text):
    """The parse trees of a text's statements, without places and with AND and OR flattened, and its string constants in order."""
    found = []

    def cleaned(node):
        place = node.pop("location", 0)
        if isinstance(node.get("sval"), dict):  # of a constant; that of a name is a text
            found.append((place, node["sval"].get("sval", "")))
        if "boolop" in node:
            node["args"] = flattened(node["boolop"], node["args"])
        return node

    trees = [it["stmt"] for it in json.loads(parse_sql_json(text), object_hook=cleaned)["stmts"]]
    return trees, [it[1] for it in sorted(found)]


def flattened(sign, trees):
    """These trees, with the parts of each that has this sign itself."""
    parts = []
    for it in trees:
        inner = it.get("BoolExpr", {})
        parts += inner["args"] if sign != "NOT_EXPR" and inner.get("boolop") == sign else [it]
    return parts


def joined(sign, trees):
    """The AND or OR of trees: of one alone itself."""
    parts = flattened(sign, trees)
    return parts[0] if len(parts) == 1 else {"BoolExpr": {"boolop": sign, "args": parts}}


def parted(tree):
    """A statement's WHERE, and the statement without it."""
    [inner] = tree.values()
    # the first SELECT of UNIONs
    while "larg" in inner:
        inner = inner["larg"]
    return inner.pop("whereClause", None), tree


def where_of(groups):
    """The tree of the AND of these groups, each the OR of its conditions, of which each is parsed alone."""
    alone = lambda it: parted(parsed(f"SELECT WHERE {it.text}")[0][0])[0]
    return joined("AND_EXPR", [joined("OR_EXPR", map(alone, group)) for group in groups]) if groups else None


def kinds(text):
    return [it.name for it in scan(text)]


def differing(statement, emptied, made):
    """The first thing of a statement that is not as it is meant, or None."""
    trees, constants = parsed(statement)
    if len(trees) != 1:
        return f"{len(trees)} statements"
    if constants != made.texts:
        return "its string constants"
    where, others = parted(trees[0])
    if where != where_of(made.groups):
        return "its WHERE"
    if others != parted(parsed(made.text)[0][0])[1]:
        return "its other clauses"
    return "the kinds of its tokens" if kinds(statement) != kinds(emptied) else None


def wrong(statement, emptied, made):
    try:
        return differing(statement, emptied, made)
    except ParseError as why:
        return f"not parsed: {why}"


# ---- what is compared


def corrupted(tally):
    """Statements that were right before, of which each has to be refused for its own reason."""
    number = lambda name, value: Condition("_eq", [name, value], f"{name} = {value}", None)
    like = Condition("_like", ["d", "it's"], "d LIKE 'it''s'", None, ["it's"])
    made = Written(["select_from\tw", "field\ta", "order_asc\ta"], "SELECT a FROM w ORDER BY a")
    made.where([[number("a", "1"), like], [number("b", "2"), number("c", "3")]])
    [right] = printed([made.all_lines()])
    empty = right.replace("it''s", "")
    tally.expect("the statement that is corrupted", wrong(right, empty, made), None)
    for old, new, wanted in (
        (") AND (", " AND ", "its WHERE"),
        (") AND (", ") OR (", "its WHERE"),
        ("b = 2", "b = 3", "its WHERE"),
        ("it''s", "its", "its string constants"),
        ("'it''s'", "d", "its string constants"),
        ("it''s", "it's", "not parsed: "),
        (" ORDER BY a", "", "its other clauses"),
        ("SELECT a", "SELECT b", "its other clauses"),
        (";", "; SELECT 1;", "2 statements"),
        ("a = 1", "a /**/ = 1", "the kinds of its tokens"),
    ):
        why = wrong(right.replace(old, new), empty, made)
        tally.count(old in right and why and why.startswith(wanted), f"{old} as {new}: {why}, not {wanted}")


def hostile_texts(chance, fixed):
    """Texts for lines of sqlb: some of these, and others that are made anew."""
    while True:
        text = chance.choice(fixed) if chance.random() < 0.2 else mixed(chance)
        if fits_line(text):
            yield text


def main():
    count, seed = asked(80000, 52)
    tally, fixed = Tally("parsed"), texts()
    corrupted(tally)
    before, number_of_texts = tally.passed, 0
    maker = lambda number, all_texts: StatementMaker(random.Random(f"{seed} {number}"), all_texts).statement()
    for start in range(0, count, BATCH):
        numbers = range(start, min(start + BATCH, count))
        all_made = [maker(it, hostile_texts(random.Random(f"texts {seed} {it}"), fixed)) for it in numbers]
        all_empty = [maker(it, itertools.repeat("")) for it in numbers]
        lines = [it.all_lines() for it in (*all_made, *all_empty)]
        statements = printed(lines)
        for number, made, statement, emptied in zip(numbers, all_made, statements, statements[len(numbers) :]):
            why = wrong(statement, emptied, made)
            tally.count(why is None, f"statement {number} of seed {seed}: {why}\n  {statement[:2000]!r}")
            number_of_texts += len(made.texts)
    print(f"{tally.passed - before} of {count} statements with {number_of_texts} string constants are as they are meant")
    return tally.end()


sys.exit(main())
