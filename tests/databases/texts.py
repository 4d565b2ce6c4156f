#!/usr/bin/python3
"""Puts hostile texts into statements, runs these on databases, reads each text back and compares.

Texts go through sqlb by `set_str`, `_in_quoted` and LIKE, and through texts.rt.txt by `quote`, each call of binding and `escape_like`,
whose masks have to find the texts that are, begin with, end with or contain the text. The attacks of docs/SECURITY.md and
docs/reference/readings.md are also put as a `Value` into each argument of sql_typed that takes one, and there change nothing of the
statement but literals. A database may refuse such a literal as a name, or to group or order by; one that is no column is refused by
`Operand::of_trusted`, and one that is finds no further rows.

The first table counts the statements that gave their texts back, those that gave something else, those that were refused, and those that
dropped a table that only texts name: there a text left its literal. So it does of scripts of two statements that the database's
command-line program is given, with a zero byte in the first one's text. The second table counts how often a database makes of literals
where a backslash escapes, and of masks with ESCAPE, what specs/Backslash.antt and specs/Like.antt of sql_parts say, which are said here
once more and held to their worked rows. The third table has fragments that a database may read otherwise than by the rules of
docs/PROVED.md, whether `is_balanced` and `has_clause_word` let them in, and what each database answers to a SELECT of them: where they
are let in and a second row comes, the database has found a UNION in them.

Each text has to come back, but for one with a backslash where a backslash escapes, and one with a zero byte, which may be refused. sqlb is
proved and built first, unless the argument is --built."""

import collections
import itertools
import operator
import os
import re
import sys
from dataclasses import dataclass

sys.path.append(f"{sys.path[0]}/../lib")
from bound import COMPARED, OF_TEXT, kept, masks
from built import arms, build, printed, written
from connections import attempt, each, head, row
from hostile import all_of, attacks, fits_line, is_like, pattern, texts
from repository import read
from servers import Broken, Skipped, program
from tally import Tally

TAB, BACKSLASH = "\t", "\\"
IN_ORDER, REMOVING = "SELECT id, x FROM one ORDER BY id", "DELETE FROM one WHERE id > 3 RETURNING id, x"
# The calls that put a text into a row.
CALLS = ("quote", "bind", "binds", "bind_num", "bind_nums", "bind_name", "bind_names")
# The calls of LIKE, and which texts fit a mask without wildcards. By these names texts.rt.txt makes masks too.
LIKES = {
    "and_where_like": str.__eq__,
    "and_where_like_left": str.startswith,
    "and_where_like_right": str.endswith,
    "and_where_like_any": str.__contains__,
}
# Statements by types. These store the text in this row, or have it as a name too.
STORES = {"set": 2, "set_str": 2, "values": 4, "row": 4, "operand": 4}
NAMES = {"the name of set": 2, "the name of set_str": 2, "an inserted name": 4}
# What these give of a text and the numbers of the rows that have it: first those that a database may refuse.
ALL_ROWS = [(b"1",), (b"2",), (b"3",)]
COLUMN = "column"
MAY_GIVE = {
    COLUMN: lambda text, rows: [(b"2",)],
    **dict.fromkeys(("group_by", "order_asc", "order_desc"), lambda text, rows: ALL_ROWS),
    "the name of count_as": lambda text, rows: [(b"3",)],
    "the name of subquery_as": lambda text, rows: rows,
}
GIVES = {
    **dict.fromkeys(("field", "subquery", "delete"), lambda text, rows: [(text.encode(),)]),
    **dict.fromkeys(("count", "count_as"), lambda text, rows: [(b"3",)]),
    **dict.fromkeys(("or_where", "on", "on_eq", "on_eq, the other way", "having", "tables", "print_to", "union"), lambda text, rows: rows),
    "union_all": lambda text, rows: 2 * rows,
}
# Conditions on a column, with the texts that each finds, and the same on the text. In these masks a backslash may escape.
LIKE = {"like": lambda it, text: is_like(it, f"{text}%"), "not_like": lambda it, text: not is_like(it, f"%{text}%")}
FILTERS = {**COMPARED, **LIKE, "eq of an operand": operator.eq, **masks("contains", "starts_with", "ends_with")}
BY_TYPES = (*STORES, *NAMES, *MAY_GIVE, *GIVES, *FILTERS, *(it + OF_TEXT for it in FILTERS))
# Whether a text is let in.
LET_IN = "let in"
MAKES = (*CALLS, *LIKES, LET_IN, *BY_TYPES)
# A text that is the same in each literal, and in no other part of a statement.
HARMLESS = "é"
# What can come of a statement.
CAME = ("same", "other", "refused", "dropped")

# Texts with a zero byte are those of up to three of these, and this one; and one that is shown.
OF_ZEROS, ZERO_ATTACK, SHOWN_ZERO = "\0'a", "\0'; DROP TABLE t; --", "a\0b"
# The second text of a script, which a program runs that takes its quote for the end of the first.
SECOND = "; DROP TABLE t; --"

# Literals are a quote and all of up to six of these; a letter behind a backslash stands for itself in each database.
OF_LITERALS = "'\\aé"
# Masks are all of up to four of these, and texts for them all of up to three. `!` escapes.
OF_MASKS = "%_!aé"
# Worked rows of the definitions: a text and the literal that it begins with; a mask, a text and whether it matches.
LITERAL_ROW = r"^literal-\w+ : literal (.*) ≡ (?:None|Some \((.*), (\d+)\))$"
MASK_ROW = r'^matches-\w+ : matches \(code "!"\) (.*?) (\(.*\)|\[\]) ≡ (true|false)$'

# What a database may read otherwise, and a fragment that shows it.
HIDDEN = "UNION ALL SELECT NULL"
FRAGMENTS = (
    ("a backslash before a quote", f"'\\'' {HIDDEN} -- '"),
    ("the same behind `E`", f"E'\\'' {HIDDEN} -- '"),
    ("the same between double quotes", f'"\\"" {HIDDEN} -- "'),
    ("dollar quotes", f"$$'$$ {HIDDEN} -- '"),
    ("a comment in a comment", f"1 /* /* */ ' */ {HIDDEN} -- '"),
    ("a comment that begins with `!`", f"1 /*! {HIDDEN} */"),
    ("`#`", f"1 # '\n {HIDDEN} -- '"),
    ("`--` before a digit", f"1 --1 {HIDDEN}\n"),
    ("a carriage return behind `--`", f"1 -- \r {HIDDEN}\n"),
    ("square brackets of an array", f"ARRAY['] '] {HIDDEN} -- '"),
    ("a comment without an end", "1 /* a"),
    ("a backslash before a letter", "'a\\qb'"),
    ("a backslash in a mask", "'a\\b' LIKE 'a\\b'"),
    ("double quotes", '"a"'),
    ("backquotes", "1 AS `a`"),
    ("square brackets", "1 AS [a]"),
    ("square brackets with a doubled one", "1 AS [a]]b]"),
    ("a text beside a text", "'a' 'b'"),
)


def literal(text):
    """What the literal at the beginning of a text stands for where a backslash escapes, and its length, or None where it has no end."""
    found = re.match(r"'((?:\\.|''|[^'\\])*+)'", text, re.DOTALL)
    return (re.sub(r"\\(.)|''", lambda it: it[1] or "'", found[1], flags=re.DOTALL), found.end()) if found else None


def text_of_term(term):
    """The text that a term of a worked row is."""
    codes = re.search(r'"(.*)"', term)
    if not codes:
        return bytes(int(it) for it in re.findall(r"\d+", term)).decode()
    text = codes[1].replace("\\\\", "\\")
    return f"'{text}'" if term.startswith("(quoted") else text


def worked(file, shape):
    """The worked rows of a definition, in which a proof by computing says what it gives."""
    found = re.findall(shape, read(f"crates/sql_parts/proofs/rows/{file}.antt"), re.M)
    if not found:
        sys.exit(f"FAILED: proofs/rows/{file}.antt has no such row: {shape}")
    return found


def differing_rows():
    """The worked rows that `literal` and `pattern`, which say the definitions once more, do not give."""
    for text, stands, length in worked("BackslashRows", LITERAL_ROW):
        wanted = (text_of_term(stands), int(length)) if length else None
        if literal(text_of_term(text)) != wanted:
            yield text
    for mask, text, fits in worked("LikeRows", MASK_ROW):
        expression = pattern(text_of_term(mask))
        if (expression is not None and bool(expression.fullmatch(text_of_term(text)))) != (fits == "true"):
            yield f"{mask} {text}"


def update(number, text):
    """The lines of sqlb that put a text into a row."""
    return f"update_table\tone\nset_str\tx\t{text}\nand_where_eq\tid\t{number}\nsql\n"


@dataclass
class Case:
    """A statement: its call, the texts in it, and the rows that are wanted of it, or of what is asked behind it; and the text of a row
    that is there before."""

    call: str
    statement: str
    texts: list
    wanted: list
    asked: str = ""
    before: str | None = None


class Statements:
    """What sqlb and texts.rt.txt make of the texts, of each by each of MAKES."""

    def __init__(self):
        self.all, self.attacks = texts(), attacks()
        self.rows = [*dict.fromkeys([*self.all, *self.attacks])]
        self.numbers = {text: number for number, text in enumerate(self.rows)}
        self.lines = [*filter(fits_line, self.all)]
        self.zeros = [*(it for it in all_of(OF_ZEROS, 3) if "\0" in it), ZERO_ATTACK]
        several = [*dict.fromkeys([*self.rows, *self.zeros, *(it for _, it in FRAGMENTS), SHOWN_ZERO, HARMLESS])]
        [made] = written("texts", ["sql_typed"], [(len(several), len(MAKES))], MAKES, several)
        self.made = {text: dict(zip(MAKES, it)) for text, it in zip(several, made)}
        # the ones after the others, each of which begins with the table `one` as it was
        changing, finding = [*self.keeping(), *self.storing()], [*self.finding(), *self.matching(), *self.asking()]
        self.cases = [changing, finding, [*self.giving()]]
        self.scripts = {"a zero byte": self.scripted(self.zeros), "a digit": self.scripted([it.replace("\0", "0") for it in self.zeros])}

    def numbered(self, texts):
        """The rows of these texts as a query finds them."""
        return [(b"%d" % it,) for it in sorted(self.numbers[it] for it in texts)]

    def kept(self, call, statement, text, row):
        """A statement that puts a text into this row."""
        wanted, asked = ([(b"4", text.encode())], REMOVING) if row == 4 else (kept(text, row), IN_ORDER)
        return Case(call, statement, [text], wanted, asked)

    def keeping(self):
        """Statements that put a text into a row."""
        lines = [*self.lines, *self.zeros]
        yield from (self.kept("set_str", *it, 2) for it in zip(printed([update(2, it) for it in lines]), lines))
        for call, text in itertools.product(CALLS, [*self.all, *self.zeros]):
            yield self.kept("quote" if call == "quote" else "the six calls of binding", self.made[text][call], text, 2)

    def storing(self):
        """The same of statements by types."""
        for (call, place), text in itertools.product((STORES | NAMES).items(), self.attacks):
            name = "a name or constant by types" if call in NAMES else "set, set_str, values and row by types"
            yield self.kept(name, self.made[text][call], text, place)

    def giving(self):
        """The statements by types that give rows."""
        for (call, gives), text in itertools.product((MAY_GIVE | GIVES).items(), self.attacks):
            name = "other arguments by types" if call in GIVES else "a column by types" if call == COLUMN else "a name or constant by types"
            wanted = gives(text, self.numbered([text]))
            yield Case(name, self.made[text][call], [text], wanted, before=text if call == "delete" else None)

    def scripted(self, texts):
        """Scripts that put each text into a row, and SECOND into the next one."""
        made = printed([update(number, it) for text in texts for number, it in ((2, text), (3, SECOND))])
        return [("\n".join(made[at : at + 2]) + "\n", text) for at, text in zip(range(0, len(made), 2), texts)]

    def finding(self):
        """Statements that ask for the rows of texts."""
        start, end = "select_from\ttexts\nfield\tid\n", "\norder_asc\tid\nsql\n"
        for some in (*([it for it in self.lines if (BACKSLASH in it) == escaped] for escaped in (False, True)), self.zeros):
            some = [[*some[it : it + 3], "a"] for it in range(len(some))]
            made = printed([f"{start}and_where_in_quoted\tx\t{TAB.join(it)}{end}" for it in some])
            yield from (Case("_in_quoted", it, texts, self.numbered({*texts} - {*self.zeros})) for it, texts in zip(made, some))
        # what a wildcard or a backslash means in a mask is no matter of quoting
        masks = [it for it in self.lines if len(it) <= 100 and not {"%", "_", BACKSLASH} & {*it}]
        for number, (call, fits) in enumerate(LIKES.items()):
            some = [*masks[number :: len(LIKES)], *self.zeros]
            made = printed([f"{start}{call}\tx\t{it}{end}" for it in some])
            yield from (Case("LIKE", it, [mask], self.numbered(text for text in self.rows if fits(text, mask))) for it, mask in zip(made, some))

    def matching(self):
        """Statements that ask for the rows that an escaped text matches."""
        for (call, fits), text in itertools.product(LIKES.items(), self.all):
            yield Case("escape_like", self.made[text][call], [text], self.numbered(it for it in self.rows if fits(it, text)))

    def asking(self):
        """Statements by types that ask for the rows that a condition on an attack finds; what a backslash means in a mask is no matter here."""
        for (name, fits), text in itertools.product(FILTERS.items(), self.attacks):
            if not (name in LIKE and BACKSLASH in text):
                found = self.numbered(it for it in self.rows if fits(it, text))
                yield Case("conditions by types", self.made[text][name], [text], found)
                found = self.numbered([text] if fits(text, text) else [])
                yield Case("conditions by types", self.made[text][name + OF_TEXT], [text], found)

    def differing(self):
        """The statements by types in which an attack changes more than its literals: what is around them has to be what is there with a
        harmless text, and inside of them each quote has to be doubled, and each wildcard escaped or none."""
        for text, name in itertools.product(self.attacks, BY_TYPES):
            literals = "|".join(re.escape(it.replace("'", "''")) for it in (text, re.sub("[%_!]", r"!\g<0>", text)))
            shape = f"({literals})".join(map(re.escape, self.made[HARMLESS][name].split(HARMLESS)))
            if name != COLUMN and not re.fullmatch(shape, self.made[text][name]):
                yield self.made[text][name]


def is_dropped(db):
    """Whether the table `t` is gone, which is there to be dropped, and is then made anew."""
    is_there = attempt(db.run, "SELECT id FROM t") is not None
    if not is_there:
        db.make_texts("t", [])
    return not is_there


def came(db, case):
    """What comes of a statement."""
    if case.before is not None:
        db.run(f"INSERT INTO one VALUES (4, {db.text_of(case.before)})")
    rows = attempt(db.run, case.statement)
    if case.asked and rows is not None:
        rows = attempt(db.run, case.asked)
    found = "refused" if rows is None else "same" if rows == case.wanted else "other"
    if found != "same":
        found = "dropped" if is_dropped(db) else found
        db.fill()
    return found


def count_came(db, statements):
    """How often what came of the statements, by their call and, where a backslash escapes, by whether one is in a text."""
    counts = collections.defaultdict(collections.Counter)
    db.make_texts("texts", statements.rows)
    db.make_texts("t", [])
    db.make_texts("one", [])
    for cases in statements.cases:
        db.fill()
        for it in cases:
            counts[it.call + kind_of(db, "".join(it.texts))][came(db, it)] += 1
    if is_dropped(db):
        raise Broken("a table was dropped by a statement whose texts came back")
    return counts


def kind_of(db, text):
    """What a text has that its database may read otherwise."""
    if "\0" in text:
        return ", with a zero byte"
    return f", {'with' if BACKSLASH in text else 'without'} a backslash" if db.escapes else ""


def given(db, script, text):
    """What came of a script that the database's command-line program was given."""
    done = db.command(script=script)
    same = db.run(IN_ORDER) == [(b"1", None), (b"2", text.encode()), (b"3", SECOND.encode())]
    found = "dropped" if is_dropped(db) else "refused" if done.returncode or done.stderr else "same" if same else "other"
    db.fill()
    return found


def measure_program(db, scripts, tally):
    """Prints what came of the scripts in the database's command-line program, if that is installed."""
    try:
        name = os.path.basename(program(*db.clients))
    except Skipped as why:
        print(f"SKIPPED: {db.name}: {why}", flush=True)
        return
    for what, some in scripts.items():
        counts = collections.Counter(given(db, *it) for it in some)
        row(db.name, f"{name}, two statements with {what} in the first", len(some), *(counts[it] for it in CAME))
        if what != "a zero byte":
            tally.expect(f"{db.name}: scripts of {name} that gave their texts back", counts["same"], len(some))


def defined(db):
    """What was defined, how often it was tried, and how often it was what the database did."""
    if db.escapes:
        literals = ["'" + it for it in all_of(OF_LITERALS, 6)]
        yield db.name, "literals where a backslash escapes", len(literals), sum(is_as_defined(db, it) for it in literals)
    texts = all_of(OF_MASKS, 3)
    db.make_texts("matched", texts)
    masks = [it for it in all_of(OF_MASKS, 4) if pattern(it)]
    fits = lambda mask: [(b"%d" % number,) for number, text in enumerate(texts) if pattern(mask).fullmatch(text)]
    same = sum(db.run(f"SELECT id FROM matched WHERE x LIKE '{it}' ESCAPE '!' ORDER BY id") == fits(it) for it in masks)
    yield db.name, f"masks, each of {len(texts)} texts", len(masks), same


def is_as_defined(db, text):
    """Whether a literal ends where it is defined to, and stands for what it is defined to."""
    found = literal(text)
    rows = attempt(db.run, f"SELECT {text[:found[1]]}, 'end'" if found else f"SELECT {text}")
    return rows == (found and [(found[0].encode(), b"end")])


def answers(db, zero):
    """What the database makes of each fragment, and of a zero character in a text."""
    yield from (db.shown(f"SELECT {fragment}") for _, fragment in FRAGMENTS)
    yield db.shown(zero) or db.shown("SELECT x FROM one WHERE id = 2")


def measure(db, statements, checked, shown, tally):
    """Measures a database by each of its settings: prints what came of the statements, and adds what is as defined, and what fragments show."""
    for setting in db.settings:
        db.set(setting)
        for call, counts in count_came(db, statements).items():
            row(db.name, call, counts.total(), *(counts[it] for it in CAME))
            if not call.endswith("with a backslash"):
                may_fail = call.startswith("a ") or call.endswith("with a zero byte")
                fit = counts["same"] + (counts["refused"] if may_fail else 0)
                tally.expect(f"{db.name}: statements by {call} that gave their texts back", fit, counts.total())
        if setting == db.settings[0]:
            measure_program(db, statements.scripts, tally)
        for name, what, tried, same in defined(db):
            checked.append((name, what, tried, same))
            tally.expect(f"{name}: {what} that are as defined", same, tried)
        shown[db.name] = [*answers(db, statements.made[SHOWN_ZERO]["bind"])]


def show(statements, checked, shown):
    """Prints the tables of what is as defined, and of what fragments show."""
    print()
    head("database", "defined", "tried", "as defined")
    for it in checked:
        row(*it)
    print()
    head("what", "fragment", "let in", *shown)
    for number, (what, fragment) in enumerate(FRAGMENTS):
        row(what, fragment, statements.made[fragment][LET_IN], *(given[number] for given in shown.values()))
    row("a zero character in a bound text", SHOWN_ZERO, "", *(given[-1] for given in shown.values()))
    print()


def main():
    tally, checked, shown = Tally("texts"), [], {}
    tally.expect("worked rows that are not what is tried on the databases", [*differing_rows()], [])
    build()
    tally.expect("what only the program has", arms("texts") - {*MAKES}, set())
    statements = Statements()
    tally.expect("statements by types in which an attack changes more than its literal", [*statements.differing()], [])
    counts = [len(it) for it in (statements.all, statements.lines, statements.attacks)]
    print("{} texts, of which {} go through sqlb, and {} attacks of pages\n".format(*counts))
    head("database", "call", "statements", *CAME)
    each(tally, lambda db: measure(db, statements, checked, shown, tally))
    show(statements, checked, shown)
    tally.count(shown, "no database was measured")
    return tally.end()


sys.exit(main())
