"""Hostile texts, for the tests on databases and on their parsers, and what a mask means."""

import ast
import functools
import itertools
import random
import re
import sys

from repository import read

# Every text of up to three of these is tried.
CHARACTERS = "'\\\"-;$/*#\na"
# Further texts are made of these. The table `t` is there to be dropped.
PIECES = [
    *"'\"`\\;-#/*$?:%_[](){}|&,.=<> \t\r\n\v\f\b\x01\x1a\x7fabENUxZ019",
    *("''", '""', "\\\\", "\\'", '\\"', "'\\'", "--", "-- ", "--\n", "-- \r", "/*", "*/", "/**/", "/*!", "$$", "$a$", "$1", ":a:", "::"),
    *("E'", "U&'", "x'", "N'", "q'[", "\\n", "\\0", "\\x27", "\\u0027", "&#39;", "%27", "' OR 1=1 --", "' UNION SELECT 1 --"),
    *("'; DROP TABLE t; --", "\\'; DROP TABLE t; --", "\\\\'; DROP TABLE t; --", "é", "日本", "🙂", "\u2019", "\uff07", "\u02bc"),
    *("\u00a0", "\u2028", "\ufeff", "e\u0301", "縗", "¿'"),
]
# Long runs are made of these.
LONG = ("'", "\\", '"', "(", "a", "é", "$$", "/*", "--", "';")


def all_of(characters, most):
    """All texts of up to so many of these characters."""
    return ["".join(it) for length in range(most + 1) for it in itertools.product(characters, repeat=length)]


def mixed(chance):
    """One to eight of the pieces."""
    return "".join(chance.choices(PIECES, k=1 + int(chance.random() * 8)))


def texts():
    """The texts, each once: all short ones, mixed ones from a fixed seed, and long runs."""
    chance = random.Random(311)
    return [*dict.fromkeys([*all_of(CHARACTERS, 3), *(mixed(chance) for _ in range(2500)), *(it * 5000 for it in LONG)])]


def fits_line(text):
    """Whether a line of sqlb can hold the text."""
    return not {"\t", "\n"} & {*text}


def attacks():
    """The texts in the code of docs/SECURITY.md and docs/reference/readings.md, each once, attacks among them; without those with a zero byte."""
    pages = read("docs/SECURITY.md") + read("docs/reference/readings.md")
    found = [ast.literal_eval(text) for text in re.findall(r'"(?:[^"\\]|\\.)*"', pages)]
    return [*dict.fromkeys(text for text in found if "\0" not in text)]


def quoted(text):
    return "'" + text.replace("'", "''") + "'"


@functools.cache
def pattern(mask):
    """The regular expression of a mask in which `!` escapes, or None where nothing is behind the last `!`."""
    parts = re.findall(r"!.|[^!]|!$", mask, re.DOTALL)
    if parts and parts[-1] == "!":
        return None
    wildcards = {"%": ".*", "_": "."}
    return re.compile("".join(wildcards.get(it, re.escape(it[-1])) for it in parts), re.DOTALL)


def is_like(text, mask):
    """Whether a mask without an escape character matches a text."""
    return bool(pattern(mask.replace("!", "!!")).fullmatch(text))


def asked(*numbers):
    """The numbers that are given as arguments, or else these."""
    given = [int(it) for it in sys.argv[1:]]
    return [*given, *numbers[len(given) :]]
