"""Rows that several tests try: those of docs/reference/every_call.md that make one call of a SELECT, and the conditions."""

import re
from dataclasses import dataclass

from repository import read

CONDITIONS = "docs/reference/conditions.md"


@dataclass
class Row:
    """A call's name, its arguments in Rust, and what it prints."""

    name: str
    arguments: str
    text: str
    line: int = 0

    def fields(self):
        """The arguments as a line of sqlb has them, a list value by value."""
        return [text or word for text, word in re.findall(r'"([^"]*)"|(\w+)', self.arguments)]


class SelectCall(Row):
    """A call, and the statement that it makes of `SELECT * FROM t;`."""

    def case(self):
        """The name of the call as a value."""
        return "".join(it.capitalize() for it in self.name.split("_"))

    def value(self):
        """The call as a value in Rust, whose texts are made by `own` and `own_both`."""
        if self.arguments.startswith("&["):
            return f"Call::{self.case()}(own_both(alloc, {self.arguments[2:-1]})?)"
        parts = [it if it in ("true", "false") else f'own(alloc, "{it}")?' for it in self.fields()]
        return f"Call::{self.case()}({', '.join(parts)})"


class Condition(Row):
    """What follows `and_where` or `or_where` in a call's name, and the condition's text."""

    def calls(self):
        """The name of each call, the conditions that are before it, and the WHERE that they make."""
        yield f"and_where{self.name}", [], self.text
        yield f"or_where{self.name}", [], self.text
        yield f"and_where{self.name}", ["b"], f"(b) AND ({self.text})"
        yield f"or_where{self.name}", ["b"], f"b OR {self.text}"


def select_calls():
    section = re.search(r"### SELECT\n(.*?)\n### ", read("docs/reference/every_call.md"), re.S)[1]
    return [SelectCall(*it) for it in re.findall(r"(?m)^\| `\.(\w+)\(([^()]*)\)\?` \| `(.*)` \|$", section)]


def conditions():
    lines = enumerate(read(CONDITIONS).split("\n"), 1)
    return [Condition(*row.groups(), number) for number, it in lines if (row := re.match(r"\| `(\w*)\((.*)\)` \| `(.*)` \|$", it))]
