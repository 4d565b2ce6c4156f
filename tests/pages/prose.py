"""Counts the words of pages, and of their sentences: README.md, CONTRIBUTING.md, CHANGELOG.md and docs/*.md, without generated ones.
Doc comments are read too: their sentences are no longer, and they have no arrow.

A sentence is read without code, of which each piece is one word, as a link is its text. Tables are taken cell by cell."""

import re

from blocks import Page, Table, split_spans

# How many words all pages may have, how many words and lines README.md, and how many words a sentence.
ALL_WORDS, README_WORDS, README_LINES, SENTENCE_WORDS = 12_000, 900, 110, 30
# A line of a doc comment: its text is behind the mark.
DOC = re.compile(r"\s*//[/!] ?(.*)")
# A sentence ends here. (`..` ends none)
END = re.compile(r"(?<=[.?!])(?<!\.\.)[)\"*]*\s+")


def is_counted(page):
    return bool(re.fullmatch(r"(README|CONTRIBUTING|CHANGELOG|docs/\w+)\.md", page))


def without_code(text):
    """The text with one word for each piece of code, and of a link what is shown."""
    spans = split_spans(text)
    spans[1::2] = ["CODE"] * len(spans[1::2])
    return re.sub(r"!?\[([^]]*)\]\([^)]*\)", r"\1", "".join(spans))


def sentences(text):
    """The sentences of a page, each with the line where its paragraph, item, heading or cell begins."""
    page = Page("", text)
    rows = (row for it in page.parts if isinstance(it, Table) for row in [(it.line, it.head), *it.rows])
    parts = [*page.texts, *((line, cell) for line, row in rows for cell in row)]
    return [(line, it) for line, part in sorted(parts) for it in END.split(without_code(part))]


def word_count(sentence):
    return sum(bool(re.search(r"\w", it)) for it in sentence.split())


def long_sentences(page, text):
    """The sentences of a page that are too long, and where."""
    for number, sentence in sentences(text):
        if (words := word_count(sentence)) > SENTENCE_WORDS:
            yield f"{page}:{number}", f"a sentence of {words} words: {sentence}"


def wrong_docs(sources):
    """What is wrong of the doc comments of sources, by their names, and where. They are read as a page, with the code left out."""
    for source, text in sources.items():
        lines = [match[1] if (match := DOC.match(line)) else "" for line in text.split("\n")]
        yield from ((f"{source}:{number}", "an arrow in a doc comment") for number, line in enumerate(lines, 1) if "→" in line)
        yield from long_sentences(source, "\n".join(lines))


def too_long(texts):
    """What is too long of pages, by their names, and where; README.md is among them only where they are all."""
    for page, text in texts.items():
        yield from long_sentences(page, text)
    if readme := texts.get("README.md"):
        if (words := sum(len(it.split()) for it in texts.values())) > ALL_WORDS and len(texts) > 1:
            yield "the pages", f"{words} words, and {ALL_WORDS} are the most"
        if (words := len(readme.split())) > README_WORDS:
            yield "README.md", f"{words} words, and {README_WORDS} are the most"
        if (lines := readme.count("\n")) > README_LINES:
            yield "README.md", f"{lines} lines, and {README_LINES} are the most"
