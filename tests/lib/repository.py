"""This repository: where it is, and the texts of its files."""

import os

ROOT = os.path.realpath(f"{__file__}/../../..")
CRATES = f"{ROOT}/crates"
# Each takes those before it.
LIBRARIES = ("sql_parts", "sql_builder", "sql_typed")


def read(path):
    """The text of a file, whose path may be below this repository."""
    with open(os.path.join(ROOT, path), encoding="utf-8") as it:
        return it.read()


def write(path, text):
    with open(os.path.join(ROOT, path), "w", encoding="utf-8") as it:
        it.write(text)


def listed(folder, ending):
    """The files below a folder with this ending, but for what rt made."""
    for path, folders, names in os.walk(f"{ROOT}/{folder}"):
        folders[:] = sorted(it for it in folders if it != "out")
        yield from (os.path.relpath(f"{path}/{it}", ROOT) for it in sorted(names) if it.endswith(ending))
