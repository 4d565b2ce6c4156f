"""Builds programs and runs what is built: sqlb and the tests, also with calls of the C library that fail, and programs of tests."""

import itertools
import os
import pathlib
import re
import shutil
import subprocess
import sys
import tempfile
from dataclasses import dataclass

from repository import CRATES, ROOT, read, write

SQLB = f"{CRATES}/sqlb/out/sqlb"
# What is between the texts that a program of tests/databases reads and writes, and between lists of them.
SEPARATOR, END_OF_LIST = "\x1e", "\x1d"


@dataclass
class Ran:
    """What a program printed, what it said on standard error, its exit status, and what tests/program/fail.c said."""

    out: bytes
    err: bytes
    status: int
    said: bytes = b""

    def ended(self):
        return self.out, self.err, self.status


def rt(folder, *words):
    """Runs `rt` in a crate's folder, without input. Gives how that ended."""
    return subprocess.run(["rt", *words], cwd=folder, stdin=subprocess.DEVNULL, capture_output=True, text=True)


def build(crate="sqlb", command="run"):
    """Proves and builds the program or the tests of a crate, unless an argument is --built."""
    if "--built" not in sys.argv and (ran := rt(f"{CRATES}/{crate}", command)).returncode:
        sys.exit(f"{ran.stdout}{ran.stderr}FAILED: rt {command} in crates/{crate}")


def lay_out(folder, name, uses, sources, parts=("",)):
    """Lays out a crate with these sources in a repository of its own, with the crates that it uses, or these parts of them. Gives its folder."""
    known = dict(re.findall(r"(?m)^(\w+): ?(.*)$", read("crates.txt")))
    used = [*dict.fromkeys(it for crate in uses for it in (crate, *known.get(crate, "").split()))]
    copied = [it for it in used if it in known]
    for crate, part in itertools.product(copied, parts):
        shutil.copytree(f"{CRATES}/{crate}/{part}", f"{folder}/crates/{crate}/{part}")
    os.makedirs(f"{folder}/crates/{name}/src")
    files = {f"crates/{name}/src/{source}.rt": text for source, text in sources.items()}
    files["crates.txt"] = "".join(f"{it}: {known[it]}\n" for it in copied) + f"{name}: {' '.join(used)}\n"
    for path, text in files.items():
        write(f"{folder}/{path}", text)
    subprocess.run(["git", "init", "-q"], cwd=folder, check=True)
    return f"{folder}/crates/{name}"


def source(name):
    return read(f"tests/databases/{name}.rt.txt")


def proved(folder, name, *uses):
    """Proves and builds tests/databases/NAME.rt.txt, with its modules beside it, over the proofs of the crates that it uses. Gives the
    program's path."""
    modules = {it: source(it) for it in re.findall(r"(?m)^mod (\w+);", source(name))}
    crate = lay_out(folder, name, (*uses, "anyhow"), {"main": source(name), **modules})
    program, ran = f"{crate}/out/{name}", rt(crate, "run")
    # (it is run without input, and may fail then)
    if not os.path.exists(program):
        sys.exit(f"{ran.stdout}{ran.stderr}FAILED: rt run in {crate}")
    return program


def arms(*names):
    """The texts that these programs have arms of a `match` for."""
    return {it for name in names for it in re.findall(r'"([^"]*)"(?= \| "| =>)', source(name))}


def written(name, uses, shapes, *inputs):
    """What tests/databases/NAME.rt.txt, which is proved over these crates, writes of lists of texts: parts, each with a separator behind
    it. For each shape, which is two numbers, so many lists of so many parts."""
    with tempfile.TemporaryDirectory(prefix=f"{name}-") as folder:
        ran = run(END_OF_LIST.join(map(SEPARATOR.join, inputs)), proved(folder, name, *uses))
    parts, count = ran.out.decode().split(SEPARATOR), sum(number * size for number, size in shapes)
    if ran.status or len(parts) != count + 1:
        sys.exit(f"{ran.err.decode()}FAILED: {name} wrote {len(parts) - 1} parts, not {count}, and ended with status {ran.status}")
    left = iter(parts)
    return [[[*itertools.islice(left, size)] for _ in range(number)] for number, size in shapes]


def build_failing(folder):
    """Builds the library by which calls of the C library fail. Gives whether it could."""
    if not shutil.which("cc"):
        print("SKIPPED: calls of the C library that fail: there is no C compiler cc")
        return False
    subprocess.run(["cc", "-O1", "-shared", "-fPIC", "-o", f"{folder}/fail.so", f"{ROOT}/tests/program/fail.c"], check=True)
    return True


def encoded(text):
    return text.encode() if isinstance(text, str) else text


def run(given=b"", *words, folder=None, **settings):
    """Runs the program, or a command, on this input in a folder. The settings are variables of the library that is there."""
    words = words or (SQLB,)
    if settings:
        # LD_PRELOAD ends a path at a blank, so the library is named from its own folder; the shell and env are without it
        variables = ["LD_PRELOAD=./fail.so", *(f"{name}={value}" for name, value in settings.items())]
        words = ("/bin/sh", "-c", 'exec 3>said; exec env "$@"', "sh", *variables, *words)
    done = subprocess.run(words, cwd=folder, input=encoded(given), capture_output=True)
    return Ran(done.stdout, done.stderr, done.returncode, pathlib.Path(f"{folder}/said").read_bytes() if settings else b"")


def shell(command, given=b"", folder=None):
    """Runs a command of the shell, in which "$0" is the program. Gives what it printed and said, and its status."""
    return run(given, "bash", "-c", command, SQLB, folder=folder).ended()


def printed(all_lines):
    """The statements that sqlb makes of these, each the lines of one."""
    done = run("".join(all_lines))
    made = done.out.decode().split("\n")
    if done.status or len(made) != len(all_lines) + 1:
        sys.exit(f"FAILED: sqlb printed {len(made) - 1} statements for {len(all_lines)}, and said: {done.err.decode()}")
    return made[:-1]
