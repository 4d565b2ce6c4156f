"""Builds the programs that are measured, each optimized. Each function answers where a program is, or None where it can't be had."""
import os
import shutil
import subprocess
import sys
from pathlib import Path

BENCH = os.path.dirname(os.path.realpath(__file__))
ROOT = os.path.dirname(BENCH)


def say(text):
    print(text, file=sys.stderr, flush=True)


def is_there(tool):
    return shutil.which(tool) is not None


def made(program, words, folder, log):
    """Runs a command that makes a program, with what it says in a file, and answers the program."""
    with open(log, "wb") as out:
        status = subprocess.run(words, cwd=folder, stdin=subprocess.DEVNULL, stdout=out, stderr=out).returncode
    if status:
        say(f"`{' '.join(words)}` failed in {folder}: {log} has what it said")
    return program if status == 0 else None


def sqlb(work):
    """The program of the repository, as `rt run` proves and builds it; without `rt` the one that is there."""
    folder, program = f"{ROOT}/crates/sqlb", f"{ROOT}/crates/sqlb/out/sqlb"
    if not is_there("rt"):
        return program if os.path.isfile(program) else None
    say("proving and building sqlb")
    return made(program, ["rt", "run"], folder, f"{work}/sqlb.log")


def copy_crate(name, copy):
    """Copies a crate, with what was proved of it, where no copy is there that is the same."""
    crate = f"{ROOT}/crates/{name}"
    if subprocess.run(["diff", "-rqx", "out", crate, copy], capture_output=True).returncode:
        shutil.rmtree(copy, ignore_errors=True)
        os.makedirs(os.path.dirname(copy), exist_ok=True)
        subprocess.run(["cp", "-a", crate, copy], check=True)


def library(work):
    """Our program of the library's calls, as `rt run` proves and builds it in a project beside copies of the crates."""
    if not is_there("rt"):
        return None
    say("proving and building the library's calls")
    project, libraries = f"{work}/project", ("sql_parts", "sql_builder", "sql_typed")
    for name in libraries:
        copy_crate(name, f"{project}/crates/{name}")
    folder = f"{project}/crates/bench_library"
    os.makedirs(f"{folder}/src", exist_ok=True)
    shutil.copyfile(f"{BENCH}/library/main.rt.txt", f"{folder}/src/main.rt")
    known = [it for it in Path(f"{ROOT}/crates.txt").read_text("utf-8").split("\n") if it.startswith(libraries)]
    Path(f"{project}/crates.txt").write_text("\n".join([*known, "bench_library: sql_typed sql_builder sql_parts anyhow\n"]), "utf-8")
    return made(f"{folder}/out/bench_library", ["rt", "run", "--", "name", "0"], folder, f"{work}/library.log")


def source(folder, name):
    """A file of the Rust crate's sources, whose name may end in .txt; None where it isn't there."""
    found = (f"{folder}/{name}{ending}" for ending in (".rs", ".rs.txt"))
    return next((it for it in found if os.path.isfile(it)), None)


def original(work, sources):
    """The folder of the programs over the Rust crate, whose sources are in another, and of the limit."""
    folder = f"{work}/original"
    if not source(sources, "lib") or not is_there("cargo"):
        return None
    say("building the Rust crate")
    shutil.copytree(f"{BENCH}/original", folder, dirs_exist_ok=True)
    os.makedirs(f"{folder}/crate/src", exist_ok=True)
    for name in ("arg", "bind", "error", "lib", "name", "prelude"):
        shutil.copyfile(source(sources, name), f"{folder}/crate/src/{name}.rs")
    programs = f"{folder}/target/release"
    words = ["cargo", "build", "--release", "--offline", "--target-dir", "target"]
    return made(programs, words, folder, f"{work}/cargo.log")
