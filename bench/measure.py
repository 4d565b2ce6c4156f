"""Runs programs and measures them. A program is a list of words, and reads a file."""
import os
import re
import subprocess
import sys
from pathlib import Path

TIME = "/usr/bin/time"

# The C library copies longer texts by one instruction, which callgrind would count for each byte; so they are copied as short
# ones are.
COPIES = ":".join(f"glibc.cpu.x86_{what}_threshold={2**50}" for what in ("rep_movsb", "rep_stosb", "non_temporal"))


def run(words, source, out=os.devnull, **environment):
    """Runs a program, with its output to a file, and gives what it used."""
    with open(source, "rb") as read, open(out, "wb") as written:
        process = subprocess.Popen(words, stdin=read, stdout=written, env={**os.environ, **environment})
        _, status, usage = os.wait4(process.pid, 0)
    process.returncode = os.waitstatus_to_exitcode(status)
    if process.returncode:
        sys.exit(f"{' '.join(words)} < {source} ended with status {process.returncode}")
    return usage


def seconds(words, source):
    """The processor time of one run."""
    usage = run(words, source)
    return usage.ru_utime + usage.ru_stime


def least_seconds(programs, rounds):
    """The least processor time of each program, which take turns; each is its words and its file."""
    taken = [[seconds(*program) for program in programs] for _ in range(rounds)]
    return [min(times) for times in zip(*taken)]


def megabytes(words, source, work):
    """The greatest memory of one run. It is asked of `time`, which is small: what runs a program counts as part of it."""
    file = f"{work}/memory"
    run([TIME, "-f", "%M", "-o", file, *words], source)
    return int(Path(file).read_text("utf-8")) / 1024


def count(words, source, file):
    """The instructions of one run, by callgrind, which writes its file."""
    valgrind = ["valgrind", "-q", "--tool=callgrind", f"--callgrind-out-file={file}"]
    run([*valgrind, *words], source, GLIBC_TUNABLES=COPIES)
    return int(re.search(r"^(?:summary|totals): (\d+)", Path(file).read_text("utf-8"), re.MULTILINE)[1])


def profile(file, most):
    """The functions that took the most instructions of a run, each with its part, of the file that callgrind wrote."""
    words = ["callgrind_annotate", "--threshold=100", file]
    printed = subprocess.run(words, capture_output=True, text=True, check=True).stdout
    found = re.findall(r"^ *[\d,]+ \( *([\d.]+)%\) +\S*?:([^/\n]*?) \[", printed, re.MULTILINE)
    return [f"{float(part):5.1f} % {name}" for part, name in found[:most]]
