"""Servers of databases, each in a temporary folder and not as root, and the programs that come with them."""

import contextlib
import glob
import os
import pwd
import shutil
import subprocess
import tempfile
import time


class Skipped(Exception):
    """What is not installed."""


class Broken(Exception):
    """What is installed and does not run."""


def program(*names):
    """The first of these programs that is installed, on the path or where servers lie."""
    places = ["/usr/sbin", "/usr/local/sbin", "/usr/libexec", *sorted(glob.glob("/usr/lib/postgresql/*/bin"), key=os.path.getmtime)]
    path = ":".join([os.environ.get("PATH", ""), *places])
    found = next(filter(None, (shutil.which(it, path=path) for it in names)), None)
    if not found:
        raise Skipped(f"there is no program {' or '.join(names)}")
    return found


def ran(words, **how):
    """Runs a program to its end."""
    done = subprocess.run(words, stdout=subprocess.PIPE, stderr=subprocess.STDOUT, text=True, errors="replace", **how)
    if done.returncode:
        raise Broken(f"{' '.join(words[:2])}: {done.stdout.strip()[-1000:]}")


@contextlib.contextmanager
def room(user):
    """A temporary folder, and how a program is started in it: as this user, or else as nobody, if this is root."""
    with tempfile.TemporaryDirectory(prefix="databases-") as folder:
        how = {"cwd": folder, "stdin": subprocess.DEVNULL}
        if os.geteuid() == 0:
            known = {it.pw_name: it for it in pwd.getpwall()}
            user = known.get(user, known["nobody"])
            os.chown(folder, user.pw_uid, user.pw_gid)
            how.update(user=user.pw_uid, group=user.pw_gid, extra_groups=[])
        yield folder, how


@contextlib.contextmanager
def serving(words, asking, how):
    """Starts a server, waits until this program finds that it answers, and stops it."""
    with tempfile.TemporaryFile() as log, subprocess.Popen(words, stdout=log, stderr=log, **how) as server:
        try:
            end = time.monotonic() + 60
            while subprocess.run(asking, stdin=subprocess.DEVNULL, capture_output=True).returncode:
                if server.poll() is not None or time.monotonic() > end:
                    log.seek(0)
                    raise Broken(f"{words[0]}: {log.read().decode(errors='replace').strip()[-1000:]}")
                time.sleep(0.2)
            yield
        finally:
            server.terminate()
            try:
                server.wait(60)
            except subprocess.TimeoutExpired:
                server.kill()


@contextlib.contextmanager
def postgres_server():
    """A cluster of PostgreSQL. Gives the variables by which its programs find it."""
    server, initdb, psql = program("postgres"), program("initdb"), program("psql")
    with room("postgres") as (folder, how):
        ran([initdb, "-N", "-A", "trust", "-U", "tester", "-E", "UTF8", "--locale=C", "-D", f"{folder}/data"], **how)
        words = [server, "-D", f"{folder}/data", "-k", folder, "-F", "-c", "listen_addresses="]
        with serving(words, [psql, "-qX", "-h", folder, "-U", "tester", "-c", "", "postgres"], how):
            yield {"PGHOST": folder, "PGUSER": "tester"}


@contextlib.contextmanager
def maria_server():
    """A server of MariaDB or MySQL. Gives its folder, in which its socket is."""
    server, client = program("mariadbd", "mysqld"), program("mariadb", "mysql")
    with room("mysql") as (folder, how):
        data, socket = f"--datadir={folder}/data", f"--socket={folder}/socket"
        try:
            install = program("mariadb-install-db", "mysql_install_db")
            ran([install, "--no-defaults", data, "--auth-root-authentication-method=normal", "--skip-test-db"], **how)
        except Skipped:  # MySQL has no such program
            ran([server, "--no-defaults", "--initialize-insecure", data], **how)
        words = [server, "--no-defaults", data, socket, f"--pid-file={folder}/pid", "--skip-networking", "--innodb-flush-log-at-trx-commit=0"]
        with serving(words, [client, "--no-defaults", socket, "--user=root", "-e", ""], how):
            yield folder
