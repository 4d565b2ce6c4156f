"""Connections to databases by their own client libraries, for the tests beside this file, and tables of what is measured there.

Each test measures what is installed, by servers of its own, and prints what is not as SKIPPED. It is run by Debian's Python, whose modules
psycopg and pglast are packages. Its program NAME.rt.txt is proved over the stored proofs, and built, in a temporary folder. The status is 0
where all was as the test says, and some was measured.

PostgreSQL is reached by psycopg's `pq`, which sends each byte as it is given. Python's sqlite3 runs one statement without zero bytes, whose
parameters all have values. No module of MariaDB prepares statements as they are. So the C libraries of both are called here."""

import contextlib
import ctypes
import ctypes.util
import os
import sqlite3
import subprocess
import tempfile

from blocks import code_spans, tables
from servers import Broken, Skipped, maria_server, postgres_server, program

try:
    from psycopg import pq
except ImportError:
    pq = None


class Refused(Exception):
    """A statement that a database did not run."""


def attempt(run, *words, otherwise=None):
    """What this gives, or, where the database refuses a statement, something else, with the reason at `{}`."""
    try:
        return run(*words)
    except Refused as why:
        return otherwise.format(why) if isinstance(otherwise, str) else otherwise


def first_line(message):
    """The first line of a database's message."""
    return message.decode(errors="replace").split("\n")[0].removeprefix("ERROR:").strip()


def as_bytes(rows):
    """Rows as `run` gives them."""
    return [tuple(None if it is None else f"{it}".encode() for it in row) for row in rows]


class Database:
    """A connection. `run` runs all statements of a text and gives their rows, each value as its bytes or None, `run_with` runs one with
    values beside it (texts, whole numbers and None). `literal` is an expression for a text by its bytes, which needs no quoting. The
    command-line program is one of the `clients`, started with `arguments` and `variables`."""

    # What the database is measured with, by `set`, first as it comes, and which of it has a backslash escape nothing.
    settings, standard = ("",), ""
    # Whether a backslash escapes between quotes, by the setting.
    escapes = False
    # The type of a column of texts that are compared byte by byte.
    column = "TEXT"
    variables = {}

    def set(self, setting):
        pass

    def text_of(self, text):
        return self.literal.format(text.encode().hex())

    def command(self, *words, script=""):
        """Runs the command-line program with these further words, and a script as its input."""
        words = [program(*self.clients), *self.arguments, *words]
        return subprocess.run(words, input=script.encode(), env={**os.environ, **self.variables}, capture_output=True)

    def shown(self, statement):
        """The first value of each row, to be shown, or why there is none."""
        rows = attempt(self.run, statement, otherwise="refused: {}")
        return rows[:60] if isinstance(rows, str) else ", ".join("NULL" if it is None else it.decode(errors="replace") for it, *_ in rows)

    def make(self, table, columns, *rows):
        """Makes a table anew, with these rows."""
        self.run(f"DROP TABLE IF EXISTS {table}; CREATE TABLE {table} ({columns})")
        for at in range(0, len(rows), 500):
            self.run(f"INSERT INTO {table} VALUES {', '.join(rows[at : at + 500])}")

    def make_texts(self, table, texts):
        """Makes a table of texts anew, with their numbers."""
        self.make(table, f"id INTEGER, x {self.column}", *(f"({number}, {self.text_of(it)})" for number, it in enumerate(texts)))

    def fill(self):
        """Fills the table `one` anew, with three rows without a text."""
        self.run("DELETE FROM one; INSERT INTO one (id) VALUES (1), (2), (3)")


class Pointer(ctypes.c_void_p):
    """What a function of a C library gives. (a `c_void_p` itself would be a number)"""


def library(given, *names):
    """The first of these C libraries that is installed, with what its functions give that don't give an `int`. They take numbers, texts
    and pointers as they are."""
    found = next(filter(None, map(ctypes.util.find_library, names)), None)
    if not found:
        raise Skipped(f"there is no library {' or '.join(names)}")
    lib = ctypes.CDLL(found)
    for name, gives in given.items():
        getattr(lib, name).restype = gives
    return lib


class Sqlite(Database):
    product, number, placeholder = "SQLite", 0, "?1"
    clients, literal = ("sqlite3",), "CAST(x'{}' AS TEXT)"
    GIVEN = {"sqlite3_errmsg": ctypes.c_char_p, "sqlite3_libversion": ctypes.c_char_p, "sqlite3_column_text": Pointer}

    def __init__(self, folder):
        self.folder, self.path, self.arguments = folder, f"{folder}/database", [f"{folder}/database"]
        self.lib, self.db = library(self.GIVEN, "sqlite3"), Pointer()
        self.lib.sqlite3_open(self.path.encode(), ctypes.byref(self.db))
        self.name = f"SQLite {self.lib.sqlite3_libversion().decode()}"
        self.python = sqlite3.connect(self.path, isolation_level=None)
        # as it is in the other databases; and nothing has to outlive the run
        settings = "PRAGMA case_sensitive_like = ON; PRAGMA synchronous = OFF; PRAGMA journal_mode = MEMORY"
        self.run(settings)
        self.python.executescript(settings)

    def run(self, statement):
        text = statement.encode()
        kept = ctypes.create_string_buffer(text)
        at = ctypes.addressof(kept)
        end, rows = at + len(text), []
        while at < end:
            made, tail = Pointer(), Pointer()
            if self.lib.sqlite3_prepare_v2(self.db, Pointer(at), end - at, ctypes.byref(made), ctypes.byref(tail)):
                raise Refused(first_line(self.lib.sqlite3_errmsg(self.db)))
            rows += self.rows(made) if made else []
            # it goes no further where it meets a zero character
            if tail.value == at:
                break
            at = tail.value
        return rows

    def rows(self, made):
        rows, width = [], range(self.lib.sqlite3_column_count(made))
        while (status := self.lib.sqlite3_step(made)) == 100:  # SQLITE_ROW
            # (the text of a NULL is a null pointer)
            texts = [self.lib.sqlite3_column_text(made, it) for it in width]
            rows.append(tuple(ctypes.string_at(text, self.lib.sqlite3_column_bytes(made, it)) if text else None for it, text in zip(width, texts)))
        why = first_line(self.lib.sqlite3_errmsg(self.db))
        self.lib.sqlite3_finalize(made)
        if status != 101:  # SQLITE_DONE
            raise Refused(why)
        return rows

    def run_with(self, statement, values):
        """By Python's library."""
        try:
            return as_bytes(self.python.execute(statement, values))
        except sqlite3.Error as why:
            raise Refused(f"{why}") from why

    def close(self):
        self.python.close()
        self.lib.sqlite3_close(self.db)


class Postgres(Database):
    product, number, placeholder = "PostgreSQL", 1, "$1"
    settings, standard = ("on", "off"), "on"
    clients, arguments, literal = ("psql",), ("-qX", "postgres"), "convert_from(decode('{}', 'hex'), 'UTF8')"

    def __init__(self, variables):
        if not pq:
            raise Skipped("there is no Python module psycopg")
        self.folder, self.variables = variables["PGHOST"], variables
        self.db = pq.PGconn.connect(f"host={self.folder} user={variables['PGUSER']} dbname=postgres client_encoding=UTF8".encode())
        self.close = self.db.finish
        self.run("SET client_min_messages = error")
        self.set("on")

    def set(self, setting):
        self.run(f"SET standard_conforming_strings = {setting}")
        self.escapes = setting == "off"
        self.name = f"PostgreSQL {self.shown('SHOW server_version').split()[0]}, standard_conforming_strings {setting}"

    def run(self, statement):
        return self.rows(self.db.exec_(statement.encode()))

    def run_with(self, statement, values, is_binary=True):
        """By PQexecParams, in the binary format or as texts, which libpq cuts at a zero byte."""
        number, text = 20, 25  # the types int8 and text
        binary = lambda it: it.to_bytes(8, "big", signed=True) if isinstance(it, int) else it.encode()
        sent = [None if it is None else binary(it) if is_binary else f"{it}".encode() for it in values]
        types = [number if isinstance(it, int) else text for it in values]
        try:
            return self.rows(self.db.exec_params(statement.encode(), sent, types, [pq.Format(is_binary)] * len(values)))
        except MemoryError as why:  # libpq sends no more values than a statement takes, and gives no result then
            raise Refused(first_line(self.db.error_message)) from why

    def rows(self, result):
        if result.status not in (0, 1, 2):  # of nothing, of a statement without rows, of one with rows
            raise Refused(first_line(result.error_message))
        return [tuple(result.get_value(row, it) for it in range(result.nfields)) for row in range(result.ntuples)]


class Bind(ctypes.Structure):
    """A value or a column of a prepared statement of MariaDB's library."""

    _fields_ = [
        *((it, ctypes.c_void_p) for it in ("length", "is_null", "buffer", "error", "row", "store", "fetch", "skip")),
        *((it, ctypes.c_ulong) for it in ("buffer_length", "offset", "length_value")),
        *((it, ctypes.c_uint) for it in ("flags", "pack_length", "buffer_type")),
        *((it, ctypes.c_bool) for it in ("error_value", "is_unsigned", "long_data_used", "is_null_value")),
        ("extension", ctypes.c_void_p),
    ]


def bound(value):
    """What MariaDB's library binds of a value."""
    found = Bind(buffer_type=6)  # MYSQL_TYPE_NULL
    if value is not None:
        kind, data = (8, value.to_bytes(8, "little", signed=True)) if isinstance(value, int) else (254, value.encode())
        # (the structure keeps nothing alive)
        found.kept = ctypes.create_string_buffer(data, len(data) + 1)
        found.buffer, found.buffer_length, found.length_value = ctypes.addressof(found.kept), len(data), len(data)
        found.buffer_type = kind  # MYSQL_TYPE_LONGLONG, MYSQL_TYPE_STRING
    return found


class Maria(Database):
    product, number, placeholder = "MariaDB", 2, "?"
    settings, standard = ("default mode", "NO_BACKSLASH_ESCAPES"), "NO_BACKSLASH_ESCAPES"
    clients, literal = ("mariadb", "mysql"), "CONVERT(x'{}' USING utf8mb4)"
    GIVEN = {
        **dict.fromkeys(("mysql_init", "mysql_real_connect", "mysql_store_result", "mysql_stmt_init"), Pointer),
        **dict.fromkeys(("mysql_error", "mysql_stmt_error"), ctypes.c_char_p),
        **dict.fromkeys(("mysql_stmt_bind_param", "mysql_stmt_bind_result"), ctypes.c_bool),
        "mysql_fetch_row": ctypes.POINTER(ctypes.c_void_p),
        "mysql_fetch_lengths": ctypes.POINTER(ctypes.c_ulong),
        "mysql_stmt_param_count": ctypes.c_ulong,
    }

    def __init__(self, folder):
        self.folder, self.lib = folder, library(self.GIVEN, "mariadb", "mysqlclient")
        self.arguments = ["--no-defaults", f"--socket={folder}/socket", "--user=root", "texts"]
        lib, self.db = self.lib, self.lib.mysql_init(None)
        lib.mysql_options(self.db, 7, b"utf8mb4")  # MYSQL_SET_CHARSET_NAME
        several = ctypes.c_ulong(1 << 16)  # CLIENT_MULTI_STATEMENTS, without which a second statement is always refused
        if not lib.mysql_real_connect(self.db, None, b"root", None, None, 0, f"{folder}/socket".encode(), several):
            raise Broken(first_line(lib.mysql_error(self.db)))
        version = self.shown("SELECT VERSION()")
        is_maria = "MariaDB" in version
        self.version = f"MariaDB {version.split('-')[0]}" if is_maria else f"MySQL {version}"
        collation = "utf8mb4_nopad_bin" if is_maria else "utf8mb4_0900_bin"
        self.column = f"LONGTEXT CHARACTER SET utf8mb4 COLLATE {collation}"
        self.run(f"SET collation_connection = {collation}")
        self.run("CREATE DATABASE texts CHARACTER SET utf8mb4; USE texts")
        self.set("default mode")

    def set(self, setting):
        self.escapes = setting == "default mode"
        if not self.escapes:
            self.run(f"SET SESSION sql_mode = CONCAT(@@sql_mode, ',{setting}')")
        self.name = f"{self.version}, {setting}"

    def run(self, statement):
        text = statement.encode()
        rows, status = [], self.lib.mysql_real_query(self.db, text, ctypes.c_ulong(len(text)))
        while status == 0:
            if result := self.lib.mysql_store_result(self.db):
                width = range(self.lib.mysql_num_fields(result))
                while row := self.lib.mysql_fetch_row(result):
                    lengths = self.lib.mysql_fetch_lengths(result)
                    rows.append(tuple(None if row[it] is None else ctypes.string_at(row[it], lengths[it]) for it in width))
                self.lib.mysql_free_result(result)
            status = self.lib.mysql_errno(self.db) or self.lib.mysql_next_result(self.db)
        if status != -1:  # the end of the results
            raise Refused(first_line(self.lib.mysql_error(self.db)))
        return rows

    @contextlib.contextmanager
    def prepared(self, statement):
        """A prepared statement, and what refuses it where a call of the library has failed."""
        text, made = statement.encode(), self.lib.mysql_stmt_init(self.db)

        def succeed(is_failed):
            if is_failed:
                raise Refused(first_line(self.lib.mysql_stmt_error(made)))

        try:
            succeed(self.lib.mysql_stmt_prepare(made, text, ctypes.c_ulong(len(text))))
            yield made, succeed
        finally:
            self.lib.mysql_stmt_close(made)

    def takes(self, statement):
        """How many values a prepared statement takes."""
        with self.prepared(statement) as (made, _):
            return self.lib.mysql_stmt_param_count(made)

    def run_with(self, statement, values):
        """By a prepared statement of its library."""
        with self.prepared(statement) as (made, succeed):
            if self.lib.mysql_stmt_param_count(made) != len(values):
                raise Broken(f"it takes no {len(values)} values: {statement}")
            sent = [bound(it) for it in values]
            succeed(sent and self.lib.mysql_stmt_bind_param(made, (Bind * len(sent))(*sent)))
            succeed(self.lib.mysql_stmt_execute(made))
            return self.fetched(made, succeed)

    def fetched(self, made, succeed):
        """The rows of a prepared statement that has been run, each value up to so many bytes."""
        width, most = self.lib.mysql_stmt_field_count(made), 1 << 16
        if not width:
            return []
        buffers = [ctypes.create_string_buffer(most) for _ in range(width)]
        lengths, nulls = (ctypes.c_ulong * width)(), (ctypes.c_bool * width)()
        binds = (Bind * width)()
        for at, it in enumerate(binds):
            it.buffer, it.buffer_length, it.buffer_type = ctypes.addressof(buffers[at]), most, 254  # MYSQL_TYPE_STRING
            it.length, it.is_null = ctypes.addressof(lengths) + at * ctypes.sizeof(ctypes.c_ulong), ctypes.addressof(nulls) + at
        succeed(self.lib.mysql_stmt_bind_result(made, binds))
        rows = []
        while not (status := self.lib.mysql_stmt_fetch(made)):
            rows.append(tuple(None if null else buffer.raw[:length] for buffer, length, null in zip(buffers, lengths, nulls)))
        succeed(status != 100)  # MYSQL_NO_DATA
        return rows

    def close(self):
        self.lib.mysql_close(self.db)


# What each is opened on: a folder, or a server of its own.
PLACES = {Sqlite: tempfile.TemporaryDirectory, Postgres: postgres_server, Maria: maria_server}


def each(tally, measure, kinds=tuple(PLACES)):
    """Has each database measured. Prints which isn't installed, and fails where one doesn't run."""
    for kind in kinds:
        try:
            with PLACES[kind]() as place, contextlib.closing(kind(place)) as db:
                measure(db)
        except Skipped as why:
            print(f"SKIPPED: {kind.product}: {why}", flush=True)
        except Broken as why:
            tally.fail(kind.product, why)


def found_rows(heading, number=0):
    """The rows of a table of docs/reference/databases.md, which says what databases find: the code in the first cell, with ↵ for a line's
    end, and the other cells without bold."""
    for _, (first, *others) in tables("docs/reference/databases.md", heading)[number].rows:
        yield code_spans(first)[0].replace("↵", "\n"), *(it.replace("**", "") for it in others)


def row(*cells):
    """Prints a line of a table."""
    shown = (f"{it}".replace("|", "\\|") for it in cells)
    print(f"| {' | '.join(shown)} |".translate({0: "\\0", 9: "\\t", 10: "\\n", 13: "\\r"}), flush=True)


def head(*cells):
    row(*cells)
    row(*["---"] * len(cells))
