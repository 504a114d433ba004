"""The SQLite databases that tools/import reads: osmo-hlr's and that of hostapd's hlr_auc_gw.

A database is only read, and no file is made beside it. One that SQLite keeps a part of in a file beside it is refused.
"""
import os
import shlex
import sqlite3
import stat
import sys
from contextlib import closing
from dataclasses import dataclass
from pathlib import Path


class Unreadable(Exception):
    """Why an input can't be read at all, or brings nobody."""


@dataclass(frozen=True)
class Store:
    """Whose database it is; its table of subscribers; and the columns that are read, by table. A column of `later` may be
    missing, as it is in a database that an older version made, and is nothing then."""
    centre: str
    table: str
    columns: dict
    later: tuple
    source: str


OSMO = Store(
    centre="osmo-hlr",
    table="subscriber",
    columns={"subscriber": ("id", "imsi"), "auc_3g": ("algo_id_3g", "k", "op", "opc", "sqn", "ind_bitlen")},
    later=("ind_bitlen",),
    source="subscriber LEFT JOIN auc_3g ON auc_3g.subscriber_id = subscriber.id ORDER BY subscriber.id",
)
HOSTAPD = Store(
    centre="hlr_auc_gw",
    table="milenage",
    columns={"milenage": ("imsi", "ki", "opc", "amf", "sqn", "res_len")},
    later=("res_len",),
    source="milenage ORDER BY imsi",
)


def refuse_if_not_whole(path, store):
    """Refuses a database if SQLite keeps a part of it in a file beside it."""
    wal, journal, name = f"{path}-wal", f"{path}-journal", shlex.quote(path)
    if os.path.exists(wal) and os.path.getsize(wal):
        raise Unreadable(f"{path}: {wal} has changes that aren't in it yet; stop {store.centre}, then move them into it with"
                         f" sqlite3 {name} 'PRAGMA wal_checkpoint(TRUNCATE)'")
    if os.path.lexists(journal):
        raise Unreadable(f"{path}: {journal} is there, so a change of it may be half made; stop {store.centre}, then undo that"
                         f" with sqlite3 {name} 'SELECT count(*) FROM {store.table}'; a -journal that is left then can be"
                         " removed")


def may_lack_changes(path):
    """Whether SQLite keeps its changes in a -wal file first and there is none. It is so after each clean stop; but if the
    database was copied alone from a centre that ran or was killed, changes are missing, and nothing in it tells."""
    with open(path, "rb") as file:
        return file.read(20)[18:] == b"\2\2" and not os.path.exists(f"{path}-wal")


def named_columns(database, path, store):
    """The columns to ask for. In place of a later one that is missing it is nothing."""
    asked = []
    for table, columns in store.columns.items():
        there = {row[1] for row in database.execute(f"PRAGMA table_info({table})")}
        if not there:
            raise Unreadable(f"{path}: it has no table {table}, so it is no database of {store.centre}")
        for column in columns:
            if column not in there and column not in store.later:
                raise Unreadable(f"{path}: its table {table} has no column {column}")
            asked.append(f"{table}.{column}" if column in there else f"NULL AS {column}")
    return asked


def rows_in(path, store):
    """The rows of a database, by column. It is opened as one that nobody changes, so that SQLite makes no file beside it."""
    with closing(sqlite3.connect(f"{Path(path).absolute().as_uri()}?mode=ro&immutable=1", uri=True)) as database:
        columns = ", ".join(named_columns(database, path, store))
        found = database.execute(f"SELECT {columns} FROM {store.source}")
        names = [it[0] for it in found.description]
        return [dict(zip(names, row)) for row in found]


def whole_rows(path, store):
    """The rows of a database, after it was seen that it is whole and that it stayed as it is."""
    # The files beside it have its own name, and not that of a link to it.
    path = os.path.realpath(path) if os.path.islink(path) else path
    try:
        if not stat.S_ISREG(os.stat(path).st_mode):
            raise Unreadable(f"{path}: it is no file")
        refuse_if_not_whole(path, store)
        if may_lack_changes(path):
            print(f"import: {path} is in WAL mode, and there is no {path}-wal: if it was copied without that file, changes may be"
                  " missing in it", file=sys.stderr)
        before, rows, after = os.stat(path), rows_in(path, store), os.stat(path)
        refuse_if_not_whole(path, store)
    except OSError as error:
        raise Unreadable(f"{path}: {error.strerror}") from error
    except sqlite3.Error as error:
        raise Unreadable(f"{path}: {error}") from error
    if (before.st_mtime_ns, before.st_size) != (after.st_mtime_ns, after.st_size):
        raise Unreadable(f"{path}: it was changed while it was read; stop {store.centre} first")
    return rows
