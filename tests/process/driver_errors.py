#!/usr/bin/env python3
"""Provokes errors of drivers at real servers on the loopback, and says where docs/drivers.md differs from what is seen.

    python3 tests/process/driver_errors.py [STORE..]

Of each store a script provokes the errors of the page's table: it has statements refused, connections broken and servers stopped, and looks
whether the write took effect (driver_bench.py). The page has to say what it saw (driver_page.py). A store whose servers or drivers are not
installed is skipped.
"""

import argparse
import os
import pathlib
import subprocess
import sys
import tempfile
from typing import NamedTuple

import folders  # noqa: F401
from counting import counted, end, read_last_line
from installed import is_installed

SERVERS = pathlib.Path(__file__).resolve().parents[1] / "servers"
# Debian's packages of the drivers belong to this Python.
PYTHON = "/usr/bin/python3"
SECONDS = 300
# Servers that run as another user than root have to reach their folder.
OPEN = 0o711


class Store(NamedTuple):
    """A store: the modules of its drivers, the programs and files of its servers, and what installs them."""

    name: str
    modules: tuple
    needs: tuple
    install: str


STORES = (
    Store(
        "postgresql",
        ("psycopg2", "psycopg", "asyncpg"),
        ("/usr/lib/postgresql/*/bin/initdb",),
        "apt-get install postgresql python3-psycopg2 python3-psycopg python3-asyncpg",
    ),
    Store(
        "mysql",
        ("pymysql", "MySQLdb"),
        ("/usr/sbin/mariadbd", "/usr/lib/galera/libgalera_smm.so", "rsync"),
        "apt-get install mariadb-server python3-pymysql python3-mysqldb",
    ),
    Store("redis", ("redis", "redis.asyncio"), ("redis-server",), "apt-get install redis-server python3-redis"),
    Store("etcd", ("etcd3",), ("etcd",), "apt-get install etcd-server python3-etcd3"),
)


def run(store, room):
    """The status of the script of a store, and what it says. What it leaves there is a folder of its own."""
    how = {"stdin": subprocess.DEVNULL, "stdout": subprocess.PIPE, "stderr": subprocess.STDOUT, "text": True, "errors": "replace"}
    environment = {**os.environ, "TMPDIR": str(room), "PYTHONDONTWRITEBYTECODE": "1"}
    process = subprocess.Popen([PYTHON, SERVERS / f"driver_{store.name}.py"], env=environment, **how)
    try:
        return process.communicate(timeout=SECONDS)[0], process.returncode
    except subprocess.TimeoutExpired:
        process.kill()
        return f"{process.communicate()[0]}no end within {SECONDS} seconds\n", None


def counts_of(store, room):
    """How many cases of a store passed and failed. The lines of those that failed are printed."""
    place = room / store.name
    place.mkdir(mode=OPEN)
    text, status = run(store, place)
    passed, failed, _ = read_last_line(text) or (0, 0, 0)
    print("".join(f"{line}\n" for line in text.splitlines() if not read_last_line(line)), end="", flush=True)
    left = sorted(path.name for path in place.iterdir())
    more = counted([(f"{store.name}: status {status}", status == int(failed > 0) and passed > 0), (f"{store.name}: left {left}", not left)])
    return passed + more[0], failed + more[1]


def main():
    parser = argparse.ArgumentParser(description=__doc__, formatter_class=argparse.RawDescriptionHelpFormatter)
    names = [store.name for store in STORES]
    parser.add_argument("stores", nargs="*", metavar="STORE", help=f"one of {', '.join(names)}; all, unless some are named")
    given = parser.parse_args()
    if set(given.stores) - set(names):
        sys.exit(f"the stores are {', '.join(names)}")
    counts = [0, 0, 0]
    with tempfile.TemporaryDirectory(prefix="driver-errors-", ignore_cleanup_errors=True) as room:
        os.chmod(room, OPEN)
        for store in (store for store in STORES if not given.stores or store.name in given.stores):
            if is_installed(PYTHON, store.modules, store.needs):
                counts = [sum(pair) for pair in zip(counts, (*counts_of(store, pathlib.Path(room)), 0))]
            else:
                print(f"{store.name} is left out: {store.install}", flush=True)
                counts[2] += 1
    end(*counts)


if __name__ == "__main__":
    main()
