"""A primary of PostgreSQL and two hot standbys on the loopback.

PostgreSQL refuses to run as root: where this process is root's, the servers run as the user `postgres`, whom Debian's package makes.
"""

from __future__ import annotations

import contextlib
import os
import pathlib
import signal
from collections.abc import Iterator
from typing import NamedTuple

import psycopg2
from processes import HOST, Processes, Server, StartError
from store import NotSent, Store
from workload import FIRST_VALUE

USER = "postgres"
DEBIAN = pathlib.Path("/usr/lib/postgresql")
STANDBYS = ("standby_1", "standby_2")
SETTINGS = {
    "listen_addresses": HOST,
    "unix_socket_directories": "",
    "fsync": "off",
    "shared_buffers": "16MB",
    "max_connections": "40",
    "dynamic_shared_memory_type": "mmap",
    "hot_standby": "on",
    "max_standby_streaming_delay": "-1",
}
# A write is answered when both standbys have applied it.
APPLIED = {"synchronous_commit": "remote_apply", "synchronous_standby_names": f"2 ({', '.join(STANDBYS)})"}


class Node(NamedTuple):
    """A server, and the port at which it is called."""

    server: Server
    port: int


class Stores(NamedTuple):
    """The servers that run."""

    primary: Node
    standbys: tuple[Node, ...]


@contextlib.contextmanager
def started() -> Iterator[Stores]:
    """Starts a primary and its standbys. Raises StartError where that fails.

    At the end of the context, however it ends, the servers are ended at once and what they wrote is removed.
    """
    with Processes(USER) as processes:
        processes.run("primary", [_program("initdb"), "-D", "data", "-U", USER, "-A", "trust", "-E", "UTF8", "--locale", "C", "--no-sync"])
        primary = _start(processes, "primary", APPLIED)
        standbys = tuple(_follow(processes, name, primary.port) for name in STANDBYS)
        stores = Stores(primary, standbys)
        primary.server.wait_until(lambda: _are_followed(primary.port))
        _ask(primary.port, "create table store (key text primary key, value text not null)")
        yield stores


def prepare(stores: Stores, keys: tuple[str, ...]) -> dict[str, str]:
    """Writes a first value to each key, which both standbys have when that is answered. Gives these values."""
    values = {key: FIRST_VALUE for key in keys}
    with Store(stores.primary.port) as store:
        for key, value in values.items():
            store.put(key, value)
    return values


def _program(name: str) -> str:
    """A program of PostgreSQL: of the folder that POSTGRES names, or else of Debian's newest version."""
    versions = sorted(DEBIAN.glob("*/bin"), key=lambda folder: int(folder.parent.name))
    folder = os.environ.get("POSTGRES") or (versions[-1] if versions else "")
    return str(pathlib.Path(folder, name))


def _start(processes: Processes, name: str, more: dict[str, str]) -> Node:
    """Starts a server whose data are there, and waits until it answers. SIGQUIT ends it at once, and leaves no shared memory."""
    port = processes.free_port()
    settings = {**SETTINGS, **more, "port": str(port), "cluster_name": name}
    words = [word for key, value in settings.items() for word in ("-c", f"{key}={value}")]
    node = Node(processes.start(name, [_program("postgres"), "-D", "data", *words], signal.SIGQUIT), port)
    node.server.wait_until(lambda: _is_up(port))
    return node


def _follow(processes: Processes, name: str, port: int) -> Node:
    """Starts a standby of the server at a port, from a copy of its data."""
    source = f"host={HOST} port={port} user={USER}"
    processes.run(name, [_program("pg_basebackup"), "-D", "data", "-R", "-c", "fast", "--no-sync", "-d", source])
    return _start(processes, name, {})


def _ask(port: int, statement: str) -> object:
    """What a server answers to a statement: the first value of the first row, if any."""
    with Store(port) as store:
        return store.ask(statement)


def _is_up(port: int) -> bool:
    """Whether a server answers."""
    with contextlib.suppress(NotSent, psycopg2.Error):
        return _ask(port, "select 1") == 1
    return False


def _are_followed(port: int) -> bool:
    """Whether writes at a primary wait for all standbys."""
    return _ask(port, "select count(*) from pg_stat_replication where sync_state = 'sync'") == len(STANDBYS)
