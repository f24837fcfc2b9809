"""What a client of PostgreSQL calls: one server, by psycopg2, a statement a call, each committed by itself and sent once."""

from __future__ import annotations

import select
from typing import Any

import psycopg2
from processes import HOST
from psycopg2.extensions import POLL_OK, POLL_READ, POLL_WRITE, set_wait_callback

USER, DATABASE = "postgres", "postgres"
TIME_OUT = 10.0
GET = "select value from store where key = %s"
PUT = "insert into store values (%s, %s) on conflict (key) do update set value = excluded.value"
DELETE = "delete from store where key = %s"


class NotSent(Exception):
    """No connection could be made, so nothing was sent."""


def is_certain(error: BaseException) -> bool:
    """Whether a call that ended by this exception had no effect, for certain.

    So it is where nothing was sent, and where the server answers ERROR to a statement that commits by itself: then it has undone the
    statement. FATAL ends the connection, as when an administrator or a restart does, and may come after the commit. An error without a
    severity is the driver's own, of a connection that broke.
    """
    return isinstance(error, NotSent) or isinstance(error, psycopg2.Error) and error.diag.severity_nonlocalized == "ERROR"


def wait(connection: Any) -> None:
    """Waits for what a server sends, but no longer than TIME_OUT. psycopg2 by itself waits without end. After a fault it closes the
    connection, so that no late answer is taken for another's."""
    while (state := connection.poll()) != POLL_OK:
        reads, writes = ([connection] if state == one else [] for one in (POLL_READ, POLL_WRITE))
        if not any(select.select(reads, writes, [], TIME_OUT)):
            raise psycopg2.OperationalError(f"no answer within {TIME_OUT} seconds")


set_wait_callback(wait)


class Store:
    """A connection to one server, made by the first call, and made anew by the next one after it broke."""

    def __init__(self, port: int, name: str = "") -> None:
        self._port, self._name = port, name
        self._connection: Any = None

    def __enter__(self) -> Store:
        return self

    def __exit__(self, *fault: object) -> None:
        if self._connection:
            self._connection.close()

    def get(self, key: str) -> str | None:
        """Reads a key; none where it holds nothing."""
        found: str | None = self.ask(GET, key)
        return found

    def put(self, key: str, value: str) -> None:
        """Writes a value to a key."""
        self.ask(PUT, key, value)

    def delete(self, key: str) -> int:
        """Deletes a key; gives how many rows that deleted."""
        return int(self._made(DELETE, key).rowcount)

    def ask(self, statement: str, *values: str) -> Any:
        """The first value of the first row that a statement gives, if any."""
        cursor = self._made(statement, *values)
        row = cursor.fetchone() if cursor.description else None
        return row[0] if row else None

    def _made(self, statement: str, *values: str) -> Any:
        """Has a statement made. Raises NotSent, or what the driver raises."""
        if not self._connection or self._connection.closed:
            self._connection = self._connected()
        cursor = self._connection.cursor()
        cursor.execute(statement, values)
        return cursor

    def _connected(self) -> Any:
        place = {"host": HOST, "port": self._port, "user": USER, "dbname": DATABASE, "sslmode": "disable", "gssencmode": "disable"}
        try:
            connection = psycopg2.connect(**place, application_name=self._name)
        except psycopg2.Error as fault:
            raise NotSent(str(fault)) from fault
        connection.autocommit = True
        return connection
