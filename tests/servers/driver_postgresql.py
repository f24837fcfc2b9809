#!/usr/bin/python3
"""Provokes errors of psycopg2, psycopg 3 and asyncpg at real servers of PostgreSQL, and looks whether writes took effect.

    /usr/bin/python3 tests/servers/driver_postgresql.py

A primary and two hot standbys run on the loopback, as in examples/postgresql. Errors and effects have to be those of docs/drivers.md
(driver_page.py). driver_errors.py says what has to be installed.
"""

import asyncio
import contextlib
import os
import random
import signal
import sys
import threading
import time
from collections import Counter
from concurrent.futures import ThreadPoolExecutor
from functools import partial
from typing import Callable, NamedTuple

import asyncpg
import psycopg
import psycopg2
from psycopg2.extensions import set_wait_callback

import folders  # noqa: F401
from counting import end_after
from cutting_relay import ANSWERS, REQUESTS, CuttingRelay
from driver_bench import ASK_SECONDS, GRACE, PATIENCE, ROOT, Bench, Tried, comes_true, meanwhile, raised, silent_port
from driver_page import cases

sys.path.insert(0, str(ROOT / "examples" / "postgresql"))

import store  # noqa: E402
from servers import HOST, USER, started  # noqa: E402

LOOP = asyncio.new_event_loop()
PLACE = {"host": HOST, "sslmode": "disable", "gssencmode": "disable", "dbname": "postgres"}
TIME_OUT, CANCELS, MOST_ROWS, LONGEST_PAUSE = 0.5, 1_000, 400, 0.002
TABLES = (
    "create table parents (id int primary key)",
    "create table tried (key text primary key, value text not null, number int check (number < 100), parent int references parents, "
    "short varchar(5), late int unique deferrable initially deferred)",
    "insert into tried (key, value, late) values ('taken', '', 1), ('locked', '', 2), ('other', '', 3)",
    "create role reader login",
    "grant select on tried to reader",
    "create role crowded login connection limit 0",
)
INSERT = "insert into tried (key, value) values ('{0}', '{0}')"
SLEEP = "insert into tried (key, value) select '{0}', '{0}' from pg_sleep(10)"
LONG = "insert into tried (key, value, short) select '{0}', '{0}', left(max(md5(i::text)), 1) from generate_series(1, {1}) i"
SORT = "insert into tried (key, value) select '{0}', min(i)::text from (select i from generate_series(1, 50000) i order by md5(i::text)) x"
UPDATE = "update tried set value = '{0}' where key = 'locked'"
NO_WAIT = "with x as (select key from tried where key = 'locked' for update nowait) update tried set value = '{0}' where key = (table x)"


class Statement(NamedTuple):
    """A statement that ends by an error: its code, its text with the value in the place of {0}, what its connection makes before it, whose
    connection that is, and whether it is one to a standby."""

    code: str
    text: str
    before: tuple = ()
    user: str = USER
    is_at_standby: bool = False


STATEMENTS = (
    Statement("23505", "insert into tried (key, value) values ('taken', '{0}')"),
    Statement("23505", "insert into tried (key, value, late) values ('{0}', '{0}', 1)"),
    Statement("23502", "insert into tried (key, value) values (null, '{0}')"),
    Statement("23503", "insert into tried (key, value, parent) values ('{0}', '{0}', 7)"),
    Statement("23514", "insert into tried (key, value, number) values ('{0}', '{0}', 200)"),
    Statement("22001", "insert into tried (key, value, short) values ('{0}', '{0}', 'long text')"),
    Statement("22003", "insert into tried (key, value, number) values ('{0}', '{0}', 99999999999)"),
    Statement("22012", "insert into tried (key, value, number) values ('{0}', '{0}', 1 / 0)"),
    Statement("22P02", "insert into tried (key, value, number) values ('{0}', '{0}', 'x')"),
    Statement("42601", "insrt into tried (key, value) values ('{0}', '{0}')"),
    Statement("42P01", "insert into nowhere values ('{0}', '{0}')"),
    Statement("42703", "insert into tried (key, value, nothing) values ('{0}', '{0}', 1)"),
    Statement("42501", INSERT, user="reader"),
    Statement("25006", INSERT, is_at_standby=True),
    Statement("25006", INSERT, ("set default_transaction_read_only = on",)),
    Statement("57014", SLEEP, ("set statement_timeout = 50",)),
    Statement("53400", SORT, ("set temp_file_limit = 64", "set work_mem = '64kB'")),
    Statement("58P01", "insert into tried (key, value) select '{0}', '{0}' || pg_read_file('/none/file')"),
)


class Driver(NamedTuple):
    """A driver: how it connects to a port as a user, how it makes a statement over a connection, closes it, and names its process; and what
    it raises where a connection broke, was closed before, can't be made, is one too many, and comes too early, and where the client's
    time-out runs out."""

    name: str
    connect: Callable
    run: Callable
    close: Callable
    process: Callable
    broken: str
    closed: str
    unreachable: str
    crowded: str
    early: str
    late: str


def connected(module):
    """How psycopg2 and psycopg 3 connect. A statement commits by itself."""

    def connect(port, user=USER):
        connection = module.connect(port=port, user=user, **PLACE)
        connection.autocommit = True
        return connection

    return connect


def run_async(coroutine):
    """What a coroutine gives."""
    return LOOP.run_until_complete(coroutine)


def close(connection):
    """Closes a connection of psycopg2 or psycopg 3."""
    connection.close()


DRIVERS = (
    Driver(
        "psycopg2",
        connected(psycopg2),
        lambda connection, text: connection.cursor().execute(text),
        close,
        lambda connection: connection.info.backend_pid,
        *("OperationalError", "InterfaceError", "OperationalError", "OperationalError", "OperationalError", "OperationalError"),
    ),
    Driver(
        "psycopg",
        connected(psycopg),
        lambda connection, text: connection.execute(text),
        close,
        lambda connection: connection.info.backend_pid,
        *("OperationalError", "OperationalError", "OperationalError", "OperationalError", "OperationalError", "no time-out"),
    ),
    Driver(
        "asyncpg",
        lambda port, user=USER: run_async(asyncpg.connect(host=HOST, port=port, user=user, database="postgres", ssl=False)),
        lambda connection, text: run_async(connection.execute(text)),
        lambda connection: connection.terminate(),
        lambda connection: connection.get_server_pid(),
        *("08003", "InterfaceError", "OSError", "53300", "57P03", "TimeoutError"),
    ),
)
# Those with a time-out of the client: psycopg2 has one by a function that waits.
PATIENT = (DRIVERS[0], DRIVERS[2]._replace(run=lambda connection, text: run_async(connection.execute(text, timeout=TIME_OUT))))


def name_of(error):
    """The name of an error in the table: its code, or else its class."""
    code = getattr(error, "pgcode", None) or getattr(error, "sqlstate", None)
    if code:
        return code
    timed_out = isinstance(error, (TimeoutError, asyncio.TimeoutError))
    return "TimeoutError" if timed_out else "OSError" if isinstance(error, OSError) else type(error).__name__


class Servers(Bench):
    """The servers, and what is done at them beside a call that is tried."""

    def __init__(self, stores):
        super().__init__()
        self.port, self.standbys = stores.primary.port, [node.port for node in stores.standbys]
        for statement in TABLES:
            self.ask(statement)

    def ask(self, statement, port=None):
        """The first value that a statement gives, over a connection of its own. While the server comes up it asks again."""
        until = time.monotonic() + PATIENCE
        while True:
            try:
                with store.Store(port or self.port) as asking:
                    return asking.ask(statement)
            except store.NotSent:
                if time.monotonic() > until:
                    raise
            time.sleep(ASK_SECONDS)

    def is_there(self, value):
        return self.ask(f"select count(*) from tried where '{value}' in (key, value)") > 0

    def wait_for(self, condition, many=1):
        """The process of a client, once so many of them are in this state."""
        found = f"from pg_stat_activity where {condition} and pid <> pg_backend_pid()"
        comes_true(lambda: self.ask(f"select count(*) {found}") >= many)
        return self.ask(f"select min(pid) {found}")

    @contextlib.contextmanager
    def beside(self, *statements):
        """Another client, which has begun a transaction with these statements, and takes it back at the end."""
        with contextlib.closing(DRIVERS[0].connect(self.port)) as other:
            for statement in ("begin", "set local deadlock_timeout = '1min'", *statements):
                DRIVERS[0].run(other, statement)
            yield other

    @contextlib.contextmanager
    def held_standbys(self):
        """The standbys apply nothing meanwhile, so no write is answered."""
        for port in self.standbys:
            self.ask("select pg_wal_replay_pause()", port)
        try:
            yield
        finally:
            for port in self.standbys:
                self.ask("select pg_wal_replay_resume()", port)


@contextlib.contextmanager
def connection_of(driver, port, user=USER, before=()):
    """A connection, which has made these statements."""
    connection = driver.connect(port, user)
    try:
        for statement in before:
            driver.run(connection, statement)
        yield connection
    finally:
        driver.close(connection)


@contextlib.contextmanager
def waiting():
    """psycopg2 waits for a while, as in examples/postgresql, and not without end."""
    store.TIME_OUT = TIME_OUT
    set_wait_callback(store.wait)
    try:
        yield
    finally:
        set_wait_callback(None)


def statement_tries(bench, driver):
    """Statements that the server refuses by themselves, and such as wait for a lock."""
    for one in STATEMENTS:
        with connection_of(driver, bench.standbys[0] if one.is_at_standby else bench.port, one.user, one.before) as connection:
            yield bench.tried(driver.name, one.text, one.code, lambda value: driver.run(connection, one.text.format(value)))
    for before, text in ((("set lock_timeout = 50",), UPDATE), ((), NO_WAIT)):
        with connection_of(driver, bench.port, before=before) as connection, bench.beside(UPDATE.format("")):
            yield bench.tried(driver.name, f"{before} {text}", "55P03", lambda value: driver.run(connection, text.format(value)))


def conflict_tries(bench, driver):
    """Transactions that stand in each other's way: at a statement, at the commit, and in a circle."""
    with connection_of(driver, bench.port, before=("begin isolation level repeatable read", "table tried")) as connection:
        bench.ask(UPDATE.format("between"))
        yield bench.tried(driver.name, "a row that changed", "40001", lambda value: driver.run(connection, UPDATE.format(value)))
    begins = ("begin isolation level serializable", "select count(*) from tried")
    with connection_of(driver, bench.port, before=begins) as one, connection_of(DRIVERS[0], bench.port, before=begins) as other:

        def commit(value):
            driver.run(one, INSERT.format(value))
            DRIVERS[0].run(other, INSERT.format(f"other {value}"))
            DRIVERS[0].run(other, "commit")
            driver.run(one, "commit")

        yield bench.tried(driver.name, "a commit after another", "40001", commit)
    with connection_of(driver, bench.port, before=("begin", "set local deadlock_timeout = 50")) as connection:
        with bench.beside("update tried set value = '' where key = 'other'") as other:

            def close_circle(value):
                driver.run(connection, UPDATE.format(value))
                with meanwhile(lambda: DRIVERS[0].run(other, UPDATE.format(""))):
                    bench.wait_for("wait_event_type = 'Lock'")
                    driver.run(connection, "update tried set value = '' where key = 'other'")

            yield bench.tried(driver.name, "a deadlock", "40P01", close_circle)


def broken_tries(bench, driver):
    """Connections that break before the server has the request, and before the client has the answer."""
    for lost in (REQUESTS, ANSWERS):
        with CuttingRelay(bench.port) as relay, connection_of(driver, relay.port) as connection:
            relay.lose(lost, breaks=True)
            how = f"{lost} are lost, and the connection breaks"
            yield bench.tried(driver.name, how, driver.broken, lambda value: driver.run(connection, INSERT.format(value)), lost == ANSWERS)


def terminated_tries(bench, driver):
    """Connections that an administrator ends: in a statement, between two, and while a write that is done waits for the standbys."""

    def end(condition):
        bench.ask(f"select pg_terminate_backend({bench.wait_for(condition)})")

    for how, text, condition, was_to_be_done in (
        ("ended in a statement", SLEEP, "wait_event = 'PgSleep'", False),
        ("ended while it waits for standbys", INSERT, "wait_event = 'SyncRep'", True),
    ):
        with connection_of(driver, bench.port) as connection, bench.held_standbys() if was_to_be_done else contextlib.nullcontext():

            def call(value):
                with meanwhile(lambda: end(condition)):
                    driver.run(connection, text.format(value))

            yield bench.tried(driver.name, how, driver.broken, call, was_to_be_done)
    with connection_of(driver, bench.port) as connection:
        bench.ask(f"select pg_terminate_backend({driver.process(connection)})")
        yield bench.tried(driver.name, "ended before", driver.broken, lambda value: driver.run(connection, INSERT.format(value)))
        yield bench.tried(driver.name, "ended long before", driver.closed, lambda value: driver.run(connection, INSERT.format(value)))


def unconnected_tries(bench, driver):
    """Connections that can't be made, and such as were closed."""
    with silent_port() as port:
        yield bench.tried(driver.name, "nobody listens", driver.unreachable, lambda value: driver.connect(port))
    yield bench.tried(driver.name, "too many connections", driver.crowded, lambda value: driver.connect(bench.port, "crowded"))
    with connection_of(driver, bench.port) as connection:
        driver.close(connection)
        yield bench.tried(driver.name, "closed", driver.closed, lambda value: driver.run(connection, INSERT.format(value)))


def hidden_tries(bench):
    """A connection of psycopg2 that breaks after the write was done, and whose rollback then hides that."""
    with CuttingRelay(bench.port) as relay, connection_of(DRIVERS[0], relay.port) as connection:
        relay.lose(ANSWERS, breaks=True)

        def write(value):
            try:
                DRIVERS[0].run(connection, INSERT.format(value))
            except psycopg2.Error:
                connection.rollback()

        yield bench.tried(DRIVERS[0].name, "a rollback after the break", "InterfaceError", write, True)


def late_tries(bench, driver):
    """Calls that end by a time-out of the client: where what is sent gets lost, and where the server stops for a while."""
    for lost in (REQUESTS, ANSWERS):
        with CuttingRelay(bench.port) as relay, connection_of(driver, relay.port) as connection, waiting():
            relay.lose(lost, breaks=False)
            how = f"{lost} are lost, and the connection stays"
            yield bench.tried(driver.name, how, driver.late, lambda value: driver.run(connection, INSERT.format(value)), lost == ANSWERS)
    with connection_of(driver, bench.port) as connection, waiting():
        process = driver.process(connection)

        def stopped(value):
            os.kill(process, signal.SIGSTOP)
            try:
                driver.run(connection, INSERT.format(value))
            finally:
                os.kill(process, signal.SIGCONT)

        yield bench.tried(driver.name, "the server stops for a while", driver.late, stopped, True)


def locked_tries(bench):
    """A call of asyncpg that waits for a lock until its time-out runs out. Then asyncpg cancels it."""
    driver = PATIENT[1]
    with connection_of(driver, bench.port) as connection, bench.beside(UPDATE.format("")):
        how = "a lock that nobody frees"
        yield bench.tried(driver.name, how, driver.late, lambda value: driver.run(connection, UPDATE.format(value)))


def crash_tries(bench):
    """A crash of the server in the midst of statements, and connections before it is up again. A process that is stopped delays that."""
    with contextlib.ExitStack() as ending:
        pairs = [(driver, ending.enter_context(connection_of(driver, bench.port))) for driver in DRIVERS]
        held, killed = (ending.enter_context(connection_of(DRIVERS[0], bench.port)).info.backend_pid for _ in range(2))
        values = [f"{driver.name}.crash" for driver in DRIVERS]
        with ThreadPoolExecutor(len(pairs)) as pool:
            statements = [partial(driver.run, connection, SLEEP.format(value)) for (driver, connection), value in zip(pairs, values)]
            calls = [pool.submit(raised, statement) for statement in statements]
            bench.wait_for("wait_event = 'PgSleep'", len(pairs))
            os.kill(held, signal.SIGSTOP)
            os.kill(killed, signal.SIGKILL)
            errors = [call.result() for call in calls]
        early = [raised(partial(driver.connect, bench.port)) for driver in DRIVERS]
        os.kill(held, signal.SIGCONT)
        for driver, value, error, other in zip(DRIVERS, values, errors, early):
            yield Tried(f"{driver.name}, a crash", driver.broken, error, bench.is_there(value), False)
            yield Tried(f"{driver.name}, a server that comes up", driver.early, other, False, False)


def tries(bench):
    """All calls that are to end by errors."""
    for driver in DRIVERS:
        for some in (statement_tries, conflict_tries, broken_tries, terminated_tries, unconnected_tries):
            yield from some(bench, driver)
    yield from hidden_tries(bench)
    for driver in PATIENT:
        yield from late_tries(bench, driver)
    yield from locked_tries(bench)
    yield from crash_tries(bench)


def canceled_fault(bench, driver):
    """What is wrong with writes that are canceled at any time, if anything: those that end by `57014` are not done, and all others are."""
    rng, stopping, ended = random.Random(1), threading.Event(), {}
    with connection_of(driver, bench.port, before=("set synchronous_commit = local",)) as connection:
        process = driver.process(connection)

        def cancel():
            with connection_of(DRIVERS[0], bench.port) as other:
                while not stopping.wait(rng.uniform(0, LONGEST_PAUSE)):
                    DRIVERS[0].run(other, f"select pg_cancel_backend({process})")

        with meanwhile(cancel):
            for number in range(CANCELS):
                value, many = f"{driver.name}.canceled.{number}", 1 + rng.randrange(MOST_ROWS)
                error = raised(lambda: driver.run(connection, LONG.format(value, many)))
                ended[value] = error and name_of(error)
            stopping.set()
    there = set(bench.ask(f"select array_agg(value) from tried where starts_with(value, '{driver.name}.canceled.')"))
    kinds = Counter((name, value in there) for value, name in ended.items())
    return None if set(kinds) == {(None, True), ("57014", False)} else f"{dict(kinds)}"


def waiting_fault(bench, before):
    """What is wrong with a write that waits for the standbys until it is canceled, if anything: it is done, and a notice says so."""
    value = f"waiting {before}".replace("'", "")
    with connection_of(DRIVERS[0], bench.port, before=before) as connection, bench.held_standbys():

        def end():
            process = bench.wait_for("wait_event = 'SyncRep'")
            time.sleep(4 * GRACE)
            bench.ask(f"select pg_cancel_backend({process})")

        with meanwhile(end):
            begun = time.monotonic()
            error = raised(lambda: DRIVERS[0].run(connection, INSERT.format(value)))
            seconds = time.monotonic() - begun
    is_said = ["canceling wait for synchronous replication" in notice for notice in connection.notices] == [True]
    is_right = error is None and is_said and seconds > 4 * GRACE and bench.is_there(value)
    return None if is_right else f"{error!r}, {connection.notices}, {seconds} seconds"


def transaction_fault(bench, driver, module):
    """What is wrong with a commit after a statement of the transaction failed, if anything: it raises nothing, and does nothing."""
    with contextlib.closing(module.connect(port=bench.port, user=USER, **PLACE)) as connection:
        value = f"{driver.name}.transaction"
        errors = [raised(lambda: driver.run(connection, INSERT.format(value))) for _ in range(2)] + [raised(connection.commit)]
        names = [error and name_of(error) for error in errors]
    return None if names == [None, "23505", None] and not bench.is_there(value) else f"{names}, {bench.is_there(value)}"


def broken_transaction_fault(bench, last):
    """What is wrong with a transaction that loses its connection in the last of its statements, if anything. A commit is done."""
    value, begun = f"broken {last}", ("begin", INSERT.format(f"broken {last}"))
    with CuttingRelay(bench.port) as relay, connection_of(DRIVERS[0], relay.port, before=begun) as connection:
        relay.lose(ANSWERS, breaks=True)
        error = raised(lambda: DRIVERS[0].run(connection, last))
    is_done = comes_true(lambda: bench.is_there(value), PATIENCE if last == "commit" else GRACE)
    return None if error and name_of(error) == "OperationalError" and is_done == (last == "commit") else f"{error!r}, {is_done}"


def unchanged_fault(bench):
    """What is wrong with statements that find no row to change, if anything."""
    with connection_of(DRIVERS[0], bench.port) as connection:
        cursor, counts = connection.cursor(), []
        for statement in (
            "update tried set value = 'unchanged' where key = 'other' and value = 'nothing'",
            "delete from tried where key = 'nothing'",
            "insert into tried (key, value) values ('other', 'unchanged') on conflict do nothing",
        ):
            cursor.execute(statement)
            counts.append(cursor.rowcount)
    return None if counts == [0, 0, 0] and not bench.is_there("unchanged") else f"{counts}, {bench.is_there('unchanged')}"


def more_faults(bench):
    """What else the page says, each with what is wrong with it, if anything."""
    for driver in DRIVERS:
        yield f"{driver.name}, writes that are canceled", canceled_fault(bench, driver)
    yield "a cancel ends the wait for standbys", waiting_fault(bench, ())
    yield "a statement time-out does not", waiting_fault(bench, ("set statement_timeout = 50",))
    for driver, module in zip(DRIVERS, (psycopg2, psycopg)):
        yield f"{driver.name}, a commit after a statement that failed", transaction_fault(bench, driver, module)
    for last in ("table tried", "commit"):
        yield f"a transaction that breaks at {last}", broken_transaction_fault(bench, last)
    yield "no row", unchanged_fault(bench)


def all_cases():
    """All cases, over servers that are started for them."""
    with started() as stores:
        set_wait_callback(None)
        bench = Servers(stores)
        for name, fault in more_faults(bench):
            yield f"PostgreSQL, {name}: {fault}", fault is None
        yield from cases("PostgreSQL", tries(bench), name_of)


if __name__ == "__main__":
    end_after(all_cases())
