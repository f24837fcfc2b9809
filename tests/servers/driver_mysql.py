#!/usr/bin/python3
"""Provokes errors of PyMySQL and mysqlclient at real servers of MariaDB, and looks whether writes took effect.

    /usr/bin/python3 tests/servers/driver_mysql.py

A server runs on the loopback, and then two members of Galera. Errors and effects have to be those of docs/drivers.md (driver_page.py).
driver_errors.py says what has to be installed.
"""

import contextlib
import random
import threading
from collections import Counter
from typing import Callable, NamedTuple

import MySQLdb
import MySQLdb.cursors
import pymysql

import folders  # noqa: F401
from counting import end_after
from cutting_relay import ANSWERS, REQUESTS, CuttingRelay
from driver_bench import GRACE, HOST, PATIENCE, Bench, comes_true, meanwhile, raised, silent_port, stopped
from driver_page import cases
from mariadb_servers import START_SECONDS, USER, is_member, start, start_members
from processes import Processes

SECTION, DATABASE, TIME_OUT = "MySQL and MariaDB", "tried", 1
KILLS, CONFLICTS, MOST_ROWS, LONGEST_PAUSE, FEWEST_CONNECTIONS = 1_000, 300, 600, 0.002, 10
TABLES = (
    f"create database {DATABASE}",
    f"use {DATABASE}",
    "create table parents (id int primary key)",
    "create table tried (id varchar(100) primary key, value varchar(100) not null, number int not null default 0 check (number < 100), "
    "parent int, short varchar(5), foreign key (parent) references parents(id))",
    "insert into parents values (1)",
    "insert into tried (id, value, parent) values ('taken', '', 1), ('locked', '', null), ('other', '', null), ('more', '', null)",
    "create user reader@'%'",
    f"grant select on {DATABASE}.* to reader@'%'",
    f"grant update (value) on {DATABASE}.tried to reader@'%'",
    "create user writer@'%'",
    f"grant select, insert, update, delete on {DATABASE}.* to writer@'%'",
    "create user stranger@'%'",
)
INSERT = "insert into tried (id, value) values ('{0}', '{0}')"
UPDATE = "update tried set value = '{0}' where id = 'locked'"
LONG = "insert into tried (id, value) select '{0}', if(max(md5(seq)) = '', '', '{0}') from seq_1_to_{1}"
ENDLESS = LONG.replace("{1}", "100000000")


class Driver(NamedTuple):
    """A driver: how it connects, and what it raises where a connection was ended before, nobody listens, and there is no such host."""

    name: str
    connect: Callable
    closed: str
    unreachable: str
    unknown: str


DRIVERS = (Driver("PyMySQL", pymysql.connect, "0", "2003", "2003"), Driver("mysqlclient", MySQLdb.connect, "2006", "2002", "2005"))
# A number, a statement that ends by it, what its connection makes before, and whose connection that is.
STATEMENTS = (
    ("1062", "insert into tried (id, value) values ('taken', '{0}')", (), "root"),
    ("1048", "insert into tried (id, value, number) values ('{0}', '{0}', null)", (), "root"),
    ("1264", "insert into tried (id, value, number) values ('{0}', '{0}', 99999999999)", (), "root"),
    ("1366", "insert into tried (id, value, number) values ('{0}', '{0}', 'x')", (), "root"),
    ("1406", "insert into tried (id, value, short) values ('{0}', '{0}', 'long text')", (), "root"),
    ("1452", "insert into tried (id, value, parent) values ('{0}', '{0}', 7)", (), "root"),
    ("1451", "delete from parents where id = 1 /* {0} */", (), "root"),
    ("4025", "insert into tried (id, value, number) values ('{0}', '{0}', 200)", (), "root"),
    ("1054", "insert into tried (id, value, nothing) values ('{0}', '{0}', 1)", (), "root"),
    ("1064", "insrt into tried (id, value) values ('{0}', '{0}')", (), "root"),
    ("1146", "insert into nowhere values ('{0}', '{0}')", (), "root"),
    ("1142", INSERT, (), "reader"),
    ("1143", "update tried set value = '{0}', number = 1 where id = 'other'", (), "reader"),
    ("1290", INSERT, (), "writer"),
    ("1792", INSERT, ("start transaction read only",), "root"),
    ("1969", ENDLESS, ("set max_statement_time = 0.05",), "root"),
)


def name_of(error):
    """The name of an error in the table: its number."""
    return str(error.args[0]) if error and error.args else repr(error)


def run(connection, statement):
    """Makes a statement; gives how many rows it changed, or the rows that it gives."""
    with contextlib.closing(connection.cursor()) as cursor:
        count = cursor.execute(statement)
        return cursor.fetchall() if cursor.description else count


@contextlib.contextmanager
def connection_of(driver, port, *before, user="root", **more):
    """A connection whose statements commit by themselves, and which has made these."""
    connection = driver.connect(host=HOST, port=port, user=user, database=DATABASE, autocommit=True, **more)
    try:
        for statement in before:
            run(connection, statement)
        yield connection
    finally:
        with contextlib.suppress(pymysql.Error, MySQLdb.Error):
            connection.close()


class Servers(Bench):
    """A server, and what is done at it beside a call that is tried."""

    def __init__(self, port, tables=TABLES):
        super().__init__()
        self.port = port
        self.asking = pymysql.connect(host=HOST, port=port, user="root", autocommit=True)
        for statement in tables:
            self.ask(statement)

    def ask(self, statement):
        return run(self.asking, statement)

    def is_there(self, value):
        return self.ask(f"select count(*) from tried where '{value}' in (id, value)") != ((0,),)

    def kill(self, how, condition):
        """Ends another connection, or what it does, once it is in this state."""
        found = f"select max(id) from information_schema.processlist where {condition} and id <> connection_id()"
        comes_true(lambda: self.ask(found) != ((None,),))
        self.ask(f"kill {how} {self.ask(found)[0][0]}")


def statement_tries(bench, driver):
    """Statements that the server refuses, or does not come to the end of in time."""
    for name, text, before, user in STATEMENTS:
        with connection_of(driver, bench.port, *before, user=user) as connection:
            bench.ask(f"set global read_only = {int(name == '1290')}")
            yield bench.tried(driver.name, text, name, lambda value: run(connection, text.format(value)))
    bench.ask("set global read_only = 0")
    stranger = connection_of(driver, bench.port, user="stranger")
    yield bench.tried(driver.name, "no right to the database", "1044", lambda value: stranger.__enter__())
    with connection_of(driver, bench.port) as connection:

        def call(value):
            with meanwhile(lambda: bench.kill("query", "info like '%seq_1_to_100000000%'")):
                run(connection, ENDLESS.format(value))

        yield bench.tried(driver.name, "killed", "1317", call)


def conflict_tries(bench, driver):
    """A lock that nobody frees, and a circle of locks. Of two transactions the one that changed fewer rows is taken back."""
    more_rows = "update tried set number = number + 1 where id in ('more', 'taken')"
    other = connection_of(DRIVERS[0], bench.port, "begin", UPDATE.format(""), more_rows)
    with connection_of(driver, bench.port, "set innodb_lock_wait_timeout = 1") as connection, other as beside:
        yield bench.tried(driver.name, "a lock", "1205", lambda value: run(connection, UPDATE.format(value)))
        run(connection, "begin")

        def close_circle(value):
            run(connection, INSERT.format(value))
            run(connection, "update tried set number = 1 where id = 'other'")
            with meanwhile(lambda: run(beside, "update tried set number = 2 where id = 'other'")):
                comes_true(lambda: bench.ask("select count(*) from information_schema.innodb_lock_waits") != ((0,),))
                try:
                    run(connection, UPDATE.format(value))
                finally:
                    run(connection, "commit")

        yield bench.tried(driver.name, "a deadlock, and a commit after it", "1213", close_circle)


def broken_tries(bench, driver):
    """Connections that break, or whose time-out runs out, before the server has the request, and before the client has the answer."""
    for lost in (REQUESTS, ANSWERS):
        for breaks in (True, False):
            with CuttingRelay(bench.port) as relay, connection_of(driver, relay.port, read_timeout=TIME_OUT) as connection:
                relay.lose(lost, breaks)
                how = f"{lost} are lost, and the connection {'breaks' if breaks else 'stays'}"
                yield bench.tried(driver.name, how, "2013", lambda value: run(connection, INSERT.format(value)), lost == ANSWERS)


def stopped_tries(bench, driver, server):
    """A server that stops for longer than the time-out of the client."""
    with connection_of(driver, bench.port, read_timeout=TIME_OUT) as connection:

        def call(value):
            with stopped(server):
                run(connection, INSERT.format(value))

        yield bench.tried(driver.name, "the server stops for a while", "2013", call, True)


def ended_tries(bench, driver):
    """Connections that an administrator ends in a statement, and between two; the calls after that; and a rollback that hides the error."""
    with connection_of(driver, bench.port) as connection:

        def call(value):
            with meanwhile(lambda: bench.kill("connection", "info like '%seq_1_to_100000000%'")):
                run(connection, ENDLESS.format(value))

        yield bench.tried(driver.name, "ended in a statement", "2013", call)
        yield bench.tried(driver.name, "ended before", driver.closed, lambda value: run(connection, INSERT.format(value)))
    with CuttingRelay(bench.port) as relay, connection_of(driver, relay.port) as connection:
        relay.lose(ANSWERS, breaks=True)

        def write(value):
            try:
                run(connection, INSERT.format(value))
            except (pymysql.Error, MySQLdb.Error):
                connection.rollback()

        yield bench.tried(driver.name, "a rollback after the break", driver.closed, write, True)


def unconnected_tries(bench, driver):
    """Connections that can't be made."""
    with silent_port() as port:
        alone = connection_of(driver, port)
        yield bench.tried(driver.name, "nobody listens", driver.unreachable, lambda value: alone.__enter__())
    yield bench.tried(driver.name, "an unknown host", driver.unknown, lambda value: driver.connect(host="nowhere.invalid", user="root"))
    bench.ask(f"set global max_connections = {FEWEST_CONNECTIONS}")
    with contextlib.ExitStack() as ending:

        def connect(value):
            for _ in range(FEWEST_CONNECTIONS + 1):
                ending.enter_context(connection_of(driver, bench.port, user="writer"))

        yield bench.tried(driver.name, "too many connections", "1040", connect)
    bench.ask("set global max_connections = default")


def unread_tries(bench):
    """A call of mysqlclient before the answer of the one before was read. (PyMySQL reads it by itself.)"""
    with connection_of(DRIVERS[1], bench.port, cursorclass=MySQLdb.cursors.SSCursor) as connection:
        unread = connection.cursor()
        unread.execute("select * from tried")
        write = connection.cursor(MySQLdb.cursors.Cursor)
        yield bench.tried(DRIVERS[1].name, "an answer that is not read", "2014", lambda value: write.execute(INSERT.format(value)))


def member_tries(bench, driver, other):
    """A commit at a member of Galera after another member, at this port, changed the row."""
    with connection_of(driver, bench.port) as connection, connection_of(DRIVERS[0], other) as beside:

        def commit(value):
            run(connection, "begin")
            run(connection, UPDATE.format(value))
            run(beside, UPDATE.format(f"other {value}"))
            comes_true(lambda: bench.is_there(f"other {value}"))
            run(connection, "commit")

        yield bench.tried(driver.name, "a commit at a member of Galera", "1213", commit)


def lone_tries(bench, driver):
    """A call at a member of Galera that has lost the others. It is asked about its rows all the same."""
    with connection_of(driver, bench.port) as connection:
        yield bench.tried(driver.name, "a member of Galera alone", "1047", lambda value: run(connection, INSERT.format(value)))


def server_tries(bench, server):
    """All calls at the one server that are to end by errors."""
    for driver in DRIVERS:
        for some in (statement_tries, conflict_tries, broken_tries, ended_tries, unconnected_tries):
            yield from some(bench, driver)
        yield from stopped_tries(bench, driver, server)
    yield from unread_tries(bench)


def cluster_tries(bench, members):
    """All calls at the members of Galera that are to end by errors."""
    (_, _), (server, other) = members
    for driver in DRIVERS:
        yield from member_tries(bench, driver, other)
    bench.ask("set wsrep_dirty_reads = 1")
    with stopped(server):
        comes_true(lambda: not is_member(bench.port), START_SECONDS)
        for driver in DRIVERS:
            yield from lone_tries(bench, driver)


def outcome_fault(bench, ended):
    """What is wrong with writes, each with its error or none, if anything: the former are not done, the latter are, and both occur."""
    there = {value for (value,) in bench.ask("select value from tried")}
    kinds = Counter((error and name_of(error), value in there) for value, error in ended.items())
    is_right = {(name is None) == is_done for name, is_done in kinds} == {True} and len(kinds) > 1 and (None, True) in kinds
    return None if is_right else f"{dict(kinds)}"


def killed_fault(bench, driver):
    """What is wrong with writes whose statements are killed at any time, if anything."""
    rng, stopping, ended = random.Random(1), threading.Event(), {}
    with connection_of(driver, bench.port) as connection, connection_of(DRIVERS[0], bench.port) as other:
        number = run(connection, "select connection_id()")[0][0]

        def kill():
            while not stopping.wait(rng.uniform(0, LONGEST_PAUSE)):
                run(other, f"kill query {number}")

        with meanwhile(kill):
            for number_of_write in range(KILLS):
                value = f"{driver.name}.killed.{number_of_write}"
                ended[value] = raised(lambda: run(connection, LONG.format(value, 1 + rng.randrange(MOST_ROWS))))
            stopping.set()
    return outcome_fault(bench, ended)


def conflict_fault(bench, driver, other):
    """What is wrong with writes at a member of Galera while another member, at this port, changes the same row, if anything."""
    stopping, ended = threading.Event(), {}
    with connection_of(driver, bench.port) as connection, connection_of(DRIVERS[0], other) as beside:

        def change():
            while not stopping.is_set():
                raised(lambda: run(beside, "update tried set number = 1 - number where id = 'locked'"))

        def write(value):
            for statement in ("begin", INSERT.format(value), UPDATE.format(""), "commit"):
                run(connection, statement)

        with meanwhile(change):
            for number in range(CONFLICTS):
                value = f"{driver.name}.conflict.{number}"
                ended[value] = raised(lambda: write(value))
                raised(lambda: run(connection, "rollback"))
            stopping.set()
    return outcome_fault(bench, ended)


def transaction_fault(bench, driver, fails):
    """What is wrong with a transaction that is committed after a statement of it failed, if anything: what it did before stays done."""
    value = f"{driver.name}.{fails[:6]}"
    held = connection_of(DRIVERS[0], bench.port, "begin", UPDATE.format(""))
    with connection_of(driver, bench.port, "set innodb_lock_wait_timeout = 1", "begin", INSERT.format(value)) as connection, held:
        error = raised(lambda: run(connection, fails))
        run(connection, "commit")
    return None if error and bench.is_there(value) else f"{error!r}"


def broken_transaction_fault(bench, driver, last):
    """What is wrong with a transaction that loses its connection in the last of its statements, if anything. A commit is done."""
    value = f"{driver.name}.broken {last}"
    with CuttingRelay(bench.port) as relay, connection_of(driver, relay.port, "begin", INSERT.format(value)) as connection:
        relay.lose(ANSWERS, breaks=True)
        error = raised(lambda: run(connection, last))
    is_done = comes_true(lambda: bench.is_there(value), PATIENCE if last == "commit" else GRACE)
    return None if error and name_of(error) == "2013" and is_done == (last == "commit") else f"{error!r}, {is_done}"


def unchanged_fault(bench, driver):
    """What is wrong with statements that find no row to change, if anything."""
    with connection_of(driver, bench.port) as connection:
        counts = [
            run(connection, statement)
            for statement in (
                "update tried set value = 'unchanged' where id = 'other' and value = 'nothing'",
                "delete from tried where id = 'nothing'",
                "insert ignore into tried (id, value) values ('other', 'unchanged')",
            )
        ]
    return None if counts == [0, 0, 0] and not bench.is_there("unchanged") else f"{counts}"


def more_faults(bench):
    """What else the page says of one server, each with what is wrong with it, if anything."""
    for driver in DRIVERS:
        yield f"{driver.name}, statements that are killed", killed_fault(bench, driver)
        yield f"{driver.name}, no row", unchanged_fault(bench, driver)
        for fails in ("insert into tried (id, value) values ('taken', '')", UPDATE.format("")):
            yield f"{driver.name}, a commit after {fails}", transaction_fault(bench, driver, fails)
        for last in ("select * from tried", "commit"):
            yield f"{driver.name}, a transaction that breaks at {last}", broken_transaction_fault(bench, driver, last)


def tries(processes, faults):
    """All calls that are to end by errors. What else is wrong goes to a list of names and faults."""
    server, port = start(processes, "server")
    bench = Servers(port)
    faults.extend(more_faults(bench))
    yield from server_tries(bench, server)
    server.kill()
    members = start_members(processes)
    bench, other = Servers(members[0][1]), members[1][1]
    faults.extend((f"{driver.name}, writes at two members of Galera", conflict_fault(bench, driver, other)) for driver in DRIVERS)
    yield from cluster_tries(bench, members)


def all_cases():
    """All cases, over servers that are started for them."""
    faults = []
    with Processes(USER) as processes:
        yield from cases(SECTION, tries(processes, faults), name_of)
    for name, fault in faults:
        yield f"{SECTION}, {name}: {fault}", fault is None


if __name__ == "__main__":
    end_after(all_cases())
