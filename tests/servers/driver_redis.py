#!/usr/bin/python3
"""Provokes errors of redis-py, with functions and with coroutines, at real servers of redis, and looks whether writes took effect.

    /usr/bin/python3 tests/servers/driver_redis.py

A primary, replicas and a server with a file that it can't write run on the loopback. Errors and effects have to be those of docs/drivers.md
(driver_page.py). driver_errors.py says what has to be installed.
"""

import asyncio
import contextlib
import functools
from typing import Callable, NamedTuple

import redis
import redis.asyncio

import folders  # noqa: F401
from counting import end_after
from cutting_relay import ANSWERS, REQUESTS, CuttingRelay
from driver_bench import HOST, PATIENCE, Bench, comes_true, meanwhile, raised, silent_port, stopped
from driver_page import cases
from processes import Processes, Server

LOOP = asyncio.new_event_loop()
TIME_OUT, MANY, LOAD_MICROSECONDS = 0.5, 2_000, 300
NO_PASSWORD, PASSWORD, WEAK = "", "secret", "weak"
QUIET = ("--bind", HOST, "--appendonly", "no", "--hz", "100", "--repl-diskless-sync", "yes", "--repl-diskless-sync-delay", "0")
WITHOUT_DISK = ("--save", "")
WRITE_AND_FAIL = "redis.call('SET', KEYS[1], ARGV[1]) return redis.call('APPEND', 'list', 'x')"


class Driver(NamedTuple):
    """A driver: its class of clients, and what gives the answer of a call of it."""

    name: str
    client: type
    answer: Callable

    @contextlib.contextmanager
    def client_of(self, port, **more):
        """A client of a server, with one connection, which it makes for the first command. It tries nothing again."""
        how = {"socket_timeout": TIME_OUT, "socket_connect_timeout": TIME_OUT, "max_connections": 1, **more}
        client = self.client(host=HOST, port=port, **how)
        try:
            yield client
        finally:
            self.answer(client.close())

    def run(self, client, *words):
        """What a command answers."""
        return self.answer(client.execute_command(*words))


DRIVERS = (Driver("redis-py", redis.Redis, lambda found: found), Driver("redis.asyncio", redis.asyncio.Redis, LOOP.run_until_complete))


def name_of(error):
    """The name of an error in the table: its class."""
    return type(error).__name__


class Node(NamedTuple):
    """A server, its port, and a client that looks after it."""

    server: Server
    port: int
    asking: redis.Redis


def start(processes, name, *more):
    """Starts a server. Gives it once it answers, be it by an error, as while it loads its data."""
    port = processes.free_port()
    server = processes.start(name, ["redis-server", "--port", str(port), *QUIET, *more])
    asking = redis.Redis(HOST, port, socket_timeout=PATIENCE, decode_responses=True)
    server.wait_until(lambda: type(raised(asking.ping)) not in (redis.ConnectionError, redis.TimeoutError))
    return Node(server, port, asking)


class Nodes(Bench):
    """Servers, of which the first is called."""

    def __init__(self, *nodes):
        super().__init__()
        self.nodes, self.primary = nodes, nodes[0]

    def ask(self, *words):
        return self.primary.asking.execute_command(*words)

    def is_there(self, value):
        """Whether a key of any of them has this name, or a text or a list has it in it."""
        return any(self.is_at(value, node.asking) for node in self.nodes)

    def is_at(self, value, asking):
        texts = (asking.get(key) if asking.type(key) == "string" else "".join(asking.lrange(key, 0, -1)) for key in asking.keys())
        return bool(asking.exists(value)) or any(value in (text or "") for text in texts)

    @contextlib.contextmanager
    def configured(self, name, value, usual):
        """The first one has a setting meanwhile."""
        self.ask("CONFIG", "SET", name, value)
        try:
            yield
        finally:
            self.ask("CONFIG", "SET", name, usual)

    def try_command(self, driver, name, *words, port=None, **more):
        """Tries a command, in which {0} is the value."""
        with driver.client_of(port or self.primary.port, **more) as client:
            return self.tried(driver.name, " ".join(words), name, lambda value: driver.run(client, *(word.format(value) for word in words)))


class Servers(Nodes):
    """A primary, a replica that takes writes of its own and one that takes none, and one whose primary is gone."""

    def __init__(self, processes):
        primary = start(processes, "primary", *WITHOUT_DISK, "--busy-reply-threshold", "10")
        followed = ("--replicaof", HOST, str(primary.port))
        alone = ("--replicaof", HOST, "1", "--replica-read-only", "no", "--replica-serve-stale-data", "no")
        super().__init__(primary, start(processes, "writable", *WITHOUT_DISK, *followed, "--replica-read-only", "no"))
        self.replica, self.orphan = start(processes, "replica", *WITHOUT_DISK, *followed), start(processes, "orphan", *WITHOUT_DISK, *alone)
        self.ask("RPUSH", "list", "first")
        self.ask("SET", "text", "first")
        self.ask("ACL", "SETUSER", WEAK, "on", f">{PASSWORD}", "~free:*", "+@all")


def command_tries(bench, driver):
    """Commands that a server refuses by themselves."""
    yield bench.try_command(driver, "ResponseError", "LPUSH", "text", "{0}")
    yield bench.try_command(driver, "ResponseError", "SET", "list", "{0}", "GET")
    yield bench.try_command(driver, "ResponseError", "SET", "{0}")
    yield bench.try_command(driver, "ResponseError", "NOTHING", "{0}")
    yield bench.try_command(driver, "NoScriptError", "EVALSHA", "0" * 40, "1", "{0}")
    yield bench.try_command(driver, "ReadOnlyError", "SET", "{0}", "v", port=bench.replica.port)
    yield bench.try_command(driver, "ResponseError", "SET", "{0}", "v", port=bench.orphan.port)
    yield bench.try_command(driver, "NoPermissionError", "SET", "{0}", "v", username=WEAK, password=PASSWORD)
    yield bench.try_command(driver, "NoPermissionError", "DEL", "free:text", "{0}", username=WEAK, password=PASSWORD)
    for name, value, usual in (("maxmemory", "1", "0"), ("min-replicas-to-write", "3", "0")):
        with bench.configured(name, value, usual):
            yield bench.try_command(driver, "ResponseError", "SET", "{0}", "v")
    with driver.client_of(bench.primary.port) as client:
        yield bench.tried(driver.name, "nothing that is encoded", "DataError", lambda value: driver.run(client, "SET", value, None))
        yield bench.tried(driver.name, "a list", "DataError", lambda value: driver.run(client, "SET", value, [value]))


def password_tries(bench, driver):
    """Clients without a password, and with a wrong one."""
    yield bench.try_command(driver, "ResponseError", "SET", "{0}", "v", username=WEAK, password="wrong")
    with bench.configured("requirepass", PASSWORD, NO_PASSWORD):
        yield bench.try_command(driver, "AuthenticationError", "SET", "{0}", "v")


def busy_tries(bench, driver):
    """A server whose script does not end."""
    running, value = redis.Redis(HOST, bench.primary.port, socket_timeout=PATIENCE), bench.value(driver.name)
    with meanwhile(lambda: raised(lambda: running.eval("while true do end", 0))), driver.client_of(bench.primary.port) as client:
        comes_true(lambda: isinstance(raised(bench.primary.asking.ping), redis.ResponseError))
        error = raised(lambda: driver.run(client, "SET", value, "v"))
        bench.ask("SCRIPT", "KILL")
    yield bench.ended(driver.name, "a script that does not end", "ResponseError", value, error)


def transaction_tries(bench, driver):
    """Transactions by hand, of which a command is refused when it is queued."""
    with driver.client_of(bench.primary.port, single_connection_client=True) as client:

        def abort(value):
            driver.run(client, "MULTI")
            driver.run(client, "SET", value, "v")
            raised(lambda: driver.run(client, "NOTHING"))
            driver.run(client, "EXEC")

        yield bench.tried(driver.name, "EXEC after a command that was refused", "ExecAbortError", abort)


def watch_tries(bench, driver):
    """Transactions that watch a key: which another client writes, and whose connection breaks at EXEC."""

    def watched(client, value, between):
        pipe = client.pipeline()
        driver.answer(pipe.watch("watched"))
        pipe.multi()
        pipe.set(value, "v")
        between()
        driver.answer(pipe.execute())

    with driver.client_of(bench.primary.port) as client:
        call = functools.partial(watched, client, between=lambda: bench.ask("INCR", "watched"))
        yield bench.tried(driver.name, "a watched key changes", "WatchError", call)
    for lost in (REQUESTS, ANSWERS):
        with CuttingRelay(bench.primary.port) as relay, driver.client_of(relay.port) as client:
            call = functools.partial(watched, client, between=lambda: relay.lose(lost, breaks=True))
            yield bench.tried(driver.name, f"{lost} are lost at EXEC", "WatchError", call, lost == ANSWERS)


def broken_tries(bench, driver):
    """Connections that break, or whose time-out runs out, before the server has the request, and before the client has the answer."""
    for lost in (REQUESTS, ANSWERS):
        for breaks, name in ((True, "ConnectionError"), (False, "TimeoutError")):
            with CuttingRelay(bench.primary.port) as relay, driver.client_of(relay.port) as client:
                driver.run(client, "PING")
                relay.lose(lost, breaks)
                how = f"{lost} are lost, and the connection {'breaks' if breaks else 'stays'}"
                yield bench.tried(driver.name, how, name, lambda value: driver.run(client, "SET", value, "v"), lost == ANSWERS)


def stopped_tries(bench, driver):
    """A server that stops for longer than the time-out of the client, and one whose clients have to wait, of which one is killed."""
    with driver.client_of(bench.primary.port) as client:
        driver.run(client, "PING")

        def late(value):
            with stopped(bench.primary.server):
                driver.run(client, "SET", value, "v")

        yield bench.tried(driver.name, "the server stops for a while", "TimeoutError", late, True)
    with driver.client_of(bench.primary.port, socket_timeout=PATIENCE) as client:
        number = driver.run(client, "CLIENT", "ID")

        def kill():
            comes_true(lambda: bench.ask("INFO", "clients")["blocked_clients"])
            bench.ask("CLIENT", "KILL", "ID", number)

        def killed(value):
            with meanwhile(kill):
                driver.run(client, "SET", value, "v")

        bench.ask("CLIENT", "PAUSE", int(1000 * PATIENCE), "WRITE")
        yield bench.tried(driver.name, "killed while it waits", "ConnectionError", killed)
        bench.ask("CLIENT", "UNPAUSE")


def unconnected_tries(bench, driver):
    """Connections that can't be made."""
    with silent_port() as port:
        yield bench.try_command(driver, "ConnectionError", "SET", "{0}", "v", port=port)


def disk_tries(processes):
    """A server that can't save its data, since a folder has the name of its file; and, once it could, one that loads them."""
    saving = start(processes, "saving", "--save", "1 1", "--dbfilename", "data")
    folder = processes.room("saving") / "data"
    folder.mkdir()
    saving.asking.mset({f"key {number}": "v" for number in range(MANY)})
    comes_true(lambda: saving.asking.info("persistence")["rdb_last_bgsave_status"] == "err")
    for driver in DRIVERS:
        yield Nodes(saving).try_command(driver, "ResponseError", "SET", "{0}", "v")
    folder.rmdir()
    saving.asking.save()
    saving.server.kill()
    slow = ("--key-load-delay", str(LOAD_MICROSECONDS), "--loading-process-events-interval-bytes", "1024")
    loading = Nodes(start(processes, "saving", *WITHOUT_DISK, "--dbfilename", "data", *slow))
    values = [loading.value(driver.name) for driver in DRIVERS]
    errors = []
    for driver, value in zip(DRIVERS, values):
        with driver.client_of(loading.primary.port) as client:
            errors.append(raised(lambda: driver.run(client, "SET", value, "v")))
    comes_true(lambda: raised(loading.primary.asking.ping) is None)
    for driver, value, error in zip(DRIVERS, values, errors):
        yield loading.ended(driver.name, "a server that loads its data", "BusyLoadingError", value, error)


def tries(bench, processes):
    """All calls that are to end by errors."""
    for driver in DRIVERS:
        for some in (command_tries, password_tries, busy_tries, transaction_tries, watch_tries):
            yield from some(bench, driver)
        for some in (broken_tries, stopped_tries, unconnected_tries):
            yield from some(bench, driver)
    yield from disk_tries(processes)


def doubtful_fault(bench, driver, how, write, port):
    """What is wrong with a call whose error, by its class, seems to say that nothing was done, if anything: it was done."""
    value = bench.value(driver.name)
    with driver.client_of(port) as client:
        error = raised(lambda: write(client, value))
    return None if name_of(error) == "ResponseError" and bench.is_there(value) else f"{error!r}, {bench.is_there(value)}"


def piped(driver, client, value, is_transaction, **how):
    """Makes a pipeline of a write and of a command that is refused."""
    pipe = client.pipeline(transaction=is_transaction)
    pipe.set(value, "v")
    pipe.append("list", "x")
    return driver.answer(pipe.execute(**how))


def doubtful_writes(bench, driver):
    """Writes that are done though they end by a ResponseError, and the port of their server."""

    def written_alone(client, value):
        driver.run(client, "SET", value, "v")
        driver.run(client, "WAIT", 1, 1)

    yield "WAIT", written_alone, bench.nodes[1].port
    yield "EVAL", lambda client, value: driver.run(client, "EVAL", WRITE_AND_FAIL, 1, value, "v"), bench.primary.port
    yield "a MULTI", lambda client, value: piped(driver, client, value, True), bench.primary.port
    yield "a pipeline", lambda client, value: piped(driver, client, value, False), bench.primary.port


def answers_fault(bench, driver):
    """What is wrong with answers that are no exceptions, if anything."""
    value, other = bench.value(driver.name), bench.value(driver.name)
    with driver.client_of(bench.primary.port) as client:
        asked = client.set("text", value, nx=True), client.set(value, value, xx=True), client.delete(value)
        found = [driver.answer(one) for one in asked]
        each = [type(one).__name__ for one in piped(driver, client, other, True, raise_on_error=False)]
    is_right = found == [None, None, 0] and each == ["bool", "ResponseError"] and not bench.is_there(value)
    return None if is_right else f"{found}, {each}"


def more_faults(bench):
    """What else the page says, each with what is wrong with it, if anything."""
    for driver in DRIVERS:
        for how, write, port in doubtful_writes(bench, driver):
            yield f"{driver.name}, {how} that fails and is done", doubtful_fault(bench, driver, how, write, port)
        yield f"{driver.name}, answers", answers_fault(bench, driver)


def all_cases():
    """All cases, over servers that are started for them."""
    with Processes() as processes:
        bench = Servers(processes)
        for name, fault in more_faults(bench):
            yield f"Redis, {name}: {fault}", fault is None
        yield from cases("Redis", tries(bench, processes), name_of, redis=redis)


if __name__ == "__main__":
    end_after(all_cases())
