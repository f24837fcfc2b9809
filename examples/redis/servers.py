"""A primary of redis and its replicas on the loopback, with a relay between each replica and the primary."""

from __future__ import annotations

import contextlib
from collections.abc import Iterator, Sequence
from typing import NamedTuple

import redis
from processes import HOST, Processes, Server, StartError
from redis.backoff import NoBackoff
from redis.retry import Retry
from relay import Relay
from workload import FIRST_VALUE

TIME_OUT, PATIENCE = 0.03, 20.0
FRONT_DELAY = 0.0005
WITHOUT_DISK = ("--save", "", "--appendonly", "no", "--repl-diskless-sync", "yes", "--repl-diskless-sync-delay", "0")


class Node(NamedTuple):
    """A server of redis, and the port at which it is called."""

    server: Server
    port: int


class Stores(NamedTuple):
    """The servers that run, the relays through which the replicas follow the primary, and one through which clients may call it."""

    primary: Node
    replicas: tuple[Node, ...]
    relays: tuple[Relay, ...]
    front: Relay

    def behind_front(self) -> Node:
        """The primary, as it is called through the relay for clients."""
        return Node(self.primary.server, self.front.port)


def connect(node: Node, time_out: float = TIME_OUT, driver_retries: int = 0) -> redis.Redis[str]:
    """A client of a server: one connection, made by the first call, with time-outs. Only if told so the driver tries again by itself."""
    return redis.Redis(
        HOST,
        node.port,
        socket_timeout=time_out,
        socket_connect_timeout=time_out,
        retry=Retry(NoBackoff(), driver_retries) if driver_retries else None,
        retry_on_timeout=driver_retries > 0,
        max_connections=1,
        decode_responses=True,
    )


@contextlib.contextmanager
def started(delays: Sequence[float]) -> Iterator[Stores]:
    """Starts a primary, and a replica for each of these delays of its relay, in seconds. Raises StartError where that fails.

    At the end of the context, however it ends, the servers are killed and what they wrote is removed.
    """
    with contextlib.ExitStack() as ending:
        processes = ending.enter_context(Processes())
        primary = _start(processes, "primary")
        front, *relays = [ending.enter_context(Relay(primary.port, delay)) for delay in (FRONT_DELAY, *delays)]
        names = [f"replica_{number + 1}" for number in range(len(relays))]
        replicas = [_start(processes, name, "--replicaof", HOST, str(relay.port)) for name, relay in zip(names, relays)]
        yield Stores(primary, tuple(replicas), tuple(relays), front)


def prepare(stores: Stores, keys: Sequence[str]) -> dict[str, str]:
    """Writes a first value to each key, and waits until all replicas have it. Gives these values.

    Each is written once: a try that came late would bring the first value back in the middle of the run. Raises StartError where one fails.
    """
    values, many = {key: FIRST_VALUE for key in keys}, len(stores.replicas)
    try:
        with connect(stores.primary, PATIENCE) as store:
            for key, value in values.items():
                store.set(key, value)
            if store.wait(many, int(PATIENCE * 500)) < many:
                raise StartError("a replica does not follow the primary")
    except redis.RedisError as fault:
        raise StartError(f"the primary took no first value: {fault}") from fault
    return values


def _start(processes: Processes, name: str, *words: str) -> Node:
    """Starts a server of redis, which writes nothing to the disk and looks at its clock 100 times a second."""
    port = processes.free_port()
    node = Node(processes.start(name, ["redis-server", "--port", str(port), "--bind", HOST, "--hz", "100", *WITHOUT_DISK, *words]), port)
    node.server.wait_until(lambda: _is_up(node))
    return node


def _is_up(node: Node) -> bool:
    """Whether a server answers, and follows its primary if it has one."""
    try:
        with connect(node) as store:
            said = store.info("replication")
    except redis.RedisError:
        return False
    return bool(said["role"] == "master" or said["master_link_status"] == "up")
