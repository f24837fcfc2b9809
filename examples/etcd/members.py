"""Three members of etcd on the loopback."""

from __future__ import annotations

import contextlib
import http.client
import json
from collections.abc import Iterator, Sequence
from typing import NamedTuple

from gateway import Gateway, NotDone, NotKnown
from processes import HOST, Processes, Server, StartError
from workload import FIRST_VALUE

MEMBERS = 3
PATIENCE = 10.0
QUIET = ("--logger", "zap", "--log-level", "error")
CLOCKS = ("--heartbeat-interval", "50", "--election-timeout", "500")


class Member(NamedTuple):
    """A member that runs, and the port at which clients call it."""

    server: Server
    port: int


@contextlib.contextmanager
def started() -> Iterator[tuple[Member, ...]]:
    """Starts the members of a cluster. Raises StartError where that fails.

    At the end of the context, however it ends, the members are killed and what they wrote is removed.
    """
    with Processes() as processes:
        peers = {f"member_{number + 1}": _address(processes.free_port()) for number in range(MEMBERS)}
        cluster = ",".join(f"{name}={peer}" for name, peer in peers.items())
        ports = {name: processes.free_port() for name in peers}
        words = {name: _words(name, _address(ports[name]), peer, cluster) for name, peer in peers.items()}
        members = tuple(Member(processes.start(name, words[name]), ports[name]) for name in peers)
        wait_for(members)
        yield members


def wait_for(members: Sequence[Member]) -> None:
    """Waits until each member answers and follows a leader. Raises StartError where one does not within half a minute."""
    for member in members:
        member.server.wait_until(lambda: _is_up(member))


def prepare(members: Sequence[Member], keys: Sequence[str]) -> dict[str, str]:
    """Writes a first value to each key, and waits until every member has it. Gives these values.

    Each is written once: a try that came late would bring the first value back in the middle of the run. Raises StartError where one fails.
    """
    wait_for(members)
    with contextlib.ExitStack() as ending:
        gateways = [ending.enter_context(Gateway(member.port, PATIENCE)) for member in members]
        try:
            for key in keys:
                gateways[0].put(key, FIRST_VALUE)
            for key in keys:
                for member, gateway in zip(members, gateways):
                    member.server.wait_until(lambda: gateway.get(key, is_serializable=True) == FIRST_VALUE)
        except (NotDone, NotKnown) as fault:
            raise StartError(f"a member took no first value: {fault}") from fault
    return {key: FIRST_VALUE for key in keys}


def _address(port: int) -> str:
    return f"http://{HOST}:{port}"


def _words(name: str, own: str, peer: str, cluster: str) -> list[str]:
    """The command line of a member."""
    addresses = ["--listen-client-urls", own, "--advertise-client-urls", own]
    addresses += ["--listen-peer-urls", peer, "--initial-advertise-peer-urls", peer, "--initial-cluster", cluster]
    return ["etcd", "--name", name, "--data-dir", "data", *addresses, *CLOCKS, *QUIET]


def _is_up(member: Member) -> bool:
    """Whether a member answers, and knows of a leader."""
    connection = http.client.HTTPConnection(HOST, member.port, timeout=1)
    try:
        connection.request("GET", "/health")
        return bool(json.load(connection.getresponse())["health"] == "true")
    except (OSError, http.client.HTTPException, ValueError):
        return False
    finally:
        connection.close()
