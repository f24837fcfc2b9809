"""Three servers of ZooKeeper on the loopback, and the clients that call them: Java, compiled when the servers start."""

from __future__ import annotations

import contextlib
import os
import pathlib
import socket
from collections.abc import Iterator
from typing import NamedTuple

from processes import HOST, Processes, Server, StartError

SERVERS = 3
JARS = "/usr/share/java/zookeeper.jar:/usr/share/java/slf4j-simple.jar"
QUICK = ("-XX:+UseSerialGC", "-XX:TieredStopAtLevel=1", "-Xmx96m", "-Dorg.slf4j.simpleLogger.defaultLogLevel=error")
MAIN = "org.apache.zookeeper.server.quorum.QuorumPeerMain"
HERE = pathlib.Path(__file__).resolve().parent
SOURCES = (HERE.parent / "java" / "Recorder.java", HERE / "Clients.java")
SETTINGS = f"""
tickTime=100
initLimit=50
dataDir=data
clientPortAddress={HOST}
maxClientCnxns=0
maxSessionTimeout=10000
forceSync=no
admin.enableServer=false
4lw.commands.whitelist=srvr
"""


class Node(NamedTuple):
    """A server, and the port at which clients call it."""

    server: Server
    port: int


class Ensemble(NamedTuple):
    """The servers that run, and the folder of the clients."""

    nodes: tuple[Node, ...]
    processes: Processes
    jars: str

    def wait(self) -> None:
        """Waits until each server answers, and is the leader or follows one. Raises StartError where one does not in time."""
        for node in self.nodes:
            node.server.wait_until(lambda: _is_up(node.port))

    def run_clients(self, mode: str, seed: int, log: pathlib.Path) -> None:
        """Has all clients of a run make their calls, which write a log. Raises StartError where they end by a fault."""
        ports = [str(node.port) for node in self.nodes]
        words = ["java", *QUICK, "-cp", f"{self.jars}:classes", "Clients", mode, str(seed), str(log.resolve()), *ports]
        self.processes.run("clients", words)


@contextlib.contextmanager
def started(patience: int) -> Iterator[Ensemble]:
    """Compiles the clients and starts the servers. Raises StartError where that fails.

    A follower that hears nothing of its leader for so many ticks of 100 milliseconds looks for another one. At the end of the context,
    however it ends, the servers are killed and what they wrote is removed.
    """
    with Processes() as processes:
        jars = os.environ.get("CLASSPATH") or JARS
        _compile(processes, jars)
        numbers = range(1, SERVERS + 1)
        peers = "".join(f"server.{number}={HOST}:{processes.free_port()}:{processes.free_port()}\n" for number in numbers)
        settings = f"{SETTINGS}syncLimit={patience}\n{peers}"
        ensemble = Ensemble(tuple(_start(processes, number, settings, jars) for number in numbers), processes, jars)
        ensemble.wait()
        yield ensemble


def _compile(processes: Processes, jars: str) -> None:
    """Compiles the clients. Raises StartError where that fails, as where these jars are not those of ZooKeeper."""
    try:
        processes.run("clients", ["javac", "-cp", jars, "-d", "classes", *map(str, SOURCES)])
    except StartError as fault:
        raise StartError(f"{fault}\nIs ZooKeeper installed? It is looked for in {jars}") from fault


def _start(processes: Processes, number: int, settings: str, jars: str) -> Node:
    """Starts a server, whose folder has its settings and its number."""
    name, port = f"server_{number}", processes.free_port()
    data = processes.room(name) / "data"
    data.mkdir()
    (data / "myid").write_text(f"{number}\n")
    (data.parent / "zoo.cfg").write_text(f"{settings}clientPort={port}\n")
    return Node(processes.start(name, ["java", *QUICK, "-cp", jars, MAIN, "zoo.cfg"]), port)


def _is_up(port: int) -> bool:
    """Whether a server answers, and is the leader or follows one."""
    with contextlib.suppress(OSError), socket.create_connection((HOST, port), timeout=1) as asking:
        asking.sendall(b"srvr")
        said = b"".join(iter(lambda: asking.recv(4096), b""))
        return b"Mode: leader" in said or b"Mode: follower" in said
    return False
