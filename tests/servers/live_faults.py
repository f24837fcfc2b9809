#!/usr/bin/env python3
"""Has clients of an example make calls that are answered with faults, and says which are not recorded as is due.

    /usr/bin/python3 tests/servers/live_faults.py redis
    python3 tests/servers/live_faults.py etcd
    /usr/bin/python3 tests/servers/live_faults.py postgresql
    python3 tests/servers/live_faults.py zookeeper

No server of theirs is started: a socket of the loopback takes each request and answers what stands below. Where the fault is certain, the
write or the compare-and-set has to be recorded as `fail`, where it is not, as `lost`. ZooKeeper's clients are Java: their rule is asked about each exception.
"""

import argparse
import contextlib
import json
import os
import pathlib
import socket
import subprocess
import sys
import tempfile
import threading

import folders  # noqa: F401
from counting import end_after

ROOT = pathlib.Path(__file__).resolve().parents[2]
HOST, MOST_BYTES = "127.0.0.1", 65_536
CLOSED, SILENT, DONE = "closed", "silent", b"+OK\r\n"


def of_http(status, body):
    """The bytes of an answer."""
    return f"HTTP/1.1 {status} .\r\nContent-Length: {len(body)}\r\n\r\n{body}".encode()


def of_postgres(kind, body):
    """The bytes of a message."""
    return kind + (len(body) + 4).to_bytes(4, "big") + body


def postgres_says(severity, code):
    """The bytes of an error, after which the server waits for the next statement unless the error ends the connection."""
    fields = {b"S": severity, b"V": severity, b"C": code, b"M": "why"}
    error = of_postgres(b"E", b"".join(name + text.encode() + b"\0" for name, text in fields.items()) + b"\0")
    return error + (READY if severity == "ERROR" else b"")


READY = of_postgres(b"Z", b"I")
SETTINGS = {"server_version": "15.0", "client_encoding": "UTF8", "DateStyle": "ISO, MDY", "standard_conforming_strings": "on"}
SET = b"".join(of_postgres(b"S", f"{name}\0{value}\0".encode()) for name, value in SETTINGS.items())
HELLO = of_postgres(b"R", bytes(4)) + SET + READY
INSERTED = of_postgres(b"C", b"INSERT 0 1\0") + READY

# The answers to the requests of one call, and how it is recorded. Where there are none, nobody listens.
CASES = {
    "redis": {
        "a replica": ([b"-READONLY You can't write against a read only replica.\r\n"], "fail"),
        "no memory": ([b"-OOM command not allowed when used memory > 'maxmemory'.\r\n"], "fail"),
        "two replicas": ([DONE, b":2\r\n"], "end"),
        "one replica": ([DONE, b":1\r\n"], "lost"),
        "a wait that fails": ([DONE, b"-UNBLOCKED force unblock from blocking operation\r\n"], "lost"),
        "a wait that breaks": ([DONE, CLOSED], "lost"),
        "a break": ([CLOSED], "lost"),
        "silence": ([SILENT], "lost"),
        "nobody": ([], "lost"),
    },
    "etcd": {
        "done": ([of_http(200, '{"header":{"revision":"2"}}')], "end"),
        "no right form": ([of_http(400, '{"error":"etcdserver: key is not provided","code":3}')], "fail"),
        "a bad request without a code": ([of_http(400, "Bad Request")], "lost"),
        "no space": ([of_http(429, '{"error":"etcdserver: mvcc: database space exceeded","code":8}')], "lost"),
        "a time-out at the member": ([of_http(503, '{"error":"etcdserver: request timed out","code":14}')], "lost"),
        "an answer that is no JSON": ([of_http(200, "{")], "lost"),
        "a break": ([CLOSED], "lost"),
        "silence": ([SILENT], "lost"),
        "nobody": ([], "fail"),
    },
    "postgresql": {
        "done": ([HELLO, INSERTED], "end"),
        "a standby": ([HELLO, postgres_says("ERROR", "25006")], "fail"),
        "a time-out of the statement": ([HELLO, postgres_says("ERROR", "57014")], "fail"),
        "a conflict with what a standby applies": ([HELLO, postgres_says("ERROR", "40001")], "fail"),
        "no space": ([HELLO, postgres_says("ERROR", "53100")], "fail"),
        "an administrator": ([HELLO, postgres_says("FATAL", "57P01"), CLOSED], "lost"),
        "a crash": ([HELLO, postgres_says("WARNING", "57P02"), CLOSED], "lost"),
        "a break": ([HELLO, CLOSED], "lost"),
        "silence": ([HELLO, SILENT], "lost"),
        "too many connections": ([postgres_says("FATAL", "53300"), CLOSED], "fail"),
        "nobody": ([], "fail"),
    },
}
COMPARED = {
    "redis": {
        "two replicas": ([b":1\r\n", b":2\r\n"], "end"),
        "one replica": ([b":1\r\n", b":1\r\n"], "lost"),
        "another value": ([b":0\r\n"], "fail"),
        "a replica": ([b"-READONLY You can't write against a read only replica. script: 1, on @user_script:3.\r\n"], "fail"),
        "a break": ([CLOSED], "lost"),
        "silence": ([SILENT], "lost"),
    },
    "etcd": {
        "done": ([of_http(200, '{"header":{"revision":"2"},"succeeded":true,"responses":[{"response_put":{}}]}')], "end"),
        "another value": ([of_http(200, '{"header":{"revision":"2"}}')], "fail"),
        "no right form": ([of_http(400, '{"error":"etcdserver: key is not provided","code":3}')], "fail"),
        "no space": ([of_http(429, '{"error":"etcdserver: mvcc: database space exceeded","code":8}')], "lost"),
        "a break": ([CLOSED], "lost"),
        "silence": ([SILENT], "lost"),
        "nobody": ([], "fail"),
    },
}
OF_ZOOKEEPER = {
    "fail": ("NONODE", "NODEEXISTS", "BADVERSION", "NOTEMPTY", "NOAUTH", "INVALIDACL", "BADARGUMENTS"),
    "lost": ("CONNECTIONLOSS", "OPERATIONTIMEOUT", "REQUESTTIMEOUT", "SESSIONEXPIRED", "SESSIONMOVED", "SYSTEMERROR", "AUTHFAILED"),
}
ASKED = """
    import org.apache.zookeeper.KeeperException;
    class Asked {
        public static void main(String[] codes) {
            for (String code : codes)
                System.out.println(Clients.isCertain(KeeperException.create(KeeperException.Code.valueOf(code))) ? "fail" : "lost");
            System.out.println(Clients.isCertain(new IllegalStateException()) ? "fail" : "lost");
        }
    }
"""


def serve(listening, answers):
    """Takes a connection, and gives these answers to the requests that come. Then it waits until the client leaves."""
    with contextlib.suppress(OSError):
        taken, _ = listening.accept()
        with taken:
            for one in answers:
                taken.recv(MOST_BYTES)
                if one == CLOSED:
                    return
                if one != SILENT:
                    taken.sendall(one)
            taken.recv(MOST_BYTES)


def write_to_redis(port, client):
    """Makes a recorded write that waits for two replicas."""
    from clients import write
    from servers import Node, connect

    with connect(Node(None, port)) as store:
        client.write("key", "value", lambda: write(store, "key", "value", 2))


def compare_in_redis(port, client):
    """Makes a recorded compare-and-set that waits for two replicas."""
    from clients import compare_and_set
    from servers import Node, connect

    with connect(Node(None, port)) as store:
        client.compare_and_set("key", "value", lambda: compare_and_set(store, "key", "before", "value", 2))


def write_to_etcd(port, client):
    """Makes a recorded write."""
    from gateway import Gateway

    with Gateway(port) as gateway:
        client.write("key", "value", lambda: gateway.put("key", "value"))


def compare_in_etcd(port, client):
    """Makes a recorded compare-and-set."""
    from gateway import Gateway

    with Gateway(port) as gateway:
        client.compare_and_set("key", "value", lambda: gateway.compare_and_set("key", "before", "value"))


def write_to_postgresql(port, client):
    """Makes a recorded write by a client that waits for half a second."""
    import store

    store.TIME_OUT = 0.5
    with store.Store(port) as one:
        client.write("key", "value", lambda: one.put("key", "value"))


CALLS = {
    "redis": {"write": (write_to_redis, CASES["redis"]), "compare-and-set": (compare_in_redis, COMPARED["redis"])},
    "etcd": {"write": (write_to_etcd, CASES["etcd"]), "compare-and-set": (compare_in_etcd, COMPARED["etcd"])},
    "postgresql": {"write": (write_to_postgresql, CASES["postgresql"])},
}


def rule_of(name):
    """Which exceptions of an example are certain."""
    if name == "postgresql":
        from store import is_certain

        return is_certain
    from clients import CERTAIN

    return CERTAIN


def recorded_as(name, call, answers, log):
    """With which event a call of an example ends that is answered so."""
    from causal_judge import Recorder

    with socket.create_server((HOST, 0)) as listening:
        port = listening.getsockname()[1]
        if not answers:
            listening.close()
        threading.Thread(target=serve, args=(listening, answers), daemon=True).start()
        with Recorder(log) as recorder, contextlib.suppress(Exception):
            call(port, recorder.client("alice", fails=rule_of(name)))
    return json.loads(log.read_text(encoding="utf-8").splitlines()[-1])[0]


def cases(name, room):
    """The cases of an example."""
    for word, (call, answered) in CALLS[name].items():
        for case, (answers, due) in answered.items():
            found = recorded_as(name, call, answers, pathlib.Path(room) / f"{word} {case}.jsonl")
            yield f"{name}, {word}, {case}: {found}, and not {due}", found == due


def zookeeper_cases(room):
    """Of each exception of ZooKeeper how a call that ends by it is recorded."""
    from servers import JARS, SOURCES

    asked, jars = pathlib.Path(room, "Asked.java"), os.environ.get("CLASSPATH") or JARS
    asked.write_text(ASKED, encoding="ascii")
    subprocess.run(["javac", "-cp", jars, "-d", room, *SOURCES, asked], check=True)
    due = {code: outcome for outcome, codes in OF_ZOOKEEPER.items() for code in codes}
    done = subprocess.run(["java", "-cp", f"{jars}:{room}", "Asked", *due], check=True, stdout=subprocess.PIPE, text=True)
    for (code, wanted), found in zip({**due, "another exception": "lost"}.items(), done.stdout.split(), strict=True):
        yield f"zookeeper, {code}: {found}, and not {wanted}", found == wanted


def main():
    parser = argparse.ArgumentParser(description=__doc__, formatter_class=argparse.RawDescriptionHelpFormatter)
    parser.add_argument("example", choices=(*CASES, "zookeeper"))
    name = parser.parse_args().example
    sys.path += [str(ROOT / "python"), str(ROOT / "examples" / "live"), str(ROOT / "examples" / name)]
    with tempfile.TemporaryDirectory() as room:
        end_after(zookeeper_cases(room) if name == "zookeeper" else cases(name, room))


if __name__ == "__main__":
    main()
