#!/usr/bin/python3
"""Provokes errors of python-etcd3, and answers of the JSON gateway, at real members of etcd, and looks whether writes took effect.

    /usr/bin/python3 tests/servers/driver_etcd.py

A member alone and a cluster of three run on the loopback. Errors and effects have to be those of docs/drivers.md (driver_page.py).
driver_errors.py says what has to be installed.
"""

import base64
import contextlib
import http.client
import json
import sys
from types import SimpleNamespace
from typing import Callable, NamedTuple

import etcd3

import folders  # noqa: F401
from counting import end_after
from cutting_relay import ANSWERS, REQUESTS, CuttingRelay
from driver_bench import HOST, ROOT, Bench, comes_true, raised, silent_port, stopped
from driver_page import cases
from processes import Processes

sys.path.insert(0, str(ROOT / "examples" / "etcd"))

from members import started, wait_for  # noqa: E402

TIME_OUT, LONG, LARGE, QUOTA, MOST_FILLS = 0.5, 30.0, 2_000_000, 3_000_000, 100
QUIET = ("--logger", "zap", "--log-level", "error", "--quota-backend-bytes", str(QUOTA))
NO_LEASE = 12345
# The codes that python-etcd3 hides behind exceptions of its own.
CODES = {"InternalServerError": 13, "ConnectionFailedError": 14, "ConnectionTimeoutError": 4, "PreconditionFailedError": 9}
SET_UP = (
    ("auth/user/add", {"name": "root", "password": "root"}),
    ("auth/role/add", {"name": "root"}),
    ("auth/user/grant", {"user": "root", "role": "root"}),
    ("auth/user/add", {"name": "stranger", "password": "stranger"}),
    ("auth/enable", {}),
)


class Answered(Exception):
    """The gateway answered by a code of gRPC, which this has as an error of gRPC has it."""

    def __init__(self, code, text):
        super().__init__(code, text)
        self.number = code

    def code(self):
        return SimpleNamespace(value=(self.number, self.args[1]))


class Gateway:
    """What a client calls over the JSON gateway of a member."""

    def __init__(self, port, token=None, time_out=LONG):
        self.port, self.headers, self.time_out = port, {"Authorization": token} if token else {}, time_out

    def ask(self, path, **request):
        """What the gateway answers. Raises Answered."""
        with contextlib.closing(http.client.HTTPConnection(HOST, self.port, timeout=self.time_out)) as connection:
            connection.request("POST", f"/v3/{path}", json.dumps(request), self.headers)
            response = connection.getresponse()
            answer = json.load(response)
        if response.status != http.client.OK:
            raise Answered(answer["code"], answer["error"])
        return answer

    def put(self, key, value, lease=0):
        self.ask("kv/put", key=coded(key), value=coded(value), lease=lease)

    def put_twice(self, key, value):
        put = {"request_put": {"key": coded(key), "value": coded(value)}}
        self.ask("kv/txn", success=[put, put])


class Client:
    """What a client calls by python-etcd3."""

    def __init__(self, port, token=None, time_out=LONG):
        self.client = etcd3.client(HOST, port, timeout=time_out)
        self.client.metadata = (("token", token),) if token else None

    def put(self, key, value, lease=0):
        self.client.put(key, value, lease=lease or None)

    def put_twice(self, key, value):
        put = self.client.transactions.put(key, value)
        self.client.transaction(compare=[], success=[put, put], failure=[])


class Driver(NamedTuple):
    """A driver: its name, and what connects to a port with a token and a time-out."""

    name: str
    connect: Callable


DRIVERS = (Driver("python-etcd3", Client), Driver("gateway", Gateway))


def coded(text):
    """A text as the gateway takes it."""
    return base64.b64encode(text.encode()).decode()


def name_of(error):
    """The name of an error in the table: its code."""
    code = getattr(error, "code", None)
    return str(code().value[0] if callable(code) else CODES.get(type(error).__name__, repr(error)))


class Members(Bench):
    """A member that is called, and a token of who may do all there, where such a token is wanted."""

    def __init__(self, port, token=None):
        super().__init__()
        self.port, self.token = port, token

    def is_there(self, value):
        """Whether there is a key with this name."""
        return "kvs" in Gateway(self.port, self.token).ask("kv/range", key=coded(value))


def form_tries(bench, driver):
    """Requests that have no right form, or name a lease that there is not."""
    client = driver.connect(bench.port)
    yield bench.tried(driver.name, "no key", "3", lambda value: client.put("", value))
    yield bench.tried(driver.name, "too large", "3", lambda value: client.put(value, "x" * LARGE))
    yield bench.tried(driver.name, "a key twice", "3", lambda value: client.put_twice(value, "v"))
    yield bench.tried(driver.name, "no lease", "5", lambda value: client.put(value, "v", NO_LEASE))


def right_tries(bench, driver, token):
    """Clients without a name, of another one without rights, which has this token, and with a token that is none."""
    for how, name, told in (("no token", "3", None), ("no right", "7", token), ("a wrong token", "16", f"{token}x")):
        client = driver.connect(bench.port, told)
        yield bench.tried(driver.name, how, name, lambda value: client.put(value, "v"))


def space_tries(bench, driver):
    """The write at which the space ends, which is done, and a small one after it."""
    filler, client = driver.connect(bench.port, bench.token), driver.connect(bench.port, bench.token)
    error = None
    for number in range(MOST_FILLS):
        value = bench.value(driver.name)
        error = raised(lambda: filler.put(value, "x" * (QUOTA // 10)))
        if error:
            break
    yield bench.ended(driver.name, f"the space ends at write {number}", "8", value, error, True)
    yield bench.tried(driver.name, "no space", "8", lambda value: client.put(value, "v"))


def broken_tries(bench, driver):
    """Connections that break, or whose time-out runs out, before the member has the request and before the client has the answer; and one
    that can't be made."""
    for lost in (REQUESTS, ANSWERS):
        for breaks, name in ((True, "14"), (False, "4")):
            with CuttingRelay(bench.port) as relay:
                client = driver.connect(relay.port, time_out=LONG if breaks else TIME_OUT)
                client.put("first", "v")
                relay.lose(lost, breaks)
                how = f"{lost} are lost, and the connection {'breaks' if breaks else 'stays'}"
                yield bench.tried(driver.name, how, name, lambda value: client.put(value, "v"), lost == ANSWERS)
    with silent_port() as port:
        yield bench.tried(driver.name, "nobody listens", "14", lambda value: driver.connect(port).put(value, "v"))


def minority_tries(members):
    """A member that has lost both others for a while. Its write may take effect afterwards, or not."""
    bench, driver = Members(members[0].port), DRIVERS[0]
    value, client = bench.value(driver.name), driver.connect(members[0].port)
    client.put("first", "v")
    with stopped(members[1].server), stopped(members[2].server):
        error = raised(lambda: client.put(value, "v"))
    wait_for(members)
    comes_true(lambda: raised(lambda: bench.is_there(value)) is None)
    yield bench.ended(driver.name, "no majority", "14", value, error, None)


def start_member(processes):
    """Starts a member alone; gives its port once it answers."""
    port, peer = processes.free_port(), f"http://{HOST}:{processes.free_port()}"
    addresses = ["--listen-client-urls", f"http://{HOST}:{port}", "--advertise-client-urls", f"http://{HOST}:{port}"]
    addresses += ["--listen-peer-urls", peer, "--initial-advertise-peer-urls", peer, "--initial-cluster", f"alone={peer}"]
    server = processes.start("alone", ["etcd", "--name", "alone", "--data-dir", "data", *addresses, *QUIET])
    server.wait_until(lambda: raised(lambda: Gateway(port).put("first", "v")) is None)
    return port


def tries():
    """All calls that are to end by errors."""
    with Processes() as processes:
        bench = Members(start_member(processes))
        for driver in DRIVERS:
            yield from form_tries(bench, driver)
        yield from broken_tries(bench, DRIVERS[0])
        gateway = Gateway(bench.port)
        for path, request in SET_UP:
            gateway.ask(path, **request)
        tokens = [gateway.ask("auth/authenticate", name=name, password=name)["token"] for name in ("root", "stranger")]
        bench = Members(bench.port, tokens[0])
        for driver in DRIVERS:
            yield from right_tries(bench, driver, tokens[1])
        yield from space_tries(bench, DRIVERS[0])
        client = DRIVERS[1].connect(bench.port, bench.token)
        yield bench.tried("gateway", "no space", "8", lambda value: client.put(value, "v"))
    with started() as members:
        yield from minority_tries(members)


def answers_fault(members):
    """What is wrong with answers that are no exceptions, if anything."""
    gateway, client = Gateway(members[0].port), etcd3.client(HOST, members[0].port)
    put = {"request_put": {"key": coded("answered"), "value": coded("v")}}
    compare = {"key": coded("answered"), "result": "EQUAL", "target": "VALUE", "value": coded("other")}
    found = (
        gateway.ask("kv/deleterange", key=coded("nothing")).get("deleted", "0"),
        gateway.ask("kv/txn", compare=[compare], success=[put]).get("succeeded", False),
        client.delete("nothing"),
        client.replace("answered", "other", "v"),
    )
    is_right = found == ("0", False, False, False) and not Members(members[0].port).is_there("answered")
    return None if is_right else f"{found}"


def all_cases():
    """All cases, over members that are started for them."""
    with started() as members:
        fault = answers_fault(members)
    yield f"etcd, answers: {fault}", fault is None
    yield from cases("etcd", tries(), name_of)


if __name__ == "__main__":
    end_after(all_cases())
