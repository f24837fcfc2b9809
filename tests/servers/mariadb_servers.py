"""Servers of MariaDB on the loopback: one alone, and two members of Galera."""

import contextlib

import pymysql

from driver_bench import HOST, comes_true
from processes import StartError

USER, SERVER, INSTALL, GALERA = "mysql", "/usr/sbin/mariadbd", "/usr/bin/mariadb-install-db", "/usr/lib/galera/libgalera_smm.so"
SMALL = (
    *("--skip-name-resolve", "--performance-schema=off", "--innodb-buffer-pool-size=16M", "--innodb-log-file-size=8M"),
    *("--innodb-flush-log-at-trx-commit=0", "--key-buffer-size=1M", "--aria-pagecache-buffer-size=4M"),
)
MEMBERS, START_SECONDS = 2, 120.0


def start(processes, name, *more):
    """Starts a server. Gives it and its port, once it answers. Its `root` has no password."""
    server, port = _started(processes, name, more)
    server.wait_until(lambda: _is_up(port, "select 'up'", "up"))
    return server, port


def start_members(processes):
    """Starts the members of a cluster, one after the other; gives them and their ports. Each takes its data from another one by rsync."""
    peers, members = [], []
    for number in range(MEMBERS):
        own, room = processes.free_port(), f"member_{number + 1}"
        options = f"gmcast.listen_addr=tcp://{HOST}:{own};ist.recv_addr={HOST}:{processes.free_port()};gcache.size=8M"
        joined = (
            *("--binlog-format=ROW", "--innodb-autoinc-lock-mode=2", "--wsrep-on=ON", f"--wsrep-provider={GALERA}"),
            *("--wsrep-cluster-name=tried", f"--wsrep-cluster-address=gcomm://{','.join(peers)}", f"--wsrep-node-address={HOST}:{own}"),
            *("--wsrep-sst-method=rsync", f"--wsrep-sst-receive-address={HOST}:{processes.free_port()}"),
            f"--wsrep-provider-options={options}",
        )
        server, port = _started(processes, room, joined)
        if not comes_true(lambda port=port: is_member(port), START_SECONDS):
            raise StartError(f"{room} is no member within {START_SECONDS:.0f} seconds")
        peers.append(f"{HOST}:{own}")
        members.append((server, port))
    return members


def is_member(port):
    """Whether a server is a member of a cluster that takes writes."""
    return _is_up(port, "show status like 'wsrep_local_state_comment'", "Synced")


def _started(processes, name, more):
    """Starts a server whose data are made where they are not there."""
    room, port = processes.room(name), processes.free_port()
    place = ["--no-defaults", f"--datadir={room}/data", f"--tmpdir={room}"]
    if not (room / "data").exists():
        made = ("--auth-root-authentication-method=normal", "--skip-test-db", "--skip-name-resolve", "--basedir=/usr")
        processes.run(name, [INSTALL, *place, *made])
    words = [f"--socket={room}/socket", f"--bind-address={HOST}", f"--port={port}", *SMALL, *more]
    return processes.start(name, [SERVER, *place, *words]), port


def _is_up(port, statement, answer):
    """Whether a server gives this answer, last in its first row."""
    with contextlib.suppress(pymysql.Error), pymysql.connect(host=HOST, port=port, user="root", read_timeout=2) as asking:
        with asking.cursor() as cursor:
            cursor.execute(statement)
            row = cursor.fetchone()
            return bool(row) and row[-1] == answer
    return False
