"""Some hosts that are reached by ssh, and are all this machine: for each name an sshd of this user's, on a free port of the loopback.

    with SshHosts(folder, ("one", "two")) as hosts:
        subprocess.run([*hosts.ssh, "one", "hostname"])

The keys are made in the folder, and let in this user alone, with the key that lies there. The servers end with the block, however it ends.
An ordinary user may run sshd so: it needs no file outside of the folder. As root it needs /run/sshd, and is refused here.
"""

import contextlib
import os
import shutil
import signal
import socket
import subprocess
from collections.abc import Sequence
from pathlib import Path

from servers import LOOPBACK, Servers, ServersMissing

SSHD = shutil.which("sshd") or "/usr/sbin/sshd"
KEY_NAME = "hosts-of-the-example"
TRIES, START_SECONDS, END_SECONDS = 5, 10, 10
LONGEST_SECONDS = 4 * 3600
SERVER = """ListenAddress {address}:{port}
HostKey {folder}/host
AuthorizedKeysFile {folder}/key.pub
PidFile none
UsePAM no
StrictModes no
PasswordAuthentication no
KbdInteractiveAuthentication no
DisableForwarding yes
"""
ENTRY = """Host {name}
    HostName {address}
    Port {port}
    HostKeyAlias {alias}
    IdentityFile {folder}/key
    IdentitiesOnly yes
    IdentityAgent none
    UserKnownHostsFile {folder}/known_hosts
    GlobalKnownHostsFile none
    StrictHostKeyChecking yes
    BatchMode yes
    ConnectTimeout 10
"""


def free_port() -> int:
    """A port of the loopback that nobody uses now."""
    with socket.socket() as found:
        found.bind((LOOPBACK, 0))
        return int(found.getsockname()[1])


def is_answered(port: int) -> bool:
    """Whether a server takes connections at a port."""
    with socket.socket() as caller:
        caller.settimeout(1)
        return caller.connect_ex((LOOPBACK, port)) == 0


def tree_of(process: int) -> list[int]:
    """A process with all that it started, and what these started."""
    try:
        children = Path(f"/proc/{process}/task/{process}/children").read_text().split()
    except OSError:
        return []
    return [process, *(number for child in children for number in tree_of(int(child)))]


def make_key(path: Path) -> None:
    """Makes a key without a passphrase."""
    subprocess.run(["ssh-keygen", "-q", "-t", "ed25519", "-N", "", "-f", str(path)], check=True, stdin=subprocess.DEVNULL)


class SshHosts(Servers):
    """The hosts. ServersMissing also where sshd is missing or lets nobody in, and where the user is root."""

    def __init__(self, folder: Path, names: Sequence[str]) -> None:
        super().__init__(folder, names)
        self.config = folder / "ssh_config"
        self.ssh = ["ssh", "-F", str(self.config)]

    def start_all(self) -> None:
        """Makes the keys, and starts the server of each host."""
        if os.geteuid() == 0:
            raise ServersMissing("sshd is started here by an ordinary user, and not by root, for whom it does more")
        if not Path(SSHD).is_file():
            raise ServersMissing("sshd is missing: apt-get install openssh-server")
        for name in ("host", "key"):
            make_key(self.folder / name)
        public = (self.folder / "host.pub").read_text()
        (self.folder / "known_hosts").write_text(f"{KEY_NAME} {public}")
        for name in self.names:
            self.start(name)

    def start(self, name: str) -> None:
        """Starts the server of a host, on another port where one was taken meanwhile, names it in the settings of ssh, and logs in."""
        for _ in range(TRIES):
            port = free_port()
            how = {"name": name, "address": LOOPBACK, "port": port, "folder": self.folder, "alias": KEY_NAME}
            if self.is_started(name, SERVER.format(**how), port):
                with self.config.open("a") as config:
                    config.write(ENTRY.format(**how))
                return self.log_in(name)
        raise ServersMissing(f"sshd did not start: {self.log_of(name)}")

    def log_of(self, name: str) -> str:
        """What a server wrote."""
        return (self.folder / f"{name}.log").read_text(errors="replace").strip()

    def logins(self, name: str) -> int:
        """How often somebody logged in on a host."""
        return self.log_of(name).count("Accepted publickey")

    def log_in(self, name: str) -> None:
        """Runs a command on a host that does nothing."""
        words = [*self.ssh, name, "true"]
        done = subprocess.run(words, stdin=subprocess.DEVNULL, capture_output=True, check=False, text=True, timeout=START_SECONDS)
        if done.returncode != 0:
            raise ServersMissing(f"no login on host {name}: {done.stdout}{done.stderr}; sshd says: {self.log_of(name)}")

    def is_started(self, name: str, settings: str, port: int) -> bool:
        """Starts a server with these settings, and says whether it takes connections."""
        (self.folder / name).write_text(settings)
        command = ["timeout", "--foreground", str(LONGEST_SECONDS), SSHD, "-D", "-e", "-f", str(self.folder / name)]
        quiet = subprocess.DEVNULL
        with (self.folder / f"{name}.log").open("wb") as log:
            self.processes[name] = subprocess.Popen(command, stdin=quiet, stdout=quiet, stderr=log)
        if self.is_ready(name, lambda: is_answered(port), START_SECONDS):
            return True
        self.kill(name)
        return False

    def kill(self, name: str) -> None:
        """Kills a server and all that it runs by SIGKILL, as if the machine lost its power. They are stopped first: none starts more."""
        for sign in (signal.SIGSTOP, signal.SIGKILL):
            for number in tree_of(self.processes[name].pid):
                with contextlib.suppress(ProcessLookupError):
                    os.kill(number, sign)
        self.processes[name].wait(END_SECONDS)

    def end(self) -> None:
        """Kills all servers that are left."""
        for name, server in self.processes.items():
            if server.poll() is None:
                self.kill(name)
