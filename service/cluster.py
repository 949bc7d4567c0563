#!/usr/bin/env python3
"""Three nodes of RabbitMQ and three sites of a bank on 127.0.0.1, each a process of ours, in a folder of ours.

usage: cluster.py PROGRAM [FOLDER]    starts them, prints the sites' addresses, and ends them at Ctrl-C

Nothing listens but on 127.0.0.1: not the nodes for clients, not Erlang's distribution, not epmd, not the command line's
own node. Nothing is shared with a RabbitMQ of the system: ports, cookie, HOME and epmd are this cluster's.
"""
from __future__ import annotations

import contextlib
import importlib.util
import json
import os
import secrets
import signal
import socket
import subprocess
import sys
import tempfile
import time
import urllib.request
from typing import Any

HERE = os.path.dirname(os.path.abspath(__file__))
sys.path.append(os.path.join(HERE, "..", "examples", "tools"))  # bank.py, for what imports this file
BIN = "/usr/lib/rabbitmq/bin"
NODES, PORTS = 3, 30  # nodes, and the ports that they and the services of a bank take
NO_PACKAGES = 77  # the status if packages are missing
ERL = "-kernel inet_dist_use_interface {127,0,0,1}"
CONFIG = """\
listeners.tcp.1 = 127.0.0.1:{port}
cluster_formation.peer_discovery_backend = classic_config
{nodes}
cluster_partition_handling = pause_minority
vm_memory_high_watermark.absolute = 1GB
disk_free_limit.absolute = 100MB
heartbeat = 10
log.console = false
log.file.level = warning
loopback_users.guest = true
"""


def check_packages(*more: str) -> None:
    """Ends the process, and says what to install, if a package is missing, or one of these besides."""
    missing = [f"python3-{name.replace('_', '-')}" for name in ("aiohttp", "aio_pika", "prometheus_client", *more)
               if importlib.util.find_spec(name) is None]
    missing += ["rabbitmq-server"] if not os.path.exists(f"{BIN}/rabbitmq-server") else []
    if missing:
        print(f"{sys.executable} lacks Debian's {', '.join(missing)}: make service-setup installs them, or\n"
              f"apt-get install {' '.join(missing)}, with PYTHON=/usr/bin/python3 if another Python comes first",
              file=sys.stderr)
        sys.exit(NO_PACKAGES)


def free_ports(count: int) -> int:
    """The first of some ports in a row that nobody has."""
    for base in range(20_000 + os.getpid() % 1000 * 10, 32_000, count):
        try:
            for port in range(base, base + count):
                with socket.socket() as taken:
                    taken.bind(("127.0.0.1", port))
            return base
        except OSError:
            pass
    raise OSError("no free ports")


class Cluster:
    """The nodes of the broker."""

    def __init__(self, folder: str, patience: float = 300) -> None:
        self.folder, self.base, self.patience = os.path.abspath(folder), free_ports(PORTS), patience
        self.nodes: list[subprocess.Popen[bytes] | None] = [None] * NODES
        self.epmd: subprocess.Popen[bytes] | None = None
        os.makedirs(os.path.join(self.folder, "home"), exist_ok=True)
        cookie = os.path.join(self.folder, "home", ".erlang.cookie")
        if not os.path.exists(cookie):
            with open(cookie, "w") as file:
                file.write(secrets.token_hex(20))
            os.chmod(cookie, 0o400)

    def name(self, node: int) -> str:
        return f"bank{node}@localhost"

    def urls(self, host: str = "127.0.0.1") -> list[str]:
        return [f"amqp://guest:guest@{host}:{self.base + node}/?heartbeat=10" for node in range(NODES)]

    def environment(self, node: int) -> dict[str, str]:
        place = os.path.join(self.folder, f"node{node}")
        kept = {word: os.environ[word] for word in ("PATH", "LD_PRELOAD", "SYNC_US") if word in os.environ}
        return kept | {
            "LANG": "C.UTF-8", "HOME": os.path.join(self.folder, "home"),
            "ERL_EPMD_PORT": str(self.base + 6), "ERL_EPMD_ADDRESS": "127.0.0.1",
            "RABBITMQ_NODENAME": self.name(node), "RABBITMQ_USE_LONGNAME": "false",
            "RABBITMQ_NODE_PORT": str(self.base + node), "RABBITMQ_NODE_IP_ADDRESS": "127.0.0.1",
            "RABBITMQ_DIST_PORT": str(self.base + 3 + node), "RABBITMQ_CONFIG_FILE": f"{place}.conf",
            "RABBITMQ_MNESIA_BASE": f"{place}/mnesia", "RABBITMQ_LOG_BASE": f"{place}/log",
            "RABBITMQ_ENABLED_PLUGINS_FILE": f"{place}.plugins", "RABBITMQ_PID_FILE": f"{place}.pid",
            "RABBITMQ_CONF_ENV_FILE": "/dev/null", "RABBITMQ_SERVER_ADDITIONAL_ERL_ARGS": f"{ERL} +S 2:2 +sbwt none",
            "RABBITMQ_CTL_ERL_ARGS": ERL, "RABBITMQ_CTL_DIST_PORT_MIN": str(self.base + 10),
            "RABBITMQ_CTL_DIST_PORT_MAX": str(self.base + 19)}

    def start(self, node: int) -> None:
        """Starts a node. It comes up by itself, and joins the others the first time."""
        if self.epmd is None:
            self.epmd = subprocess.Popen(["epmd", "-address", "127.0.0.1", "-port", str(self.base + 6)])
        place = os.path.join(self.folder, f"node{node}")
        os.makedirs(place, exist_ok=True)
        names = "\n".join(f"cluster_formation.classic_config.nodes.{n + 1} = {self.name(n)}" for n in range(NODES))
        with open(f"{place}.conf", "w") as file:
            file.write(CONFIG.format(port=self.base + node, nodes=names))
        with open(f"{place}.plugins", "w") as file:
            file.write("[].\n")
        with open(f"{place}.out", "ab") as out:
            self.nodes[node] = subprocess.Popen([f"{BIN}/rabbitmq-server"], env=self.environment(node), stdout=out,
                                                stderr=out, stdin=subprocess.DEVNULL, start_new_session=True)

    def ctl(self, node: int, *words: str) -> subprocess.CompletedProcess[str]:
        return subprocess.run([f"{BIN}/rabbitmqctl", "-q", *words], env=self.environment(node), capture_output=True,
                              text=True, timeout=self.patience)

    def wait(self, node: int) -> None:
        """Waits until a node takes clients."""
        until, process = time.monotonic() + self.patience, self.nodes[node]
        while time.monotonic() < until and process:
            if process.poll() is not None:
                raise RuntimeError(f"node {node} ended; see {self.folder}/node{node}/log")
            try:
                with socket.create_connection(("127.0.0.1", self.base + node), 2) as asked:
                    asked.sendall(b"AMQP\0\0\x09\x01")
                    if asked.recv(1):
                        return
            except OSError:
                pass
            time.sleep(0.2)
        raise RuntimeError(f"node {node} didn't come up in {self.patience} s")

    def start_all(self) -> None:
        """The first node first: the others join it."""
        for node in range(NODES):
            self.start(node)
            self.wait(node)
        self.ctl(0, "await_online_nodes", str(NODES))

    def members(self, node: int) -> list[int]:
        """The processes of a node and its helpers: the session that its start made, which nothing else is in."""
        process, found = self.nodes[node], []
        for pid in filter(str.isdigit, os.listdir("/proc") if process else []):
            with contextlib.suppress(OSError), open(f"/proc/{pid}/stat") as file:
                if process and file.read().rpartition(")")[2].split()[3] == str(process.pid):
                    found.append(int(pid))
        return found

    def signal(self, node: int, number: int) -> None:
        """Sends a signal to a node and its helpers."""
        for pid in self.members(node):
            with contextlib.suppress(OSError):
                os.kill(pid, number)

    def kill(self, node: int) -> None:
        """Ends a node by SIGKILL."""
        self.signal(node, signal.SIGKILL)
        if process := self.nodes[node]:
            process.wait()
        self.nodes[node] = None

    def stop(self) -> None:
        for node in range(NODES):
            self.kill(node)
        if self.epmd is not None:
            self.epmd.kill()
            self.epmd.wait()


class Bank:
    """The services of a bank's sites, as processes of ours."""

    def __init__(self, program: str, folder: str, cluster: Cluster, **keys: Any) -> None:
        with open(f"{HERE}/bank.json") as example:
            self.bank = json.load(example)
        self.bank["config"] |= keys
        self.sites, self.folder = self.bank["config"]["sites"], folder
        self.http = [f"127.0.0.1:{cluster.base + 20 + site}" for site in range(self.sites)]
        self.bank |= {"broker": cluster.urls(), "folder": folder, "http": self.http,
                      "program": os.path.abspath(program)}
        self.running: list[subprocess.Popen[bytes] | None] = [None] * self.sites
        self.file = self.write("bank.json")
        self.files = [self.file] * self.sites  # the one that each service reads

    def write(self, name: str, **keys: Any) -> str:
        """A file of the bank, with these keys otherwise."""
        path = os.path.join(self.folder, name)
        with open(path, "w") as file:
            json.dump(self.bank | keys, file, indent=1)
        return path

    def start(self, site: int) -> None:
        """Starts a service. Its first start begins the bank."""
        words = [sys.executable, f"{HERE}/service.py", self.files[site], str(site)]
        words += [] if os.path.exists(f"{self.folder}/site{site}/0001.bank") else ["--new"]
        with open(os.path.join(self.folder, f"{site}.log"), "ab") as out:
            self.running[site] = subprocess.Popen(words, stdout=out, stderr=out, stdin=subprocess.DEVNULL)

    def child(self, site: int) -> int | None:
        """The process of the proved program under a service."""
        parent = self.running[site]
        for pid in filter(str.isdigit, os.listdir("/proc")):
            try:
                with open(f"/proc/{pid}/stat") as file:
                    if parent and file.read().rpartition(")")[2].split()[1] == str(parent.pid):
                        return int(pid)
            except OSError:
                pass
        return None

    def get(self, site: int, path: str) -> Any:
        with urllib.request.urlopen(f"http://{self.http[site]}{path}", timeout=10) as reply:
            return json.load(reply)

    def wait(self, site: int, patience: float = 300, wanted: str = "broker") -> None:
        """Waits until a site is up, and has a broker."""
        until = time.monotonic() + patience
        while time.monotonic() < until:
            try:
                if self.get(site, "/health")[wanted]:
                    return
            except OSError:
                pass
            time.sleep(0.2)
        raise RuntimeError(f"site {site} isn't up in {patience} s; see {self.folder}/{site}.log")

    def stop(self) -> None:
        for process in self.running:
            if process is not None and process.poll() is None:
                process.kill()
                process.wait()


def main() -> None:
    if len(sys.argv) not in (2, 3):
        sys.exit(__doc__.partition("\n\n")[2].partition("\n")[0])
    check_packages()
    for number in signal.SIGINT, signal.SIGTERM:
        signal.signal(number, signal.default_int_handler)
    folder = os.path.abspath(sys.argv[2]) if len(sys.argv) == 3 else tempfile.mkdtemp(prefix="bank-")
    cluster = Cluster(os.path.join(folder, "broker"))
    bank = Bank(sys.argv[1], folder, cluster)
    try:
        print("Three nodes of the broker start, half a minute.", flush=True)
        cluster.start_all()
        for site in range(bank.sites):
            bank.start(site)
        for site in range(bank.sites):
            bank.wait(site)
            print(f"http://{bank.http[site]}/", flush=True)
        print(f"The journals are below {folder}. Ctrl-C ends all.", flush=True)
        signal.pause()
    except KeyboardInterrupt:
        pass
    finally:
        bank.stop()
        cluster.stop()


if __name__ == "__main__":
    main()
