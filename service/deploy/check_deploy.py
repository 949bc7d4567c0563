#!/usr/bin/env python3
"""Checks the files of this folder against each other, without an engine of containers: nothing is started.

usage: check_deploy.py

It wants Python's yaml. `docker-compose config` and `systemd-analyze verify` are asked if they are there; if not, it
says so.
"""
from __future__ import annotations

import glob
import json
import os
import re
import shutil
import subprocess
import sys
import tempfile
from typing import Any

try:
    import yaml
except ImportError:
    sys.stderr.write(f"check_deploy: {sys.executable} has no yaml (Debian: apt-get install python3-yaml)\n")
    sys.exit(77)

HERE = os.path.dirname(os.path.abspath(__file__))
ROOT = os.path.dirname(os.path.dirname(HERE))
UNIT = "rbbank-service@.service"
# what a service of compose.yaml may have here: keys of the Compose specification, fewer than it has
KEYS = {"build", "command", "depends_on", "environment", "healthcheck", "hostname", "image", "networks", "ports",
        "restart", "stop_grace_period", "volumes"}
MADE = {"crates/rbbank/out/rbbank", "service/deploy/tokens.json"}  # by `make build`, and by whoever deploys it
PROBLEMS: list[str] = []


def same(what: str, found: Any, wanted: Any) -> None:
    if found != wanted:
        PROBLEMS.append(f"{what}\n  found  {found}\n  wanted {wanted}")


def read(name: str) -> str:
    with open(os.path.join(HERE, name), encoding="utf-8") as file:
        return file.read()


def is_there(path: str) -> bool:
    """Whether the repository has it, or someone makes it."""
    return path in MADE or bool(glob.glob(os.path.join(ROOT, path)))


def check_compose(bank: Any) -> None:
    """The containers: their keys, names, ports, volumes and files."""
    made = yaml.safe_load(read("compose.yaml"))
    services = made["services"]
    same("keys of compose.yaml", {key for key in made if not key.startswith("x-")}, {"services", "networks", "volumes"})
    for name, service in services.items():
        same(f"{name}: unknown keys", set(service) - KEYS, set())
        same(f"{name}: an image", "image" in service, True)
        same(f"{name}: its name in the network", service["hostname"], name)
        same(f"{name}: networks that aren't there", set(service["networks"]) - set(made["networks"]), set())
        same(f"{name}: what it waits for and isn't there", set(service.get("depends_on", [])) - set(services), set())
        for volume in service["volumes"]:
            source = volume.split(":")[0]
            found = is_there(f"service/deploy/{source[2:]}") if source.startswith("./") else source in made["volumes"]
            same(f"{name}: {source} is there", found, True)
    own = [volume.split(":")[0] for service in services.values() for volume in service["volumes"] if volume[0] != "."]
    same("volumes, each of one container", sorted(own), sorted(made["volumes"]))
    sites = {name: service for name, service in services.items() if name.startswith("site")}
    same("sites, as bank.json has them", [f"{name}:{site['ports'][0].split(':')[1]}" for name, site in sites.items()],
         bank["http"])
    same("ports, the same outside", [port for site in sites.values() for port in site["ports"]],
         [f"{address.split(':')[1]}:{address.split(':')[1]}" for address in bank["http"]])
    same("numbers of the sites", [site["command"] for site in sites.values()], [[str(n)] for n in range(len(sites))])
    brokers = [name for name in services if name.startswith("broker")]
    same("brokers, as bank.json has them", brokers, [re.split("[@/]", url)[3] for url in bank["broker"]])
    same("brokers, as rabbitmq.conf has them", re.findall(r"(?m)^cluster\S+ = rabbit@(\S+)$", read("rabbitmq.conf")),
         brokers)


def check_bank(bank: Any) -> None:
    """Other machines reach it, so clients have tokens."""
    same("sites", len(bank["http"]), bank["config"]["sites"])
    places = [*bank["http"], *bank["broker"], bank["listen"]]
    same("loopback addresses", [place for place in places if re.search(r"localhost|127\.|\[?::1", place)], [])
    same("tokens", bank.get("tokens"), "/etc/rbbank/tokens.json")
    clients = json.loads(read("tokens.example.json"))
    same("keys of a client", {key for client in clients.values() for key in client}, {"may", "token"})
    with open(os.path.join(ROOT, "service", "service.py"), encoding="utf-8") as file:
        source = file.read()
    known = {key for key in bank if re.search(rf"bank(?:\[\"|\.get\(\"){key}\"", source)}
    same("keys of bank.json that the service reads", known, set(bank))
    may = {word for client in clients.values() for word in client["may"]}
    same("what clients may do, as the service has it", {word for word in may if f'"{word}"' in source}, may)


def check_image() -> None:
    """What the image copies is there."""
    for line in re.findall(r"(?m)^COPY (.*) \S+$", read("Dockerfile")):
        for source in line.split():
            same(f"Dockerfile: {source} is there", is_there(source), True)


def check_by_tools() -> list[str]:
    """What the tools say; and which of them aren't there."""
    absent = [tool for tool in ("docker-compose", "systemd-analyze") if not shutil.which(tool)]
    if "docker-compose" not in absent:
        run = subprocess.run(["docker-compose", "-f", os.path.join(HERE, "compose.yaml"), "config", "-q"], text=True,
                             capture_output=True, env=os.environ | {"RABBITMQ_COOKIE": "a", "RABBITMQ_PASSWORD": "b"})
        same("docker-compose config", [run.returncode, run.stdout + run.stderr], [0, ""])
    if "systemd-analyze" not in absent:
        with tempfile.TemporaryDirectory() as folder:
            path = os.path.join(folder, UNIT.replace("@", "@0"))
            shutil.copy(os.path.join(HERE, UNIT), path)
            run = subprocess.run(["systemd-analyze", "verify", path], text=True, capture_output=True)
        same("systemd-analyze verify", [run.returncode, run.stdout + run.stderr], [0, ""])
    return absent


def main() -> int:
    if sys.argv[1:]:
        sys.exit(__doc__.partition("\n\n")[2])
    bank = json.loads(read("bank.json"))
    check_compose(bank)
    check_bank(bank)
    check_image()
    absent = check_by_tools()
    print("\n".join(PROBLEMS), end="\n" if PROBLEMS else "")
    missing = f"; not checked, since it isn't there: {', '.join(absent)}" if absent else ""
    print(f"{len(PROBLEMS)} problems; no container was started{missing}")
    return 1 if PROBLEMS else 0


if __name__ == "__main__":
    sys.exit(main())
