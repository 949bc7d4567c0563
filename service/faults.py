"""What chaos.py breaks besides processes: the network between a service and the broker's nodes, and disks.

A namespace of its own is the network; a relay in this process takes connections in it, and carries them on to the nodes
at 127.0.0.1. Its link is cut, and what is on the way is lost with no word, as by a cable. The disk is a small tmpfs
that is filled. Both want root. And each wait for a disk takes longer, if there is a compiler for C.
"""
from __future__ import annotations

import asyncio
import contextlib
import ctypes
import os
import shutil
import socket
import subprocess

SIZE = 32 << 20  # bytes of the disk
LIBC = ctypes.CDLL(None, use_errno=True)


SLOW = """
#include <stdlib.h>
#include <sys/syscall.h>
#include <unistd.h>
static void slow(void) { const char *us = getenv("SYNC_US"); if (us) usleep(atoi(us)); }
int fsync(int file) { slow(); return syscall(SYS_fsync, file); }
int fdatasync(int file) { slow(); return syscall(SYS_fdatasync, file); }
"""


def runs(*words: str) -> bool:
    return subprocess.run(words, capture_output=True).returncode == 0


class Net:
    """The way from one site's service to the nodes."""

    def __init__(self, site: int) -> None:
        self.name, base = f"bank{os.getpid()}.{site}"[-15:], f"10.213.{os.getpid() % 256}.{4 * site}"
        stem, _, last = base.rpartition(".")
        here, self.host = (f"{stem}.{int(last) + end}" for end in (1, 2))
        self.is_made = (runs("ip", "netns", "add", self.name)
                        and runs("ip", "link", "add", self.name, "type", "veth", "peer", "name", "eth", "netns",
                                 self.name)
                        and runs("ip", "addr", "add", f"{here}/30", "dev", self.name)
                        and runs("ip", "link", "set", self.name, "up")
                        and runs("ip", "-n", self.name, "addr", "add", f"{self.host}/30", "dev", "eth")
                        and runs("ip", "-n", self.name, "link", "set", "eth", "up"))

    def listens(self, port: int) -> socket.socket:
        """A socket in the namespace: it stays there, while this thread is back where it was."""
        with open("/proc/self/ns/net") as home, open(f"/run/netns/{self.name}") as there:
            LIBC.setns(there.fileno(), 0)
            try:
                return socket.create_server((self.host, port))
            finally:
                LIBC.setns(home.fileno(), 0)

    async def carry(self, ports: list[int]) -> list[asyncio.AbstractServer]:
        """Carries what comes for a node's port to the node, until the servers are closed."""
        async def carries(reader: asyncio.StreamReader, writer: asyncio.StreamWriter, port: int) -> None:
            with contextlib.suppress(OSError):
                back, on = await asyncio.open_connection("127.0.0.1", port)
                await asyncio.gather(copies(reader, on), copies(back, writer))
            writer.close()
        return [await asyncio.start_server(lambda reader, writer, port=port: carries(reader, writer, port),
                                           sock=self.listens(port)) for port in ports]

    def link(self, state: str) -> None:
        runs("ip", "-n", self.name, "link", "set", "eth", state)

    def end(self) -> None:
        runs("ip", "netns", "del", self.name)
        runs("ip", "link", "del", self.name)


async def copies(reader: asyncio.StreamReader, writer: asyncio.StreamWriter) -> None:
    with contextlib.suppress(OSError):
        while data := await reader.read(1 << 16):
            writer.write(data)
            await writer.drain()
    writer.close()


class Disk:
    """A small disk at a folder, whose content stays as it ends."""

    def __init__(self, folder: str) -> None:
        os.makedirs(folder, exist_ok=True)
        self.folder, self.rest = folder, os.path.join(folder, "rest")
        self.is_made = runs("mount", "-t", "tmpfs", "-o", f"size={SIZE}", "tmpfs", folder)

    def fill(self) -> None:
        with contextlib.suppress(OSError), open(self.rest, "ab", buffering=0) as file:
            while True:
                file.write(bytes(1 << 12))

    def empty(self) -> None:
        with contextlib.suppress(FileNotFoundError):
            os.unlink(self.rest)

    def end(self) -> None:
        if self.is_made:
            self.empty()
            shutil.copytree(self.folder, self.folder + ".kept")
            runs("umount", self.folder)
            os.rmdir(self.folder)
            os.rename(self.folder + ".kept", self.folder)


def slow_disk(folder: str, microseconds: int) -> None:
    """Has each wait for the disk of what is started from now on take longer."""
    os.environ["SYNC_US"] = str(microseconds)
    source, library = os.path.join(folder, "slow.c"), os.path.join(folder, "slow.so")
    with open(source, "w") as file:
        file.write(SLOW)
    subprocess.run(["cc", "-shared", "-fPIC", "-o", library, source], check=True)
    os.environ["LD_PRELOAD"] = library
